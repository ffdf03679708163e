# shellcheck shell=bash
# How .ci/tools, .ci/places and .ci/documents tell what holds; each reads this by `.`.
cd "$(dirname "$0")/.." || exit 1
work=$(mktemp -d) || exit 1
trap 'rm -rf "$work"' EXIT
passed=0 failed=0

# Build first, so that the builds' messages are not taken for the programs'.
./tkernel help < /dev/null > /dev/null || exit 1
./tkwatch help < /dev/null > /dev/null || exit 1

# runs COMMAND..: runs it over the standard input that is there, and keeps what it prints and its status.
runs() {
    "$@" > "$work/stdout" 2> "$work/stderr"
    status=$?
}

# shows NAME TEST..: counts whether the test holds.
shows() {
    if "${@:2}"; then
        passed=$((passed + 1))
    else
        failed=$((failed + 1))
        echo "FAILED: $1: status $status"
        head -n 5 "$work/stdout" "$work/stderr"
    fi
}

# answers STATUS STDOUT STDERR: whether the last command did just that; the texts as printf's formats.
answers() {
    # shellcheck disable=SC2059
    [ "$status" = "$1" ] && cmp "$work/stdout" <(printf -- "$2") && cmp "$work/stderr" <(printf -- "$3")
}

refuses() {
    [ "$status" = 127 ] && [ ! -s "$work/stdout" ] && grep -q -- "$1" "$work/stderr"
}
refuses_in_a_line() {
    refuses "$1" && [ "$(wc -l < "$work/stderr")" = 1 ]
}

# Whether avr-gcc is here, with avr-libc. Another release may well know other names, or inline otherwise.
has_avr_gcc() {
    [ "$(avr-gcc -dumpversion 2> /dev/null)" = 5.4.0 ] && command -v avr-addr2line > /dev/null &&
        echo '#include <avr/io.h>' | avr-gcc -mmcu=atmega128 -E - > /dev/null 2>&1
}
