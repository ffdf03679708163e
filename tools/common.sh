# shellcheck shell=sh disable=SC2034,SC2154
# What the tools have in common: each reads it by `.`. What fails in a tool itself is one line and status 127, which no run has.
tools=$(dirname -- "$(readlink -f -- "$0")")

fail() {
    printf '%s: %s\n' "${0##*/}" "$*" >&2
    exit 127
}

# For words that the tool doesn't take; $usage says which it does.
wrong() {
    echo "$usage" >&2
    exit 127
}

# needs COMMAND: whether it can be run.
needs() {
    command -v "$1" > /dev/null || fail "$1, of ${2-binutils-avr}, isn't on the path"
}

# A folder for what is made on the way.
make_work() {
    work=$(mktemp -d) || exit 127
    trap 'rm -rf "$work"' EXIT
    trap 'exit 127' HUP INT TERM
}

# wants_file FILE: whether it can be read, and is no folder.
wants_file() {
    { [ -r "$1" ] && [ ! -d "$1" ]; } || fail "$1 can't be read"
}

# wants_elf FILE: whether it is a linked ELF file for AVR, by the first four of its bytes and by those that name its kind and the machine,
# and isn't for another part than the ATmega128. The part is told by the note of avr-gcc's start-up code, where avr-readelf can be run, or
# else by the architecture: avr51 is that of the ATmega128, and of some others. A file whose head isn't 52 bytes long tells neither.
wants_elf() {
    elf_file=$1
    { [ -f "$1" ] && [ -r "$1" ]; } || fail "$1 can't be read"
    # shellcheck disable=SC2046
    set -- $(od -A n -v -t u1 -N 52 -- "$1")
    [ "$1 $2 $3 $4 ${19}" = '127 69 76 70 83' ] || fail "$elf_file is no ELF file for AVR"
    [ "${17}" = 2 ] || fail "$elf_file isn't linked"
    if [ "$5 $6 ${41} ${42}" != '1 1 52 0' ]; then return; fi
    part=$(avr-readelf -p .note.gnu.avr.deviceinfo -- "$elf_file" 2> /dev/null |
        sed -n 's/^ *\[ *[0-9a-f]*\] *\(at[a-z]*[0-9][a-z0-9]*\)$/\1/p')
    part=${part:-avr$((${37} % 128))}
    case $part in
    atmega128 | atmega128a | avr51) ;;
    *) fail "$elf_file is for $part, and not for the ATmega128" ;;
    esac
}

# make_hex ELF FILE: makes Intel HEX of it, without the sections that are no program.
make_hex() {
    avr-objcopy -O ihex -R .eeprom -R .fuse -R .lock -R .signature -- "$1" "$2" 2> "$work/refusal"
}

# make_input ELF SCRIPT: makes $work/input, the HEX text of the one with the other behind it.
make_input() {
    make_hex "$1" "$work/input" || fail "avr-objcopy refuses it: $(head -n 1 "$work/refusal")"
    cat -- "$2" >> "$work/input" || fail "$2 can't be read"
}

# Whether the words are options of run, with their values or behind "=".
are_options() {
    while [ $# -gt 0 ]; do
        case $1 in
        --*=*) ;;
        --*) if [ $# -gt 1 ]; then shift; fi ;;
        *) return 1 ;;
        esac
        shift
    done
}

# take_input FILE: keeps standard input there.
take_input() {
    cat > "$1" 2> /dev/null || fail "standard input can't be read"
}

# take_view VIEW ROW: keeps standard input in $work/view, and wants it to be the output of `tkwatch VIEW`: rows that match the
# pattern ROW, whose steps or addresses rise, and then the stop line, which has no fewer steps. A step may have several rows of
# changes or accesses.
take_view() {
    take_input "$work/view"
    reason=$(LC_ALL=C awk -v view="$1" -v row="$2" "$awk_number"'
        function quoted(line) { gsub(/[^ -~]/, "?", line); return "\"" substr(line, 1, 60) "\"" }
        function misplaced() { return "its line " NR " is " quoted($0) ", which can\047t stand behind the line before it" }
        BEGIN {
            address = "0x[0-9A-F][0-9A-F][0-9A-F][0-9A-F]"
            end = "spent|flash fault [0-9]+|(halted|asleep|fault [a-z]+) " address "( address " address ")?"
            stop = "^(" end ") steps [0-9]+ checkpoints [0-9]+$"
            several = view == "changes" || view == "accesses"
        }
        NR == 1 && /^.ELF/ { reason = "this is an ELF file"; exit }
        NR == 1 && /^(bad |input too long|read fault|no memory|usage: )/ {
            reason = "this run was refused, by " quoted($0) " (tools/why says why)"
            exit
        }
        stopped { reason = "behind the stop line stands " quoted($0); exit }
        $0 ~ stop { stopped = 1; if (row ~ /step/ && at > $(NF - 2)) reason = misplaced(); next }
        $0 !~ row { reason = "its line " NR " is " quoted($0); exit }
        { before = at; at = $1 == "step" ? $2 + 0 : number(substr($1, 3)) }
        NR > 1 && (at < before || at == before && !several) { reason = misplaced(); exit }
        END {
            if (!NR) reason = "its input is empty"
            else if (!reason && !stopped) reason = "there is no stop line at its end"
            print reason
        }' "$work/view")
    [ -z "$reason" ] || fail "$reason, and it reads the output of tkwatch $1"
}

# The same for the device lines, of which there are some.
take_lines() {
    take_view lines '^step [1-9][0-9]* (PORT[A-D]|DDR[A-D]|UART0) 0x[0-9A-F][0-9A-F]$'
    grep -q '^step ' "$work/view" || fail "there is no device line: the program wrote to no output, or this is another view"
}

# The same for bytes that are read and written by address.
take_accesses() {
    byte='0x[0-9A-F][0-9A-F]' address='0x[0-9A-F][0-9A-F][0-9A-F][0-9A-F]'
    take_view accesses "^step [1-9][0-9]* $address (load|store|interrupt|test|set|clear) $address $byte $byte\$"
}

# watched VIEW WORD.. < INPUT: what tkwatch shows; fails where that isn't built, since building it may take long.
watched() {
    for built in "$tools"/../crates/tkwatch/out/built/*/tkwatch; do
        if [ -x "$built" ]; then
            "$tools/../tkwatch" "$@"
            return
        fi
    done
    return 1
}

# rows FILE HEADING: the rows of the first table below this heading of a document, without their head: cells with tabs between, and no
# backquotes. Of "A/B" it is the first heading B behind A.
rows() {
    awk -v headings="$2" '
        BEGIN { count = split(headings, heading, "/") }
        $0 == heading[found + 1] && found < count { found++; next }
        found < count { next }
        /^\|/ {
            gsub(/`/, "")
            gsub(/^\| | \|$/, "")
            gsub(/ \| /, "\t")
            if (row++ > 1) print
            next
        }
        row { exit }' "$tools/../docs/$1"
}

# A function for awk: the number that hexadecimal digits write.
awk_number='function number(digits,    value, i) {
    digits = toupper(digits)
    for (i = 1; i <= length(digits); i++) value = 16 * value + index("0123456789ABCDEF", substr(digits, i, 1)) - 1
    return value + 0
}
'
