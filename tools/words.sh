# shellcheck shell=sh disable=SC2154
# Which words a command takes, by docs/FORMATS.md, and which word is wrong, for the tool why, which reads this by `.`.

# The commands, one a line, each with its options and other words: those that it can do without in brackets.
synopsis() {
    sed -n 's/^tkernel //p' "$tools/../docs/FORMATS.md" | sed 's/--\([a-z]*\) [A-Z]/--\1/g' | awk '
        /^\(/ { names = $0; sub(/\).*/, "", names); sub(/[^)]*\)/, ""); count = split(substr(names, 2), name, " [|] ")
            for (i = 1; i <= count; i++) print name[i] $0
            next }
        { print }'
}

# The words that stand behind a command.
words_behind() {
    synopsis | sed -n "s/^$1 *//p"
}

# The least and the greatest value of an option, or of a seed, as the command has it; fails where it has none.
bounds() {
    case " $(words_behind "$1" | tr -d '[]') " in
    *" $2 "*) ;;
    *) return 1 ;;
    esac
    rows FORMATS.md '## Command line' | tr -d , | awk -F '\t' -v command="$1" -v option="$2" '
        $1 == option {
            split($2, value, ";")
            for (i in value) if (value[i] ~ " of " command " ") value[1] = substr(value[i], length(" of " command " ") + 1)
            split(value[1], bound, " ")
            print bound[1], bound[3]
        }'
}

# is_value NAME LEAST MOST TEXT: whether it is a value of the option or seed; says what is wrong where it isn't.
is_value() {
    case $4 in
    '') say "$1 wants a value, from $2 to $3." ;;
    *[!0-9]*) say "\"$4\" is no value of $1: it has decimal digits alone." ;;
    ???????????*) say "\"$4\" is no value of $1: it has more than 10 digits." ;;
    *)
        if [ "$4" -ge "$2" ] && [ "$4" -le "$3" ]; then return; fi
        say "$4 is no value of $1: it is from $2 to $3."
        ;;
    esac
    return 1
}

# Whether the options that the command can't do without are there; $2 has those that are.
has_wanted() {
    for name in $(words_behind "$1" | sed 's/\[[^]]*\]//g'); do
        case $2 in
        *" $name "*) ;;
        *)
            range=$(bounds "$1" "$name")
            say "$1 wants $name, from ${range% *} to ${range#* }: $(rows FORMATS.md '## Command line' | sed -n "s/^$name	.*	//p")."
            return 1
            ;;
        esac
    done
}

# The first wrong word among the options of a command; succeeds where there is none.
are_options() {
    command=$1 seen=' '
    shift
    while [ $# -gt 0 ]; do
        name=${1%%=*}
        if ! range=$(bounds "$command" "$name"); then
            say "\"$1\" is no option of $command, which reads its input by < NAME.hex."
            return 1
        fi
        case $seen in
        *" $name "*)
            say "$name stands twice."
            return 1
            ;;
        esac
        seen="$seen$name "
        case $1 in
        *=*) value=${1#*=} ;;
        *)
            value=${2-}
            if [ $# -gt 1 ]; then shift; fi
            ;;
        esac
        is_value "$name" "${range% *}" "${range#* }" "$value" || return
        shift
    done
    has_wanted "$command" "$seen"
}

# Which word is wrong, where the words are no command.
explain_words() {
    commands=$(synopsis | sed 's/ .*//' | tr '\n' ' ')
    last=${commands% } last=${last##* }
    known=$(say "${commands% "$last" }" | sed 's/ /, /g')" and $last are"
    case " $commands" in
    *" ${1:-,} "*) ;;
    *)
        if [ -z "${1-}" ]; then say "There is no command: $known."; else say "\"$1\" is no command: $known, and stand first."; fi
        return
        ;;
    esac
    case $(words_behind "$1") in
    *--*) are_options "$@" ;;
    '') say "\"$2\" is a word too many: $1 has none. Input comes by < NAME." ;;
    SEED)
        if [ $# -gt 2 ]; then
            say "\"$3\" is a word too many: $1 has a seed alone."
        else
            range=$(bounds "$1" SEED)
            is_value seed "${range% *}" "${range#* }" "${2-}"
        fi
        ;;
    esac
}
