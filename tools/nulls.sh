# shellcheck shell=sh disable=SC2154
# What is told of null pointers, and of a register r1 that isn't 0, for the tools run-elf and why, which read this by `.` behind code.sh and
# places.sh.
# Data addresses 0x0000 to 0x001F are r0 to r31. Compiled code never loads or stores there by address, and takes r1 for 0.
stores_alone='' quickly=''

# Whether the start-up code of avr-gcc is in the program of an input: it clears r1, and then SREG by r1.
is_compiled() {
    bytes_of "$1" | awk '
        BEGIN { split("17 36 31 190", wanted, " ") }
        { met = $2 == wanted[met + 1] && (!met || $1 == at + 1) ? met + 1 : $2 == wanted[1]; at = $1 }
        met == 4 { exit }
        END { exit met != 4 }'
}

# The place of a word address: its function, file and line where there is an ELF file, and avr-addr2line.
place_of_word() {
    if [ -n "$elf" ] && command -v avr-addr2line > /dev/null && command -v avr-objdump > /dev/null; then
        find_lines "$elf"
        look_up -f -i -p "$(printf '0x%X' $((2 * $1)))"
    else
        echo "word $1"
    fi
}

# The last step with a line before step $1, of 4,096, where the place in $2 has none, as in a function of a library.
place_of_caller() {
    if [ -z "$elf" ] || printf '%s\n' "$2" | grep -q ':[1-9]'; then return; fi
    from=$(($1 > 4096 ? $1 - 4096 : 0)) step_of=$1
    shift 2
    watched trace "$from" $((step_of - from)) "$@" < "$input" > "$work/trace"
    "$tools/where" "$elf" < "$work/trace" 2> "$work/refusal" | grep '^step .*:[1-9]' | tail -n 1 |
        sed 's/^/the last step in a function that has lines: /'
}

# The built tkwatch, where no source is newer. Without the launcher, which takes the sum of all sources, a look costs little.
built_tkwatch() {
    for built in "$tools"/../crates/tkwatch/out/built/*/tkwatch; do
        [ -x "$built" ] || return
        newer=$(find "$tools/../crates" "$tools/../crates.txt" \( -name out -o -name must-fail \) -prune \
            -o -type f -newer "$built" -print -quit)
        if [ -z "$newer" ]; then echo "$built"; fi
        return
    done
}

# Accesses by address to r0 to r31, by the view of that name: "store" or "load", how many, and the step, word and address of the first,
# a line each; and "r1" with the byte that the last of them put there. It stops at 100,000.
null_accesses() {
    "${quickly:-watched}" accesses 0x0000 32 "$@" < "$input" | awk '
        $1 == "step" && ($4 == "store" || $4 == "load") {
            if (!count[$4]++) first[$4] = $2 " " $3 " " $5
            if ($4 == "store" && $5 == "0x0001") r1 = $6
            if (++all == 100000) exit
        }
        END {
            for (kind in count) print kind, (all == 100000 ? "at least " : "") count[kind] " times, first in step", first[kind]
            if (r1 != "") print "r1", r1
        }'
}

# tell_accesses LINE OPTION..: tells one of these lines of the run with these options.
tell_accesses() {
    what=${1%% times*} at=${1##* step }
    shift
    case $what in
    store*) what="it stored to 0x0000 to 0x001F by address ${what#store } times, first to" ;;
    *) what="it loaded from 0x0000 to 0x001F by address ${what#load } times, first from" ;;
    esac
    step=${at%% *} word=${at#* } word=${word% *}
    place=$(place_of_word "$word")
    echo "$what ${at##* } in step $step, at"
    echo "$place"
    place_of_caller "$step" "$place" "$@"
}

# What r1 was at the end of each of the last 1,024 steps, where that is one byte; of a shorter run nothing.
lasting_r1() {
    if [ "$1" -lt 1024 ]; then return; fi
    from=$(($1 - 1024))
    shift
    watched trace "$from" 1025 "$@" < "$input" | awk '
        $1 == "step" { rows++; if (rows == 1 || $7 "" != value) values++; value = $7 "" }
        END { if (rows == 1025 && values == 1) print value }'
}

# tell_nulls STOP OPTION..: tells both of the run of $input with these options, which had this stop line. That r1 isn't 0 it tells where a
# store by address put there what stands there at the stop; or, but for $stores_alone, where it had one value in the last 1,024 steps,
# since a product, or the count of a library's loop, stands there for less. $elf is the ELF file, or empty; $quickly is a tkwatch that is
# run without the launcher, or empty.
tell_nulls() {
    all_steps=${1##* steps } all_steps=${all_steps% checkpoints *}
    shift
    null_accesses "$@" > "$work/nulls"
    if [ ! -s "$work/nulls" ] && [ -n "$stores_alone" ]; then return; fi
    is_compiled "$input" || return 0
    r1=''
    if [ -s "$work/nulls" ]; then
        for kind in store load; do
            line=$(grep "^$kind " "$work/nulls") && tell_accesses "$line" "$@"
        done
        echo "They are r0 to r31, which compiled code never reaches by address: a null pointer is the usual cause"
        stored=$(sed -n 's/^r1 //p' "$work/nulls")
        if [ -n "$stored" ] && [ "$stored" = "$(watched trace "$all_steps" 1 "$@" < "$input" | awk '$1 == "step" { print $7 }')" ]; then
            r1="r1 is $stored at the stop, by such a store"
        fi
    fi
    if [ -z "$r1$stores_alone" ]; then
        r1=$(lasting_r1 "$all_steps" "$@")
        r1=${r1:+r1 was $r1 in each of the last 1,024 steps}
    fi
    case $r1 in
    '' | *' 0x00 '*) ;;
    *) echo "$r1, and compiled code takes it for 0" ;;
    esac
}
