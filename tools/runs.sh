# shellcheck shell=sh disable=SC2034,SC2154
# What is told of a run's end, by docs/GLOSSARY.md and by tkwatch, for the tools where and why, which read this by `.`.

# Says that what follows may take long, of a run with so many steps as the stop line $1 has.
say_if_long() {
    run_steps=$(printf '%s\n' "$1" | sed -n 's/.* steps \([0-9]*\) checkpoints [0-9]*$/\1/p')
    if [ "${run_steps:-0}" -ge 100000000 ]; then
        printf '%s: the run of %s steps is made again to look closer: this takes its time\n' "${0##*/}" "$run_steps" >&2
    fi
}

# is_in_frame SP ADDRESS: whether an access to a register's address was one to local variables, since they reach down to there, or
# around the end of memory; an array has at most 32,767 bytes. A stack pointer of 0 was never set.
is_in_frame() {
    [ $(($1)) -ge $((0x9100)) ] || { [ $(($1)) -gt 0 ] && [ $(($1)) -lt $(($2)) ]; }
}

window='the stack window, 0x0D00 to 0x10FF'

# explain_address STOP SP: what is told of the data address at which a fault stopped the program. SP is empty where it isn't known.
explain_address() {
    address=${1##* }
    case $1 in
    *'fault io '*)
        if [ -n "$2" ] && is_in_frame "$2" "$address"; then
            echo "address $address is memory of the stack, since sp is $2: local variables are too large for the 1,024 bytes of"
            echo "$window; declare them static"
        else
            register=$(awk -F ' *[|] *' -v address="$address" '$2 == address { print $3 }' "$tools/../docs/COMPILING-REFERENCE.md")
            echo "address $address is ${register:-no register}"
        fi
        ;;
    *'fault stack '*)
        if [ $((address)) -lt $((0x0D00)) ]; then
            echo "address $address is $((0x0D00 - address)) below $window: large local variables or a deep recursion are the usual cause"
        else
            echo "address $address is $((address - 0x10FF)) above $window: more was taken from the stack than was put there"
        fi
        ;;
    esac
}

# How often the run of the input $1 with these options came to word 0 again, behind which step first, and last the word that led
# there; nothing where it never did, or tkwatch isn't built. It stops counting at 100,000.
restarts() {
    run_input=$1
    shift
    began_anew=$(watched visits 0x0000 "$@" < "$run_input" | awk '
        $1 == "step" && $2 > 0 { if (!count++) first = $2; if (count == 100000) exit }
        END { if (count) print count, first }')
    if [ -n "$began_anew" ]; then
        led_there=$(watched trace $((${began_anew#* } - 1)) 1 "$@" < "$run_input" | awk '$1 == "step" { print $3; exit }')
        case $began_anew in
        '1 '*) echo "once, behind step ${began_anew#* } $led_there" ;;
        '100000 '*) echo "more than 100000 times, first behind step ${began_anew#* } $led_there" ;;
        *) echo "${began_anew% *} times, first behind step ${began_anew#* } $led_there" ;;
        esac
    fi
}
restart_cause='A C program comes there by a null function pointer, a return over a spoiled stack, or an interrupt without a handler'

# What tkwatch tells of a run's state; nothing where it isn't built, or of other commands.
look_at_state() {
    : > "$work/state"
    if [ "$1" = run ]; then
        shift
        watched state "$@" < "$input" > "$work/state"
    fi
}
state() {
    sed -n "s/^$1 //p" "$work/state"
}

waiting_cause='--steps allows more steps, a million without it. Or the program waits for what never comes: TXC0, a timer, an interrupt
or an input that no line of the script has for a poll that it makes (docs/WATCHING.md).'

# The meaning of an end, and what can be done, as the stop line has it.
explain_end() {
    end=$(say "${1#task ? }" | sed 's/ 0x.*//; s/ [0-9]*$//')
    say "$(rows GLOSSARY.md '## How a run ends' | awk -F '\t' -v end="$end" '{ sub(/ (0x|OP).*/, "", $1) } $1 == end { print $3 }')"
    case $1 in
    *'asleep '*)
        say "Only INT0 to INT7 come, by a line \"at N int K\" of the script; no conversion, timer or byte raises one."
        say "Such lines: $(grep -c '^[at].* int ' "$input")."
        ;;
    *spent) if [ ! -s "$work/state" ]; then say "$waiting_cause"; fi ;;
    *'fault io '* | *'fault stack '*) if [ -z "$elf" ]; then explain_address "${1% steps *}" "$(state sp)"; fi ;;
    esac
}

# Of a command run, what tkwatch knows of such an end: by addresses, or with an ELF file by names.
look_closer() {
    stop=$1
    shift 2
    if [ -n "$elf" ]; then
        "$tools/where" "$elf" "$input" "$@" < "$output" > "$work/place"
        cat "$work/place"
        case $stop in
        spent*)
            if [ -s "$work/state" ] && ! grep -q '^it came to word 0 again' "$work/place"; then
                say "It had made $(state polls) polls, and events $(state events) had come."
                say "$waiting_cause"
            fi
            ;;
        esac
        return
    fi
    again=$(restarts "$input" "$@")
    case $stop in
    spent*)
        if [ ! -s "$work/state" ]; then
            say "tkwatch, once it is built (tkwatch help builds it), tells where it stood."
            return
        fi
        say "It stood at word $(state pc), with $(state polls) polls made, and events $(state events)."
        if [ -z "$again" ]; then say "$waiting_cause"; fi
        ;;
    'fault wild '*)
        steps=$(say "$stop" | sed 's/.* steps \([0-9]*\) .*/\1/')
        if [ "$steps" = 0 ]; then return; fi
        before=$(watched trace $((steps - 1)) 1 "$@" < "$input" | sed -n 's/^step [0-9]* \(0x....\) .*/\1/p')
        if [ -n "$before" ]; then say "The step before began at word $before, and led there."; fi
        ;;
    esac
    if [ -n "$again" ]; then say "It came to word 0 again ${again% 0x*}, from word ${again##* }. $restart_cause."; fi
}

# How often the handler of each interrupt began, from INT0 on.
handled() {
    watched visits 0x0002 0x0004 0x0006 0x0008 0x000A 0x000C 0x000E 0x0010 "$@" < "$input" | awk "$awk_number"'
        $1 == "step" { times[number(substr($3, 3)) / 2 - 1]++ }
        END { for (k = 0; k < 8; k++) printf "%d ", times[k] }'
}

# The options but for the quantum, which is 1.
with_each_crossing() {
    options=
    while [ $# -gt 0 ]; do
        case $1 in
        --quantum=*) ;;
        --quantum) shift ;;
        *) options="$options $1" ;;
        esac
        shift
    done
    say "$options --quantum 1"
}

# Requests of an interrupt that came together before its handler began, which then are one: how often each was requested by the
# events that came is compared with how often its handler began, or can still begin.
explain_requests() {
    if [ ! -s "$work/state" ] || ! grep -q '^at [0-9]* int ' "$input"; then return; fi
    came=$(state events)
    # shellcheck disable=SC2046
    sed '1,/^:00....01/d' "$input" | awk -v came="${came% of *}" -v handled="$(handled "$@")" \
        -v often="$(handled $(with_each_crossing "$@"))" -v pending=$(($(state requested))) '
        BEGIN { split(handled, began, " "); split(often, begins, " ") }
        /^at / && events++ < came && $3 == "int" { asked[$4 + 1]++ }
        END {
            for (k = 1; k <= 8; k++) {
                waits = int(pending / 2 ^ (k - 1)) % 2
                if (asked[k] > began[k] + waits && (began[k] || begins[k]))
                    printf "INT%d was requested %d times, and its handler began %d times: requests that come before it begins are one.\n%s", \
                        k - 1, asked[k], began[k], \
                        (begins[k] > began[k] ? "With --quantum 1 it began " begins[k] " times, since a handler begins at a checkpoint.\n" : "")
            }
        }'
}

# Of a run that made more pages than the code pool has, and one each 200 steps or less: that this takes time, and with the program as an
# ELF file which functions have the most code that is executed.
explain_pages() {
    pages=$(sed -n 's/^natural .* pages \([0-9]*\)$/\1/p' "$output")
    if [ "${pages:-0}" -le 352 ] || [ "$run_steps" -gt $((200 * pages)) ]; then return; fi
    say "It made $pages code pages, one each $((run_steps / pages)) steps, and the code pool holds 352 at most:" \
        "much of the time goes into making them."
    if [ -z "$elf" ]; then return; fi
    watched profile "$@" < "$input" > "$work/profile" || [ -s "$work/profile" ] || return
    say "The functions with the most instructions that were executed, once or more, and their share of all such:"
    "$tools/profile" --code --input "$input" "$elf" < "$work/profile" | head -n 3
}
