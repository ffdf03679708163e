# shellcheck shell=sh disable=SC2154
# Whether an input, or a view of tkwatch, is of the program that an ELF file has, for the tools that are given both, which read this by `.`.

# The bytes that a HEX text gives, up to its end record: a line for each, with its address and its value in decimal digits.
bytes_of() {
    awk "$awk_number"'
        /^:00....01/ { exit }
        { kind = substr($0, 8, 2) }
        kind == "02" { base = 16 * number(substr($0, 10, 4)) }
        kind == "04" { base = 65536 * number(substr($0, 10, 4)) }
        kind == "00" && /^:/ {
            at = base + number(substr($0, 4, 4))
            count = number(substr($0, 2, 2))
            for (i = 0; i < count; i++) print at + i, number(substr($0, 10 + 2 * i, 2))
        }' < "$1"
}

# Those of an ELF file; nothing without avr-objcopy, or of what that can't read.
bytes_of_elf() {
    if command -v avr-objcopy > /dev/null && make_hex "$1" "$work/code.hex"; then bytes_of "$work/code.hex"; fi
}

# wants_code_of ELF INPUT NAME: whether the HEX text in front of the input, which has this name, has the file's code. It may have more.
wants_code_of() {
    bytes_of_elf "$1" > "$work/code"
    bytes_of "$2" > "$work/given"
    awk 'FILENAME ~ /given$/ { given[$1] = $2; next } !($1 in given) || given[$1] != $2 { exit 1 }' "$work/given" "$work/code" ||
        fail "$1 isn't the program that $3 has"
}

# wants_view_of ELF INPUT: whether $work/view can be of the file's program; INPUT is what the run read, or nothing, and then the file has
# all its code.
wants_view_of() {
    if [ -n "$2" ]; then
        needs avr-objcopy
        wants_code_of "$1" "$2" "$2"
    else
        bytes_of_elf "$1" > "$work/given"
    fi
    wants_run_of "$1" view
}

# wants_run_of ELF WHAT: whether $work/view, which is called WHAT, can be of the program whose bytes are in $work/given. Only what is
# certain is refused. Where the run stopped stands what stops it so. A step begins at a word of the program. And where an instruction leads
# to one place alone, as many steps begin there, and the next step does; but an interrupt, which counts where it is taken, leads to a
# vector, and behind the last step none begins.
wants_run_of() {
    [ -s "$work/given" ] || return 0
    reason=$(awk "$awk_number"'
        function is_jump(at) { return word[at] == 37900 }
        function is_call(at) { return word[at] == 37902 }
        # Where the instruction at a word leads: that of JMP and CALL, and the next word behind one that neither jumps nor skips, nor has
        # two words, as is plain by its upper byte. Below 0 it is not known.
        function next_of(at,    high) {
            if (is_jump(at) || is_call(at)) return word[at + 1]
            high = word[at] == "" ? 255 : int(word[at] / 256)
            return high < 16 || high > 19 && high < 144 || high > 159 && high < 192 || high > 223 && high < 240 ? at + 1 : -1
        }
        # Whether the last step may have led there, or have been an interrupt.
        function may_be_last(at) { return stop < 0 || stop == at || is_vector(stop) }
        function is_vector(at) { return at % 2 == 0 && at > 0 && at <= 16 }
        # IN and OUT, SBI and its like, and loads and stores.
        function may_access(code) {
            return code >= 45056 && code < 49152 || code >= 38912 && code < 39936 || code >= 36864 && code < 37888 ||
                code >= 32768 && code < 36864 || code >= 40960 && code < 45056
        }
        # What stands at the stop and can not; or nothing.
        function wrong_at_stop(end) {
            if (stop < 0) return ""
            if (end ~ /^fault wild/) return stop > last ? "" : "code"
            if (stop > last) return "no code"
            if (end ~ /^halted/ && word[stop] != 53247 && !(is_jump(stop) && word[stop + 1] == stop)) return "no jump to itself"
            if (end ~ /^asleep/ && word[stop] != 38280) return "no SLEEP"
            if (end ~ /^fault selfprogram/ && word[stop] != 38376) return "no SPM"
            if (end ~ /^fault (io|swap)/ && !may_access(word[stop])) return "no access to memory"
        }
        function of_stop(end,    what) {
            what = wrong_at_stop(end)
            sub(/ steps .*/, "", end)
            return what ? "the run ended by \"" end "\", and " what " stands there" : ""
        }
        function of_counts(    at, taken, to) {
            for (at = 2; at <= 16; at += 2) taken += times[at]
            for (at = 0; at < 65536; at++) if (times[at]) {
                if (at > last) return sprintf("steps began at word 0x%04X, and no code stands there", at)
                to = next_of(at)
                if (to >= 0 && times[at] - times[to] > taken + may_be_last(to))
                    return sprintf("%d steps began at word 0x%04X, which leads to 0x%04X, and %d there", times[at], at, to, times[to])
            }
        }
        # What a row tells that can not be: how many steps were done, and where the next one begins, if there was one.
        function of_row(steps, at,    to) {
            if (steps == 0 && at != 0) return sprintf("its first step began at word 0x%04X", at)
            if (at > last) return steps == all ? "" : sprintf("a step began at word 0x%04X, and no code stands there", at)
            to = steps == before + 1 ? next_of(latest) : -1
            if (to >= 0 && to != at && !is_vector(at))
                return sprintf("a step led from word 0x%04X, which leads to 0x%04X, to 0x%04X", latest, to, at)
            before = steps
            latest = at
        }
        # A word of which a byte is not given has 0xFF there.
        FILENAME ~ /given$/ {
            at = int($1 / 2)
            if (!(at in word)) word[at] = 65535
            word[at] -= (255 - $2) * ($1 % 2 ? 256 : 1)
            if (at > last) last = at
            next
        }
        /^0x/ && NF == 2 { times[number(substr($1, 3))] = $2 }
        $1 == "step" && $3 ~ /^0x/ { done[++rows] = $2; begins[rows] = number(substr($3, 3)) }
        / steps / {
            stop = match($0, / 0x/) ? number(substr($0, RSTART + 3, 4)) : -1
            all = $(NF - 2)
            before = -1
            reason = of_stop($0)
            for (i = 1; !reason && i <= rows; i++) reason = of_row(done[i], begins[i])
            print reason ? reason : of_counts()
        }' "$work/given" "$work/view")
    [ -z "$reason" ] || fail "$1 isn't the program of this $2: $reason"
}
