# shellcheck shell=sh disable=SC2154
# Which handlers the program of an input has, and why they never ran, for the tool why, which reads this by `.` behind runs.sh and nulls.sh.

# The numbers of the vectors that lead to a handler, of INT0 to INT7 (1 to 8), UART0 (18 to 20) and the analog converter (21). Where
# the program has none, avr-gcc's vector leads to a jump to word 0.
handlers_of() {
    bytes_of "$1" | awk '
        function word(at) { return byte[2 * at] + 256 * byte[2 * at + 1] }
        # Where JMP or RJMP leads, and below 0 for another instruction.
        function jumps_to(at) {
            if (word(at) == 37900) return word(at + 1)
            if (int(word(at) / 4096) == 12) return (at + 1 + word(at) % 4096 - (word(at) % 4096 >= 2048 ? 4096 : 0) + 65536) % 65536
            return -1
        }
        { byte[$1] = $2 }
        END {
            for (vector = 1; vector <= 21; vector++) {
                to = jumps_to(2 * vector)
                if ((vector <= 8 || vector >= 18) && to > 0 && jumps_to(to) != 0) print vector
            }
        }'
}

# Of UART0 and the analog converter: each handler whose interrupt the program enabled, by a store to UCSR0B (0x002A) or ADCSRA (0x0026).
tell_silent_devices() {
    watched accesses 0x0026 5 "$@" < "$input" | awk -v handlers=" $(tr '\n' ' ' < "$work/handlers")" "$awk_number"'
        function enable(vector, address, bit, byte) {
            if ($5 == address && int(byte / 2 ^ bit) % 2 && !(vector in step)) step[vector] = $2
        }
        function tell(vector, name, bit, device, instead) {
            if ((vector in step) && index(handlers, " " vector " "))
                print name " has a handler, and " bit " was set in step " step[vector] ": " device " raises no interrupts here, so it never runs. " instead
        }
        $1 == "step" && ($4 == "store" || $4 == "set") {
            byte = number(substr($6, 3))
            enable(18, "0x002A", 7, byte); enable(19, "0x002A", 5, byte); enable(20, "0x002A", 6, byte); enable(21, "0x0026", 3, byte)
        }
        END {
            tell(18, "USART0_RX_vect", "RXCIE0", "UART0", "RXC0 tells that a byte came.")
            tell(19, "USART0_UDRE_vect", "UDRIE0", "UART0", "UDR0 takes a byte at any time.")
            tell(20, "USART0_TX_vect", "TXCIE0", "UART0", "UDR0 takes a byte at any time.")
            tell(21, "ADC_vect", "ADIE", "the analog converter", "ADSC is 0 behind a conversion.")
        }'
}

# Of INT0 to INT7: each handler that never began, and what it lacks at the stop.
tell_idle_handlers() {
    began=$(handled "$@")
    came=$(state events)
    sed '1,/^:00....01/d; s/\r$//' "$input" | awk -v handlers="$(tr '\n' ' ' < "$work/handlers")" -v began="$began" -v came="${came% of *}" \
        -v enabled=$(($(state enabled))) -v sreg=$(($(state sreg))) -v polls="$(state polls)" '
        function why(k) {
            if (int(enabled / 2 ^ k) % 2 == 0) return "EIMSK doesn\047t enable it at the stop"
            if (sreg < 128) return "flag I of SREG is 0 at the stop"
            if (k in requested) return "its request came behind the last checkpoint: with --quantum 1 each crossing is one"
            if (k in first) return "its first line of the script comes at poll " first[k] ", and the program made " polls " polls"
            return "no line of the script requests it"
        }
        BEGIN { split(began, times, " ") }
        /^at / && $3 == "int" { if (!($4 in first)) first[$4] = $2; if (events < came) requested[$4] }
        /^at / { events++ }
        END {
            count = split(handlers, vectors, " ")
            for (i = 1; i <= count; i++) if (vectors[i] <= 8 && !times[vectors[i]])
                print "INT" vectors[i] - 1 " has a handler, which never began: " why(vectors[i] - 1) "."
        }'
}

# tell_unraised STOP OPTION..: tells them of the run of $input with these options, whose state is known, where it is spent or asleep.
tell_unraised() {
    case $1 in spent* | asleep*) ;; *) return 0 ;; esac
    shift
    if [ ! -s "$work/state" ] || ! is_compiled "$input"; then return 0; fi
    handlers_of "$input" > "$work/handlers"
    if grep -qE '^(18|19|20|21)$' "$work/handlers"; then tell_silent_devices "$@"; fi
    if grep -qE '^[1-8]$' "$work/handlers"; then tell_idle_handlers "$@"; fi
}
