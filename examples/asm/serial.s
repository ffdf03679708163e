; Reads the serial line and shows each byte on port A, up to a zero.
next:   sbis 0x0B, 7            ; UCSR0A, RXC0: a byte came
        rjmp next
        in r16, 0x0C            ; UDR0
        out 0x1B, r16           ; PORTA
        cpi r16, 0
        brne next
end:    rjmp end
