; Shows 0x0F on port A and stops: the program of README's first lines.
        ldi r16, 0x0F
        out 0x1B, r16           ; PORTA
end:    rjmp end
