; A loop with calls: shows 1, 3, 6, 10 and on to 55 on port A, the sums of the first numbers.
        ldi r16, 0xFF           ; the stack begins at the end of SRAM, 0x10FF
        out 0x3D, r16           ; SPL
        ldi r16, 0x10
        out 0x3E, r16           ; SPH
        ldi r20, 0              ; the sum
        ldi r21, 1              ; the number
again:  call sum
        rcall show
        inc r21
        cpi r21, 11
        brne again
end:    rjmp end

sum:    add r20, r21
        ret

show:   out 0x1B, r20           ; PORTA
        ret
