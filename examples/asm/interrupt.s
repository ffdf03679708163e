; Sleeps until INT0 is raised, shows on port A how often it was, and halts.
        rjmp start
        nop
        rjmp raised             ; word 2: the vector of INT0
raised: inc r16
        reti
start:  ldi r16, 0x10           ; the stack: 0x10FF
        out 0x3E, r16           ; SPH
        ldi r16, 0xFF
        out 0x3D, r16           ; SPL
        ldi r16, 1
        out 0x39, r16           ; EIMSK: INT0
        ldi r16, 0
        sei
        sleep
        cli
        out 0x1B, r16           ; PORTA
end:    rjmp end
