; One function, which does nothing, is called from one place.
.equ ROUNDS, 60000
    ldi r16, 0xFF
    out 0x3D, r16
    ldi r16, 0x10
    out 0x3E, r16
    ldi r16, lo8(ROUNDS)
    ldi r17, hi8(ROUNDS)
again:
    rcall empty
    subi r16, 1
    sbci r17, 0
    brne again
    cli
    sleep
empty:
    ret
