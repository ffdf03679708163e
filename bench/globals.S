; Two variables of the heap are raised by LDS and STS, as C programs do: each access is a service.
.equ ROUNDS, 60000
    ldi r16, lo8(ROUNDS)
    ldi r17, hi8(ROUNDS)
again:
    lds r24, 0x0100
    lds r25, 0x0101
    adiw r24, 1
    sts 0x0101, r25
    sts 0x0100, r24
    lds r24, 0x0102
    lds r25, 0x0103
    adiw r24, 1
    sts 0x0103, r25
    sts 0x0102, r24
    subi r16, 1
    sbci r17, 0
    brne again
    cli
    sleep
