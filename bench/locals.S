; A function with variables on the stack: PUSH, POP, and accesses by Y with an offset.
.equ ROUNDS, 30000
    ldi r16, 0xFF
    out 0x3D, r16
    ldi r16, 0x10
    out 0x3E, r16
    ldi r16, lo8(ROUNDS)
    ldi r17, hi8(ROUNDS)
again:
    rcall function
    subi r16, 1
    sbci r17, 0
    brne again
    cli
    sleep
function:
    push r28
    push r29
    push r16
    push r17
    in r28, 0x3D
    in r29, 0x3E
    sbiw r28, 8
    in r0, 0x3F
    cli
    out 0x3E, r29
    out 0x3F, r0
    out 0x3D, r28
    std Y+1, r16
    std Y+2, r17
    ldd r24, Y+1
    ldd r25, Y+2
    adiw r24, 5
    std Y+3, r24
    std Y+4, r25
    ldd r22, Y+3
    ldd r23, Y+4
    adiw r28, 8
    in r0, 0x3F
    cli
    out 0x3E, r29
    out 0x3F, r0
    out 0x3D, r28
    pop r17
    pop r16
    pop r29
    pop r28
    ret
