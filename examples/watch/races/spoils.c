// A naked handler that changes r24 and SREG, which whoever it interrupts may need. With -DRIGHT it gives both back.

#include "locked.h"

volatile uint8_t presses;

ISR(INT0_vect, ISR_NAKED) {
#ifdef RIGHT
    asm volatile("push r24\n in r24, __SREG__\n push r24");
#endif
    asm volatile("lds r24, presses\n subi r24, -1\n sts presses, r24");
#ifdef RIGHT
    asm volatile("pop r24\n out __SREG__, r24\n pop r24");
#endif
    asm volatile("reti");
}

int main(void) {
    uint8_t sum = 0;
    EIMSK = _BV(INT0);
    sei();
    for (uint8_t turn = 0; turn < TURNS; turn++) {
        sum += PIND + turn;
    }
    cli();
    PORTA = sum;
}
