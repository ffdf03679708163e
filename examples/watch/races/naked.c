// A lost update beside a naked handler that leaves by RET: what follows it is main's again. With -DRIGHT there is a lock.

#include "locked.h"

volatile uint8_t presses;

ISR(INT0_vect, ISR_NAKED) {
    asm volatile("push r24\n in r24, __SREG__\n push r24\n lds r24, presses\n inc r24\n sts presses, r24\n"
                 "pop r24\n out __SREG__, r24\n pop r24\n sei\n ret");
}

int main(void) {
    EIMSK = _BV(INT0);
    sei();
    for (uint8_t turn = 0; turn < TURNS; turn++) {
        (void)PIND;
        LOCKED {
            presses |= 1;
        }
    }
    cli();
    PORTA = presses;
}
