// Lost update of a port: two of its bits are set by IN and OUT, and what the handler stores between is lost. SBI and CBI change one bit
// by one instruction, so that the handler of one bit needs no lock.

#include "locked.h"

ISR(INT0_vect) {
    PORTB ^= _BV(7) | _BV(6);
}

int main(void) {
    EIMSK = _BV(INT0);
    sei();
    for (uint8_t turn = 0; turn < TURNS; turn++) {
        (void)PIND;
        LOCKED {
            PORTB |= _BV(0) | _BV(1);
        }
        PORTB |= _BV(2);
    }
    cli();
    PORTA = PORTB;
}
