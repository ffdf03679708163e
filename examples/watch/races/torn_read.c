// Torn read: the two bytes of a counter are read one by one, and its handler may count on between them. The handler keeps both bytes
// alike, so that port A tells how often that did harm.

#include "locked.h"

static volatile uint16_t ticks;

ISR(INT0_vect) {
    ticks += 0x0101;
}

int main(void) {
    uint8_t torn = 0;
    EIMSK = _BV(INT0);
    sei();
    for (uint8_t turn = 0; turn < TURNS; turn++) {
        uint16_t seen;
        (void)PIND;
        LOCKED {
            seen = ticks;
        }
        if (seen >> 8 != (seen & 0xFF)) {
            torn++;
        }
    }
    cli();
    PORTA = torn;
}
