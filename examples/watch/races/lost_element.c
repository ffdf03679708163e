// Lost update of an element of two bytes, by its index.

#include "locked.h"

static volatile uint16_t counts[4];

ISR(INT0_vect) {
    counts[2] += 256;
}

int main(void) {
    EIMSK = _BV(INT0);
    sei();
    for (uint8_t turn = 0; turn < TURNS; turn++) {
        (void)PIND;
        LOCKED {
            counts[turn % 4]++;
        }
    }
    cli();
    PORTA = counts[2] >> 8;
}
