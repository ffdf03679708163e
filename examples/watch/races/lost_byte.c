// Lost update of one byte: a count of what waits is lowered, and what the handler adds between is lost.

#include "locked.h"

static volatile uint8_t waiting;

ISR(INT0_vect) {
    waiting++;
}

int main(void) {
    uint8_t done = 0;
    EIMSK = _BV(INT0);
    sei();
    for (uint8_t turn = 0; turn < TURNS; turn++) {
        (void)PIND;
        if (waiting) {
            LOCKED {
                waiting--;
            }
            done++;
        }
    }
    cli();
    PORTA = done;
}
