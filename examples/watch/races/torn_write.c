// Torn write: a limit of four bytes is stored one by one, and the handler may read it between.

#include "locked.h"

static volatile uint32_t limit = 1000;
static volatile uint8_t above;

ISR(INT0_vect) {
    if (limit > 70000) {
        above = 1;
    }
}

int main(void) {
    EIMSK = _BV(INT0);
    sei();
    for (uint8_t turn = 0; turn < TURNS; turn++) {
        uint32_t next = 1000UL * turn;
        (void)PIND;
        LOCKED {
            limit = next;
        }
    }
    cli();
    PORTA = above;
}
