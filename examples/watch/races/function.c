// Lost update in a function that the handler calls as well, by an address.

#include "locked.h"

static int16_t level;

__attribute__((noinline)) static void add(volatile int16_t *to, int16_t number) {
    *to += number;
}

ISR(INT0_vect) {
    add(&level, 5);
}

int main(void) {
    EIMSK = _BV(INT0);
    sei();
    for (uint8_t turn = 0; turn < TURNS; turn++) {
        (void)PIND;
        LOCKED {
            add(&level, -1);
        }
    }
    cli();
    PORTA = level;
}
