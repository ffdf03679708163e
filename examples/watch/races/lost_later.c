// Lost update over several lines: what was read is handed to a function, and what that gives is written back.

#include "locked.h"

static volatile uint8_t level;
static volatile uint8_t calls;

__attribute__((noinline)) static uint8_t raised(uint8_t value) {
    calls++;
    return value + 1;
}

ISR(INT0_vect) {
    level += 16;
}

int main(void) {
    EIMSK = _BV(INT0);
    sei();
    for (uint8_t turn = 0; turn < TURNS; turn++) {
        (void)PIND;
        LOCKED {
            uint8_t value = level;
            value = raised(value);
            level = value;
        }
    }
    cli();
    PORTA = level;
}
