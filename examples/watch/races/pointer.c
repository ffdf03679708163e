// Torn read of a pointer: it is followed while the handler may move it.

#include "locked.h"

static uint8_t text[64];
static uint8_t *volatile next = text;

ISR(INT0_vect) {
    if (next < text + sizeof text - 1) {
        next++;
    }
}

int main(void) {
    uint8_t sum = 0;
    for (uint8_t i = 0; i < sizeof text; i++) {
        text[i] = i;
    }
    EIMSK = _BV(INT0);
    sei();
    for (uint8_t turn = 0; turn < TURNS; turn++) {
        uint8_t *here;
        (void)PIND;
        LOCKED {
            here = next;
        }
        sum += *here;
    }
    cli();
    PORTA = sum;
}
