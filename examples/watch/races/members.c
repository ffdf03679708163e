// Torn read of a struct: two members of one byte each are read together, and the handler changes both.

#include "locked.h"

static volatile struct {
    uint8_t column, row;
} cursor;

ISR(INT0_vect) {
    cursor.column++;
    cursor.row--;
}

int main(void) {
    uint8_t odd = 0;
    EIMSK = _BV(INT0);
    sei();
    for (uint8_t turn = 0; turn < TURNS; turn++) {
        uint8_t sum;
        (void)PIND;
        LOCKED {
            sum = cursor.column + cursor.row;
        }
        if (sum) {
            odd++;
        }
    }
    cli();
    PORTA = odd;
}
