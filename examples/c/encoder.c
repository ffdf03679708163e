// A rotary encoder on two lines, INT0 and INT1, which are pins 0 and 1 of port D: each edge raises an interrupt,
// and the handler tells the direction by what both lines were before.
//
// Output on port C: the place after each edge that counts. The script turns four edges up (1, 2, 3, 4), and two
// back (3, 2); then pin 7 ends it, and the place is shown on port A: 0x02.

#include <avr/interrupt.h>
#include <avr/io.h>

static volatile int8_t place;

// By the lines before and now: the direction, 0 where nothing moved or an edge was missed.
static const int8_t direction[16] = {0, 1, -1, 0, -1, 0, 0, 1, 1, 0, 0, -1, 0, -1, 1, 0};

static void turned(void) {
    static uint8_t before;
    uint8_t now = PIND & 3;
    place += direction[before << 2 | now];
    before = now;
    PORTC = place;
}

ISR(INT0_vect) {
    turned();
}

ISR(INT1_vect, ISR_ALIASOF(INT0_vect));

int main(void) {
    EIMSK = _BV(INT0) | _BV(INT1);
    sei();
    while (!(PIND & _BV(PD7))) {
    }
    cli();
    PORTA = place;
}
