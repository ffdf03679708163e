// A handler that lets others in: INT1's turns interrupts on again, and INT0's comes in its midst.
//
// Output on port B: 0x10 where INT1's handler begins, 0x01 from INT0's in its midst, 0x11 where INT1's ends, then
// 0x0F from main. Both inputs come at one poll, and the lower number goes first, so INT0's runs once before too.
// With a quantum of 1 each crossing is a checkpoint, so a handler runs at the next step back or to another page.

#include <avr/interrupt.h>
#include <avr/io.h>

static volatile uint8_t first, second;

ISR(INT0_vect) {
    PORTB = 0x01;
    first++;
}

ISR(INT1_vect, ISR_NOBLOCK) {
    PORTB = 0x10;
    while (first < 2) {
        (void)PIND;
    }
    PORTB = 0x11;
    second++;
}

int main(void) {
    EIMSK = _BV(INT0) | _BV(INT1);
    sei();
    while (second < 1) {
        (void)PIND;
    }
    cli();
    PORTB = 0x0F;
}
