// Counts the presses of a button at INT0 in an interrupt handler, and shows the count on port A after three.
//
// Output: 0x03, whatever the loop does at the moment of a press. A handler runs at a checkpoint: the loop crosses
// once a turn, so with the quantum of 255 a press is counted up to 255 turns later. The script's presses come at
// polls, of which there is one a turn, and are 1,000 polls apart, so each is counted before the next one comes.

#include <avr/interrupt.h>
#include <avr/io.h>

static volatile uint8_t presses;

ISR(INT0_vect) {
    presses++;
}

int main(void) {
    EIMSK = _BV(INT0);
    sei();
    while (presses < 3) {
        (void)PIND;
    }
    cli();
    PORTA = presses;
}
