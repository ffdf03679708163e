// Waits for a button at pin 0 of port B that nobody presses.
//
// Output: port A is made an output and shows 1. No script changes the pins, so the wait goes on until all steps
// that were allowed are done.

#include <avr/io.h>

int main(void) {
    DDRA = 0xFF;
    PORTA = 1;
    loop_until_bit_is_set(PINB, PB0);
    PORTA = 2;
}
