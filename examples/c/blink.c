// Blinks a lamp at pin 5 of port B: four times 10 ms on and 10 ms off.
//
// Output: the pin is made an output (DDRB 0x20), then comes PORTB 0x20 and PORTB 0x00 for each blink. main
// returns to the start-up code, which halts.

#define F_CPU 7372800UL

#include <avr/io.h>
#include <util/delay.h>

int main(void) {
    DDRB |= _BV(PB5);
    for (uint8_t blink = 0; blink < 4; blink++) {
        PORTB |= _BV(PB5);
        _delay_ms(10);
        PORTB &= ~_BV(PB5);
        _delay_ms(10);
    }
}
