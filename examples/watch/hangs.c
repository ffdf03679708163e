// Waits for a flag that the handler of INT0 sets, but never enables INT0.

#include <avr/interrupt.h>
#include <avr/io.h>

static volatile uint8_t pressed;

ISR(INT0_vect) {
    pressed = 1;
}

int main(void) {
    PORTA = 1;
    sei();
    while (!pressed) {
    }
    PORTA = 2;
}
