// Counts the pulses at INT0 in the time of 1,000 polls of port D. The script has three, and two are counted, since the first two come
// before one checkpoint.

#include <avr/interrupt.h>
#include <avr/io.h>

static volatile uint8_t pulses;

ISR(INT0_vect) {
    pulses++;
}

int main(void) {
    EIMSK = _BV(INT0);
    sei();
    for (uint16_t i = 0; i < 1000; i++) {
        (void)PIND;
    }
    cli();
    PORTA = pulses;
}
