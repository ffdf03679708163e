// Sleeps until a button at INT3 is pressed, prints a byte over the serial line, and sleeps again. After three
// presses it sleeps with interrupts off, which nothing ends.
//
// Output: 1, 2 and 3 as digits, and asleep. No poll is made: a SLEEP that an interrupt ends brings the count of
// polls to the number of the event that ends it, and an interrupt is due then whatever the quantum, so the handler
// runs before the instruction behind SLEEP. INT5 comes too and isn't enabled, so it wakes nothing.

#include <avr/interrupt.h>
#include <avr/io.h>
#include <avr/sleep.h>

static volatile uint8_t presses;

ISR(INT3_vect) {
    presses++;
}

int main(void) {
    EIMSK = _BV(INT3);
    sleep_enable();
    while (presses < 3) {
        sei();
        sleep_cpu();
        cli();
        UDR0 = '0' + presses;
    }
    sleep_cpu();
}
