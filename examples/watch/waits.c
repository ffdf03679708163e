// Adds three bytes that come over the serial line. The third of waits.script comes late: at poll 900,000.

#include <avr/io.h>

static uint8_t serial_get(void) {
    loop_until_bit_is_set(UCSR0A, RXC0);
    return UDR0;
}

int main(void) {
    uint8_t sum = 0;
    for (uint8_t i = 0; i < 3; i++)
        sum += serial_get();
    PORTA = sum;
}
