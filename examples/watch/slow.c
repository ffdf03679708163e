// Sums the digits of 500 numbers of 32 bits, with two divisions a digit.

#include <avr/io.h>

static uint16_t digits(uint32_t number) {
    uint16_t sum = 0;
    while (number) {
        sum += number % 10;
        number /= 10;
    }
    return sum;
}

int main(void) {
    uint16_t sum = 0;
    for (uint32_t i = 0; i < 500; i++)
        sum += digits(i * 7919);
    PORTC = sum >> 8;
    PORTD = sum & 0xFF;
}
