// Fibonacci's numbers by recursion: calls, returns, and registers saved on the stack.
//
// Output: the 23rd is 28,657, and 25 times that modulo 65,536 is 61,065, or 0xEE89.

#include <avr/interrupt.h>
#include <avr/io.h>
#include <avr/sleep.h>

static uint16_t fibonacci(uint8_t n) {
    return n < 2 ? n : fibonacci(n - 1) + fibonacci(n - 2);
}

int main(void) {
    uint16_t sum = 0;
    for (uint8_t times = 0; times < 25; times++) {
        sum += fibonacci(23);
    }
    PORTC = sum >> 8;
    PORTD = sum & 0xFF;
    cli();
    sleep_cpu();
}
