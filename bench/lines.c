// Writes 100,000 times to the register OUTPUT: to one of a port, each write shows a line, and to one of the timer
// none does. So two builds tell what the lines cost.

#include <avr/interrupt.h>
#include <avr/io.h>
#include <avr/sleep.h>

int main(void) {
    for (uint32_t n = 0; n < 100000; n++) {
        OUTPUT = n & 0xFF;
    }
    cli();
    sleep_cpu();
}
