// An empty function called from 800 places: each return is an arrival at one of 800 addresses, of which the kernel's
// tables of places hold 160, so this is what calls and returns cost at most.
//
// Output: the number that is handed through 8,000,000 calls, 0x2A.

#include <avr/interrupt.h>
#include <avr/io.h>
#include <avr/sleep.h>

#define TEN(calls) calls calls calls calls calls calls calls calls calls calls
#define EIGHT(calls) calls calls calls calls calls calls calls calls

static uint8_t __attribute__((noinline)) same(uint8_t n) {
    asm volatile("" : "+r"(n));
    return n;
}

int main(void) {
    uint8_t n = 0x2A;
    for (uint16_t times = 0; times < 10000; times++) {
        TEN(TEN(EIGHT(n = same(n);)))
    }
    PORTD = n;
    cli();
    sleep_cpu();
}
