// Sifts the primes below 5,000 in 5,000 bytes of heap, as the task that it is linked for.
//
// Output: below 5,000 there are 669 primes (0x029D), of which the greatest is 4,999 (0x1387). Each number goes out as its
// high byte on port A and its low one on port B. Behind the first 256, and behind the first 512, the prime is shown
// that was found then: the 256th prime is 1,619 (0x0653), and the 512th is 3,671 (0x0E57).
//
// The numbers lie in 20 pages of 256 bytes, and the library's variables in one, so --swap is to be 21 at least.

#include <avr/io.h>
#include <stdlib.h>

enum { BOUND = 5000 };

static void show(uint16_t number) {
    PORTA = number >> 8;
    PORTB = number & 0xFF;
}

int main(void) {
    uint8_t *composite = calloc(BOUND, 1);
    uint16_t found = 0, last = 0;
    if (composite == NULL) {
        return 1;
    }
    for (uint16_t number = 2; number < BOUND; number++) {
        if (composite[number]) {
            continue;
        }
        found++;
        last = number;
        if (found % 256 == 0) {
            show(number);
        }
        for (uint16_t other = number; other < BOUND - number; other += number) {
            composite[other + number] = 1;
        }
    }
    show(found);
    show(last);
}
