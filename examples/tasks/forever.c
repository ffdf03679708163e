// Waits for a button that nobody presses, and counts how often it looked, in the heap.
//
// Output: none. The task ends when its steps are done.

#include <avr/io.h>
#include <stdlib.h>

int main(void) {
    volatile uint32_t *looks = calloc(1, sizeof *looks);
    if (looks == NULL) {
        return 1;
    }
    while (!(PINA & 1)) {
        ++*looks;
    }
    PORTB = *looks & 0xFF;
}
