// Sorts 2,000 numbers in 4,000 bytes of heap, as the task that it is linked for.
//
// Output: 7,919 is a prime that doesn't divide 2,000, so the multiples i * 7,919 modulo 2,000 are the numbers 0 to 1,999
// in another order. Sorted, place i holds i. Shown are places 0, 1,234 (0x04D2) and 1,999 (0x07CF), the high byte on
// port C and the low one on port D, and then how many places hold something else.
//
// The numbers lie in 16 pages of 256 bytes, and the library's variables in one, so --swap is to be 17 at least.

#include <avr/io.h>
#include <stdlib.h>

enum { COUNT = 2000 };

static int by_value(const void *left, const void *right) {
    uint16_t first = *(const uint16_t *)left, second = *(const uint16_t *)right;
    return (first > second) - (first < second);
}

static void show(uint16_t number) {
    PORTC = number >> 8;
    PORTD = number & 0xFF;
}

int main(void) {
    uint16_t *numbers = malloc(COUNT * sizeof *numbers), wrong = 0;
    if (numbers == NULL) {
        return 1;
    }
    for (uint16_t i = 0; i < COUNT; i++) {
        numbers[i] = i * 7919UL % COUNT;
    }
    qsort(numbers, COUNT, sizeof *numbers, by_value);
    show(numbers[0]);
    show(numbers[1234]);
    show(numbers[COUNT - 1]);
    for (uint16_t i = 0; i < COUNT; i++) {
        wrong += numbers[i] != i;
    }
    show(wrong);
}
