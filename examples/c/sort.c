// Sorts 20,000 numbers in 40,000 bytes of heap, on a mote that has 4,096 bytes of SRAM.
//
// Output: 7,919 is a prime that doesn't divide 20,000, so the multiples i * 7,919 modulo 20,000 are the numbers
// 0 to 19,999 in another order. Sorted, place i holds i. Shown are places 0, 1, 12,345 (0x3039) and 19,999
// (0x4E1F), the high byte on port C and the low one on port D, and then how many places hold something else.
//
// The numbers lie in 157 pages of 256 bytes, and the library's variables in one, so --swap is to be 158 at least.

#include <avr/io.h>
#include <stdlib.h>

enum { COUNT = 20000 };

static int by_value(const void *left, const void *right) {
    uint16_t first = *(const uint16_t *)left, second = *(const uint16_t *)right;
    return (first > second) - (first < second);
}

static void show(uint16_t number) {
    PORTC = number >> 8;
    PORTD = number & 0xFF;
}

int main(void) {
    uint16_t *numbers = malloc(COUNT * sizeof *numbers), wrong = 0;
    if (numbers == NULL) {
        return 1;
    }
    for (uint16_t i = 0; i < COUNT; i++) {
        numbers[i] = i * 7919UL % COUNT;
    }
    qsort(numbers, COUNT, sizeof *numbers, by_value);
    show(numbers[0]);
    show(numbers[1]);
    show(numbers[12345]);
    show(numbers[COUNT - 1]);
    for (uint16_t i = 0; i < COUNT; i++) {
        wrong += numbers[i] != i;
    }
    show(wrong);
}
