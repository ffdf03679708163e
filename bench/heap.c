// Sorts 1,400 numbers again and again: 2,800 bytes of heap are eleven pages or twelve, and eight of them have a
// frame at a time. All of it lies in the chip's own SRAM, so that a simulator without more memory can run it.
//
// Output: 797 is a prime that doesn't divide 1,400, so the numbers are 0 to 1,399 in another order, and sorted,
// place i holds i. The sum of the places 0 to 19 is 190, or 0x00BE.

#include <avr/interrupt.h>
#include <avr/io.h>
#include <avr/sleep.h>
#include <stdlib.h>

enum { COUNT = 1400 };

static int by_value(const void *left, const void *right) {
    uint16_t first = *(const uint16_t *)left, second = *(const uint16_t *)right;
    return (first > second) - (first < second);
}

int main(void) {
    uint16_t *numbers = malloc(COUNT * sizeof *numbers), sum = 0;
    for (uint8_t times = 0; times < 20; times++) {
        for (uint16_t i = 0; i < COUNT; i++) {
            numbers[i] = (i + times) * 797UL % COUNT;
        }
        qsort(numbers, COUNT, sizeof *numbers, by_value);
        sum += numbers[times];
    }
    PORTC = sum >> 8;
    PORTD = sum & 0xFF;
    cli();
    sleep_cpu();
}
