// Prints over the serial line with printf.
//
// Output: the bytes of the three lines "1 squared is 1", "2 squared is 4" and "12 squared is 144", each with
// its line feed.

#include <avr/io.h>
#include <stdio.h>

static int serial_put(char byte, FILE *stream) {
    loop_until_bit_is_set(UCSR0A, UDRE0);
    UDR0 = byte;
    return 0;
}

static FILE serial = FDEV_SETUP_STREAM(serial_put, NULL, _FDEV_SETUP_WRITE);

int main(void) {
    static const uint8_t numbers[] = {1, 2, 12};
    stdout = &serial;
    for (uint8_t i = 0; i < sizeof numbers; i++) {
        printf("%u squared is %u\n", numbers[i], numbers[i] * numbers[i]);
    }
}
