// Counts the presses of a button at pin 2 of port D, which is low while it is pressed, and prints a line for
// each over the serial line. A switch to ground at pin 3 ends it, and the count is shown on port A.
//
// Output: the script presses three times, and two presses are counted. Each turn of the loop polls the pins once,
// and each byte that is sent polls UCSR0A once. The first press is seen at poll 10, and "press" and a line feed
// are polls 11 to 16. The second press begins at poll 13 and ends at poll 16, so no poll of the pins sees it. A
// pull-up isn't modelled: the script's first line holds both pins high.

#include <avr/io.h>

static void serial_put(uint8_t byte) {
    loop_until_bit_is_set(UCSR0A, UDRE0);
    UDR0 = byte;
}

static void serial_print(const char *text) {
    while (*text) {
        serial_put(*text++);
    }
}

int main(void) {
    uint8_t count = 0, before = _BV(PD2), pins;
    PORTD = _BV(PD2) | _BV(PD3);
    while ((pins = PIND) & _BV(PD3)) {
        if (before & ~pins & _BV(PD2)) {
            count++;
            serial_print("press\n");
        }
        before = pins;
    }
    PORTA = count;
}
