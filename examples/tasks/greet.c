// Greets who types a name: reads bytes from the serial line up to a line feed, and sends them back behind a greeting.
//
// Output over the serial line: "hello, NAME" and a line feed. It ends by itself, so its line must have one.

#include <avr/io.h>

enum { ROOM = 32 };

static void send(const char *text) {
    while (*text) {
        UDR0 = *text++;
    }
}

int main(void) {
    static char name[ROOM];
    uint8_t length = 0;
    do {
        loop_until_bit_is_set(UCSR0A, RXC0);
        name[length] = UDR0;
    } while (name[length] != '\n' && ++length < ROOM - 1);
    name[length] = '\0';
    send("hello, ");
    send(name);
    send("\n");
}
