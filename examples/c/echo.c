// Sends back each byte that comes over the serial line, until a line feed has come.
//
// Output: the bytes of the script in its order, "hello" and a line feed: 68 65 6C 6C 6F 0A. Some come while
// the program waits and some together: none is lost, and each is sent once.

#include <avr/io.h>

static void serial_begin(void) {
    UBRR0H = 0;
    UBRR0L = 47; // 9,600 baud at 7.3728 MHz
    UCSR0B = _BV(RXEN0) | _BV(TXEN0);
    UCSR0C = _BV(UCSZ01) | _BV(UCSZ00);
}

static uint8_t serial_get(void) {
    loop_until_bit_is_set(UCSR0A, RXC0);
    return UDR0;
}

static void serial_put(uint8_t byte) {
    loop_until_bit_is_set(UCSR0A, UDRE0);
    UDR0 = byte;
}

int main(void) {
    uint8_t byte;
    serial_begin();
    do {
        byte = serial_get();
        serial_put(byte);
    } while (byte != '\n');
}
