// A ring buffer between a handler and the main loop: INT1 tells that a byte stands at port A; its handler puts the byte
// into the ring, and the main loop takes the bytes out and sends them over the serial line, more slowly than they come.
//
// The handler alone writes `head`, and the loop alone `tail`, each a single byte, so neither needs interrupts off. The
// ring is full with one place free; a byte that comes then is lost, and counted.
//
// Output: the lines "ring" and "buffers!" over the serial line. The loop waits 20 polls behind each byte that it sends,
// and each handler makes one, so it takes a byte each 21 to 26 polls. Those of the second line come 5 polls apart: two
// of the nine are taken before the last comes, 40 polls behind the first, so seven are then in the ring, which has no
// place more, and its end is passed. Then 0x00 on port A, the bytes lost, and 0x07 on port B, the most in the ring.

#include <avr/interrupt.h>
#include <avr/io.h>

enum { SIZE = 8, LENGTH = 14 };

static volatile uint8_t ring[SIZE], head, tail, lost, most;

ISR(INT1_vect) {
    uint8_t byte = PINA, next = (head + 1) % SIZE, held = (uint8_t)(next - tail) % SIZE;
    if (next == tail) {
        lost++;
        return;
    }
    ring[head] = byte;
    head = next;
    if (held > most) {
        most = held;
    }
}

int main(void) {
    EIMSK = _BV(INT1);
    sei();
    for (uint8_t sent = 0; sent < LENGTH; sent++) {
        while (head == tail) {
            (void)PIND;
        }
        UDR0 = ring[tail];
        tail = (tail + 1) % SIZE;
        for (uint8_t i = 0; i < 20; i++) {
            (void)PIND;
        }
    }
    cli();
    PORTA = lost;
    PORTB = most;
}
