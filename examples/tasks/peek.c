// Copies the first bytes of its own code into the heap, and shows how many are not as they stand; then it looks what another
// task has at byte 16 of the image. Linked for any task but 0.
//
// Output: no byte differs. Then the task ends, since it would read word 8, which is not in its quarter.

#include <avr/io.h>
#include <avr/pgmspace.h>
#include <stdlib.h>

enum { COUNT = 600 };

extern const uint8_t __vectors[] PROGMEM;

int main(void) {
    uint8_t *copy = malloc(COUNT);
    uint8_t differing = 0;
    if (copy == NULL) {
        return 1;
    }
    for (uint16_t i = 0; i < COUNT; i++) {
        copy[i] = pgm_read_byte(__vectors + i);
    }
    for (uint16_t i = 0; i < COUNT; i++) {
        differing += copy[i] != pgm_read_byte(__vectors + i);
    }
    PORTA = differing;
    PORTB = pgm_read_byte(16);
}
