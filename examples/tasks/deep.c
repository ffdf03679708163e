// Calls itself without an end: each call takes stack, and the one that would leave the stack window is a stack fault.
//
// Output: the depth on port A at every 16th call, 0x10 to 0xF0. A call takes 4 bytes, its return address and two saved
// registers, and the call of main has taken 2 of the 1,024. So 255 calls have room; the next finds two bytes, which its
// return address takes, and its first push is the fault, at 0x0CFF.

#include <avr/io.h>

static void deeper(uint16_t depth) {
    if (depth % 16 == 0) {
        PORTA = depth;
    }
    deeper(depth + 1);
    PORTA = depth;
}

int main(void) {
    deeper(1);
}
