// Two threads that take turns, each on a stack of its own, as a small RTOS keeps them: one counts up on port A and
// the other down on port B.
//
// The stacks are arrays in the section .stk, which threads.build puts at 0x0D00, inside the stack window. As plain
// static arrays they would lie below it, and the first call of a thread would be a stack fault.
//
// Output: 9 on port B and 1 on port A, 8 and 2, 7 and 3, and then 6. After 3 the thread that counts up ends the run.

#include <avr/io.h>
#include <setjmp.h>
#include <stdlib.h>

#define STACK __attribute__((section(".stk,\"aw\",@nobits;")))

static uint8_t up_stack[256] STACK, down_stack[256] STACK;
static jmp_buf threads[2];
static uint8_t running;

static void hand_over(void) {
    if (setjmp(threads[running]) == 0) {
        running ^= 1;
        longjmp(threads[running], 1);
    }
}

static void count_up(void) {
    for (uint8_t number = 1; number <= 3; number++) {
        PORTA = number;
        hand_over();
    }
    exit(0);
}

static void count_down(void) {
    for (uint8_t number = 9;; number--) {
        PORTB = number;
        hand_over();
    }
}

// Goes on with a thread, from the last byte of its stack down.
static void begin(void (*thread)(void), uint8_t *last) {
    SP = (uint16_t)last;
    thread();
}

int main(void) {
    if (setjmp(threads[0]) == 0) {
        running = 1;
        begin(count_down, down_stack + sizeof down_stack - 1);
    }
    begin(count_up, up_stack + sizeof up_stack - 1);
}
