// A preemptive kernel: three threads that know nothing of each other are changed at each tick, wherever they are. The
// tick is INT0, raised by the script at each 50th poll, as no timer raises an interrupt.
//
// The handler is naked. It pushes the whole core on the stack of the thread that was interrupted, gives the stack pointer
// to the next thread, pops that one's core, and goes on there by RETI. The stacks lie inside the stack window
// (kernel.build); main is the first thread, on the stack that it has anyway.
//
// Output: two threads add 1 to a common number, 1,000 times each, with interrupts off for the while, so none is lost:
// 2,000, 0x07D0, as 0x07 on port B and 0xD0 on port A. Each of the two also counts how often the number was changed
// since its own last time. There is a poll in each round, a tick each 50 polls, and a checkpoint, where the tick is
// taken, each 10 crossings: so no turn of a thread has 100 rounds. So each has more than ten turns, and between any two
// of the first eleven the other has one as well: ten changes at least, which 1 on port C tells.

#include <avr/interrupt.h>
#include <avr/io.h>

enum { THREADS = 3, ROUNDS = 1000, CONTEXT = 33 };

#define STACK __attribute__((section(".stk,\"aw\",@nobits;")))

static uint8_t stacks[THREADS - 1][128] STACK;
static uint8_t *saved[THREADS]; // the stack pointer of each thread that waits
static uint8_t running;

static volatile uint16_t number;
static volatile uint8_t ended, changes = 255;

// Keeps the stack pointer of the thread that runs, and gives that of the next.
__attribute__((used)) static uint8_t *next(uint8_t *stack) {
    saved[running] = stack;
    running = (running + 1) % THREADS;
    return saved[running];
}

ISR(INT0_vect, ISR_NAKED) {
    asm volatile(
        "push r0\n in r0, __SREG__\n push r0\n"
        ".irp n, 1,2,3,4,5,6,7,8,9,10,11,12,13,14,15,16,17,18,19,20,21,22,23,24,25,26,27,28,29,30,31\n push \\n\n .endr\n"
        "clr r1\n in r24, __SP_L__\n in r25, __SP_H__\n"
        "call next\n"
        "out __SP_H__, r25\n out __SP_L__, r24\n"
        ".irp n, 31,30,29,28,27,26,25,24,23,22,21,20,19,18,17,16,15,14,13,12,11,10,9,8,7,6,5,4,3,2,1\n pop \\n\n .endr\n"
        "pop r0\n out __SREG__, r0\n pop r0\n reti");
}

// Adds to the number, and keeps the least count of changes of all threads.
static void add(void) {
    uint16_t own = 0;
    uint8_t changed = 0;
    for (uint16_t round = 0; round < ROUNDS; round++) {
        cli();
        if (number != own) {
            changed++;
        }
        own = ++number;
        sei();
        (void)PIND;
    }
    cli();
    if (changed < changes) {
        changes = changed;
    }
    ended++;
    sei();
    for (;;) {
        (void)PIND;
    }
}

// A stack as the handler leaves that of a thread, which is to go on at the front of add: its address, the core, all 0.
static uint8_t *begun(uint8_t *last) {
    *last-- = (uint16_t)add & 0xFF;
    *last-- = (uint16_t)add >> 8;
    return last - CONTEXT;
}

int main(void) {
    for (uint8_t i = 1; i < THREADS; i++) {
        saved[i] = begun(stacks[i - 1] + sizeof stacks[0] - 1);
    }
    EIMSK = _BV(INT0);
    sei();
    while (ended < THREADS - 1) {
        (void)PIND;
    }
    cli();
    PORTB = number >> 8;
    PORTA = number & 0xFF;
    PORTC = changes >= 10;
}
