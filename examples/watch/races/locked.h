// What the programs have in common: each has a race, and with -DRIGHT none.

#include <avr/interrupt.h>
#include <avr/io.h>
#include <util/atomic.h>

enum { TURNS = 200 }; // each with a poll, so that ticks.script raises its 40 interrupts on the way

#ifdef RIGHT
#define LOCKED ATOMIC_BLOCK(ATOMIC_RESTORESTATE)
#else
#define LOCKED
#endif
