// The ports of examples/c on a PC: a write to one prints its device line, so that a program whose arithmetic
// doesn't depend on the part prints there what it prints on the mote.
//
//     cc -I examples/pc -o sums examples/c/sums.c && ./sums
//
// tkernel prints the stop line and the count line behind them.

#ifndef PC_AVR_IO_H
#define PC_AVR_IO_H

#include <stdint.h>
#include <stdio.h>
#include <stdlib.h>

static uint8_t pc_value;
static const char *pc_port;

// Prints the byte that was written last, once the next one comes or the program ends.
static void pc_print(void) {
    if (pc_port != NULL) {
        printf("%s 0x%02X\n", pc_port, pc_value);
    }
}

static uint8_t *pc_written(const char *port) {
    if (pc_port == NULL) {
        atexit(pc_print);
    }
    pc_print();
    pc_port = port;
    return &pc_value;
}

#define PORTA (*pc_written("PORTA"))
#define PORTB (*pc_written("PORTB"))
#define PORTC (*pc_written("PORTC"))
#define PORTD (*pc_written("PORTD"))
#define DDRA (*pc_written("DDRA"))
#define DDRB (*pc_written("DDRB"))
#define DDRC (*pc_written("DDRC"))
#define DDRD (*pc_written("DDRD"))
#define UDR0 (*pc_written("UART0"))

#endif
