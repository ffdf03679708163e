// Does what four bytes order by a table of functions. The third is missing there, and so the program begins again and again.

#include <avr/io.h>
#include <stddef.h>

typedef void action(void);

static void left(void) {
    PORTA = 1;
}

static void right(void) {
    PORTA = 2;
}

static void halt(void) {
    PORTA = 3;
}

static action *actions[] = {left, right, NULL, halt};
static volatile uint8_t orders[] = {0, 1, 2, 3};

__attribute__((noinline)) static void obey(uint8_t order) {
    actions[order]();
    PORTB = order;
}

int main(void) {
    for (uint8_t i = 0; i < sizeof orders; i++) {
        obey(orders[i]);
    }
}
