// Looks for a sensor that isn't in the list, and forgets that a list ends: behind the last sensor it follows
// the null pointer.
//
// Output: the numbers of the three sensors that it passes. Then it reads `number` of a sensor at address 0:
// that is byte 40 (0x28), the register ACSR, which a program may not touch, so it ends in an io fault.

#include <avr/io.h>
#include <stddef.h>

struct sensor {
    char name[40];
    uint8_t number;
    struct sensor *next;
};

static struct sensor light = {"light", 3, NULL};
static struct sensor sound = {"sound", 2, &light};
static struct sensor heat = {"heat", 1, &sound};

static struct sensor *find(struct sensor *sensor, uint8_t number) {
    while (sensor->number != number) {
        PORTA = sensor->number;
        sensor = sensor->next;
    }
    return sensor;
}

int main(void) {
    PORTB = find(&heat, 4)->name[0];
}
