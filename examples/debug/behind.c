// Keeps eight readings, and shows the limit that lies behind them on port A: 0x32 is wanted, and 0x50 is shown, since the last reading
// is stored behind the array.

#include <avr/io.h>

static struct {
    uint8_t readings[8];
    uint8_t limit;
} meter = {.limit = 50};

__attribute__((noinline)) static void keep(int i, int value) {
    meter.readings[i] = value;
}

int main(void) {
    for (int i = 1; i <= 8; i++) {
        keep(i, 10 * i);
    }
    PORTA = meter.limit;
}
