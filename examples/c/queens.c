// Counts the ways to set eight queens on a chessboard so that none attacks another, by recursion: one call
// for each row of the board, with the columns and diagonals that are taken as bits.
//
// Output: there are 92 ways, 0x5C.

#include <avr/io.h>

static uint8_t ways(uint8_t columns, uint8_t rising, uint8_t falling) {
    uint8_t found = 0;
    if (columns == 0xFF) {
        return 1;
    }
    for (uint8_t free = ~(columns | rising | falling); free != 0; free &= free - 1) {
        uint8_t queen = free & -free;
        found += ways(columns | queen, (rising | queen) << 1, (falling | queen) >> 1);
    }
    return found;
}

int main(void) {
    PORTA = ways(0, 0, 0);
}
