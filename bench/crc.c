// The CRC of 460,000 bytes, bit by bit: arithmetic and branches in registers alone.
//
// Output: 0x7925, as lpm.c finds by a table.

#include <avr/interrupt.h>
#include <avr/io.h>
#include <avr/sleep.h>

int main(void) {
    uint16_t crc = 0xFFFF;
    for (uint32_t n = 0; n < 460000; n++) {
        crc ^= (uint16_t)(n & 0xFF) << 8;
        for (uint8_t bit = 0; bit < 8; bit++) {
            crc = crc & 0x8000 ? crc << 1 ^ 0x1021 : crc << 1;
        }
    }
    PORTC = crc >> 8;
    PORTD = crc & 0xFF;
    cli();
    sleep_cpu();
}
