// The SHA-1 of 6,144 letters "a", with all rounds written out. That is 22 KB of code, executed from the first to the
// last word for each block of 64 letters and for the one that ends the message: more than the code pool holds, in a
// loop, so that each page is erased before control comes to it again.
//
// Output: the digest's first word, 0x12C385B5, a byte on each port.

#include <avr/interrupt.h>
#include <avr/io.h>
#include <avr/sleep.h>

enum { LENGTH = 6144 };

#define ROTATED(x, bits) ((x) << (bits) | (x) >> (32 - (bits)))

#define CHOOSE(x, y, z) (((x) & (y)) | (~(x) & (z)))
#define PARITY(x, y, z) ((x) ^ (y) ^ (z))
#define MAJORITY(x, y, z) (((x) & (y)) | ((x) & (z)) | ((y) & (z)))

#define ROUND(f, constant, i)                                                                                        \
    if (i >= 16) {                                                                                                   \
        sum = words[(i + 13) % 16] ^ words[(i + 8) % 16] ^ words[(i + 2) % 16] ^ words[i % 16];                      \
        words[i % 16] = ROTATED(sum, 1);                                                                             \
    }                                                                                                                \
    sum = ROTATED(a, 5) + f(b, c, d) + e + constant + words[i % 16];                                                 \
    e = d, d = c, c = ROTATED(b, 30), b = a, a = sum;
#define FIVE_ROUNDS(f, k, i)                                                                                         \
    ROUND(f, k, (i)) ROUND(f, k, (i + 1)) ROUND(f, k, (i + 2)) ROUND(f, k, (i + 3)) ROUND(f, k, (i + 4))
#define TWENTY_ROUNDS(f, k, i)                                                                                       \
    FIVE_ROUNDS(f, k, i) FIVE_ROUNDS(f, k, i + 5) FIVE_ROUNDS(f, k, i + 10) FIVE_ROUNDS(f, k, i + 15)

static uint32_t words[16], digest[5] = {0x67452301, 0xEFCDAB89, 0x98BADCFE, 0x10325476, 0xC3D2E1F0};

static void take_block(void) {
    uint32_t a = digest[0], b = digest[1], c = digest[2], d = digest[3], e = digest[4], sum;
    TWENTY_ROUNDS(CHOOSE, 0x5A827999, 0)
    TWENTY_ROUNDS(PARITY, 0x6ED9EBA1, 20)
    TWENTY_ROUNDS(MAJORITY, 0x8F1BBCDC, 40)
    TWENTY_ROUNDS(PARITY, 0xCA62C1D6, 60)
    digest[0] += a;
    digest[1] += b;
    digest[2] += c;
    digest[3] += d;
    digest[4] += e;
}

int main(void) {
    for (uint8_t block = 0; block <= LENGTH / 64; block++) {
        for (uint8_t i = 0; i < 16; i++) {
            words[i] = block < LENGTH / 64 ? 0x61616161 : 0;
        }
        if (block == LENGTH / 64) {
            words[0] = 0x80000000;
            words[15] = 8UL * LENGTH;
        }
        take_block();
    }
    PORTA = digest[0] >> 24;
    PORTB = digest[0] >> 16 & 0xFF;
    PORTC = digest[0] >> 8 & 0xFF;
    PORTD = digest[0] & 0xFF;
    cli();
    sleep_cpu();
}
