// The SHA-256 of the message of two blocks that FIPS 180-2 works out (appendix B.2), made 20 times. Sixteen rounds are
// written out, and gone through four times a block, as in many libraries: 10 KB of code, in a loop, which is more than
// the code pool holds.
//
// Output: the digest's first word, 0x248D6A61, a byte on each port. The standard has
// 248d6a61 d20638b8 e5c02693 0c3e6039 a33ce459 64ff2167 f6ecedd4 19db06c1.

#include <avr/interrupt.h>
#include <avr/io.h>
#include <avr/sleep.h>

enum { LETTERS = 56, TIMES = 20 };

#define ROTATED(x, bits) ((x) >> (bits) | (x) << (32 - (bits)))

#define CHOOSE(x, y, z) (((x) & (y)) ^ (~(x) & (z)))
#define MAJORITY(x, y, z) (((x) & (y)) ^ ((x) & (z)) ^ ((y) & (z)))

#define ROUND(a, b, c, d, e, f, g, h, i)                                                                             \
    h += (ROTATED(e, 6) ^ ROTATED(e, 11) ^ ROTATED(e, 25)) + CHOOSE(e, f, g) + constants[i] + words[i];              \
    d += h;                                                                                                          \
    h += (ROTATED(a, 2) ^ ROTATED(a, 13) ^ ROTATED(a, 22)) + MAJORITY(a, b, c);
#define EIGHT_ROUNDS(i)                                                                                              \
    ROUND(a, b, c, d, e, f, g, h, i)                                                                                 \
    ROUND(h, a, b, c, d, e, f, g, i + 1)                                                                             \
    ROUND(g, h, a, b, c, d, e, f, i + 2)                                                                             \
    ROUND(f, g, h, a, b, c, d, e, i + 3)                                                                             \
    ROUND(e, f, g, h, a, b, c, d, i + 4)                                                                             \
    ROUND(d, e, f, g, h, a, b, c, i + 5)                                                                             \
    ROUND(c, d, e, f, g, h, a, b, i + 6)                                                                             \
    ROUND(b, c, d, e, f, g, h, a, i + 7)

static const uint32_t constants[64] = {
    0x428A2F98, 0x71374491, 0xB5C0FBCF, 0xE9B5DBA5, 0x3956C25B, 0x59F111F1, 0x923F82A4, 0xAB1C5ED5,
    0xD807AA98, 0x12835B01, 0x243185BE, 0x550C7DC3, 0x72BE5D74, 0x80DEB1FE, 0x9BDC06A7, 0xC19BF174,
    0xE49B69C1, 0xEFBE4786, 0x0FC19DC6, 0x240CA1CC, 0x2DE92C6F, 0x4A7484AA, 0x5CB0A9DC, 0x76F988DA,
    0x983E5152, 0xA831C66D, 0xB00327C8, 0xBF597FC7, 0xC6E00BF3, 0xD5A79147, 0x06CA6351, 0x14292967,
    0x27B70A85, 0x2E1B2138, 0x4D2C6DFC, 0x53380D13, 0x650A7354, 0x766A0ABB, 0x81C2C92E, 0x92722C85,
    0xA2BFE8A1, 0xA81A664B, 0xC24B8B70, 0xC76C51A3, 0xD192E819, 0xD6990624, 0xF40E3585, 0x106AA070,
    0x19A4C116, 0x1E376C08, 0x2748774C, 0x34B0BCB5, 0x391C0CB3, 0x4ED8AA4A, 0x5B9CCA4F, 0x682E6FF3,
    0x748F82EE, 0x78A5636F, 0x84C87814, 0x8CC70208, 0x90BEFFFA, 0xA4506CEB, 0xBEF9A3F7, 0xC67178F2,
};
static const uint32_t first_digest[8] = {0x6A09E667, 0xBB67AE85, 0x3C6EF372, 0xA54FF53A,
                                         0x510E527F, 0x9B05688C, 0x1F83D9AB, 0x5BE0CD19};
static uint32_t words[64], digest[8];

static void take_block(void) {
    uint32_t a = digest[0], b = digest[1], c = digest[2], d = digest[3];
    uint32_t e = digest[4], f = digest[5], g = digest[6], h = digest[7];
    for (uint8_t i = 16; i < 64; i++) {
        uint32_t later = words[i - 2], earlier = words[i - 15];
        words[i] = words[i - 16] + words[i - 7] + (ROTATED(earlier, 7) ^ ROTATED(earlier, 18) ^ earlier >> 3) +
                   (ROTATED(later, 17) ^ ROTATED(later, 19) ^ later >> 10);
    }
    for (uint8_t i = 0; i < 64; i += 16) {
        EIGHT_ROUNDS(i) EIGHT_ROUNDS(i + 8)
    }
    digest[0] += a;
    digest[1] += b;
    digest[2] += c;
    digest[3] += d;
    digest[4] += e;
    digest[5] += f;
    digest[6] += g;
    digest[7] += h;
}

int main(void) {
    for (uint8_t time = 0; time < TIMES; time++) {
        for (uint8_t i = 0; i < 8; i++) {
            digest[i] = first_digest[i];
        }
        // The letters abcd, bcde, and so on up to nopq, and the bit that ends them.
        for (uint8_t i = 0; i < 16; i++) {
            words[i] = i < LETTERS / 4 ? 0x61626364 + i * 0x01010101UL : 0;
        }
        words[LETTERS / 4] = 0x80000000;
        take_block();
        for (uint8_t i = 0; i < 15; i++) {
            words[i] = 0;
        }
        words[15] = 8 * LETTERS;
        take_block();
    }
    PORTA = digest[0] >> 24;
    PORTB = digest[0] >> 16 & 0xFF;
    PORTC = digest[0] >> 8 & 0xFF;
    PORTD = digest[0] & 0xFF;
    cli();
    sleep_cpu();
}
