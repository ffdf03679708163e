// The block of FIPS 197's last example (appendix C.3), enciphered 500 times by AES with its key of 256 bits. The rounds
// are written out, as in fast libraries: 11 KB of code, executed from the first to the last word for each block. That is
// a little more than the code pool holds.
//
// Output: the first four bytes of the last block, 0x8E, 0xA2, 0xB7 and 0xCA, one on each port. The standard has
// 8ea2b7ca516745bfeafc49904b496089.

#include <avr/interrupt.h>
#include <avr/io.h>
#include <avr/sleep.h>

enum { TIMES = 500, KEY_BYTES = 32, ROUNDS = 14 };

#define DOUBLED(x) ((uint8_t)((x) << 1 ^ ((x) & 0x80 ? 0x1B : 0)))
#define ROTATED(x, bits) ((uint8_t)((x) << (bits) | (x) >> (8 - (bits))))

// Four bytes of what a round makes of `from`, beginning with byte i.
#define COLUMN(to, from, keys, i)                                                                                    \
    a = substitutes[from[i]], b = substitutes[from[(i + 5) % 16]];                                                   \
    c = substitutes[from[(i + 10) % 16]], d = substitutes[from[(i + 15) % 16]];                                      \
    all = a ^ b ^ c ^ d;                                                                                             \
    to[i] = a ^ all ^ DOUBLED(a ^ b) ^ keys[i];                                                                      \
    to[i + 1] = b ^ all ^ DOUBLED(b ^ c) ^ keys[i + 1];                                                              \
    to[i + 2] = c ^ all ^ DOUBLED(c ^ d) ^ keys[i + 2];                                                              \
    to[i + 3] = d ^ all ^ DOUBLED(d ^ a) ^ keys[i + 3];
#define ROUND(to, from, keys)                                                                                        \
    COLUMN(to, from, keys, 0) COLUMN(to, from, keys, 4) COLUMN(to, from, keys, 8) COLUMN(to, from, keys, 12)
#define TWO_ROUNDS(i) ROUND(odd, even, round_keys[i]) ROUND(even, odd, round_keys[i + 1])

// What the rounds with an even number leave, and those with an odd one.
static uint8_t even[16], odd[16];
static uint8_t substitutes[256], round_keys[ROUNDS + 1][16];

static void encipher(void) {
    uint8_t a, b, c, d, all;
    for (uint8_t i = 0; i < 16; i++) {
        even[i] ^= round_keys[0][i];
    }
    TWO_ROUNDS(1) TWO_ROUNDS(3) TWO_ROUNDS(5) TWO_ROUNDS(7) TWO_ROUNDS(9) TWO_ROUNDS(11)
    ROUND(odd, even, round_keys[13])
    for (uint8_t i = 0; i < 16; i++) {
        even[i] = substitutes[odd[5 * i % 16]] ^ round_keys[14][i];
    }
}

// The inverse of each byte, which is 3 to the power of 255 - i for 3 to the power of i, and four rotations of it added.
static void make_substitutes(void) {
    static uint8_t powers[256];
    uint8_t power = 1;
    for (uint16_t i = 0; i < 256; i++) {
        powers[i] = power;
        power ^= DOUBLED(power);
    }
    substitutes[0] = 0x63;
    for (uint8_t i = 0; i < 255; i++) {
        uint8_t x = powers[255 - i];
        substitutes[powers[i]] = x ^ ROTATED(x, 1) ^ ROTATED(x, 2) ^ ROTATED(x, 3) ^ ROTATED(x, 4) ^ 0x63;
    }
}

// The keys of all rounds in a row, of the key with the bytes 0 to 31.
static void make_keys(void) {
    uint8_t *keys = round_keys[0], constant = 1;
    for (uint8_t i = 0; i < KEY_BYTES; i++) {
        keys[i] = i;
    }
    for (uint8_t i = KEY_BYTES; i < 16 * (ROUNDS + 1); i += 4) {
        for (uint8_t j = 0; j < 4; j++) {
            uint8_t last = keys[i - 4 + j];
            if (i % KEY_BYTES == 0) {
                last = substitutes[keys[i - 4 + (j + 1) % 4]] ^ (j == 0 ? constant : 0);
            } else if (i % 16 == 0) {
                last = substitutes[last];
            }
            keys[i + j] = keys[i - KEY_BYTES + j] ^ last;
        }
        if (i % KEY_BYTES == 0) {
            constant = DOUBLED(constant);
        }
    }
}

int main(void) {
    make_substitutes();
    make_keys();
    for (uint16_t time = 0; time < TIMES; time++) {
        for (uint8_t i = 0; i < 16; i++) {
            even[i] = 0x11 * i;
        }
        encipher();
    }
    PORTA = even[0];
    PORTB = even[1];
    PORTC = even[2];
    PORTD = even[3];
    cli();
    sleep_cpu();
}
