// Finds check sums and digests, and enciphers and deciphers a block: CRC-16, CRC-32, Fletcher's sum, SHA-1, SHA-256,
// SHA-512 and AES with keys of 128 and 256 bits, each by a known example.
//
// Output: on port A the number of each, and on port B the bytes, as the standards have them.
//
//     1  CRC-16 (CCITT) of "123456789"   29B1
//     2  CRC-32 of "123456789"           CBF43926
//     3  Fletcher's sum of "abcdef"      2057
//     4  SHA-1 of "abc"                  A9993E36 4706816A BA3E2571 7850C26C 9CD0D89D
//     5  SHA-256 of "abc"                BA7816BF 8F01CFEA 414140DE 5DAE2223 B00361A3 96177A9C B410FF61 F20015AD
//     6  SHA-512 of "abc"                DDAF35A1 93617ABA CC417349 AE204131 12E6FA4E 89A97EA2 0A9EEEE6 4B55D39A
//                                        2192992A 274FC1A8 36BA3C23 A3FEEBBD 454D4423 643CE80E 2A9AC94F A54CA49F
//     7  AES-128 of 00112233..EEFF       69C4E0D8 6A7B0430 D8CDB780 70B4C55A
//     8  AES-256 of 00112233..EEFF       8EA2B7CA 516745BF EAFC4990 4B496089
//     9  that deciphered                 00112233 44556677 8899AABB CCDDEEFF
//
// The key of AES is 000102 and on. The examples of SHA are those of FIPS 180, those of AES of FIPS 197.

#include <avr/io.h>
#include <avr/pgmspace.h>
#include <stdbool.h>
#include <string.h>

static void show(uint8_t number, const uint8_t *bytes, uint8_t count) {
    PORTA = number;
    for (uint8_t i = 0; i < count; i++) {
        PORTB = bytes[i];
    }
}

// The bytes of a number, the high one first.
static void put(uint8_t *bytes, uint64_t number, uint8_t count) {
    while (count > 0) {
        bytes[--count] = number;
        number >>= 8;
    }
}

static uint16_t crc16(const char *text) {
    uint16_t crc = 0xFFFF;
    for (; *text != 0; text++) {
        crc ^= (uint16_t)*text << 8;
        for (uint8_t bit = 0; bit < 8; bit++) {
            crc = crc & 0x8000 ? crc << 1 ^ 0x1021 : crc << 1;
        }
    }
    return crc;
}

static uint32_t crc32(const char *text) {
    uint32_t crc = 0xFFFFFFFF;
    for (; *text != 0; text++) {
        crc ^= (uint8_t)*text;
        for (uint8_t bit = 0; bit < 8; bit++) {
            crc = crc & 1 ? crc >> 1 ^ 0xEDB88320 : crc >> 1;
        }
    }
    return ~crc;
}

static uint16_t fletcher(const char *text) {
    uint16_t low = 0, high = 0;
    for (; *text != 0; text++) {
        low = (low + (uint8_t)*text) % 255;
        high = (high + low) % 255;
    }
    return high << 8 | low;
}

// The only block of a message of at most 55 bytes, or 111 where blocks have 128.
static uint8_t block[128];

static void fill(const char *message, uint8_t size) {
    uint8_t length = strlen(message);
    memset(block, 0, size);
    memcpy(block, message, length);
    block[length] = 0x80;
    block[size - 1] = 8 * length;
}

static uint64_t word_of(const uint8_t *bytes, uint8_t count) {
    uint64_t word = 0;
    while (count-- > 0) {
        word = word << 8 | *bytes++;
    }
    return word;
}

static uint32_t rotated(uint32_t word, uint8_t bits) {
    return word << bits | word >> (32 - bits);
}

static void sha1(const char *message, uint8_t *digest) {
    uint32_t words[16];
    uint32_t a = 0x67452301, b = 0xEFCDAB89, c = 0x98BADCFE, d = 0x10325476, e = 0xC3D2E1F0, sum;
    fill(message, 64);
    for (uint8_t i = 0; i < 80; i++) {
        if (i < 16) {
            words[i] = word_of(block + 4 * i, 4);
        } else {
            sum = words[(i + 13) % 16] ^ words[(i + 8) % 16] ^ words[(i + 2) % 16] ^ words[i % 16];
            words[i % 16] = rotated(sum, 1);
        }
        if (i < 20) {
            sum = ((b & c) | (~b & d)) + 0x5A827999;
        } else if (i < 40) {
            sum = (b ^ c ^ d) + 0x6ED9EBA1;
        } else if (i < 60) {
            sum = ((b & c) | (b & d) | (c & d)) + 0x8F1BBCDC;
        } else {
            sum = (b ^ c ^ d) + 0xCA62C1D6;
        }
        sum += rotated(a, 5) + e + words[i % 16];
        e = d, d = c, c = rotated(b, 30), b = a, a = sum;
    }
    put(digest, 0x67452301 + a, 4);
    put(digest + 4, 0xEFCDAB89 + b, 4);
    put(digest + 8, 0x98BADCFE + c, 4);
    put(digest + 12, 0x10325476 + d, 4);
    put(digest + 16, 0xC3D2E1F0 + e, 4);
}

// The first 64 bits of the fractions of the cube roots of the first 80 primes. SHA-256 has the high halves.
static const uint64_t roots[80] PROGMEM = {
    0x428A2F98D728AE22, 0x7137449123EF65CD, 0xB5C0FBCFEC4D3B2F, 0xE9B5DBA58189DBBC, 0x3956C25BF348B538,
    0x59F111F1B605D019, 0x923F82A4AF194F9B, 0xAB1C5ED5DA6D8118, 0xD807AA98A3030242, 0x12835B0145706FBE,
    0x243185BE4EE4B28C, 0x550C7DC3D5FFB4E2, 0x72BE5D74F27B896F, 0x80DEB1FE3B1696B1, 0x9BDC06A725C71235,
    0xC19BF174CF692694, 0xE49B69C19EF14AD2, 0xEFBE4786384F25E3, 0x0FC19DC68B8CD5B5, 0x240CA1CC77AC9C65,
    0x2DE92C6F592B0275, 0x4A7484AA6EA6E483, 0x5CB0A9DCBD41FBD4, 0x76F988DA831153B5, 0x983E5152EE66DFAB,
    0xA831C66D2DB43210, 0xB00327C898FB213F, 0xBF597FC7BEEF0EE4, 0xC6E00BF33DA88FC2, 0xD5A79147930AA725,
    0x06CA6351E003826F, 0x142929670A0E6E70, 0x27B70A8546D22FFC, 0x2E1B21385C26C926, 0x4D2C6DFC5AC42AED,
    0x53380D139D95B3DF, 0x650A73548BAF63DE, 0x766A0ABB3C77B2A8, 0x81C2C92E47EDAEE6, 0x92722C851482353B,
    0xA2BFE8A14CF10364, 0xA81A664BBC423001, 0xC24B8B70D0F89791, 0xC76C51A30654BE30, 0xD192E819D6EF5218,
    0xD69906245565A910, 0xF40E35855771202A, 0x106AA07032BBD1B8, 0x19A4C116B8D2D0C8, 0x1E376C085141AB53,
    0x2748774CDF8EEB99, 0x34B0BCB5E19B48A8, 0x391C0CB3C5C95A63, 0x4ED8AA4AE3418ACB, 0x5B9CCA4F7763E373,
    0x682E6FF3D6B2B8A3, 0x748F82EE5DEFB2FC, 0x78A5636F43172F60, 0x84C87814A1F0AB72, 0x8CC702081A6439EC,
    0x90BEFFFA23631E28, 0xA4506CEBDE82BDE9, 0xBEF9A3F7B2C67915, 0xC67178F2E372532B, 0xCA273ECEEA26619C,
    0xD186B8C721C0C207, 0xEADA7DD6CDE0EB1E, 0xF57D4F7FEE6ED178, 0x06F067AA72176FBA, 0x0A637DC5A2C898A6,
    0x113F9804BEF90DAE, 0x1B710B35131C471B, 0x28DB77F523047D84, 0x32CAAB7B40C72493, 0x3C9EBE0A15C9BEBC,
    0x431D67C49C100D4C, 0x4CC5D4BECB3E42B6, 0x597F299CFC657E2A, 0x5FCB6FAB3AD6FAEC, 0x6C44198C4A475817,
};

static const uint64_t beginning[8] PROGMEM = {
    0x6A09E667F3BCC908, 0xBB67AE8584CAA73B, 0x3C6EF372FE94F82B, 0xA54FF53A5F1D36F1,
    0x510E527FADE682D1, 0x9B05688C2B3E6C1F, 0x1F83D9ABFB41BD6B, 0x5BE0CD19137E2179,
};

static uint64_t wide_of(const uint64_t *number) {
    uint64_t wide;
    memcpy_P(&wide, number, sizeof wide);
    return wide;
}

static uint32_t high_half_of(const uint64_t *number) {
    return wide_of(number) >> 32;
}

static uint32_t turned(uint32_t word, uint8_t bits) {
    return word >> bits | word << (32 - bits);
}

static void sha256(const char *message, uint8_t *digest) {
    uint32_t words[16], state[8];
    fill(message, 64);
    for (uint8_t i = 0; i < 8; i++) {
        state[i] = high_half_of(&beginning[i]);
    }
    for (uint8_t i = 0; i < 64; i++) {
        uint32_t *word = &words[i % 16];
        if (i < 16) {
            *word = word_of(block + 4 * i, 4);
        } else {
            uint32_t second = words[(i + 1) % 16], last = words[(i + 14) % 16];
            *word += words[(i + 9) % 16] + (turned(second, 7) ^ turned(second, 18) ^ second >> 3) +
                     (turned(last, 17) ^ turned(last, 19) ^ last >> 10);
        }
        uint32_t a = state[0], e = state[4];
        uint32_t first = state[7] + (turned(e, 6) ^ turned(e, 11) ^ turned(e, 25)) +
                         ((e & state[5]) ^ (~e & state[6])) + high_half_of(&roots[i]) + *word;
        uint32_t other = (turned(a, 2) ^ turned(a, 13) ^ turned(a, 22)) +
                         ((a & state[1]) ^ (a & state[2]) ^ (state[1] & state[2]));
        memmove(state + 1, state, 7 * sizeof *state);
        state[4] += first;
        state[0] = first + other;
    }
    for (uint8_t i = 0; i < 8; i++) {
        put(digest + 4 * i, state[i] + high_half_of(&beginning[i]), 4);
    }
}

static uint64_t turned_wide(uint64_t word, uint8_t bits) {
    return word >> bits | word << (64 - bits);
}

static void sha512(const char *message, uint8_t *digest) {
    static uint64_t words[16], state[8];
    fill(message, 128);
    for (uint8_t i = 0; i < 8; i++) {
        state[i] = wide_of(&beginning[i]);
    }
    for (uint8_t i = 0; i < 80; i++) {
        uint64_t *word = &words[i % 16];
        if (i < 16) {
            *word = word_of(block + 8 * i, 8);
        } else {
            uint64_t second = words[(i + 1) % 16], last = words[(i + 14) % 16];
            *word += words[(i + 9) % 16] + (turned_wide(second, 1) ^ turned_wide(second, 8) ^ second >> 7) +
                     (turned_wide(last, 19) ^ turned_wide(last, 61) ^ last >> 6);
        }
        uint64_t a = state[0], e = state[4];
        uint64_t first = state[7] + (turned_wide(e, 14) ^ turned_wide(e, 18) ^ turned_wide(e, 41)) +
                         ((e & state[5]) ^ (~e & state[6])) + wide_of(&roots[i]) + *word;
        uint64_t other = (turned_wide(a, 28) ^ turned_wide(a, 34) ^ turned_wide(a, 39)) +
                         ((a & state[1]) ^ (a & state[2]) ^ (state[1] & state[2]));
        memmove(state + 1, state, 7 * sizeof *state);
        state[4] += first;
        state[0] = first + other;
    }
    for (uint8_t i = 0; i < 8; i++) {
        put(digest + 8 * i, state[i] + wide_of(&beginning[i]), 8);
    }
}

static const uint8_t box[256] PROGMEM = {
    0x63, 0x7C, 0x77, 0x7B, 0xF2, 0x6B, 0x6F, 0xC5, 0x30, 0x01, 0x67, 0x2B, 0xFE, 0xD7, 0xAB, 0x76,
    0xCA, 0x82, 0xC9, 0x7D, 0xFA, 0x59, 0x47, 0xF0, 0xAD, 0xD4, 0xA2, 0xAF, 0x9C, 0xA4, 0x72, 0xC0,
    0xB7, 0xFD, 0x93, 0x26, 0x36, 0x3F, 0xF7, 0xCC, 0x34, 0xA5, 0xE5, 0xF1, 0x71, 0xD8, 0x31, 0x15,
    0x04, 0xC7, 0x23, 0xC3, 0x18, 0x96, 0x05, 0x9A, 0x07, 0x12, 0x80, 0xE2, 0xEB, 0x27, 0xB2, 0x75,
    0x09, 0x83, 0x2C, 0x1A, 0x1B, 0x6E, 0x5A, 0xA0, 0x52, 0x3B, 0xD6, 0xB3, 0x29, 0xE3, 0x2F, 0x84,
    0x53, 0xD1, 0x00, 0xED, 0x20, 0xFC, 0xB1, 0x5B, 0x6A, 0xCB, 0xBE, 0x39, 0x4A, 0x4C, 0x58, 0xCF,
    0xD0, 0xEF, 0xAA, 0xFB, 0x43, 0x4D, 0x33, 0x85, 0x45, 0xF9, 0x02, 0x7F, 0x50, 0x3C, 0x9F, 0xA8,
    0x51, 0xA3, 0x40, 0x8F, 0x92, 0x9D, 0x38, 0xF5, 0xBC, 0xB6, 0xDA, 0x21, 0x10, 0xFF, 0xF3, 0xD2,
    0xCD, 0x0C, 0x13, 0xEC, 0x5F, 0x97, 0x44, 0x17, 0xC4, 0xA7, 0x7E, 0x3D, 0x64, 0x5D, 0x19, 0x73,
    0x60, 0x81, 0x4F, 0xDC, 0x22, 0x2A, 0x90, 0x88, 0x46, 0xEE, 0xB8, 0x14, 0xDE, 0x5E, 0x0B, 0xDB,
    0xE0, 0x32, 0x3A, 0x0A, 0x49, 0x06, 0x24, 0x5C, 0xC2, 0xD3, 0xAC, 0x62, 0x91, 0x95, 0xE4, 0x79,
    0xE7, 0xC8, 0x37, 0x6D, 0x8D, 0xD5, 0x4E, 0xA9, 0x6C, 0x56, 0xF4, 0xEA, 0x65, 0x7A, 0xAE, 0x08,
    0xBA, 0x78, 0x25, 0x2E, 0x1C, 0xA6, 0xB4, 0xC6, 0xE8, 0xDD, 0x74, 0x1F, 0x4B, 0xBD, 0x8B, 0x8A,
    0x70, 0x3E, 0xB5, 0x66, 0x48, 0x03, 0xF6, 0x0E, 0x61, 0x35, 0x57, 0xB9, 0x86, 0xC1, 0x1D, 0x9E,
    0xE1, 0xF8, 0x98, 0x11, 0x69, 0xD9, 0x8E, 0x94, 0x9B, 0x1E, 0x87, 0xE9, 0xCE, 0x55, 0x28, 0xDF,
    0x8C, 0xA1, 0x89, 0x0D, 0xBF, 0xE6, 0x42, 0x68, 0x41, 0x99, 0x2D, 0x0F, 0xB0, 0x54, 0xBB, 0x16,
};

static uint8_t back[256];
static uint8_t keys[240];

static uint8_t in_box(uint8_t byte) {
    return pgm_read_byte(&box[byte]);
}

// The product with x in the field of AES.
static uint8_t doubled(uint8_t byte) {
    return byte << 1 ^ (byte & 0x80 ? 0x1B : 0);
}

// The round keys of the key of so many words that begins 000102; the answer is how many rounds there are.
static uint8_t expand(uint8_t words) {
    uint8_t constant = 1;
    for (uint8_t i = 0; i < 4 * words; i++) {
        keys[i] = i;
    }
    for (uint8_t i = words; i < 4 * (words + 7); i++) {
        uint8_t *key = keys + 4 * i;
        memcpy(key, key - 4, 4);
        if (i % words == 0) {
            uint8_t first = key[0];
            key[0] = in_box(key[1]) ^ constant;
            key[1] = in_box(key[2]);
            key[2] = in_box(key[3]);
            key[3] = in_box(first);
            constant = doubled(constant);
        } else if (words > 6 && i % words == 4) {
            for (uint8_t byte = 0; byte < 4; byte++) {
                key[byte] = in_box(key[byte]);
            }
        }
        for (uint8_t byte = 0; byte < 4; byte++) {
            key[byte] ^= key[byte - 4 * words];
        }
    }
    return words + 6;
}

static void add_key(uint8_t *state, uint8_t round) {
    for (uint8_t i = 0; i < 16; i++) {
        state[i] ^= keys[16 * round + i];
    }
}

// Row r is turned by r columns, to the left or back.
static void shift_rows(uint8_t *state, bool to_the_left) {
    uint8_t old[16];
    memcpy(old, state, 16);
    for (uint8_t i = 0; i < 16; i++) {
        uint8_t row = i % 4;
        if (to_the_left) {
            state[i] = old[(i + 4 * row) % 16];
        } else {
            state[(i + 4 * row) % 16] = old[i];
        }
    }
}

static void mix_column(uint8_t *column) {
    uint8_t first = column[0], all = column[0] ^ column[1] ^ column[2] ^ column[3];
    for (uint8_t i = 0; i < 3; i++) {
        column[i] ^= all ^ doubled(column[i] ^ column[i + 1]);
    }
    column[3] ^= all ^ doubled(column[3] ^ first);
}

static void encipher(uint8_t *state, uint8_t rounds) {
    add_key(state, 0);
    for (uint8_t round = 1; round <= rounds; round++) {
        for (uint8_t i = 0; i < 16; i++) {
            state[i] = in_box(state[i]);
        }
        shift_rows(state, true);
        for (uint8_t i = 0; i < 4 && round < rounds; i++) {
            mix_column(state + 4 * i);
        }
        add_key(state, round);
    }
}

static void decipher(uint8_t *state, uint8_t rounds) {
    for (uint16_t i = 0; i < 256; i++) {
        back[in_box(i)] = i;
    }
    for (uint8_t round = rounds; round > 0; round--) {
        add_key(state, round);
        // Three times more is back.
        for (uint8_t i = 0; i < 12 && round < rounds; i++) {
            mix_column(state + 4 * (i % 4));
        }
        shift_rows(state, false);
        for (uint8_t i = 0; i < 16; i++) {
            state[i] = back[state[i]];
        }
    }
    add_key(state, 0);
}

int main(void) {
    static uint8_t bytes[64];
    put(bytes, crc16("123456789"), 2);
    show(1, bytes, 2);
    put(bytes, crc32("123456789"), 4);
    show(2, bytes, 4);
    put(bytes, fletcher("abcdef"), 2);
    show(3, bytes, 2);
    sha1("abc", bytes);
    show(4, bytes, 20);
    sha256("abc", bytes);
    show(5, bytes, 32);
    sha512("abc", bytes);
    show(6, bytes, 64);
    put(bytes, 0x0011223344556677, 8);
    put(bytes + 8, 0x8899AABBCCDDEEFF, 8);
    encipher(bytes, expand(4));
    show(7, bytes, 16);
    decipher(bytes, expand(4));
    encipher(bytes, expand(8));
    show(8, bytes, 16);
    decipher(bytes, expand(8));
    show(9, bytes, 16);
}
