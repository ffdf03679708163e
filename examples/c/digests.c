// Finds the MD5 and RIPEMD-160 of two messages. All rounds are written out, one behind the other, so that the image
// has 39 KB. Nearly all of it is executed, once for each message: it is far more code than the code pool holds.
//
// Output: the bytes of the digests as RFC 1321 and the authors of RIPEMD-160 give them, on port A. For "abc":
//
//     900150983CD24FB0D6963F7D28E17F72
//     8EB208F7E05D987A9B044A8E98C6B087F15A0BFC
//
// and for "message digest":
//
//     F96B697D7CB7938D525A2F31AAF161D0
//     5D0689EF49D2FAE572B881B123A85FFA21595F36
//
// Last comes the CRC-32 of all these bytes, on port B, its high byte first: 0x97CB79C4. Its table is data: the
// start-up code copies it from the image's end, which lies beyond 32 KB.

#include <avr/io.h>
#include <string.h>

#define ROTATED(x, bits) ((x) << (bits) | (x) >> (32 - (bits)))

#define CHOOSE(x, y, z) (((y) ^ (z)) & (x) ^ (z))
#define CHOOSE_BY_LAST(x, y, z) CHOOSE(z, x, y)
#define PARITY(x, y, z) ((x) ^ (y) ^ (z))
#define NOT_SECOND(x, y, z) (((x) | ~(y)) ^ (z))
#define NOT_LAST(x, y, z) ((x) ^ ((y) | ~(z)))
#define NOT_LAST_FIRST(x, y, z) ((y) ^ ((x) | ~(z)))

static const uint32_t crc_table[256] = {
    0x00000000, 0x77073096, 0xEE0E612C, 0x990951BA, 0x076DC419, 0x706AF48F, 0xE963A535, 0x9E6495A3,
    0x0EDB8832, 0x79DCB8A4, 0xE0D5E91E, 0x97D2D988, 0x09B64C2B, 0x7EB17CBD, 0xE7B82D07, 0x90BF1D91,
    0x1DB71064, 0x6AB020F2, 0xF3B97148, 0x84BE41DE, 0x1ADAD47D, 0x6DDDE4EB, 0xF4D4B551, 0x83D385C7,
    0x136C9856, 0x646BA8C0, 0xFD62F97A, 0x8A65C9EC, 0x14015C4F, 0x63066CD9, 0xFA0F3D63, 0x8D080DF5,
    0x3B6E20C8, 0x4C69105E, 0xD56041E4, 0xA2677172, 0x3C03E4D1, 0x4B04D447, 0xD20D85FD, 0xA50AB56B,
    0x35B5A8FA, 0x42B2986C, 0xDBBBC9D6, 0xACBCF940, 0x32D86CE3, 0x45DF5C75, 0xDCD60DCF, 0xABD13D59,
    0x26D930AC, 0x51DE003A, 0xC8D75180, 0xBFD06116, 0x21B4F4B5, 0x56B3C423, 0xCFBA9599, 0xB8BDA50F,
    0x2802B89E, 0x5F058808, 0xC60CD9B2, 0xB10BE924, 0x2F6F7C87, 0x58684C11, 0xC1611DAB, 0xB6662D3D,
    0x76DC4190, 0x01DB7106, 0x98D220BC, 0xEFD5102A, 0x71B18589, 0x06B6B51F, 0x9FBFE4A5, 0xE8B8D433,
    0x7807C9A2, 0x0F00F934, 0x9609A88E, 0xE10E9818, 0x7F6A0DBB, 0x086D3D2D, 0x91646C97, 0xE6635C01,
    0x6B6B51F4, 0x1C6C6162, 0x856530D8, 0xF262004E, 0x6C0695ED, 0x1B01A57B, 0x8208F4C1, 0xF50FC457,
    0x65B0D9C6, 0x12B7E950, 0x8BBEB8EA, 0xFCB9887C, 0x62DD1DDF, 0x15DA2D49, 0x8CD37CF3, 0xFBD44C65,
    0x4DB26158, 0x3AB551CE, 0xA3BC0074, 0xD4BB30E2, 0x4ADFA541, 0x3DD895D7, 0xA4D1C46D, 0xD3D6F4FB,
    0x4369E96A, 0x346ED9FC, 0xAD678846, 0xDA60B8D0, 0x44042D73, 0x33031DE5, 0xAA0A4C5F, 0xDD0D7CC9,
    0x5005713C, 0x270241AA, 0xBE0B1010, 0xC90C2086, 0x5768B525, 0x206F85B3, 0xB966D409, 0xCE61E49F,
    0x5EDEF90E, 0x29D9C998, 0xB0D09822, 0xC7D7A8B4, 0x59B33D17, 0x2EB40D81, 0xB7BD5C3B, 0xC0BA6CAD,
    0xEDB88320, 0x9ABFB3B6, 0x03B6E20C, 0x74B1D29A, 0xEAD54739, 0x9DD277AF, 0x04DB2615, 0x73DC1683,
    0xE3630B12, 0x94643B84, 0x0D6D6A3E, 0x7A6A5AA8, 0xE40ECF0B, 0x9309FF9D, 0x0A00AE27, 0x7D079EB1,
    0xF00F9344, 0x8708A3D2, 0x1E01F268, 0x6906C2FE, 0xF762575D, 0x806567CB, 0x196C3671, 0x6E6B06E7,
    0xFED41B76, 0x89D32BE0, 0x10DA7A5A, 0x67DD4ACC, 0xF9B9DF6F, 0x8EBEEFF9, 0x17B7BE43, 0x60B08ED5,
    0xD6D6A3E8, 0xA1D1937E, 0x38D8C2C4, 0x4FDFF252, 0xD1BB67F1, 0xA6BC5767, 0x3FB506DD, 0x48B2364B,
    0xD80D2BDA, 0xAF0A1B4C, 0x36034AF6, 0x41047A60, 0xDF60EFC3, 0xA867DF55, 0x316E8EEF, 0x4669BE79,
    0xCB61B38C, 0xBC66831A, 0x256FD2A0, 0x5268E236, 0xCC0C7795, 0xBB0B4703, 0x220216B9, 0x5505262F,
    0xC5BA3BBE, 0xB2BD0B28, 0x2BB45A92, 0x5CB36A04, 0xC2D7FFA7, 0xB5D0CF31, 0x2CD99E8B, 0x5BDEAE1D,
    0x9B64C2B0, 0xEC63F226, 0x756AA39C, 0x026D930A, 0x9C0906A9, 0xEB0E363F, 0x72076785, 0x05005713,
    0x95BF4A82, 0xE2B87A14, 0x7BB12BAE, 0x0CB61B38, 0x92D28E9B, 0xE5D5BE0D, 0x7CDCEFB7, 0x0BDBDF21,
    0x86D3D2D4, 0xF1D4E242, 0x68DDB3F8, 0x1FDA836E, 0x81BE16CD, 0xF6B9265B, 0x6FB077E1, 0x18B74777,
    0x88085AE6, 0xFF0F6A70, 0x66063BCA, 0x11010B5C, 0x8F659EFF, 0xF862AE69, 0x616BFFD3, 0x166CCF45,
    0xA00AE278, 0xD70DD2EE, 0x4E048354, 0x3903B3C2, 0xA7672661, 0xD06016F7, 0x4969474D, 0x3E6E77DB,
    0xAED16A4A, 0xD9D65ADC, 0x40DF0B66, 0x37D83BF0, 0xA9BCAE53, 0xDEBB9EC5, 0x47B2CF7F, 0x30B5FFE9,
    0xBDBDF21C, 0xCABAC28A, 0x53B39330, 0x24B4A3A6, 0xBAD03605, 0xCDD70693, 0x54DE5729, 0x23D967BF,
    0xB3667A2E, 0xC4614AB8, 0x5D681B02, 0x2A6F2B94, 0xB40BBE37, 0xC30C8EA1, 0x5A05DF1B, 0x2D02EF8D,
};

static uint32_t crc = 0xFFFFFFFF;
static uint32_t words[16], digest[5];

// The only block of a message of at most 55 bytes, with the low byte of a word first.
static void fill(const char *message) {
    uint8_t block[64] = {0};
    uint8_t length = strlen(message);
    memcpy(block, message, length);
    block[length] = 0x80;
    for (uint8_t i = 0; i < 16; i++) {
        words[i] = block[4 * i] | (uint16_t)block[4 * i + 1] << 8 | (uint32_t)block[4 * i + 2] << 16 |
                   (uint32_t)block[4 * i + 3] << 24;
    }
    words[14] = length * 8;
}

static void begin(void) {
    digest[0] = 0x67452301;
    digest[1] = 0xEFCDAB89;
    digest[2] = 0x98BADCFE;
    digest[3] = 0x10325476;
    digest[4] = 0xC3D2E1F0;
}

#define STEP_OF_MD5(f, word, constant, bits)                                                                         \
    sum = a + f(b, c, d) + words[word] + constant##UL;                                                               \
    a = d, d = c, c = b;                                                                                             \
    b += ROTATED(sum, bits);
#define FOUR_OF_MD5(f, i, ki, j, kj, k, kk, l, kl, si, sj, sk, sl)                                                   \
    STEP_OF_MD5(f, i, ki, si) STEP_OF_MD5(f, j, kj, sj) STEP_OF_MD5(f, k, kk, sk) STEP_OF_MD5(f, l, kl, sl)

static void md5(void) {
    uint32_t a = digest[0], b = digest[1], c = digest[2], d = digest[3], sum;
    FOUR_OF_MD5(CHOOSE, 0, 0xD76AA478, 1, 0xE8C7B756, 2, 0x242070DB, 3, 0xC1BDCEEE, 7, 12, 17, 22)
    FOUR_OF_MD5(CHOOSE, 4, 0xF57C0FAF, 5, 0x4787C62A, 6, 0xA8304613, 7, 0xFD469501, 7, 12, 17, 22)
    FOUR_OF_MD5(CHOOSE, 8, 0x698098D8, 9, 0x8B44F7AF, 10, 0xFFFF5BB1, 11, 0x895CD7BE, 7, 12, 17, 22)
    FOUR_OF_MD5(CHOOSE, 12, 0x6B901122, 13, 0xFD987193, 14, 0xA679438E, 15, 0x49B40821, 7, 12, 17, 22)
    FOUR_OF_MD5(CHOOSE_BY_LAST, 1, 0xF61E2562, 6, 0xC040B340, 11, 0x265E5A51, 0, 0xE9B6C7AA, 5, 9, 14, 20)
    FOUR_OF_MD5(CHOOSE_BY_LAST, 5, 0xD62F105D, 10, 0x02441453, 15, 0xD8A1E681, 4, 0xE7D3FBC8, 5, 9, 14, 20)
    FOUR_OF_MD5(CHOOSE_BY_LAST, 9, 0x21E1CDE6, 14, 0xC33707D6, 3, 0xF4D50D87, 8, 0x455A14ED, 5, 9, 14, 20)
    FOUR_OF_MD5(CHOOSE_BY_LAST, 13, 0xA9E3E905, 2, 0xFCEFA3F8, 7, 0x676F02D9, 12, 0x8D2A4C8A, 5, 9, 14, 20)
    FOUR_OF_MD5(PARITY, 5, 0xFFFA3942, 8, 0x8771F681, 11, 0x6D9D6122, 14, 0xFDE5380C, 4, 11, 16, 23)
    FOUR_OF_MD5(PARITY, 1, 0xA4BEEA44, 4, 0x4BDECFA9, 7, 0xF6BB4B60, 10, 0xBEBFBC70, 4, 11, 16, 23)
    FOUR_OF_MD5(PARITY, 13, 0x289B7EC6, 0, 0xEAA127FA, 3, 0xD4EF3085, 6, 0x04881D05, 4, 11, 16, 23)
    FOUR_OF_MD5(PARITY, 9, 0xD9D4D039, 12, 0xE6DB99E5, 15, 0x1FA27CF8, 2, 0xC4AC5665, 4, 11, 16, 23)
    FOUR_OF_MD5(NOT_LAST_FIRST, 0, 0xF4292244, 7, 0x432AFF97, 14, 0xAB9423A7, 5, 0xFC93A039, 6, 10, 15, 21)
    FOUR_OF_MD5(NOT_LAST_FIRST, 12, 0x655B59C3, 3, 0x8F0CCC92, 10, 0xFFEFF47D, 1, 0x85845DD1, 6, 10, 15, 21)
    FOUR_OF_MD5(NOT_LAST_FIRST, 8, 0x6FA87E4F, 15, 0xFE2CE6E0, 6, 0xA3014314, 13, 0x4E0811A1, 6, 10, 15, 21)
    FOUR_OF_MD5(NOT_LAST_FIRST, 4, 0xF7537E82, 11, 0xBD3AF235, 2, 0x2AD7D2BB, 9, 0xEB86D391, 6, 10, 15, 21)
    digest[0] += a;
    digest[1] += b;
    digest[2] += c;
    digest[3] += d;
}

#define STEP_OF_RIPEMD(f, constant, word, bits)                                                                      \
    sum = a + f(b, c, d) + words[word] + constant##UL;                                                               \
    sum = ROTATED(sum, bits) + e;                                                                                    \
    a = e, e = d, d = ROTATED(c, 10), c = b, b = sum;
#define FOUR_OF_RIPEMD(f, constant, i, si, j, sj, k, sk, l, sl)                                                      \
    STEP_OF_RIPEMD(f, constant, i, si) STEP_OF_RIPEMD(f, constant, j, sj)                                            \
    STEP_OF_RIPEMD(f, constant, k, sk) STEP_OF_RIPEMD(f, constant, l, sl)
#define EIGHT_OF_RIPEMD(f, constant, i, si, j, sj, k, sk, l, sl, ...)                                                \
    FOUR_OF_RIPEMD(f, constant, i, si, j, sj, k, sk, l, sl) FOUR_OF_RIPEMD(f, constant, __VA_ARGS__)

// What each of the two lines of RIPEMD-160 leaves.
static uint32_t left[5], right[5];

static void left_line(void) {
    uint32_t a = digest[0], b = digest[1], c = digest[2], d = digest[3], e = digest[4], sum;
    EIGHT_OF_RIPEMD(PARITY, 0x00000000, 0, 11, 1, 14, 2, 15, 3, 12, 4, 5, 5, 8, 6, 7, 7, 9)
    EIGHT_OF_RIPEMD(PARITY, 0x00000000, 8, 11, 9, 13, 10, 14, 11, 15, 12, 6, 13, 7, 14, 9, 15, 8)
    EIGHT_OF_RIPEMD(CHOOSE, 0x5A827999, 7, 7, 4, 6, 13, 8, 1, 13, 10, 11, 6, 9, 15, 7, 3, 15)
    EIGHT_OF_RIPEMD(CHOOSE, 0x5A827999, 12, 7, 0, 12, 9, 15, 5, 9, 2, 11, 14, 7, 11, 13, 8, 12)
    EIGHT_OF_RIPEMD(NOT_SECOND, 0x6ED9EBA1, 3, 11, 10, 13, 14, 6, 4, 7, 9, 14, 15, 9, 8, 13, 1, 15)
    EIGHT_OF_RIPEMD(NOT_SECOND, 0x6ED9EBA1, 2, 14, 7, 8, 0, 13, 6, 6, 13, 5, 11, 12, 5, 7, 12, 5)
    EIGHT_OF_RIPEMD(CHOOSE_BY_LAST, 0x8F1BBCDC, 1, 11, 9, 12, 11, 14, 10, 15, 0, 14, 8, 15, 12, 9, 4, 8)
    EIGHT_OF_RIPEMD(CHOOSE_BY_LAST, 0x8F1BBCDC, 13, 9, 3, 14, 7, 5, 15, 6, 14, 8, 5, 6, 6, 5, 2, 12)
    EIGHT_OF_RIPEMD(NOT_LAST, 0xA953FD4E, 4, 9, 0, 15, 5, 5, 9, 11, 7, 6, 12, 8, 2, 13, 10, 12)
    EIGHT_OF_RIPEMD(NOT_LAST, 0xA953FD4E, 14, 5, 1, 12, 3, 13, 8, 14, 11, 11, 6, 8, 15, 5, 13, 6)
    left[0] = a, left[1] = b, left[2] = c, left[3] = d, left[4] = e;
}

static void right_line(void) {
    uint32_t a = digest[0], b = digest[1], c = digest[2], d = digest[3], e = digest[4], sum;
    EIGHT_OF_RIPEMD(NOT_LAST, 0x50A28BE6, 5, 8, 14, 9, 7, 9, 0, 11, 9, 13, 2, 15, 11, 15, 4, 5)
    EIGHT_OF_RIPEMD(NOT_LAST, 0x50A28BE6, 13, 7, 6, 7, 15, 8, 8, 11, 1, 14, 10, 14, 3, 12, 12, 6)
    EIGHT_OF_RIPEMD(CHOOSE_BY_LAST, 0x5C4DD124, 6, 9, 11, 13, 3, 15, 7, 7, 0, 12, 13, 8, 5, 9, 10, 11)
    EIGHT_OF_RIPEMD(CHOOSE_BY_LAST, 0x5C4DD124, 14, 7, 15, 7, 8, 12, 12, 7, 4, 6, 9, 15, 1, 13, 2, 11)
    EIGHT_OF_RIPEMD(NOT_SECOND, 0x6D703EF3, 15, 9, 5, 7, 1, 15, 3, 11, 7, 8, 14, 6, 6, 6, 9, 14)
    EIGHT_OF_RIPEMD(NOT_SECOND, 0x6D703EF3, 11, 12, 8, 13, 12, 5, 2, 14, 10, 13, 0, 13, 4, 7, 13, 5)
    EIGHT_OF_RIPEMD(CHOOSE, 0x7A6D76E9, 8, 15, 6, 5, 4, 8, 1, 11, 3, 14, 11, 14, 15, 6, 0, 14)
    EIGHT_OF_RIPEMD(CHOOSE, 0x7A6D76E9, 5, 6, 12, 9, 2, 12, 13, 9, 9, 12, 7, 5, 10, 15, 14, 8)
    EIGHT_OF_RIPEMD(PARITY, 0x00000000, 12, 8, 15, 5, 10, 12, 4, 9, 1, 12, 5, 5, 8, 14, 7, 6)
    EIGHT_OF_RIPEMD(PARITY, 0x00000000, 6, 8, 2, 13, 13, 6, 14, 5, 0, 15, 3, 13, 9, 11, 11, 11)
    right[0] = a, right[1] = b, right[2] = c, right[3] = d, right[4] = e;
}

static void ripemd(void) {
    left_line();
    right_line();
    uint32_t first = digest[1] + left[2] + right[3];
    digest[1] = digest[2] + left[3] + right[4];
    digest[2] = digest[3] + left[4] + right[0];
    digest[3] = digest[4] + left[0] + right[1];
    digest[4] = digest[0] + left[1] + right[2];
    digest[0] = first;
}

// The bytes of the digest's first words, with the low byte of a word first.
static void show(uint8_t count) {
    for (uint8_t i = 0; i < 4 * count; i++) {
        uint8_t byte = digest[i / 4] >> 8 * (i % 4);
        PORTA = byte;
        crc = crc >> 8 ^ crc_table[(crc ^ byte) & 0xFF];
    }
}

int main(void) {
    static const char *const messages[] = {"abc", "message digest"};
    for (uint8_t i = 0; i < 2; i++) {
        fill(messages[i]);
        begin();
        md5();
        show(4);

        begin();
        ripemd();
        show(5);
    }
    crc = ~crc;
    PORTB = crc >> 24;
    PORTB = crc >> 16 & 0xFF;
    PORTB = crc >> 8 & 0xFF;
    PORTB = crc & 0xFF;
}
