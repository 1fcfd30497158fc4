/* The signatures of the signing service's stand-in: those of `signature_of` in stand_ins.py. One is the SHA-512 and then the SHA-256 (FIPS 180-4)
 * of the texts of key and root, one after the other. Both hashes are made by the same steps, over words of 64 and of 32 bits, and each constant of
 * SHA-256 is the first half of one of SHA-512. */
#include <stdint.h>
#include <string.h>

#include "fast_answers.h"

/* The most bytes that are hashed, with what is appended: whole blocks of 128 bytes. */
#define MOST_HASHED 512

struct shape {
    int bits, rounds;
    /* By how many bits words are turned, and in the last of each three of the second half shifted. */
    int state[6], plan[6];
};

static const struct shape sha_256 = {32, 64, {2, 13, 22, 6, 11, 25}, {7, 18, 3, 17, 19, 10}};
static const struct shape sha_512 = {64, 80, {28, 34, 39, 14, 18, 41}, {1, 8, 7, 19, 61, 6}};

static const uint64_t beginning[8] = {
    0x6a09e667f3bcc908, 0xbb67ae8584caa73b, 0x3c6ef372fe94f82b, 0xa54ff53a5f1d36f1,
    0x510e527fade682d1, 0x9b05688c2b3e6c1f, 0x1f83d9abfb41bd6b, 0x5be0cd19137e2179,
};

static const uint64_t constants[80] = {
    0x428a2f98d728ae22, 0x7137449123ef65cd, 0xb5c0fbcfec4d3b2f, 0xe9b5dba58189dbbc, 0x3956c25bf348b538,
    0x59f111f1b605d019, 0x923f82a4af194f9b, 0xab1c5ed5da6d8118, 0xd807aa98a3030242, 0x12835b0145706fbe,
    0x243185be4ee4b28c, 0x550c7dc3d5ffb4e2, 0x72be5d74f27b896f, 0x80deb1fe3b1696b1, 0x9bdc06a725c71235,
    0xc19bf174cf692694, 0xe49b69c19ef14ad2, 0xefbe4786384f25e3, 0x0fc19dc68b8cd5b5, 0x240ca1cc77ac9c65,
    0x2de92c6f592b0275, 0x4a7484aa6ea6e483, 0x5cb0a9dcbd41fbd4, 0x76f988da831153b5, 0x983e5152ee66dfab,
    0xa831c66d2db43210, 0xb00327c898fb213f, 0xbf597fc7beef0ee4, 0xc6e00bf33da88fc2, 0xd5a79147930aa725,
    0x06ca6351e003826f, 0x142929670a0e6e70, 0x27b70a8546d22ffc, 0x2e1b21385c26c926, 0x4d2c6dfc5ac42aed,
    0x53380d139d95b3df, 0x650a73548baf63de, 0x766a0abb3c77b2a8, 0x81c2c92e47edaee6, 0x92722c851482353b,
    0xa2bfe8a14cf10364, 0xa81a664bbc423001, 0xc24b8b70d0f89791, 0xc76c51a30654be30, 0xd192e819d6ef5218,
    0xd69906245565a910, 0xf40e35855771202a, 0x106aa07032bbd1b8, 0x19a4c116b8d2d0c8, 0x1e376c085141ab53,
    0x2748774cdf8eeb99, 0x34b0bcb5e19b48a8, 0x391c0cb3c5c95a63, 0x4ed8aa4ae3418acb, 0x5b9cca4f7763e373,
    0x682e6ff3d6b2b8a3, 0x748f82ee5defb2fc, 0x78a5636f43172f60, 0x84c87814a1f0ab72, 0x8cc702081a6439ec,
    0x90befffa23631e28, 0xa4506cebde82bde9, 0xbef9a3f7b2c67915, 0xc67178f2e372532b, 0xca273eceea26619c,
    0xd186b8c721c0c207, 0xeada7dd6cde0eb1e, 0xf57d4f7fee6ed178, 0x06f067aa72176fba, 0x0a637dc5a2c898a6,
    0x113f9804bef90dae, 0x1b710b35131c471b, 0x28db77f523047d84, 0x32caab7b40c72493, 0x3c9ebe0a15c9bebc,
    0x431d67c49c100d4c, 0x4cc5d4becb3e42b6, 0x597f299cfc657e2a, 0x5fcb6fab3ad6faec, 0x6c44198c4a475817,
};

/* What follows is copied into each of the two calls of `write_hash`, so that the shape is a constant there: it is much faster so. */
#define COPIED static inline __attribute__((always_inline))

COPIED uint64_t cut(const struct shape *shape, uint64_t word) {
    return shape->bits == 32 ? word & 0xffffffff : word;
}

COPIED uint64_t turned(const struct shape *shape, uint64_t word, int by) {
    return cut(shape, word >> by | word << (shape->bits - by));
}

COPIED uint64_t thrice(const struct shape *shape, uint64_t word, const int *by) {
    return turned(shape, word, by[0]) ^ turned(shape, word, by[1]) ^ turned(shape, word, by[2]);
}

COPIED uint64_t twice(const struct shape *shape, uint64_t word, const int *by) {
    return turned(shape, word, by[0]) ^ turned(shape, word, by[1]) ^ word >> by[2];
}

/* Mixes a block into the state. */
COPIED void mix(const struct shape *shape, uint64_t state[8], const uint8_t *block) {
    uint64_t words[80], s[8];
    for (int i = 0; i < 16; i++) {
        words[i] = 0;
        for (int byte = 0; byte < shape->bits / 8; byte++) {
            words[i] = words[i] << 8 | *block++;
        }
    }
    for (int i = 16; i < shape->rounds; i++) {
        words[i] = cut(shape, words[i - 16] + twice(shape, words[i - 15], shape->plan) + words[i - 7] + twice(shape, words[i - 2], shape->plan + 3));
    }
    memcpy(s, state, sizeof s);
    for (int i = 0; i < shape->rounds; i++) {
        uint64_t one = s[7] + thrice(shape, s[4], shape->state + 3) + ((s[4] & s[5]) ^ (~s[4] & s[6])) + (constants[i] >> (64 - shape->bits)) + words[i];
        uint64_t two = thrice(shape, s[0], shape->state) + ((s[0] & s[1]) ^ (s[0] & s[2]) ^ (s[1] & s[2]));
        memmove(s + 1, s, 7 * sizeof *s);
        s[4] = cut(shape, s[4] + one);
        s[0] = cut(shape, one + two);
    }
    for (int i = 0; i < 8; i++) {
        state[i] = cut(shape, state[i] + s[i]);
    }
}

/* Writes the hex digits of the hash of a text that has at most `MOST_SIGNED` bytes. */
COPIED char *write_hash(const struct shape *shape, const char *text, size_t length, char *digits) {
    uint8_t all[MOST_HASHED] = {0};
    uint64_t state[8];
    size_t block = shape->bits * 2, whole = (length + shape->bits / 4 + block) / block * block;
    memcpy(all, text, length);
    all[length] = 0x80;
    for (int i = 0; i < 8; i++) {
        all[whole - 1 - i] = (uint64_t)length * 8 >> 8 * i;
        state[i] = beginning[i] >> (64 - shape->bits);
    }
    for (size_t at = 0; at < whole; at += block) {
        mix(shape, state, all + at);
    }
    for (int i = 0; i < 8; i++) {
        for (int shift = shape->bits - 4; shift >= 0; shift -= 4) {
            *digits++ = "0123456789abcdef"[state[i] >> shift & 15];
        }
    }
    return digits;
}

void write_signature(struct part key, struct part root, char digits[SIGNATURE_DIGITS]) {
    char text[MOST_SIGNED];
    memcpy(text, key.from, key.length);
    memcpy(text + key.length, root.from, root.length);
    write_hash(&sha_256, text, key.length + root.length, write_hash(&sha_512, text, key.length + root.length, digits));
}
