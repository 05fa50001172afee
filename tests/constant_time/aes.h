/* AES-128 (FIPS 197), plain, for these tests alone: they forge ciphertexts with it and know its values inside. A program
 * may define AES_ENTRY, how an entry of the S-box is found, and AES_STATE, which is given each state on the way. */
#ifndef AES_H
#define AES_H

#include <stdint.h>
#include <string.h>

#ifndef AES_ENTRY
#define AES_ENTRY(table, at) ((table)[at])
#endif
#ifndef AES_STATE
#define AES_STATE(s) ((void)(s))
#endif

enum { AES_BLOCK = 16, AES_ROUNDS = 10, AES_SCHEDULE = AES_BLOCK * (AES_ROUNDS + 1) };

static uint8_t aes_sbox[256], aes_inverse[256];

static inline uint8_t aes_double(uint8_t a)
{
    return (uint8_t)(a << 1 ^ (-(a >> 7) & 0x1b));
}

static inline uint8_t aes_times(uint8_t a, uint8_t b)
{
    uint8_t product = 0;
    int bit;

    for (bit = 7; bit >= 0; bit--)
        product = (uint8_t)(aes_double(product) ^ (-(b >> bit & 1) & a));
    return product;
}

static inline uint8_t aes_affine(uint8_t a)
{
    unsigned twice = a * 257u;

    return (uint8_t)(a ^ twice >> 7 ^ twice >> 6 ^ twice >> 5 ^ twice >> 4 ^ 0x63);
}

/* To be called once. */
static inline void aes_tables(void)
{
    unsigned a, b;

    for (a = 0; a < 256; a++) {
        for (b = 1; b < 256 && aes_times((uint8_t)a, (uint8_t)b) != 1; b++)
            ;
        aes_sbox[a] = aes_affine((uint8_t)b); /* 0 has no inverse; b is 256 */
        aes_inverse[aes_sbox[a]] = (uint8_t)a;
    }
}

static inline void aes_expand(const uint8_t key[AES_BLOCK], uint8_t w[AES_SCHEDULE])
{
    uint8_t constant = 1;
    int i, k;

    memcpy(w, key, AES_BLOCK);
    for (i = 16; i < AES_SCHEDULE; i += 4) {
        int first = i % 16 == 0;

        for (k = 0; k < 4; k++) {
            uint8_t before = w[i - 4 + (k + first) % 4];

            w[i + k] = (uint8_t)(w[i - 16 + k] ^ (first ? AES_ENTRY(aes_sbox, before) : w[i - 4 + k]));
        }
        if (first) {
            w[i] ^= constant;
            constant = aes_double(constant);
        }
    }
}

static inline void aes_add(const uint8_t *round_key, uint8_t s[AES_BLOCK])
{
    int i;

    for (i = 0; i < AES_BLOCK; i++)
        s[i] ^= round_key[i];
    AES_STATE(s);
}

/* Each octet through a table, and row r turned by r columns to the left, or where `by` is 3 to the right. */
static inline void aes_substitute(const uint8_t table[256], int by, uint8_t s[AES_BLOCK])
{
    uint8_t t[AES_BLOCK];
    int i;

    for (i = 0; i < AES_BLOCK; i++)
        t[i] = AES_ENTRY(table, s[i]);
    AES_STATE(t);
    for (i = 0; i < AES_BLOCK; i++)
        s[i] = t[(i + 4 * by * (i % 4)) % AES_BLOCK];
    AES_STATE(s);
}

static inline void aes_mix(uint8_t s[AES_BLOCK])
{
    int i, c;

    for (c = 0; c < AES_BLOCK; c += 4) {
        uint8_t column[4];

        memcpy(column, s + c, 4);
        for (i = 0; i < 4; i++)
            s[c + i] = (uint8_t)(aes_double(column[i] ^ column[(i + 1) % 4]) ^ column[(i + 1) % 4] ^
                                 column[(i + 2) % 4] ^ column[(i + 3) % 4]);
    }
    AES_STATE(s);
}

/* The inverse matrix is the cube of the matrix. */
static inline void aes_unmix(uint8_t s[AES_BLOCK])
{
    aes_mix(s);
    aes_mix(s);
    aes_mix(s);
}

static inline void aes_encrypt(const uint8_t w[AES_SCHEDULE], uint8_t s[AES_BLOCK])
{
    int round;

    aes_add(w, s);
    for (round = 1; round <= AES_ROUNDS; round++) {
        aes_substitute(aes_sbox, 1, s);
        if (round < AES_ROUNDS)
            aes_mix(s);
        aes_add(w + AES_BLOCK * round, s);
    }
}

static inline void aes_decrypt(const uint8_t w[AES_SCHEDULE], uint8_t s[AES_BLOCK])
{
    int round;

    for (round = AES_ROUNDS; round >= 1; round--) {
        aes_add(w + AES_BLOCK * round, s);
        if (round < AES_ROUNDS)
            aes_unmix(s);
        aes_substitute(aes_inverse, 3, s);
    }
    aes_add(w, s);
}

#endif
