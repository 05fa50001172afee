/* The AES key wrap with padding (RFC 5649) over aes.h, in place: x has the registers A, R[1] .. R[n], 8 octets each. */
#ifndef KEYWRAP_H
#define KEYWRAP_H

#include "aes.h"
#include <stddef.h>

/* A program may define it; it is given A and the register of each step. */
#ifndef KEYWRAP_BLOCK
#define KEYWRAP_BLOCK(block) ((void)(block))
#endif

enum { KEYWRAP_LONGEST = 248 };

/* Puts m octets into their registers and answers n. The mark and the length may be made wrong afterwards. */
static inline size_t keywrap_frame(const uint8_t *plaintext, size_t m, uint8_t *x)
{
    const uint8_t front[8] = { 0xa6, 0x59, 0x59, 0xa6, 0, 0, 0, (uint8_t)m };
    size_t n = (m + 7) / 8;

    memset(x, 0, 8 + 8 * n);
    memcpy(x, front, 8);
    memcpy(x + 8, plaintext, m);
    return n;
}

/* A and R[i] as one block, encrypted or decrypted; A has t added behind or before. */
static inline void keywrap_step(const uint8_t *w, uint8_t *x, size_t i, size_t t, int wrapping)
{
    uint8_t block[AES_BLOCK];

    memcpy(block, x, 8);
    memcpy(block + 8, x + 8 * i, 8);
    KEYWRAP_BLOCK(block);
    if (wrapping)
        aes_encrypt(w, block);
    KEYWRAP_BLOCK(block);
    block[7] ^= (uint8_t)t;
    KEYWRAP_BLOCK(block);
    if (!wrapping)
        aes_decrypt(w, block);
    KEYWRAP_BLOCK(block);
    memcpy(x, block, 8);
    memcpy(x + 8 * i, block + 8, 8);
}

/* One register is one block, with nothing added; more go through the process of RFC 3394, section 2.2.1. */
static inline void keywrap_wrap(const uint8_t *w, uint8_t *x, size_t n)
{
    size_t t;

    if (n == 1)
        keywrap_step(w, x, 1, 0, 1);
    for (t = 1; n > 1 && t <= 6 * n; t++)
        keywrap_step(w, x, (t - 1) % n + 1, t, 1);
}

static inline void keywrap_unwrap(const uint8_t *w, uint8_t *x, size_t n)
{
    size_t t;

    if (n == 1)
        keywrap_step(w, x, 1, 0, 0);
    for (t = 6 * n; n > 1 && t >= 1; t--)
        keywrap_step(w, x, (t - 1) % n + 1, t, 0);
}

#endif
