/* shawm_wrap and shawm_unwrap in plain C, for the tests to show what they find. As it stands no jump and no address
 * depends on a secret, and nothing is cleared.
 *   LEAK_ADDRESS  an entry of the S-box is found by its address, as most programs do
 *   LEAK_JUMP     the checks of an unwrapping end at the first that fails */
#include <shawm.h>

#ifndef LEAK_ADDRESS
#define AES_ENTRY(table, at) scanned(table, at)

/* Every entry is looked at. */
static inline uint8_t scanned(const uint8_t table[256], uint8_t at)
{
    uint8_t found = 0;
    int i;

    for (i = 0; i < 256; i++)
        found |= (uint8_t)(table[i] & -((uint8_t)i == at));
    return found;
}
#endif

#include "keywrap.h"

static void schedule(const uint8_t *key, uint8_t w[AES_SCHEDULE])
{
    if (aes_sbox[0] == 0)
        aes_tables();
    aes_expand(key, w);
}

uint32_t shawm_wrap(const uint8_t *key, size_t key_n, const uint8_t *plaintext, size_t plaintext_n, uint8_t *out,
                    size_t out_n)
{
    uint8_t w[AES_SCHEDULE], x[KEYWRAP_LONGEST];
    size_t n;

    if (key_n != SHAWM_WRAP_KEY_OCTETS)
        return SHAWM_REFUSED | SHAWM_EKT_KEY_OR_SALT_LENGTH;
    if (plaintext_n == 0 || plaintext_n > SHAWM_PLAINTEXT_LIMIT)
        return SHAWM_REFUSED | SHAWM_PLAINTEXT_LENGTH;
    if (out_n < 8 + (plaintext_n + 7) / 8 * 8)
        return SHAWM_REFUSED | SHAWM_NO_ROOM;
    schedule(key, w);
    n = keywrap_frame(plaintext, plaintext_n, x);
    keywrap_wrap(w, x, n);
    memcpy(out, x, 8 + 8 * n);
    return (uint32_t)(8 + 8 * n);
}

/* Whether m octets and their padding stand in the registers. */
static inline int genuine(const uint8_t *x, size_t n, size_t m)
{
    size_t i;
#ifdef LEAK_JUMP
    static const uint8_t mark[4] = { 0xa6, 0x59, 0x59, 0xa6 };

    for (i = 0; i < 4; i++)
        if (x[i] != mark[i])
            return 0;
    if (m <= 8 * (n - 1) || m > 8 * n)
        return 0;
    for (i = m; i < 8 * n; i++)
        if (x[8 + i] != 0)
            return 0;
    return 1;
#else
    unsigned bad = (x[0] ^ 0xa6u) | (x[1] ^ 0x59u) | (x[2] ^ 0x59u) | (x[3] ^ 0xa6u);

    bad |= m - 8 * (n - 1) - 1 > 7;
    for (i = 0; i < 8 * n; i++)
        bad |= x[8 + i] & -(unsigned)(m <= i);
    return bad == 0;
#endif
}

uint32_t shawm_unwrap(const uint8_t *key, size_t key_n, const uint8_t *ciphertext, size_t ciphertext_n, uint8_t *out,
                      size_t out_n)
{
    uint8_t w[AES_SCHEDULE], x[KEYWRAP_LONGEST];
    size_t n = ciphertext_n / 8 - 1, m;

    if (key_n != SHAWM_WRAP_KEY_OCTETS)
        return SHAWM_REFUSED | SHAWM_EKT_KEY_OR_SALT_LENGTH;
    if (ciphertext_n % 8 != 0 || ciphertext_n < 16 || ciphertext_n > SHAWM_CIPHERTEXT_LIMIT)
        return SHAWM_REFUSED | SHAWM_BAD_CIPHERTEXT;
    schedule(key, w);
    memcpy(x, ciphertext, ciphertext_n);
    keywrap_unwrap(w, x, n);
    m = (size_t)x[4] << 24 | (size_t)x[5] << 16 | (size_t)x[6] << 8 | x[7];
    if (!genuine(x, n, m))
        return SHAWM_REFUSED | SHAWM_BAD_CIPHERTEXT;
    if (out_n < m)
        return SHAWM_REFUSED | SHAWM_NO_ROOM;
    memcpy(out, x + 8, m);
    return (uint32_t)m;
}
