/* AES Key Wrap with Padding, from RFC 3394 and RFC 5649, and the refusals of document 02, order 4. */
#include "aes.h"
#include "paper.h"
#include <string.h>

#define REFUSAL(number) (0x80000000u | (number))

/* RFC 5649, section 3. */
static const uint8_t mark[4] = { 0xa6, 0x59, 0x59, 0xa6 };

/* RFC 3394, section 2.2.1, the form that shifts: the first register goes through the cipher and becomes the last. */
static void wrap_registers(const struct aes_keys *keys, uint8_t *text, size_t n)
{
    uint8_t block[16];
    size_t t;

    for (t = 1; t <= 6 * n; t++) {
        memcpy(block, text, 16);
        aes_encrypt(keys, block);
        block[7] ^= (uint8_t)t;
        memmove(text + 8, text + 16, 8 * (n - 1));
        memcpy(text, block, 8);
        memcpy(text + 8 * n, block + 8, 8);
    }
}

/* Section 2.2.2: the last becomes the first. */
static void unwrap_registers(const struct aes_keys *keys, uint8_t *text, size_t n)
{
    uint8_t block[16];
    size_t t;

    for (t = 6 * n; t >= 1; t--) {
        memcpy(block, text, 8);
        memcpy(block + 8, text + 8 * n, 8);
        block[7] ^= (uint8_t)t;
        aes_decrypt(keys, block);
        memmove(text + 16, text + 8, 8 * (n - 1));
        memcpy(text, block, 16);
    }
}

/* RFC 5649, section 4.1: two registers are one block. */
void paper_close(const uint8_t *key, uint8_t *text, size_t n)
{
    struct aes_keys keys;

    aes_expand(&keys, key);
    if (n == 16)
        aes_encrypt(&keys, text);
    else
        wrap_registers(&keys, text, n / 8 - 1);
}

/* Section 4.2. */
static void open_text(const uint8_t *key, uint8_t *text, size_t n)
{
    struct aes_keys keys;

    aes_expand(&keys, key);
    if (n == 16)
        aes_decrypt(&keys, text);
    else
        unwrap_registers(&keys, text, n / 8 - 1);
}

answer paper_wrap(const uint8_t *key, size_t key_n, const uint8_t *plaintext, size_t n, size_t room, uint8_t *out)
{
    size_t whole = 8 + (n + 7) / 8 * 8;

    if (key_n != 16)
        return REFUSAL(34);
    if (n == 0 || n > 240)
        return REFUSAL(33);
    if (room < whole)
        return REFUSAL(13);
    memset(out, 0, whole);
    memcpy(out, mark, 4);
    out[7] = (uint8_t)n;
    memcpy(out + 8, plaintext, n);
    paper_close(key, out, whole);
    return (answer)whole;
}

/* How many octets of the text are plaintext; 0 where no plaintext gives this text. */
static size_t plaintext_length(const uint8_t *text, size_t n)
{
    size_t length = 0, i;

    if (memcmp(text, mark, 4) != 0)
        return 0;
    for (i = 4; i < 8; i++)
        length = length << 8 | text[i];
    if (length + 16 <= n || length + 8 > n)
        return 0;
    for (i = 8 + length; i < n; i++) {
        if (text[i] != 0)
            return 0;
    }
    return length;
}

answer paper_unwrap(const uint8_t *key, size_t key_n, const uint8_t *ciphertext, size_t n, size_t room, uint8_t *out)
{
    uint8_t text[248];
    size_t length;

    if (key_n != 16)
        return REFUSAL(34);
    if (n < 16 || n > 248 || n % 8 != 0)
        return REFUSAL(22);
    memcpy(text, ciphertext, n);
    open_text(key, text, n);
    length = plaintext_length(text, n);
    if (length == 0)
        return REFUSAL(22);
    if (room < length)
        return REFUSAL(13);
    memcpy(out, text + 8, length);
    return (answer)length;
}
