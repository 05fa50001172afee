/* AES-128 of FIPS 197, on a block in its place. */
#ifndef AES_H
#define AES_H

#include <stdint.h>

struct aes_keys {
    uint8_t octets[11 * 16];   /* one for each round, and one before the first */
    uint8_t inverse[256];      /* of the S-box */
};

void aes_expand(struct aes_keys *keys, const uint8_t *key);
void aes_encrypt(const struct aes_keys *keys, uint8_t *block);
void aes_decrypt(const struct aes_keys *keys, uint8_t *block);

#endif
