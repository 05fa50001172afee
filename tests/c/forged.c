/* Ciphertexts that nothing wraps to, each refused with 22: another length, another key, damage in each octet, and
 * registers with one fault, which no damage would make. */
#include "check.h"

#define KEY "2b7e151628aed2a6abf7158809cf4f3c"
#define FILLED 0xEE

/* What they are made of: 5 octets in one register, 9 in two. */
#define ONE "a0569a4e11000fd519a13fd0596745fc"
#define TWO "453327f708b9320769822ea9a12010d63c52ccc5f56c25d8"

/* By OpenSSL 3.0.19, under KEY. One register, of A65959A6 00000005 0102030405 000000 with one fault:
 *   openssl enc -aes-128-ecb -nopad -K KEY
 * Two registers, of 0102030405060708 0900000000000000 with an initial value or padding that has one:
 *   openssl enc -id-aes128-wrap -iv A65959A600000009 -K KEY */
static const char *const forged[] = {
    /* One register. */
    "8868a815c7be45d024015c6090a588df", /* octet 0 of the mark */
    "432a42c5db7281523b534931fa9c92de", /* octet 1 of the mark */
    "631418611137521a409b95f9de8caefa", /* octet 2 of the mark */
    "ca77adae45529ac270cd903d101a19d9", /* octet 3 of the mark */
    "f834c57de48a6af15f8301dfe4ed6a6c", /* RFC 3394's mark */
    "18bd1d0349f2f571a45a1e53708c0a0a", /* length 0 */
    "da33f4f35377b9b693594d2425fdcc95", /* length 9 in one register */
    "8f3f07544a431b43279ddeaea5d162a2", /* length 5, and 1 in its third octet */
    "d88c7c3d08fa6e8196d764487c4b44f7", /* length 5, and 1 in its second octet */
    "59312aededf5b4ab8b0d3e009a64331c", /* length 5, and the top bit */
    "1a31bfdb9728474776b296b13a350ed2", /* first octet of the padding */
    "6d7aac7d74f1e9e9adb3e490a7fdd74e", /* second octet of the padding */
    "138e664874bf5993692230ec277ea9e2", /* last octet of the padding */
    "d4adf42024d1f8edbec10f0248f2ba2f", /* length 4, so that the fifth octet is padding */
    /* Two registers. */
    "35c45d1055c0b171a8b64771894da48ca7d8175b6f1ff416", /* mark */
    "70e94deb4e74314ad1439f0a293010a0100c4b39f3d829d6", /* RFC 3394's mark */
    "5856ca1394a47e84400433c2308114a129e07fd2cabf38bc", /* length 0 */
    "062c358754edb72e7a24cd031b86628ec2636f4576d927b1", /* length 8 in two registers */
    "fca36d3878fa346bf63403e250b09b000634ee8839e924c2", /* length 17 in two registers */
    "a72513c9ff8443c886a00e90b0696af2e80ee6fb9b228edd", /* length 9, and 1 in its third octet */
    "f596ea68ace19a57ee59a0bae78c8a0f93c1abe37d00aef2", /* length 9, and the top bit */
    "98974816525ca47ad65467cca18d87b6238a5967c536aa47", /* first octet of the padding */
    "c52a1220cdfccce2ec7ac10bdf7d768cc43bdb6eef7148be", /* last octet of the padding */
};

/* 241 octets wrapped, which are over the limit:
 *   openssl enc -id-aes128-wrap-pad -iv A65959A6 -K KEY */
#define OVER \
    "4a870968e662072b35ec4337c4b738d041fbe75d6fc0cbe7509964d67764f3a29efc869cb7f5d45f6132e76647f63ed8" \
    "51f1eb2263083ae8102ce0d3ed40ae1ae636f4bdde879934ebccb7128535cfb0b4d104509d0b9895177871d80374bcc5" \
    "0e3db7937fe8035c60ce8a028a9ebf61229f6471f44c1c7eaa06267012dee9af9d8561bf2f1468529406d35ae6841162" \
    "949a921eee114fcd1c2ab3836497fa69e054221e13a141b8354044db302cc2f6cd74fc59d793f8baf9c88ce8a0270857" \
    "1d8608f83d7a492396e1c39d2298fc2d21202fa97838b8428a0f396077b555ff220dda0e1e36528c8e7edefbaa1e6e46" \
    "1a19c57e26c0e9c384226541a405eac1"

/* Refused, with room enough for any plaintext, and nothing is written. */
static void check_forged(struct octets ciphertext, size_t n)
{
    struct octets key = hold(KEY), out = fill(FILLED, 300), filled = fill(FILLED, 300);

    REFUSED(shawm_unwrap(key.at, key.n, ciphertext.at, n, out.at, out.n), SHAWM_BAD_CIPHERTEXT);
    SAME(memcmp(out.at, filled.at, out.n) == 0, 1);
    give_back(key);
    give_back(out);
    give_back(filled);
}

/* Each octet changed, in its lowest and in its highest bit. */
static void damaged(const char *hex)
{
    struct octets ciphertext = hold(hex);
    size_t i;

    for (i = 0; i < ciphertext.n; i++) {
        ciphertext.at[i] ^= 0x01;
        check_forged(ciphertext, ciphertext.n);
        ciphertext.at[i] ^= 0x81;
        check_forged(ciphertext, ciphertext.n);
        ciphertext.at[i] ^= 0x80;
    }
    give_back(ciphertext);
}

/* Every length but its own, with zeros where it is longer. */
static void cut(const char *hex)
{
    struct octets whole = hold(hex), longer = join(hold(hex), fill(0, 300 - whole.n));
    size_t n;

    for (n = 0; n <= longer.n; n++)
        if (n != whole.n)
            check_forged(longer, n);
    give_back(whole);
    give_back(longer);
}

/* They are accepted as they are, and not under another key. */
static void genuine(const char *hex, size_t n)
{
    struct octets ciphertext = hold(hex), key = hold(KEY), out = fill(FILLED, 9);
    size_t i;

    for (i = 0; i < key.n; i++) {
        key.at[i] ^= 1;
        REFUSED(shawm_unwrap(key.at, key.n, ciphertext.at, ciphertext.n, out.at, out.n), SHAWM_BAD_CIPHERTEXT);
        key.at[i] ^= 1;
    }
    WRITTEN(out, "", FILLED);
    SAME(shawm_unwrap(key.at, key.n, ciphertext.at, ciphertext.n, out.at, out.n), n);
    WRITTEN(out, n == 5 ? "0102030405" : "010203040506070809", FILLED);
    give_back(ciphertext);
    give_back(key);
    give_back(out);
}

void forging(void)
{
    struct octets over = hold(OVER);
    size_t i;

    genuine(ONE, 5);
    genuine(TWO, 9);
    damaged(ONE);
    damaged(TWO);
    cut(ONE);
    cut(TWO);
    for (i = 0; i < sizeof forged / sizeof forged[0]; i++) {
        struct octets ciphertext = hold(forged[i]);

        check_forged(ciphertext, ciphertext.n);
        give_back(ciphertext);
    }
    SAME(over.n, 256);
    check_forged(over, over.n);
    give_back(over);
}
