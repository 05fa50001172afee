/* Wrapping and unwrapping: what OpenSSL has of the same octets, what is left as it was, and the order of the refusals:
 * 34, 33, 13 and 34, 22, 13. */
#include "check.h"

#define KEY "2b7e151628aed2a6abf7158809cf4f3c"
#define FILLED 0xEE

struct vector {
    size_t n;
    const char *ciphertext;
};

/* By OpenSSL 3.0.19, of the octets 1, 2, 3 and so on to n, under KEY:
 *   openssl enc -id-aes128-wrap-pad -iv A65959A6 -K KEY */
static const struct vector vectors[] = {
    { 1,
      "edd024d8d3967b1bd912c0ccfd878055" },
    { 7,
      "46d55e603bd21432aaec702bc276b018" },
    { 8,
      "a140048ac876a34fe69c983d90e261f8" },
    { 9,
      "453327f708b9320769822ea9a12010d63c52ccc5f56c25d8" },
    { 16,
      "6706e9863b487d888a12f787bc482a36df9d4122c0f91870" },
    { 239,
      "860cfa960f5295e1285bc9f389cc3baf3aceee4fad195a8fc3d3d87c3453f5e253a9c587801a52c79ee7fe93e674a54d"
      "a0079bcc629b9ecd9e8e68deae089aed839948729070a5bb5be4f045223502f816d4ece6d9800a38c62b3371f13b4344"
      "542d78dbf99efbef898148158b303fb8d26c88dfd9236546377ff78f76ad79b465b4e0853c39ff5ee510abbe07b14ff5"
      "a8c49c24bf85b4d1d5b4682dd45e8d003b54b66b06fd733a1d8fbc5c1f8ef57f0f8addc26a6a45a613ca8076e4ef9614"
      "bf42ee116a7510263b4f2b4e1ec87e0b3aff4c12745b3a48eae723692a3ff1eb4daff3619c2af675d116993a98fc38cd"
      "60a80dc9da34484f" },
    { 240,
      "6e716f3291ab5c374958d58275e0038fa8f5c8ae6a00fd744ac9b3ab68fed5c7d5398917fb14e21a35f09b53ec688215"
      "9e5ab3f1948245c0cc6686985d089dcb668a800a70d65ee474e2868b0f5d435c84f9baa35e44af19e208df666f5ade33"
      "866bbcdb44f24186b273c87a899288fcdba2654236feecbf65eaad149b922175fc7812d30936e8c5805a9754d1e965fb"
      "414e0e805744959a8e77b966249128f0f47b163063938455fcb26c8da705ecc45725489984c4696d6ba36e99c9c27ff1"
      "9a748f5659644dd75c49b975a81bfad6a8f379a70cac8014a2bc52f4d40a70c10ba379b70485974ff32cefde27ec18c9"
      "e02f2506dc3a6f8a" },
};

/* The plaintext of the vectors: 1 to n. */
static struct octets counted(size_t n)
{
    struct octets octets = fill(0, n);
    size_t i;

    for (i = 0; i < n; i++)
        octets.at[i] = (uint8_t)(i + 1);
    return octets;
}

/* The octets and what they were. */
static void check_kept(struct octets octets, struct octets were)
{
    SAME(memcmp(octets.at, were.at, octets.n) == 0, 1);
}

/* Into the least room, one octet less, and more; the octets that are read are kept. */
static void wrapped(const struct vector *vector)
{
    struct octets key = hold(KEY), were = hold(KEY), plaintext = counted(vector->n), counted_to = counted(vector->n);
    size_t n = (vector->n + 7) / 8 * 8 + 8;
    struct octets out = fill(FILLED, n), more = fill(FILLED, n + 9);

    REFUSED(shawm_wrap(key.at, key.n, plaintext.at, plaintext.n, out.at, n - 1), SHAWM_NO_ROOM);
    WRITTEN(out, "", FILLED);
    SAME(shawm_wrap(key.at, key.n, plaintext.at, plaintext.n, out.at, n), n);
    WRITTEN(out, vector->ciphertext, FILLED);
    SAME(shawm_wrap(key.at, key.n, plaintext.at, plaintext.n, more.at, more.n), n);
    WRITTEN(more, vector->ciphertext, FILLED);
    check_kept(key, were);
    check_kept(plaintext, counted_to);
    give_back(key);
    give_back(were);
    give_back(plaintext);
    give_back(counted_to);
    give_back(out);
    give_back(more);
}

/* The room is that of the plaintext, without its padding. */
static void unwrapped(const struct vector *vector)
{
    struct octets key = hold(KEY), were = hold(KEY), plaintext = counted(vector->n);
    struct octets ciphertext = hold(vector->ciphertext), sent = hold(vector->ciphertext);
    struct octets out = fill(FILLED, vector->n), more = fill(FILLED, vector->n + 9);
    size_t i;

    REFUSED(shawm_unwrap(key.at, key.n, ciphertext.at, ciphertext.n, out.at, out.n - 1), SHAWM_NO_ROOM);
    WRITTEN(out, "", FILLED);
    SAME(shawm_unwrap(key.at, key.n, ciphertext.at, ciphertext.n, out.at, out.n), vector->n);
    check_kept(out, plaintext);
    SAME(shawm_unwrap(key.at, key.n, ciphertext.at, ciphertext.n, more.at, more.n), vector->n);
    for (i = 0; i < more.n; i++)
        SAME(more.at[i], i < vector->n ? plaintext.at[i] : FILLED);
    check_kept(key, were);
    check_kept(ciphertext, sent);
    give_back(key);
    give_back(were);
    give_back(plaintext);
    give_back(ciphertext);
    give_back(sent);
    give_back(out);
    give_back(more);
}

/* Every length comes back, and none above the limit is wrapped. */
static void lengths(void)
{
    struct octets key = hold(KEY), out = fill(FILLED, 400), back = fill(FILLED, 400);
    size_t n;

    for (n = 1; n <= SHAWM_PLAINTEXT_LIMIT; n++) {
        struct octets plaintext = counted(n);
        uint32_t wraps_to = shawm_wrap(key.at, key.n, plaintext.at, n, out.at, out.n);

        SAME(wraps_to, (n + 7) / 8 * 8 + 8);
        SAME(shawm_unwrap(key.at, key.n, out.at, wraps_to, back.at, back.n), n);
        SAME(memcmp(back.at, plaintext.at, n) == 0, 1);
        give_back(plaintext);
    }
    SAME(n + 7, SHAWM_CIPHERTEXT_LIMIT);
    memset(out.at, FILLED, out.n);
    for (; n <= 300; n++) {
        struct octets plaintext = counted(n);

        REFUSED(shawm_wrap(key.at, key.n, plaintext.at, n, out.at, out.n), SHAWM_PLAINTEXT_LENGTH);
        give_back(plaintext);
    }
    WRITTEN(out, "", FILLED);
    give_back(key);
    give_back(out);
    give_back(back);
}

/* Every length of a key but the right one, also where other refusals would follow. */
static void keys(void)
{
    struct octets key = join(hold(KEY), hold(KEY KEY)), plaintext = counted(9), sent = hold(vectors[3].ciphertext);
    struct octets out = fill(FILLED, 300);
    size_t n;

    for (n = 0; n <= key.n; n++) {
        if (n == SHAWM_WRAP_KEY_OCTETS)
            continue;
        REFUSED(shawm_wrap(key.at, n, plaintext.at, plaintext.n, out.at, out.n), SHAWM_EKT_KEY_OR_SALT_LENGTH);
        REFUSED(shawm_wrap(key.at, n, NULL, 0, NULL, 0), SHAWM_EKT_KEY_OR_SALT_LENGTH);
        REFUSED(shawm_unwrap(key.at, n, sent.at, sent.n, out.at, out.n), SHAWM_EKT_KEY_OR_SALT_LENGTH);
        REFUSED(shawm_unwrap(key.at, n, NULL, 0, NULL, 0), SHAWM_EKT_KEY_OR_SALT_LENGTH);
    }
    REFUSED(shawm_wrap(NULL, 0, plaintext.at, plaintext.n, out.at, out.n), SHAWM_EKT_KEY_OR_SALT_LENGTH);
    REFUSED(shawm_unwrap(NULL, 0, sent.at, sent.n, out.at, out.n), SHAWM_EKT_KEY_OR_SALT_LENGTH);
    WRITTEN(out, "", FILLED);
    give_back(key);
    give_back(plaintext);
    give_back(sent);
    give_back(out);
}

/* Where the output has no room as well, the earlier number is given. */
static void orders(void)
{
    struct octets key = hold(KEY), plaintext = counted(241), sent = hold(vectors[3].ciphertext), out = fill(FILLED, 9);

    REFUSED(shawm_wrap(key.at, 16, NULL, 0, out.at, out.n), SHAWM_PLAINTEXT_LENGTH);
    REFUSED(shawm_wrap(key.at, 16, NULL, 0, NULL, 0), SHAWM_PLAINTEXT_LENGTH);
    REFUSED(shawm_wrap(key.at, 16, plaintext.at, 241, NULL, 0), SHAWM_PLAINTEXT_LENGTH);
    REFUSED(shawm_wrap(key.at, 16, plaintext.at, 240, NULL, 0), SHAWM_NO_ROOM);
    REFUSED(shawm_wrap(key.at, 16, plaintext.at, 1, out.at, out.n), SHAWM_NO_ROOM);
    REFUSED(shawm_unwrap(key.at, 16, NULL, 0, out.at, out.n), SHAWM_BAD_CIPHERTEXT);
    REFUSED(shawm_unwrap(key.at, 16, NULL, 0, NULL, 0), SHAWM_BAD_CIPHERTEXT);
    REFUSED(shawm_unwrap(key.at, 16, sent.at, sent.n, NULL, 0), SHAWM_NO_ROOM);
    REFUSED(shawm_unwrap(key.at, 16, sent.at, sent.n, out.at, 8), SHAWM_NO_ROOM);
    sent.at[0] ^= 1;
    REFUSED(shawm_unwrap(key.at, 16, sent.at, sent.n, NULL, 0), SHAWM_BAD_CIPHERTEXT);
    WRITTEN(out, "", FILLED);
    give_back(key);
    give_back(plaintext);
    give_back(sent);
    give_back(out);
}

void wrapping(void)
{
    size_t i;

    SAME(SHAWM_WRAP_KEY_OCTETS, 16);
    SAME(SHAWM_PLAINTEXT_LIMIT, 240);
    SAME(SHAWM_CIPHERTEXT_LIMIT, 248);
    for (i = 0; i < sizeof vectors / sizeof vectors[0]; i++) {
        wrapped(&vectors[i]);
        unwrapped(&vectors[i]);
    }
    lengths();
    keys();
    orders();
}
