/* What shawm_wrap and shawm_unwrap leave of their secrets on the stack and in the registers of the processor. Looked for
 * are the key, the round keys, the plaintext, what passes through the registers of the key wrap, and the states inside
 * AES, all of which are computed here once more; and, as derived, every other octet that is not the same after calls with
 * other keys and plaintexts. Usage: remnants [stack:KIND=OCTETS | processor:KIND=OCTETS]..., what may be left of a call.
 * It fails where more is. */
#include "stretch.h"
#include "windows.h"
#include <shawm.h>
#include <stdio.h>
#include <stdlib.h>
#include <string.h>

/* Registers and states are noted in two passes, as a stretch that is of both is of the first that is added. */
static enum kind noted;

static void note(enum kind kind, const uint8_t *block)
{
    if (kind == noted)
        windows_add(kind, block, 16, 8);
}

#define AES_STATE(s) note(STATES, s)
#define KEYWRAP_BLOCK(block) note(REGISTERS, block)
#include "keywrap.h"

/* An octet that is one bit of a secret is the same in half of the calls. */
enum { DRAWS = 24 };

static const struct way {
    const char *name;
    int unwrapping, damaged;
    size_t room_missing;
    uint32_t refusal;
} ways[] = {
    { "wrap", 0, 0, 0, 0 },
    { "wrap, no room", 0, 0, 1, SHAWM_REFUSED | SHAWM_NO_ROOM },
    { "unwrap", 1, 0, 0, 0 },
    { "unwrap, no room", 1, 0, 1, SHAWM_REFUSED | SHAWM_NO_ROOM },
    { "unwrap, damaged", 1, 1, 0, SHAWM_REFUSED | SHAWM_BAD_CIPHERTEXT },
};

/* What a call is given, always at the same place, so that only its values differ from one draw to the next. */
static uint8_t key[16], w[AES_SCHEDULE], plaintext[SHAWM_PLAINTEXT_LIMIT], ciphertext[KEYWRAP_LONGEST];
static int failed;

/* Prints how many octets of each kind stand there, and where the first begins and the last ends, from `zero` on. */
static void report(const char *where, const void *octets, const uint8_t *varies, size_t n, long zero)
{
    static uint8_t kinds[STRETCH];
    size_t i;
    int kind;

    windows_find((const uint8_t *)octets, n, kinds);
    for (i = 0; i < n; i++)
        if (kinds[i] == NOTHING && varies[i])
            kinds[i] = DERIVED;
    for (kind = KEY; kind < KINDS; kind++) {
        size_t count = 0, first = 0, end = 0;

        for (i = 0; i < n; i++)
            if (kinds[i] == kind) {
                first = count++ == 0 ? i : first;
                end = i + 1;
            }
        if (count == 0)
            continue;
        printf("    %s: %zu octets of %s, from %ld to %ld\n", where, count, kind_names[kind], (long)first - zero,
               (long)end - zero);
        failed = 1;
    }
}

static void add(enum kind kind, const uint8_t *octets, size_t n)
{
    windows_add(kind, octets, n, 4);
    windows_add(kind, octets, n, 8);
}

/* Everything that a call computes. What all may know comes first: the ciphertext, the block that it begins or ends with,
 * and the octets in front of a plaintext. */
static void add_secrets(size_t n, size_t m)
{
    uint8_t x[KEYWRAP_LONGEST];

    windows_clear();
    add(PUBLIC, ciphertext, 8 + 8 * n);
    memcpy(x, ciphertext, 8);
    memcpy(x + 8, ciphertext + 8 * n, 8);
    x[7] ^= (uint8_t)(n == 1 ? 0 : 6 * n);
    add(PUBLIC, x, 16);
    keywrap_frame(plaintext, m, x);
    add(PUBLIC, x, 8);
    add(KEY, key, sizeof key);
    add(ROUND_KEYS, w, sizeof w);
    add(PLAINTEXT, plaintext, m);
    for (noted = REGISTERS; noted <= STATES; noted = (enum kind)(noted + 1)) {
        memcpy(x, ciphertext, 8 + 8 * n);
        keywrap_unwrap(w, x, n);
        keywrap_wrap(w, x, n);
    }
    noted = NOTHING;
}

static void draw(uint64_t seed, uint8_t *octets, size_t n)
{
    size_t i;

    for (i = 0; i < n; i++) {
        seed = seed * 6364136223846793005u + 1442695040888963407u;
        octets[i] = (uint8_t)(seed >> 56);
    }
}

/* Draws what a call is given; answers n. */
static size_t prepare(const struct way *way, size_t m, uint64_t seed)
{
    size_t n;

    draw(2 * seed, key, sizeof key);
    draw(2 * seed + 1, plaintext, sizeof plaintext);
    aes_expand(key, w);
    n = keywrap_frame(plaintext, m, ciphertext);
    keywrap_wrap(w, ciphertext, n);
    ciphertext[4 * n] ^= (uint8_t)way->damaged;
    return n;
}

static void call(const struct way *way, size_t m, size_t n, struct left *left)
{
    static uint8_t out[KEYWRAP_LONGEST];
    size_t all = 8 + 8 * n, room = way->unwrapping ? m : all;
    const uint64_t arguments[6] = { (uintptr_t)key, sizeof key, (uintptr_t)(way->unwrapping ? ciphertext : plaintext),
                                    way->unwrapping ? all : m, (uintptr_t)out, room - way->room_missing };
    uint32_t expected = way->refusal != 0 ? way->refusal : (uint32_t)room;

    stretch(way->unwrapping ? shawm_unwrap : shawm_wrap, arguments, left);
    if (left->answer != expected) {
        printf("WRONG: %s, %zu octets: it answers %x and not %x\n", way->name, m, left->answer, expected);
        exit(1);
    }
}

static void examine(const struct way *way, size_t m)
{
    static struct left first, other;
    static uint8_t varies[sizeof first];
    const uint8_t *a = (const uint8_t *)&first, *b = (const uint8_t *)&other;
    uint64_t seed;
    size_t i;

    memset(varies, 0, sizeof varies);
    for (seed = 0; seed < DRAWS; seed++) {
        call(way, m, prepare(way, m, seed), &other);
        if (seed == 0)
            first = other;
        for (i = 0; i < sizeof first; i++)
            varies[i] |= a[i] != b[i];
    }
    add_secrets(prepare(way, m, 0), m);
    printf("%s, %zu octets: %zu octets of stack\n", way->name, m, stretch_used(&first));
    report("stack", first.stack, varies + offsetof(struct left, stack), STRETCH, STRETCH);
    report("processor", &first.processor, varies + offsetof(struct left, processor), sizeof first.processor, 0);
}

int main(void)
{
    static const size_t lengths[] = { 1, 8, 9, 16, 25, 40, 240 };
    size_t calls = 0, i, k;

    aes_tables();
    for (i = 0; i < sizeof lengths / sizeof lengths[0]; i++)
        for (k = 0; k < sizeof ways / sizeof ways[0]; k++, calls++)
            examine(&ways[k], lengths[i]);
    printf("%zu kinds of call\n", calls);
    return failed;
}
