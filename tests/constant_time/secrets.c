/* Calls with secrets that memcheck is told to be undefined, so that it reports every jump and every address that depends
 * on them (the method is Langley's ctgrind). Usage: secrets RUN STEP, with the lengths 1, 1 + STEP and so on to the limit.
 * Which reports may be there depends on the calls, so each kind of calls is a run of its own:
 *   wrap      wrapping
 *   refused   unwrapping what nothing wraps to: damage, and registers with one fault each
 *   short     unwrapping with one octet of room too few
 *   accepted  unwrapping, with just enough room or with more
 * It fails where an answer is wrong, or where the marks got lost on the way. */
#include "keywrap.h"
#include <shawm.h>
#include <stdio.h>
#include <stdlib.h>
#include <valgrind/memcheck.h>

static uint8_t key[16], schedule[AES_SCHEDULE], plaintext[SHAWM_PLAINTEXT_LIMIT];
static unsigned long calls;

static void want(int right, const char *what)
{
    if (!right) {
        printf("WRONG: %s, after %lu calls\n", what, calls);
        exit(1);
    }
}

static void hide(void *octets, size_t n)
{
    VALGRIND_MAKE_MEM_UNDEFINED(octets, n);
}

static void show(void *octets, size_t n)
{
    VALGRIND_MAKE_MEM_DEFINED(octets, n);
}

/* Of each octet, the bits that depend on a secret are these. */
static void want_hidden(const void *octets, size_t n, uint8_t wanted, const char *what)
{
    uint8_t bits[KEYWRAP_LONGEST];
    size_t i;

    want(VALGRIND_GET_VBITS(octets, bits, n) == 1, "not under memcheck");
    for (i = 0; i < n; i++)
        want(bits[i] == wanted, what);
}

/* Nothing but the lengths is known. */
static void wrap(size_t m)
{
    uint8_t out[KEYWRAP_LONGEST], expected[KEYWRAP_LONGEST];
    size_t n = keywrap_frame(plaintext, m, expected);
    uint32_t answer;

    keywrap_wrap(schedule, expected, n);
    memset(out, 0, sizeof out);
    hide(key, sizeof key);
    hide(plaintext, m);
    answer = shawm_wrap(key, sizeof key, plaintext, m, out, sizeof out);
    calls++;
    want_hidden(&answer, sizeof answer, 0, "the answer depends on a secret");
    want(answer == 8 + 8 * n, "the answer");
    want_hidden(out, answer, 0xff, "a bit of the ciphertext is known");
    show(key, sizeof key);
    show(plaintext, m);
    show(out, sizeof out);
    want(memcmp(out, expected, answer) == 0, "the ciphertext");
}

/* The key is secret, and so is all that the ciphertext decrypts to. */
static uint32_t unwrap(const uint8_t *ciphertext, size_t n, uint8_t *out, size_t room)
{
    uint32_t answer;

    hide(key, sizeof key);
    answer = shawm_unwrap(key, sizeof key, ciphertext, n, out, room);
    calls++;
    show(key, sizeof key);
    show(&answer, sizeof answer);
    return answer;
}

/* Wraps the registers as they are; refused, and nothing written. */
static void refuse(const uint8_t *registers, size_t n, const char *what)
{
    uint8_t x[KEYWRAP_LONGEST], out[SHAWM_PLAINTEXT_LIMIT] = { 0 }, zeros[SHAWM_PLAINTEXT_LIMIT] = { 0 };

    memcpy(x, registers, 8 + 8 * n);
    keywrap_wrap(schedule, x, n);
    want(unwrap(x, 8 + 8 * n, out, sizeof out) == (SHAWM_REFUSED | SHAWM_BAD_CIPHERTEXT), what);
    want_hidden(out, sizeof out, 0, "a secret in the output of a refused call");
    want(memcmp(out, zeros, sizeof out) == 0, "the output of a refused call");
}

/* One octet of the registers with another value. */
static void fault(size_t m, size_t at, uint8_t value, const char *what)
{
    uint8_t x[KEYWRAP_LONGEST];
    size_t n = keywrap_frame(plaintext, m, x);

    want(x[at] != value, "a fault that is none");
    x[at] = value;
    refuse(x, n, what);
}

/* The mark, the length and each octet of the padding, one by one. */
static void faults(size_t m)
{
    size_t n = (m + 7) / 8, i;

    for (i = 0; i < 4; i++) {
        fault(m, i, 0, "another mark");
        fault(m, i, (uint8_t)(i % 3 == 0 ? 0xa7 : 0x58), "a mark that differs by a bit");
    }
    for (i = 4; i < 7; i++) {
        fault(m, i, 1, "a high octet of the length");
        fault(m, i, 0x80, "a high octet of the length");
    }
    fault(m, 7, (uint8_t)(8 * n + 1), "a length too large");
    fault(m, 7, 255, "a length too large");
    for (i = m; i < 8 * n; i++)
        fault(m, 8 + i, (uint8_t)(i % 2 == 0 ? 1 : 0x80), "an octet of the padding");
}

/* The greatest length of one register less, and nothing else wrong: the last register is all padding. */
static void too_small(size_t n)
{
    uint8_t x[KEYWRAP_LONGEST];

    keywrap_frame(plaintext, 8 * n, x);
    memset(x + 8 * n, 0, 8);
    x[7] = (uint8_t)(8 * n - 8);
    refuse(x, n, "a length too small");
}

static void damage(size_t m)
{
    uint8_t x[KEYWRAP_LONGEST], out[SHAWM_PLAINTEXT_LIMIT];
    size_t n = keywrap_frame(plaintext, m, x), i;

    keywrap_wrap(schedule, x, n);
    for (i = 0; i < 8 + 8 * n; i += 5) {
        x[i] ^= 1;
        want(unwrap(x, 8 + 8 * n, out, sizeof out) == (SHAWM_REFUSED | SHAWM_BAD_CIPHERTEXT), "damage");
        x[i] ^= 1;
    }
}

/* Of the lengths of one and of each even number of registers one with seven octets of padding, and a few with none. */
static void refused(size_t m)
{
    if (m == 1 || m % 16 == 9 || m % 80 == 0) {
        faults(m);
        too_small((m + 7) / 8);
    }
    if (m % 60 == 1)
        damage(m);
}

static void unwrap_into(size_t m, size_t room, uint32_t expected)
{
    uint8_t x[KEYWRAP_LONGEST], out[SHAWM_PLAINTEXT_LIMIT];
    size_t n = keywrap_frame(plaintext, m, x);

    keywrap_wrap(schedule, x, n);
    memset(out, 0, sizeof out);
    want(unwrap(x, 8 + 8 * n, out, room) == expected, "the answer");
    if (expected == m) {
        want_hidden(out, m, 0xff, "a bit of the plaintext is known");
        show(out, m);
        want(memcmp(out, plaintext, m) == 0, "the plaintext");
    }
    want_hidden(out, sizeof out, 0, "a secret where nothing is to be written");
}

static void too_short(size_t m)
{
    unwrap_into(m, m - 1, SHAWM_REFUSED | SHAWM_NO_ROOM);
}

static void accepted(size_t m)
{
    unwrap_into(m, m % 2 == 0 ? m : sizeof plaintext, (uint32_t)m);
}

int main(int count, char **words)
{
    static const struct {
        const char *name;
        void (*of)(size_t m);
    } runs[] = { { "wrap", wrap }, { "refused", refused }, { "short", too_short }, { "accepted", accepted } };
    size_t step = count == 3 ? (size_t)atoi(words[2]) : 0, i, m;

    aes_tables();
    for (i = 0; i < sizeof key; i++)
        key[i] = (uint8_t)(0x2b * i + 7);
    for (i = 0; i < sizeof plaintext; i++)
        plaintext[i] = (uint8_t)(0x5d * i + 1);
    aes_expand(key, schedule);
    for (i = 0; i < sizeof runs / sizeof runs[0]; i++)
        if (step > 0 && strcmp(words[1], runs[i].name) == 0)
            for (m = 1; m <= SHAWM_PLAINTEXT_LIMIT; m += step)
                runs[i].of(m);
    want(calls > 0, "no calls");
    printf("%lu calls\n", calls);
    return 0;
}
