#include "lent.h"
#include "target.h"
#include <stdio.h>
#include <stdlib.h>
#include <string.h>
#include <sys/mman.h>

const char *input_name = "the input";
int at_end;

static uint8_t *memory[STRETCHES];

void reserve(void)
{
    int i;

    if (memory[0] != NULL)
        return;
    for (i = 0; i < STRETCHES; i++) {
        void *base = mmap(NULL, LARGEST + 2 * PAGE, PROT_NONE, MAP_PRIVATE | MAP_ANONYMOUS, -1, 0);

        if (base == MAP_FAILED || mprotect((uint8_t *)base + PAGE, LARGEST, PROT_READ | PROT_WRITE) != 0)
            abort();
        memory[i] = (uint8_t *)base + PAGE;
    }
}

uint8_t *place(int i, size_t n)
{
    return at_end ? memory[i] + LARGEST - n : n == 0 ? NULL : memory[i];
}

const uint8_t *lend(int i, const uint8_t *octets, size_t n)
{
    uint8_t *at = place(i, n);

    if (n > 0)
        memcpy(at, octets, n);
    return at;
}

void disagree(const char *asked, size_t number, size_t library, size_t paper)
{
    fprintf(stderr, "DISAGREEMENT on %s: %s of %zu: library %zx, papers %zx\n", input_name, asked, number, library, paper);
    abort();
}

void unchanged(const uint8_t *lent, const uint8_t *octets, size_t n)
{
    AGREE("octets changed", n, n > 0 && memcmp(lent, octets, n) != 0, 0);
}

uint8_t *poisoned(size_t room, uint8_t poison)
{
    uint8_t *out = place(OUT, room);

    if (room > 0)
        memset(out, poison, room);
    return out;
}

/* Every octet has this value: the first has, and each is as the one before. */
static int all(const uint8_t *octets, size_t n, uint8_t value)
{
    return octets[0] == value && memcmp(octets, octets + 1, n - 1) == 0;
}

void written(const uint8_t *out, size_t room, uint8_t poison, const uint8_t *wanted, size_t front)
{
    AGREE("octets written", front, front > 0 && memcmp(out, wanted, front) != 0, 0);
    AGREE("octets behind", front, room > front && !all(out + front, room - front, poison), 0);
}
