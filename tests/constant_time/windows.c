#include "windows.h"
#include <stdio.h>
#include <stdlib.h>
#include <string.h>

const char *const kind_names[KINDS] = { "nothing",   "public",    "key",    "round keys",
                                        "plaintext", "registers", "states", "derived" };

enum { SLOTS = 1 << 19 };

static struct slot {
    uint64_t value;
    uint8_t width, kind;
} slots[SLOTS];
static size_t taken;

void windows_clear(void)
{
    memset(slots, 0, sizeof slots);
    taken = 0;
}

/* The slot of a stretch, or the vacant one where it goes. */
static struct slot *slot(uint64_t value, size_t width)
{
    uint64_t at = (value ^ width) * 0x9e3779b97f4a7c15u >> 32;

    for (;; at++) {
        struct slot *found = &slots[at % SLOTS];

        if (found->width == 0 || (found->width == width && found->value == value))
            return found;
    }
}

static uint64_t number(const uint8_t *octets, size_t width, int backwards)
{
    uint64_t value = 0;
    size_t i;

    for (i = 0; i < width; i++)
        value = value << 8 | octets[backwards ? width - 1 - i : i];
    return value;
}

/* Not met by chance: no octet repeated all through, as the paint is, and no small number. */
static int telling(const uint8_t *octets, size_t width)
{
    size_t zeros = 0, i;

    for (i = 0; i < width; i++)
        zeros += octets[i] == 0;
    return zeros <= width / 4 && memcmp(octets, octets + 1, width - 1) != 0;
}

void windows_add(enum kind kind, const uint8_t *octets, size_t n, size_t width)
{
    size_t i;

    for (i = 0; i + width <= n; i++) {
        uint64_t value = number(octets + i, width, 0);
        struct slot *place = slot(value, width);

        if (place->width != 0 || !telling(octets + i, width))
            continue;
        place->value = value;
        place->width = (uint8_t)width;
        place->kind = (uint8_t)kind;
        if (++taken > SLOTS / 2) {
            printf("too many secrets\n");
            exit(1);
        }
    }
}

static void cover(const uint8_t *octets, size_t width, int backwards, uint8_t *kinds)
{
    const struct slot *found = slot(number(octets, width, backwards), width);
    size_t i;

    for (i = 0; i < width && found->width != 0; i++)
        if (kinds[i] <= PUBLIC || (found->kind > PUBLIC && found->kind < kinds[i]))
            kinds[i] = found->kind;
}

void windows_find(const uint8_t *octets, size_t n, uint8_t *kinds)
{
    static const size_t widths[] = { 4, 8 };
    size_t i, k;

    memset(kinds, NOTHING, n);
    for (k = 0; k < 2; k++)
        for (i = 0; i + widths[k] <= n; i++) {
            cover(octets + i, widths[k], 0, kinds + i);
            cover(octets + i, widths[k], 1, kinds + i);
        }
}
