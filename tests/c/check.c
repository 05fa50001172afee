#include "check.h"
#include <ctype.h>

unsigned long checks = 0;

struct octets fill(uint8_t value, size_t n)
{
    struct octets octets;
    /* malloc may answer NULL for none. */
    void *room = malloc(n == 0 ? 1 : n);

    if (room == NULL)
        exit(2);
    memset(room, value, n);
    octets.at = (uint8_t *)room;
    octets.n = n;
    return octets;
}

static uint8_t digit(char c)
{
    const char *digits = "0123456789abcdef";
    const char *found = strchr(digits, tolower((unsigned char)c));

    if (c == '\0' || found == NULL) {
        fprintf(stderr, "not a hex digit: %c\n", c);
        exit(2);
    }
    return (uint8_t)(found - digits);
}

static size_t digits_of(const char *hex)
{
    size_t n = 0;

    for (; *hex != '\0'; hex++)
        n += *hex != ' ';
    return n;
}

struct octets hold(const char *hex)
{
    struct octets octets = fill(0, digits_of(hex) / 2);
    size_t n;

    for (n = 0; n < octets.n; n++) {
        while (*hex == ' ')
            hex++;
        octets.at[n] = (uint8_t)(digit(hex[0]) * 16 + digit(hex[1]));
        hex += 2;
    }
    return octets;
}

struct octets join(struct octets front, struct octets behind)
{
    struct octets joined = fill(0, front.n + behind.n);

    memcpy(joined.at, front.at, front.n);
    memcpy(joined.at + front.n, behind.at, behind.n);
    give_back(front);
    give_back(behind);
    return joined;
}

void give_back(struct octets octets)
{
    free(octets.at);
}

void check_written(const char *file, int line, struct octets out, const char *hex, uint8_t filled)
{
    struct octets wanted = hold(hex);
    size_t i;

    for (i = 0; i < out.n; i++)
        check_same(file, line, "an octet of the output", out.at[i], i < wanted.n ? wanted.at[i] : filled);
    give_back(wanted);
}

int main(void)
{
    sorting();
    reading();
    fields();
    writing();
    tag();
    wrapping();
    forging();
    indexing();
    walking();
    page();
    pages();
    comfort();
    printf("%lu answers as stated\n", checks);
    return checks == 0;
}
