/* What the test programs share: counted checks, octets of their own exact size, and the numbers of the answers. C99 and
 * C++ alike. */
#ifndef CHECK_H
#define CHECK_H

#include <shawm.h>
#include <stdio.h>
#include <stdlib.h>
#include <string.h>

extern unsigned long checks;

/* Two numbers that must be the same. */
#define SAME(got, wanted) check_same(__FILE__, __LINE__, #got, (got), (wanted))
#define REFUSED(got, number) SAME(got, SHAWM_REFUSED | (number))

static inline void check_same(const char *file, int line, const char *what, size_t got, size_t wanted)
{
    checks++;
    if (got != wanted) {
        fprintf(stderr, "%s:%d: %s is %zu (%zx), wanted %zu (%zx)\n", file, line, what, got, got, wanted, wanted);
        exit(1);
    }
}

/* Octets in memory of just their number, so that a sanitizer sees one step outside. */
struct octets {
    uint8_t *at;
    size_t n;
};

/* From hex, spaces left out: hold("04 0013"). */
struct octets hold(const char *hex);
/* n times one value. */
struct octets fill(uint8_t value, size_t n);
/* One stretch behind another; both are given back. */
struct octets join(struct octets front, struct octets behind);
void give_back(struct octets octets);
/* The written octets are these, in hex, and the rest of out still has the value that it was filled with. */
void check_written(const char *file, int line, struct octets out, const char *hex, uint8_t filled);
#define WRITTEN(out, hex, filled) check_written(__FILE__, __LINE__, out, hex, filled)

void sorting(void);
void reading(void);
void fields(void);
void writing(void);
void tag(void);
void wrapping(void);
void forging(void);
void indexing(void);
void walking(void);
void page(void);
void pages(void);
void comfort(void);

#endif
