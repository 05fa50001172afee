/* Stretches that are lent to the library, each beside a closed page, and the comparison of what it answers. */
#ifndef LENT_H
#define LENT_H

#include <stddef.h>
#include <stdint.h>

#define PAGE ((size_t)4096)
#define LARGEST ((size_t)20 * PAGE)   /* of one lent stretch */

enum { STRETCHES = 7, OUT = 6 };

/* 1 where stretches end at a closed page, 0 where they begin behind one. */
extern int at_end;

/* Before the first is lent; again, it does nothing. */
void reserve(void);

/* Where n octets stand. */
uint8_t *place(int i, size_t n);
const uint8_t *lend(int i, const uint8_t *octets, size_t n);

void disagree(const char *asked, size_t number, size_t library, size_t paper);

#define AGREE(asked, number, library, paper)                     \
    do {                                                         \
        size_t answered = (library), by_paper = (paper);         \
        if (answered != by_paper)                                \
            disagree((asked), (number), answered, by_paper);     \
    } while (0)

void unchanged(const uint8_t *lent, const uint8_t *octets, size_t n);

/* An output before the call, and after one that has to write the first front octets of it, which are those wanted. */
uint8_t *poisoned(size_t room, uint8_t poison);
void written(const uint8_t *out, size_t room, uint8_t poison, const uint8_t *wanted, size_t front);

#endif
