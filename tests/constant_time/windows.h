/* Secrets by all their stretches of 4 or 8 octets, to be found again wherever they begin. */
#ifndef WINDOWS_H
#define WINDOWS_H

#include <stddef.h>
#include <stdint.h>

/* What an octet is of. Nothing is added as DERIVED: such an octet is of no stretch that is known. */
enum kind { NOTHING, PUBLIC, KEY, ROUND_KEYS, PLAINTEXT, REGISTERS, STATES, DERIVED, KINDS };
extern const char *const kind_names[KINDS];

void windows_clear(void);
/* All stretches of so many octets, but those that were added before and those that could be anything. */
void windows_add(enum kind kind, const uint8_t *octets, size_t n, size_t width);
/* The kind of each octet, also where the octets stand in the order of a number. */
void windows_find(const uint8_t *octets, size_t n, uint8_t *kinds);

#endif
