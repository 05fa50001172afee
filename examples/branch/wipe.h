/* Octets that were keys, made zero. Through volatile, so that the compiler does not leave it out. */
#ifndef BRANCH_WIPE_H
#define BRANCH_WIPE_H

#include <stddef.h>

static inline void wipe(void *octets, size_t n)
{
    volatile unsigned char *at = octets;

    while (n-- > 0)
        *at++ = 0;
}

#endif
