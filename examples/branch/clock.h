/* The time, for what has to happen after a while. */
#ifndef BRANCH_CLOCK_H
#define BRANCH_CLOCK_H

#include <stdint.h>

/* Milliseconds from a fixed moment; does not go back when somebody sets the clock. */
int64_t now(void);

/* How long poll may wait for a moment that is still to come: 0 if it has passed. */
int until(int64_t moment);

#endif
