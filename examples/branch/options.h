/* What the program is started with. */
#ifndef BRANCH_OPTIONS_H
#define BRANCH_OPTIONS_H

#include "address.h"

#include <stdint.h>

struct options {
    const char *relay;
    struct address listen;
    struct address distributor;
    int64_t idle;          /* milliseconds, as the next */
    int64_t retry;
    const char *status;    /* NULL without, as the next */
    const char *booths;
    int control;           /* -1 without */
};

/* 0, or -1 and lines in the log. */
int options_read(int count, char **words, struct options *options);

#endif
