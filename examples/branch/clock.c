#include "clock.h"

#include "log.h"

#include <errno.h>
#include <limits.h>
#include <stdlib.h>
#include <string.h>
#include <time.h>

int64_t now(void)
{
    struct timespec t;

    if (clock_gettime(CLOCK_MONOTONIC, &t) != 0) {
        say("branch: no clock: %s", strerror(errno));
        exit(EXIT_FAILURE);
    }
    return (int64_t)t.tv_sec * 1000 + t.tv_nsec / 1000000;
}

int until(int64_t moment)
{
    int64_t left = moment - now();

    if (left <= 0)
        return 0;
    return left > INT_MAX ? INT_MAX : (int)left;
}
