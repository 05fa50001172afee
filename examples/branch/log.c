#include "log.h"

#include "clock.h"

#include <errno.h>
#include <stdarg.h>
#include <stdio.h>
#include <unistd.h>

enum { LINE_OCTETS = 512 };

/* A log that nobody reads any more is no reason to stop, so a failure ends the line and nothing else. */
static void put(const char *octets, size_t n)
{
    while (n > 0) {
        ssize_t put = write(STDERR_FILENO, octets, n);

        if (put < 0 && errno == EINTR)
            continue;
        if (put <= 0)
            return;
        octets += put;
        n -= (size_t)put;
    }
}

void say(const char *format, ...)
{
    char line[LINE_OCTETS];
    va_list values;
    int n;

    va_start(values, format);
    n = vsnprintf(line, sizeof line - 1, format, values);
    va_end(values);
    if (n < 0)
        return;
    if (n > LINE_OCTETS - 2)
        n = LINE_OCTETS - 2;
    line[n] = '\n';
    put(line, (size_t)n + 1);
}

const char *log_limited(struct log_limit *limit)
{
    static char more[48];
    int64_t moment = now();

    if (moment < limit->again) {
        limit->left_out++;
        return NULL;
    }
    more[0] = '\0';
    if (limit->left_out > 0)
        snprintf(more, sizeof more, "; %lu like it left out", limit->left_out);
    limit->again = moment + LOG_PAUSE;
    limit->left_out = 0;
    return more;
}
