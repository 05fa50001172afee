/* Lines for the log, on standard error. No line may have an octet of a key, a salt or a DTLS packet in it. */
#ifndef BRANCH_LOG_H
#define BRANCH_LOG_H

#include <stdint.h>

/* One line, as printf; the end of the line is added. */
void say(const char *format, ...) __attribute__((format(printf, 1, 2)));

/* For a line that anybody who sends packets could have written without end: at most one of its kind in LOG_PAUSE
 * milliseconds. All zeros at first. */
enum { LOG_PAUSE = 5000 };

struct log_limit {
    int64_t again;             /* when the next may be written (clock.h) */
    unsigned long left_out;    /* since the last that was */
};

/* NULL if the line has to be left out; else what it is to end with: how many were left out before it, if any were. Good
 * until the next call. */
const char *log_limited(struct log_limit *limit);

#endif
