/*
 * The status page for the screen at the desk (--status FILE): in FILE the octets that the relay gave, and in FILE.tunnel
 * the word "up" or "down", as the page cannot tell a tunnel that is down from one without an association. Nothing else
 * is in them, so no octet of a key is.
 *
 * Each is a new file that takes the old one's place, so a reader finds a whole page, this one or the one before. The
 * word is written first. Between the two a reader can find "down" beside the last page of the tunnel that ended, but
 * never "up" beside the empty page of its end; and "up" beside the empty page with which every tunnel starts. No page is
 * written without the word, so that the age of the page is the age of both.
 */
#ifndef BRANCH_STATUS_H
#define BRANCH_STATUS_H

#include <stddef.h>
#include <stdint.h>

/* A page that has not changed is written again after so many milliseconds: half of what is promised, as the relay may
 * take RELAY_LIMIT to give it. */
enum { STATUS_PERIOD = 5000 };

struct status {
    const char *path;   /* NULL: none is written */
    int changed;        /* something was dealt with that can have changed the page or the word */
    int64_t due;        /* when it is written even so (clock.h) */
    int failing;        /* the last could not be written */
};

/* 1 if a path has room for what is put behind it. */
int status_path_fits(const char *path);

/* When the next is to be written. */
int64_t status_due(const struct status *status);

/* Writes word and page. A failure is logged, when the time before was none, and made good by the next time. */
void status_write(struct status *status, int up, const uint8_t *page, size_t n);

/* Writes the word alone: down, where nobody can say any more what the page is. */
void status_write_down(struct status *status);

#endif
