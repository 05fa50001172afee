/*
 * The list of booths (--booths): who is served, with which endpoint number and under which name. A line of it is
 *
 *   ADDRESS ENDPOINT NAME
 *
 * with blanks or tabs between. docs/DEMO.md has the rules; the screen at the desk reads the same file by the same ones.
 */
#ifndef BRANCH_LIST_H
#define BRANCH_LIST_H

#include "address.h"

#include <stddef.h>
#include <stdint.h>

enum { LISTED = 256, LISTED_HOST = 16, LISTED_NAME = 63 };

/* One line. */
struct listed {
    uint8_t host[LISTED_HOST];    /* IPv4 as the IPv6 address that it is mapped to (RFC 4291, section 2.5.5.2) */
    uint16_t port;                /* 0: every port */
    uint32_t endpoint;
    char name[LISTED_NAME + 1];
};

struct list {
    size_t n;
    struct listed all[LISTED];
};

/* Reads the file. 0, or -1 and a line in the log: which of its lines is bad and why. */
int list_read(struct list *list, const char *path);

/* The line that has this address. NULL where there is none. */
const struct listed *list_find(const struct list *list, const struct address *address);

/* What is wrong with one line, whose text is cut up; NULL if it is good, and *listed is it (listed.c). */
const char *listed_read(char *line, struct listed *listed);

/* Host and port of an address as a line has them (listed.c). */
void listed_address(const struct address *address, uint8_t host[LISTED_HOST], uint16_t *port);

#endif
