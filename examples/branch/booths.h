/* The booths: which address has which endpoint number and which association. What is known of an association itself
 * (its state, its keys) is in the relay's table and nowhere here. */
#ifndef BRANCH_BOOTHS_H
#define BRANCH_BOOTHS_H

#include "address.h"
#include "list.h"
#include "log.h"

#include <shawm.h>

/* One more than the relay's table has places, so that its refusal 10 decides. */
enum { BOOTHS = 33 };

struct booth {
    int live;
    struct address address;
    const struct listed *listed;   /* its line in the list of booths; NULL without a list */
    uint32_t endpoint;
    uint8_t identifier[SHAWM_IDENTIFIER_OCTETS];
    int64_t heard;                 /* when its last DTLS or media packet came (clock.h) */
    uint32_t tag;                  /* what shawm_tag said of its last media packet */
    struct log_limit others;       /* for packets from other ports of its address */
};

struct booths {
    struct booth all[BOOTHS];
    uint32_t last;   /* the endpoint number that was given last without a list: a number is not used again soon */
};

/* What a booth is called in the log: its address, and its name where it has a line in the list. Good until the next
 * call. */
const char *booth_label(const struct address *address, const struct listed *listed);
const char *booth_name(const struct booth *booth);

/* NULL where there is none. */
struct booth *booths_by_address(struct booths *booths, const struct address *address);
struct booth *booths_by_endpoint(struct booths *booths, uint32_t endpoint);

/* The live booth that has been silent for longest. NULL where there is none. */
struct booth *booths_most_idle(struct booths *booths);

/* A booth with the endpoint number of its line in the list, or without one (NULL) with the next number; its identifier
 * is still to be made. NULL where there is no room. */
struct booth *booths_add(struct booths *booths, const struct address *address, const struct listed *listed,
                         int64_t heard);

void booths_remove(struct booth *booth);

/* Removes all; answers how many there were. */
unsigned booths_clear(struct booths *booths);

#endif
