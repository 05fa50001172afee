/*
 * The relay: the program that holds the tunnel's state and the table of associations, as a child process. Requests go
 * to its standard input and one answer to each comes from its standard output (docs/RELAY.md).
 *
 * A call waits for its answer: what is done next always depends on it, and the relay waits for nobody. A relay that
 * has not answered within RELAY_LIMIT is taken for broken.
 */
#ifndef BRANCH_RELAY_H
#define BRANCH_RELAY_H

#include "record.h"

#include <shawm.h>
#include <sys/types.h>

enum { RELAY_LIMIT = 5000, RELAY_FRAME = 4100 };

enum answer_kind {
    ANSWER_MORE_NEEDED = 0,
    ANSWER_REFUSED = 1,
    ANSWER_WRITTEN = 2,
    ANSWER_PLACED = 3,
    ANSWER_ENDED = 4,
    ANSWER_FOUND = 5,
    ANSWER_STORED = 6,
    ANSWER_DELIVERY = 7,
    ANSWER_REMOVED = 8,
    ANSWER_VERSION = 9,
    ANSWER_PAGE = 10
};

struct answer {
    unsigned kind;           /* enum answer_kind */
    unsigned number;         /* refused: the refusal's number; placed: the place; version: the version */
    size_t taken;            /* of the octets from the tunnel */
    uint32_t endpoint;       /* stored, delivery, removed: of the association that the message named */
    const uint8_t *octets;   /* written: the message; delivery: the DTLS octets; page. Good until the next call */
    size_t n;
};

struct relay {
    pid_t pid;
    int to;
    int from;                             /* readable between calls: the relay has ended */
    uint8_t frame[2 + RELAY_FRAME];       /* the request, then its answer */
};

/* Starts the program. 0, or -1 and a line in the log. */
int relay_start(struct relay *relay, const char *path);

/* Ends the input of the relay, upon which it ends, and waits for that; a relay that stays is killed. */
void relay_stop(struct relay *relay);

/* The eight calls. 0 and an answer of a kind that belongs to the call; or -1 and a line in the log: the relay is gone
 * or broken, its table is lost, and no further call may be made. */
int relay_begin(struct relay *relay, const uint8_t *list, size_t n, struct answer *answer);
int relay_open(struct relay *relay, uint32_t endpoint, const uint8_t id[SHAWM_IDENTIFIER_OCTETS],
               struct answer *answer);
int relay_packet(struct relay *relay, uint32_t endpoint, const uint8_t *packet, size_t n, struct answer *answer);
int relay_octets(struct relay *relay, const uint8_t *octets, size_t n, struct answer *answer);
int relay_close(struct relay *relay, const uint8_t id[SHAWM_IDENTIFIER_OCTETS], struct answer *answer);
int relay_end(struct relay *relay, struct answer *answer);
int relay_look(struct relay *relay, uint32_t endpoint, struct record *record, struct answer *answer);
int relay_page(struct relay *relay, struct answer *answer);

#endif
