/*
 * The connection to the key distributor, with what has come from it and is not read yet, and what is still to be sent.
 *
 * Its octets come in pieces of any size. So they are kept in a buffer, the front of which is lent to the relay until
 * that answers "more needed"; what it took is dropped from the front.
 */
#ifndef BRANCH_TUNNEL_H
#define BRANCH_TUNNEL_H

#include "address.h"

#include <shawm.h>

enum {
    TUNNEL_IN = SHAWM_MESSAGE_LIMIT + 512,   /* more than one, so that there is always room behind one that is not whole */
    /* Room that DTLS packets leave free: they may be lost, as in any network, but a disconnect may not. */
    TUNNEL_SPARE = 2 * 1024,
    TUNNEL_OUT = SHAWM_MESSAGE_LIMIT + TUNNEL_SPARE
};

enum tunnel_state { TUNNEL_CLOSED, TUNNEL_CONNECTING, TUNNEL_CONNECTED };

struct tunnel {
    enum tunnel_state state;
    int fd;   /* -1 when closed */
    uint8_t in[TUNNEL_IN];
    size_t in_n;
    uint8_t out[TUNNEL_OUT];
    size_t out_n;
};

/* Before any other. */
void tunnel_init(struct tunnel *tunnel);

/* Begins to connect. 0, or -1 with errno. */
int tunnel_connect(struct tunnel *tunnel, const struct address *to);

/* When a connecting socket has become writable: 0 if it is connected now, or -1 with errno. */
int tunnel_connected(struct tunnel *tunnel);

/* What poll is to wait for. */
short tunnel_events(const struct tunnel *tunnel);

/* Reads what there is, once: 1 if octets have come, 0 if not. Or -1 with errno, which is 0 if the key distributor has
 * closed the connection. */
int tunnel_fill(struct tunnel *tunnel);

/* Writes what can be written, once. 0, or -1 with errno. */
int tunnel_flush(struct tunnel *tunnel);

/* Puts a message behind what is to be sent, whole or not at all: -1 if that would leave less room than `spare`. */
int tunnel_queue(struct tunnel *tunnel, const uint8_t *message, size_t n, size_t spare);

/* Drops octets from the front of what has come. */
void tunnel_drop(struct tunnel *tunnel, size_t n);

void tunnel_close(struct tunnel *tunnel);

#endif
