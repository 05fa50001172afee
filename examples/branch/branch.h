/*
 * The branch: all that the program holds, and what it does when something comes.
 *
 * A function that answers int answers 0, or -1 if the relay is gone: then the table is lost and the program has to end.
 * Every other failure is dealt with where it happens and has its line in the log.
 */
#ifndef BRANCH_BRANCH_H
#define BRANCH_BRANCH_H

#include "booths.h"
#include "list.h"
#include "relay.h"
#include "status.h"
#include "tunnel.h"
#include "udp.h"

/* How many kinds of packets it knows (enum shawm_kind). */
enum { BRANCH_KINDS = SHAWM_KIND_TURN_CHANNEL + 1 };

struct branch {
    struct relay relay;
    struct tunnel tunnel;
    struct booths booths;
    const struct list *list;      /* NULL: every address is served */
    struct log_limit strangers;   /* for packets from addresses that are not in the list */
    struct log_limit dropped[BRANCH_KINDS];   /* by kind: for packets that are dropped for it, from whomever */
    struct status status;
    int udp;
    struct address distributor;
    int64_t idle;     /* how long a booth may be silent, in milliseconds */
    int64_t retry;    /* how long to wait before connecting again */
    int64_t moment;   /* closed: when to connect; connecting: when to give up */
};

/* A packet of a booth (booth_side.c). */
int branch_packet(struct branch *branch, const struct packet *packet);

/* The messages at the front of what came through the tunnel (tunnel_side.c). */
int branch_octets(struct branch *branch);

/* The tunnel's states (lifetime.c): the connection stands, and the relay starts; it has broken, and the relay is told;
 * or the relay has said that it ended. */
int branch_connected(struct branch *branch);
int branch_disconnected(struct branch *branch, const char *why);
void branch_ended(struct branch *branch, const char *why);

/* What is due by the clock: silent booths are closed, a connection is tried (lifetime.c). The first of what comes next
 * is due at branch_due. */
int branch_tick(struct branch *branch);
int64_t branch_due(struct branch *branch);

/* Has the status page written, if that may have changed or is due (status_side.c). The second is for the program's end:
 * the tunnel is down, and `relay` is 0 if there is no relay to ask any more. */
int branch_show(struct branch *branch);
void branch_show_last(struct branch *branch, int relay);

/* Closes a booth's association and tells the key distributor (lifetime.c). */
int branch_close(struct branch *branch, struct booth *booth, const char *why);

#endif
