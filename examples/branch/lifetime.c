/* The tunnel's states from one connection to the next, and what is due by the clock. */
#include "branch.h"

#include "clock.h"
#include "log.h"
#include "refusal.h"

#include <errno.h>
#include <string.h>

enum { CONNECT_LIMIT = 10000 };

/* Both double profiles of RFC 8723, the one with shorter keys first. */
static const uint8_t profiles[] = { 0x00, 0x09, 0x00, 0x0A };

/* All associations are gone with the tunnel, and another connection is tried later. */
void branch_ended(struct branch *branch, const char *why)
{
    unsigned count = booths_clear(&branch->booths);

    if (branch->tunnel.state == TUNNEL_CONNECTED)
        branch->status.changed = 1;
    tunnel_close(&branch->tunnel);
    branch->moment = now() + branch->retry;
    say("tunnel: down: %s; %u associations gone; next connection in %ld ms", why, count, (long)branch->retry);
}

int branch_disconnected(struct branch *branch, const char *why)
{
    struct answer answer;

    if (branch->tunnel.state == TUNNEL_CONNECTED && relay_end(&branch->relay, &answer) != 0)
        return -1;
    branch_ended(branch, why);
    return 0;
}

int branch_connected(struct branch *branch)
{
    struct answer answer;

    if (tunnel_connected(&branch->tunnel) != 0)
        return branch_disconnected(branch, strerror(errno));
    if (relay_begin(&branch->relay, profiles, sizeof profiles, &answer) != 0)
        return -1;
    if (answer.kind == ANSWER_REFUSED) {
        say("tunnel: start refused, %u: %s", answer.number, refusal_meaning(answer.number));
        return branch_disconnected(branch, "not started");
    }
    if (tunnel_queue(&branch->tunnel, answer.octets, answer.n, 0) != 0)
        return branch_disconnected(branch, "no room for its first message");
    say("tunnel: up: version 0, profiles 0x0009 and 0x000A");
    branch->status.changed = 1;
    return 0;
}

static void connect_now(struct branch *branch)
{
    branch->moment = now() + CONNECT_LIMIT;
    if (tunnel_connect(&branch->tunnel, &branch->distributor) != 0)
        branch_ended(branch, strerror(errno));
}

int branch_close(struct branch *branch, struct booth *booth, const char *why)
{
    struct answer answer;

    if (relay_close(&branch->relay, booth->identifier, &answer) != 0)
        return -1;
    if (answer.kind == ANSWER_REFUSED)
        say("booth %s: closing refused, %u: %s", booth_name(booth), answer.number, refusal_meaning(answer.number));
    else
        say("booth %s: closed: %s", booth_name(booth), why);
    branch->status.changed = 1;
    booths_remove(booth);
    if (answer.kind == ANSWER_WRITTEN && tunnel_queue(&branch->tunnel, answer.octets, answer.n, 0) != 0)
        return branch_disconnected(branch, "the key distributor does not read");
    return 0;
}

static int close_silent(struct branch *branch)
{
    struct booth *booth;

    while ((booth = booths_most_idle(&branch->booths)) != NULL && booth->heard + branch->idle <= now())
        if (branch_close(branch, booth, "silent for too long") != 0)
            return -1;
    return 0;
}

int branch_tick(struct branch *branch)
{
    if (close_silent(branch) != 0)
        return -1;
    if (branch->tunnel.state == TUNNEL_CONNECTED || now() < branch->moment)
        return 0;
    if (branch->tunnel.state == TUNNEL_CLOSED)
        connect_now(branch);
    else
        return branch_disconnected(branch, "no connection in time");
    return 0;
}

/* The first of two moments. */
static int64_t earlier(int64_t a, int64_t b)
{
    return a < b ? a : b;
}

int64_t branch_due(struct branch *branch)
{
    struct booth *booth = booths_most_idle(&branch->booths);
    int64_t shown = status_due(&branch->status);

    if (branch->tunnel.state != TUNNEL_CONNECTED)
        return earlier(shown, branch->moment);   /* no booth is live without a tunnel */
    return booth == NULL ? shown : earlier(shown, booth->heard + branch->idle);
}
