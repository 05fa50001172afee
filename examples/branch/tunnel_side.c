/* From the key distributor: messages cut anywhere, one behind the other. */
#include "branch.h"

#include "log.h"
#include "refusal.h"
#include "wipe.h"

#include <errno.h>
#include <stdio.h>
#include <string.h>

/* The keys are in the table: looks them up for the media code, which would take the record here. */
static int stored(struct branch *branch, struct booth *booth)
{
    struct answer answer;
    struct record record;

    if (relay_look(&branch->relay, booth->endpoint, &record, &answer) != 0)
        return -1;
    if (answer.kind == ANSWER_REFUSED)
        say("booth %s: look refused, %u: %s", booth_name(booth), answer.number, refusal_meaning(answer.number));
    else
        say("booth %s: keys stored for endpoint %lu: profile 0x%04x, keys of %zu and %zu octets, salts of %zu and %zu, "
            "MKI of %zu", booth_name(booth), (unsigned long)booth->endpoint, record_profile(&record),
            record_length(&record, RECORD_CLIENT_KEY), record_length(&record, RECORD_SERVER_KEY),
            record_length(&record, RECORD_CLIENT_SALT), record_length(&record, RECORD_SERVER_SALT),
            record_length(&record, RECORD_MKI));
    wipe(&record, sizeof record);
    return 0;
}

static void deliver(struct branch *branch, const struct booth *booth, const struct answer *answer)
{
    if (udp_send(branch->udp, &booth->address, answer->octets, answer->n) != 0) {
        const char *why = strerror(errno);

        say("booth %s: DTLS packet lost: %s", booth_name(booth), why);
    }
}

static void removed(struct booth *booth)
{
    say("booth %s: association ended by the key distributor", booth_name(booth));
    booths_remove(booth);
}

/* A message for one association: the relay says which endpoint that has. */
static int for_booth(struct branch *branch, const struct answer *answer)
{
    struct booth *booth = booths_by_endpoint(&branch->booths, answer->endpoint);

    if (answer->kind != ANSWER_DELIVERY)
        branch->status.changed = 1;
    if (booth == NULL) {
        say("tunnel: message for endpoint %lu, which no booth has", (unsigned long)answer->endpoint);
        return 0;
    }
    if (answer->kind == ANSWER_STORED)
        return stored(branch, booth);
    if (answer->kind == ANSWER_DELIVERY)
        deliver(branch, booth, answer);
    else
        removed(booth);
    return 0;
}

/* A refusal of a message leaves all records as they were and the next message to be read; but the tunnel has ended
 * after an oversize one (2), behind which no message can be found again. */
static void refused(struct branch *branch, const struct answer *answer)
{
    say("tunnel: message refused, %u: %s", answer->number, refusal_meaning(answer->number));
    if (answer->number == SHAWM_OVERSIZE || answer->number == SHAWM_TUNNEL_DOWN)
        branch_ended(branch, "no message boundary can be found again");
}

/* UnsupportedVersion (RFC 9185, section 5.5): the tunnel has ended in the relay, and every octet was taken. */
static void version(struct branch *branch, unsigned number)
{
    char why[80];

    snprintf(why, sizeof why, "the key distributor speaks version %u at most", number);
    branch_ended(branch, why);
}

/* What one answer asks for. */
static int act(struct branch *branch, const struct answer *answer)
{
    switch (answer->kind) {
    case ANSWER_STORED:
    case ANSWER_DELIVERY:
    case ANSWER_REMOVED:
        return for_booth(branch, answer);
    case ANSWER_VERSION:
        version(branch, answer->number);
        return 0;
    default:
        refused(branch, answer);
        return 0;
    }
}

int branch_octets(struct branch *branch)
{
    struct tunnel *tunnel = &branch->tunnel;
    struct answer answer;

    while (tunnel->in_n > 0) {
        if (relay_octets(&branch->relay, tunnel->in, tunnel->in_n, &answer) != 0)
            return -1;
        if (answer.kind == ANSWER_MORE_NEEDED)
            return 0;
        if (act(branch, &answer) != 0)
            return -1;
        if (tunnel->state != TUNNEL_CONNECTED)   /* it has ended, and its octets are gone */
            return 0;
        tunnel_drop(tunnel, answer.taken);
    }
    return 0;
}
