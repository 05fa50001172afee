/* From a booth: what kind of packet it is decides where it goes (RFC 7983, section 7). */
#include "branch.h"

#include "clock.h"
#include "identifier.h"
#include "log.h"
#include "refusal.h"

#include <errno.h>
#include <string.h>

static void refused(const char *name, const char *what, unsigned number)
{
    say("booth %s: %s refused, %u: %s", name, what, number, refusal_meaning(number));
}

/* A booth that sends its first DTLS packet gets an association. *opened is NULL where that was refused. */
static int open_booth(struct branch *branch, const struct address *from, const struct listed *listed,
                      struct booth **opened)
{
    struct booth *booth = booths_add(&branch->booths, from, listed, now());
    char id[IDENTIFIER_TEXT];
    struct answer answer;

    *opened = NULL;
    if (booth == NULL || identifier_make(booth->identifier) != 0) {
        const char *why = booth == NULL ? "too many booths" : strerror(errno);

        say("booth %s: not opened: %s", booth_label(from, listed), why);
        if (booth != NULL)
            booths_remove(booth);
        return 0;
    }
    if (relay_open(&branch->relay, booth->endpoint, booth->identifier, &answer) != 0)
        return -1;
    if (answer.kind == ANSWER_REFUSED) {
        refused(booth_name(booth), "opening", answer.number);
        booths_remove(booth);
        return 0;
    }
    identifier_text(booth->identifier, id);
    say("booth %s: endpoint %lu, association %s opened at place %u", booth_name(booth),
        (unsigned long)booth->endpoint, id, answer.number);
    branch->status.changed = 1;
    *opened = booth;
    return 0;
}

/* To the key distributor: only what sorts as DTLS comes here, and the relay refuses all else by itself (14). A packet
 * that was cut is longer than any that it takes. */
static int to_tunnel(struct branch *branch, struct booth *booth, const struct packet *packet)
{
    struct answer answer;

    if (relay_packet(&branch->relay, booth->endpoint, packet->octets, packet->n, &answer) != 0)
        return -1;
    if (answer.kind == ANSWER_REFUSED) {
        refused(booth_name(booth), "packet", answer.number);
        return 0;
    }
    booth->heard = now();
    if (tunnel_queue(&branch->tunnel, answer.octets, answer.n, TUNNEL_SPARE) != 0)
        say("booth %s: packet lost: the key distributor does not keep up", booth_name(booth));
    return 0;
}

static const char *tag_kind(uint32_t tag)
{
    if (shawm_is_refusal(tag))
        return "no EKT tag: refused, 18: no EKT tag ends this packet";
    if (tag == SHAWM_TAG_SHORT)
        return "a Short EKT tag";
    return tag == SHAWM_TAG_FULL ? "a Full EKT tag" : "an Extension EKT tag";
}

/* Media goes to the media code, with the keys of the booth's record: here is its place. The log says what kind of tag
 * ends the packet, when that is another than before. */
static void media(struct booth *booth, const struct packet *packet)
{
    uint32_t tag = shawm_tag(packet->octets, packet->n);

    booth->heard = now();
    if (packet->cut) {
        say("booth %s: media dropped: above %d octets", booth_name(booth), UDP_PACKET);
        return;
    }
    if (tag != booth->tag)
        say("booth %s: media with %s", booth_name(booth), tag_kind(tag));
    booth->tag = tag;
}

/* Why a packet is dropped, by its kind. Media is dropped only where there is no association; DTLS never comes
 * here. */
static const char *const reasons[BRANCH_KINDS] = {
    [SHAWM_KIND_STUN] = "STUN",
    [SHAWM_KIND_RTP] = "media, and no association with that address",
    [SHAWM_KIND_OTHER] = "of no known kind",
    [SHAWM_KIND_ZRTP] = "ZRTP",
    [SHAWM_KIND_TURN_CHANNEL] = "TURN channel data"
};

/* Nobody here deals with it: it opens nothing and keeps no association open. What is of no known kind has to be dropped,
 * and an alert may be logged (RFC 7983, section 7); so is a kind that only a later library has. */
static void drop(struct branch *branch, uint32_t kind, const struct listed *listed, const struct packet *packet)
{
    const char *more;

    if (kind >= BRANCH_KINDS || reasons[kind] == NULL)
        kind = SHAWM_KIND_OTHER;
    if ((more = log_limited(&branch->dropped[kind])) != NULL)
        say("booth %s: packet dropped: %s%s", booth_label(&packet->from, listed), reasons[kind], more);
}

/* With a list of booths: 1 if a packet from an address that has no association is taken, *listed being its line. Others
 * are dropped: those of strangers, and those from another port of a booth that has an association, since they would be
 * of another endpoint. */
static int is_listed(struct branch *branch, const struct address *from, const struct listed **listed)
{
    struct booth *booth;
    const char *more;
    char text[ADDRESS_TEXT];

    if ((*listed = list_find(branch->list, from)) == NULL) {
        if ((more = log_limited(&branch->strangers)) != NULL)
            say("booth %s: packet dropped: not in the list of booths%s", booth_label(from, NULL), more);
        return 0;
    }
    if ((booth = booths_by_endpoint(&branch->booths, (*listed)->endpoint)) == NULL)
        return 1;
    if ((more = log_limited(&booth->others)) != NULL) {
        address_text(from, text);
        say("booth %s: packet from %s dropped: the association is not with that port%s", booth_name(booth), text, more);
    }
    return 0;
}

/* From an address that has no association. */
static int from_unknown(struct branch *branch, uint32_t kind, const struct listed *listed, const struct packet *packet)
{
    struct booth *booth;

    if (kind != SHAWM_KIND_DTLS) {
        drop(branch, kind, listed, packet);
        return 0;
    }
    if (open_booth(branch, &packet->from, listed, &booth) != 0)
        return -1;
    return booth == NULL ? 0 : to_tunnel(branch, booth, packet);
}

/* From a booth that has an association. */
static int from_known(struct branch *branch, uint32_t kind, struct booth *booth, const struct packet *packet)
{
    if (kind == SHAWM_KIND_DTLS)
        return to_tunnel(branch, booth, packet);
    if (kind == SHAWM_KIND_RTP)
        media(booth, packet);
    else
        drop(branch, kind, booth->listed, packet);
    return 0;
}

int branch_packet(struct branch *branch, const struct packet *packet)
{
    struct booth *booth = booths_by_address(&branch->booths, &packet->from);
    const struct listed *listed = booth == NULL ? NULL : booth->listed;
    uint32_t kind = shawm_sort(packet->octets, packet->n);

    if (booth == NULL && branch->list != NULL && !is_listed(branch, &packet->from, &listed))
        return 0;
    if (shawm_is_refusal(kind)) {
        refused(booth_label(&packet->from, listed), "packet", shawm_refusal_number(kind));
        return 0;
    }
    if (booth == NULL)
        return from_unknown(branch, kind, listed, packet);
    return from_known(branch, kind, booth, packet);
}
