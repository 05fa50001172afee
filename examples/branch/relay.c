/* The eight calls: a request in a frame, and the answer to it. */
#include "relay.h"

#include "clock.h"
#include "descriptor.h"
#include "log.h"
#include "refusal.h"
#include "wipe.h"

#include <errno.h>
#include <string.h>

enum request_kind {
    REQUEST_START = 1,
    REQUEST_OPEN = 2,
    REQUEST_PACKET = 3,
    REQUEST_OCTETS = 4,
    REQUEST_CLOSE = 5,
    REQUEST_END = 6,
    REQUEST_LOOK = 7,
    REQUEST_PAGE = 8
};

/* Some kinds of answer, one bit to each. */
#define ONE(kind) (1u << (kind))

static unsigned number16(const uint8_t *octets)
{
    return (unsigned)octets[0] << 8 | octets[1];
}

static uint32_t number32(const uint8_t *octets)
{
    return (uint32_t)number16(octets) << 16 | number16(octets + 2);
}

static int broken(const char *what)
{
    say("branch: the relay %s: its table is lost", what);
    return -1;
}

/* Puts so many octets behind the n that the frame has; answers how many it has now. */
static size_t put(struct relay *relay, size_t n, const uint8_t *octets, size_t count)
{
    if (count > 0)
        memcpy(relay->frame + n, octets, count);
    return n + count;
}

static size_t put_endpoint(struct relay *relay, size_t n, uint32_t endpoint)
{
    const uint8_t octets[4] = { (uint8_t)(endpoint >> 24), (uint8_t)(endpoint >> 16), (uint8_t)(endpoint >> 8),
                                (uint8_t)endpoint };

    return put(relay, n, octets, sizeof octets);
}

/* Sends the n octets of the frame, of which the first two are the length, and reads the answer's in their place. What
 * was sent may have been keys, so nothing of it stays. Answers the answer's length, or 0. */
static size_t exchange(struct relay *relay, size_t n)
{
    int64_t limit = now() + RELAY_LIMIT;
    size_t count;

    relay->frame[0] = (uint8_t)((n - 2) >> 8);
    relay->frame[1] = (uint8_t)(n - 2);
    if (write_whole(relay->to, relay->frame, n, limit) != 0) {
        say("branch: no request to the relay: %s", strerror(errno));
        return 0;
    }
    wipe(relay->frame, n);
    if (read_whole(relay->from, relay->frame, 2, limit) != 0) {
        say("branch: no answer from the relay: %s", strerror(errno));
        return 0;
    }
    count = number16(relay->frame);
    if (count == 0 || count > RELAY_FRAME) {
        say("branch: an answer of a wrong length from the relay");
        return 0;
    }
    if (read_whole(relay->from, relay->frame, count, limit) != 0) {
        say("branch: half an answer from the relay: %s", strerror(errno));
        return 0;
    }
    return count;
}

/* 1 if an answer of n octets has the length of its kind. */
static int fits(unsigned kind, size_t n)
{
    switch (kind) {
    case ANSWER_MORE_NEEDED:
    case ANSWER_ENDED:
        return n == 1;
    case ANSWER_PLACED:
        return n == 3;
    case ANSWER_REFUSED:
    case ANSWER_VERSION:
        return n == 4;
    case ANSWER_FOUND:
        return n == 1 + RECORD_OCTETS;
    case ANSWER_WRITTEN:
        return n >= 1 + 3;
    case ANSWER_STORED:
    case ANSWER_REMOVED:
        return n == 1 + 2 + 4;
    case ANSWER_DELIVERY:
        return n >= 1 + 2 + 4 + 1;
    case ANSWER_PAGE:
        return n > 1 && n <= 1 + SHAWM_PAGE_LIMIT;
    default:
        return 0;
    }
}

/* The parts of an answer that has the length of its kind. */
static void take_apart(const uint8_t *at, size_t n, struct answer *answer)
{
    memset(answer, 0, sizeof *answer);
    answer->kind = at[0];
    switch (at[0]) {
    case ANSWER_REFUSED:
        answer->number = at[1];
        answer->taken = number16(at + 2);
        break;
    case ANSWER_PLACED:
        answer->number = number16(at + 1);
        break;
    case ANSWER_VERSION:
        answer->number = at[3];
        answer->taken = number16(at + 1);
        break;
    case ANSWER_STORED:
    case ANSWER_REMOVED:
        answer->taken = number16(at + 1);
        answer->endpoint = number32(at + 3);
        break;
    case ANSWER_DELIVERY:
        answer->taken = number16(at + 1);
        answer->endpoint = number32(at + 3);
        answer->octets = at + 7;
        answer->n = n - 7;
        break;
    case ANSWER_WRITTEN:
    case ANSWER_FOUND:
    case ANSWER_PAGE:
        answer->octets = at + 1;
        answer->n = n - 1;
        break;
    }
}

/* Makes the request that stands in the frame; `kinds` are the answers that belong to it. */
static int call(struct relay *relay, enum request_kind kind, size_t n, unsigned kinds, struct answer *answer)
{
    size_t count;

    relay->frame[2] = (uint8_t)kind;
    count = exchange(relay, n);
    if (count == 0)
        return broken("is gone");
    if (!fits(relay->frame[0], count) || !(kinds & ONE(relay->frame[0])))
        return broken("gave an answer that does not belong to the request");
    take_apart(relay->frame, count, answer);
    return 0;
}

/* Where a request's octets start: behind the length and the kind. */
enum { FIRST = 3 };

int relay_begin(struct relay *relay, const uint8_t *list, size_t n, struct answer *answer)
{
    return call(relay, REQUEST_START, put(relay, FIRST, list, n), ONE(ANSWER_WRITTEN) | ONE(ANSWER_REFUSED), answer);
}

int relay_open(struct relay *relay, uint32_t endpoint, const uint8_t id[SHAWM_IDENTIFIER_OCTETS],
               struct answer *answer)
{
    size_t n = put(relay, put_endpoint(relay, FIRST, endpoint), id, SHAWM_IDENTIFIER_OCTETS);

    return call(relay, REQUEST_OPEN, n, ONE(ANSWER_PLACED) | ONE(ANSWER_REFUSED), answer);
}

int relay_packet(struct relay *relay, uint32_t endpoint, const uint8_t *packet, size_t n, struct answer *answer)
{
    size_t count;

    /* The relay would say the same of every packet that a frame still holds. */
    if (n > SHAWM_DTLS_LIMIT) {
        memset(answer, 0, sizeof *answer);
        answer->kind = ANSWER_REFUSED;
        answer->number = SHAWM_PACKET_TOO_LONG;
        return 0;
    }
    count = put(relay, put_endpoint(relay, FIRST, endpoint), packet, n);
    return call(relay, REQUEST_PACKET, count, ONE(ANSWER_WRITTEN) | ONE(ANSWER_REFUSED), answer);
}

/* 1 if the reading gets on with what was lent: more is needed only of a message that is not whole, and otherwise
 * something is taken, but where the tunnel has ended. */
static int moves(const struct answer *answer, size_t n)
{
    if (answer->kind == ANSWER_MORE_NEEDED)
        return n < SHAWM_MESSAGE_LIMIT;
    if (answer->kind == ANSWER_REFUSED && (answer->number == SHAWM_OVERSIZE || answer->number == SHAWM_TUNNEL_DOWN))
        return answer->taken == 0;
    return answer->taken > 0 && answer->taken <= n;
}

int relay_octets(struct relay *relay, const uint8_t *octets, size_t n, struct answer *answer)
{
    const unsigned kinds = ONE(ANSWER_MORE_NEEDED) | ONE(ANSWER_REFUSED) | ONE(ANSWER_STORED) | ONE(ANSWER_DELIVERY) |
                           ONE(ANSWER_REMOVED) | ONE(ANSWER_VERSION);

    if (n > SHAWM_MESSAGE_LIMIT)
        n = SHAWM_MESSAGE_LIMIT;
    if (call(relay, REQUEST_OCTETS, put(relay, FIRST, octets, n), kinds, answer) != 0)
        return -1;
    return moves(answer, n) ? 0 : broken("took another number of octets than it can have");
}

int relay_close(struct relay *relay, const uint8_t id[SHAWM_IDENTIFIER_OCTETS], struct answer *answer)
{
    size_t n = put(relay, FIRST, id, SHAWM_IDENTIFIER_OCTETS);

    return call(relay, REQUEST_CLOSE, n, ONE(ANSWER_WRITTEN) | ONE(ANSWER_REFUSED), answer);
}

int relay_end(struct relay *relay, struct answer *answer)
{
    return call(relay, REQUEST_END, FIRST, ONE(ANSWER_ENDED) | ONE(ANSWER_REFUSED), answer);
}

int relay_look(struct relay *relay, uint32_t endpoint, struct record *record, struct answer *answer)
{
    size_t n = put_endpoint(relay, FIRST, endpoint);

    memset(record, 0, sizeof *record);
    if (call(relay, REQUEST_LOOK, n, ONE(ANSWER_FOUND) | ONE(ANSWER_REFUSED), answer) != 0)
        return -1;
    if (answer->kind == ANSWER_FOUND) {
        memcpy(record->octets, answer->octets, RECORD_OCTETS);
        wipe(relay->frame, sizeof relay->frame);
        answer->octets = NULL;
        answer->n = 0;
    }
    return 0;
}

/* No refusal belongs to it: the relay has room for every page. */
int relay_page(struct relay *relay, struct answer *answer)
{
    uint32_t count;

    if (call(relay, REQUEST_PAGE, FIRST, ONE(ANSWER_PAGE), answer) != 0)
        return -1;
    count = shawm_page_count(answer->octets, answer->n);
    if (!shawm_is_refusal(count))
        return 0;
    say("branch: page refused, %u: %s", (unsigned)shawm_refusal_number(count),
        refusal_meaning(shawm_refusal_number(count)));
    return broken("gave what is no page");
}
