/* A receiver along 200,000 indices, of which every tenth comes late and some never: each packet that comes gets the
 * index that it was sent with, and what is kept is the highest of them. */
#include "check.h"

enum { PACKETS = 200000 };

/* By how many packets a late one comes late. One that is 32,768 late may get another index. */
static const uint32_t late_by[] = { 1, 2, 30, 1000, 32767 };
enum { LATENESSES = sizeof late_by / sizeof late_by[0] };

struct receiver {
    struct shawm_stream stream;
    uint64_t highest;   /* the highest index that came */
};

/* 0 where the packet is not late. */
static uint32_t lateness(uint32_t n)
{
    return n % 10 == 0 ? late_by[n / 10 % LATENESSES] : 0;
}

/* One in 97, and 32,766 in a row with a wrap among them: the packet after these is 32,767 ahead of the last one. */
static int is_lost(uint32_t n)
{
    return n % 97 == 5 || (n > 50001 && n < 50001 + 32767);
}

static void arrive(struct receiver *receiver, uint64_t sent)
{
    uint16_t sequence = (uint16_t)sent;
    uint64_t index = 0;

    SAME(shawm_index(&receiver->stream, sequence, &index), 0);
    SAME(index, sent);
    SAME(shawm_index_update(&receiver->stream, sequence), 0);
    if (receiver->highest < sent)
        receiver->highest = sent;
    SAME(receiver->stream.roc, receiver->highest >> 16);
    SAME(receiver->stream.highest, receiver->highest & 0xffff);
}

/* The late packets that come when the one with number n has, or would have. */
static void arrive_late(struct receiver *receiver, uint64_t first, uint32_t n)
{
    size_t i;

    for (i = 0; i < LATENESSES; i++) {
        if (n > late_by[i] && lateness(n - late_by[i]) == late_by[i] && !is_lost(n - late_by[i]))
            arrive(receiver, first + n - late_by[i]);
    }
}

/* The first packet is the one that brought the ROC. */
static struct shawm_stream walk(uint64_t first, uint32_t roc, uint16_t sequence)
{
    struct receiver receiver = { { roc, sequence }, first };
    uint32_t n;

    for (n = 1; n < PACKETS; n++) {
        if (lateness(n) == 0 && !is_lost(n))
            arrive(&receiver, first + n);
        arrive_late(&receiver, first, n);
    }
    return receiver.stream;
}

/* The first 200,000 indices and the last: three wraps in each. */
void walking(void)
{
    struct shawm_stream stream = walk(0, 0, 0);

    SAME(stream.roc, 3);
    SAME(stream.highest, 3391);
    stream = walk(281474976510656, 4294967292u, 62144);
    SAME(stream.roc, 4294967295u);
    SAME(stream.highest, 65535);
}
