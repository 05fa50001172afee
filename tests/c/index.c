/* RFC 3711, section 3.3.1 and appendix A: the index of a packet and what its receiver keeps, on both sides of each
 * limit, and the refusals 31 and 32. */
#include "check.h"

#define NO_SUCH_INDEX 0x8000001fu
#define KEY_SPENT 0x80000020u
#define FILLED 0xa5a5a5a5a5a5a5a5u

/* A packet beside what is kept, and what is said of it. */
struct packet {
    uint32_t roc;
    uint16_t highest, sequence;
    uint32_t answer;
    uint64_t number;
    uint32_t roc_after, highest_after;
};

static const struct packet by_hand[] = {
    /* 0 is an index, and stands beside a refusal too. */
    { 0, 0, 0, 0, 0, 0, 0 },
    { 0, 32768, 0, 0, 0, 0, 32768 },
    { 0, 0, 32769, NO_SUCH_INDEX, 0, 0, 0 },
    { 0, 32766, 65535, NO_SUCH_INDEX, 0, 0, 32766 },
    { 0, 32767, 65535, 0, 65535, 0, 65535 },
    /* Over the first wrap, and back. */
    { 0, 65535, 0, 0, 65536, 1, 0 },
    { 1, 0, 65535, 0, 65535, 1, 0 },
    { 1, 0, 32769, 0, 32769, 1, 0 },
    /* Over 2^32, and back. */
    { 65535, 65535, 0, 0, 4294967296, 65536, 0 },
    { 65536, 0, 65535, 0, 4294967295, 65536, 0 },
    { 65536, 0, 1, 0, 4294967297, 65536, 1 },
    /* Over the last wrap, and back. */
    { 4294967294u, 65535, 0, 0, 281474976645120, 4294967295u, 0 },
    { 4294967294u, 65535, 32766, 0, 281474976677886, 4294967295u, 32766 },
    { 4294967295u, 0, 65535, 0, 281474976645119, 4294967295u, 0 },
    /* The last index, and after it. */
    { 4294967295u, 32767, 65535, 0, 281474976710655, 4294967295u, 65535 },
    { 4294967295u, 65534, 65535, 0, 281474976710655, 4294967295u, 65535 },
    { 4294967295u, 65535, 65535, 0, 281474976710655, 4294967295u, 65535 },
    { 4294967295u, 65535, 65534, 0, 281474976710654, 4294967295u, 65535 },
    { 4294967295u, 65535, 0, KEY_SPENT, 0, 4294967295u, 65535 },
    { 4294967295u, 65535, 32766, KEY_SPENT, 0, 4294967295u, 65535 },
    { 4294967295u, 65535, 32767, 0, 281474976677887, 4294967295u, 65535 },
    { 4294967295u, 32769, 0, KEY_SPENT, 0, 4294967295u, 32769 },
    { 4294967295u, 32768, 0, 0, 281474976645120, 4294967295u, 32768 },
};

/* Which ROC a sequence number is tried under: one less, the same, one more. */
enum { LESS, EQUAL, MORE };

/* A sequence number beside the highest one, and whether its index is the higher. */
struct beside {
    uint16_t highest, sequence;
    int tried, higher;
};

static const struct beside limits[] = {
    { 0, 0, EQUAL, 0 },
    { 0, 1, EQUAL, 1 },
    { 0, 32767, EQUAL, 1 },
    { 0, 32768, EQUAL, 1 },
    { 0, 32769, LESS, 0 },
    { 0, 65535, LESS, 0 },
    { 1, 0, EQUAL, 0 },
    { 1, 1, EQUAL, 0 },
    { 1, 2, EQUAL, 1 },
    { 1, 32768, EQUAL, 1 },
    { 1, 32769, EQUAL, 1 },
    { 1, 32770, LESS, 0 },
    { 1000, 33767, EQUAL, 1 },
    { 1000, 33768, EQUAL, 1 },
    { 1000, 33769, LESS, 0 },
    { 32766, 0, EQUAL, 0 },
    { 32766, 65533, EQUAL, 1 },
    { 32766, 65534, EQUAL, 1 },
    { 32766, 65535, LESS, 0 },
    /* 32,767 and 32,768 have every sequence number within reach: none is tried under another ROC. */
    { 32767, 0, EQUAL, 0 },
    { 32767, 32766, EQUAL, 0 },
    { 32767, 32767, EQUAL, 0 },
    { 32767, 32768, EQUAL, 1 },
    { 32767, 65534, EQUAL, 1 },
    { 32767, 65535, EQUAL, 1 },
    { 32768, 0, EQUAL, 0 },
    { 32768, 1, EQUAL, 0 },
    { 32768, 32767, EQUAL, 0 },
    { 32768, 32768, EQUAL, 0 },
    { 32768, 32769, EQUAL, 1 },
    { 32768, 65535, EQUAL, 1 },
    { 32769, 0, MORE, 1 },
    { 32769, 1, EQUAL, 0 },
    { 32769, 2, EQUAL, 0 },
    { 32769, 65535, EQUAL, 1 },
    { 50000, 17231, MORE, 1 },
    { 50000, 17232, EQUAL, 0 },
    { 50000, 17233, EQUAL, 0 },
    { 65534, 0, MORE, 1 },
    { 65534, 32765, MORE, 1 },
    { 65534, 32766, EQUAL, 0 },
    { 65534, 65533, EQUAL, 0 },
    { 65534, 65534, EQUAL, 0 },
    { 65534, 65535, EQUAL, 1 },
    { 65535, 0, MORE, 1 },
    { 65535, 32766, MORE, 1 },
    { 65535, 32767, EQUAL, 0 },
    { 65535, 32768, EQUAL, 0 },
    { 65535, 65534, EQUAL, 0 },
    { 65535, 65535, EQUAL, 0 },
};

/* A ROC and the one after it; the first index under one less, the same and one more, or NONE. */
struct counter {
    uint32_t roc, next;
    uint64_t first[3];
};

#define NONE UINT64_MAX

static const struct counter counters[] = {
    { 0, 1, { NONE, 0, 0x10000 } },
    { 1, 2, { 0, 0x10000, 0x20000 } },
    { 2, 3, { 0x10000, 0x20000, 0x30000 } },
    { 65535, 65536, { 0xfffe0000, 0xffff0000, 0x100000000 } },
    { 65536, 65537, { 0xffff0000, 0x100000000, 0x100010000 } },
    { 2147483647, 2147483648u, { 0x7ffffffe0000, 0x7fffffff0000, 0x800000000000 } },
    { 2147483648u, 2147483649u, { 0x7fffffff0000, 0x800000000000, 0x800000010000 } },
    { 4294967294u, 4294967295u, { 0xfffffffd0000, 0xfffffffe0000, 0xffffffff0000 } },
    { 4294967295u, 0, { 0xfffffffe0000, 0xffffffff0000, NONE } },
};

/* The same by the inline functions: beside a refusal index and stream keep their values. */
static void check_inline(const struct packet *packet)
{
    struct shawm_stream stream = { packet->roc, packet->highest };
    uint64_t index = FILLED;

    SAME(shawm_index(&stream, packet->sequence, &index), packet->answer);
    SAME(index, packet->answer == 0 ? packet->number : FILLED);
    SAME(stream.roc, packet->roc);
    SAME(stream.highest, packet->highest);
    SAME(shawm_index_update(&stream, packet->sequence), packet->answer);
    SAME(stream.roc, packet->roc_after);
    SAME(stream.highest, packet->highest_after);
}

static void check_packet(const struct packet *packet)
{
    uint32_t roc = packet->roc;
    uint16_t highest = packet->highest, sequence = packet->sequence;

    SAME(shawm_index_estimate(roc, highest, sequence), packet->answer);
    SAME(shawm_index_number(roc, highest, sequence), packet->number);
    SAME(shawm_index_kept_roc(roc, highest, sequence), packet->roc_after);
    SAME(shawm_index_kept_highest(roc, highest, sequence), packet->highest_after);
    check_inline(packet);
}

/* A limit under a ROC. */
static struct packet packet_at(const struct counter *counter, const struct beside *beside)
{
    uint64_t first = counter->first[beside->tried];
    struct packet packet = { counter->roc, beside->highest, beside->sequence, 0, 0, counter->roc, beside->highest };

    if (first == NONE) {
        packet.answer = beside->tried == LESS ? NO_SUCH_INDEX : KEY_SPENT;
        return packet;
    }
    packet.number = first + beside->sequence;
    if (beside->higher) {
        packet.roc_after = beside->tried == MORE ? counter->next : counter->roc;
        packet.highest_after = beside->sequence;
    }
    return packet;
}

void indexing(void)
{
    size_t i, k;

    SAME(SHAWM_NO_SUCH_INDEX, 31);
    SAME(SHAWM_KEY_SPENT, 32);
    SAME(shawm_refusal_number(shawm_index_estimate(0, 0, 65535)), SHAWM_NO_SUCH_INDEX);
    SAME(shawm_refusal_number(shawm_index_estimate(4294967295u, 65535, 0)), SHAWM_KEY_SPENT);
    for (i = 0; i < sizeof by_hand / sizeof by_hand[0]; i++)
        check_packet(&by_hand[i]);
    for (i = 0; i < sizeof counters / sizeof counters[0]; i++) {
        for (k = 0; k < sizeof limits / sizeof limits[0]; k++) {
            struct packet packet = packet_at(&counters[i], &limits[k]);

            check_packet(&packet);
        }
    }
}
