/* The index of an SRTP packet, from RFC 3711, section 3.3.1, and document 02, order 11: the way from the highest
 * sequence number to that of the packet, the shorter one round the circle of 65,536, goes on from the highest index, on
 * its circle of 2^48. */
#include "paper.h"

#define REFUSAL(number) (0x80000000u | (number))

enum { HALF = 32768, WHOLE = 65536 };

/* Where the packet is half-way, both ways are as long. By the comparisons of appendix A the ROC then stays, so it
 * is the way on which the sequence number does not begin again. */
static int32_t way(uint16_t highest, uint16_t sequence)
{
    int32_t upwards = (uint16_t)(sequence - highest);

    if (upwards == HALF)
        return highest < HALF ? HALF : -HALF;
    return upwards < HALF ? upwards : upwards - WHOLE;
}

struct paper_index paper_index(uint32_t roc, uint16_t highest, uint16_t sequence)
{
    struct paper_index p = { 0, 0, roc, highest };
    int32_t away = way(highest, sequence);
    uint64_t seen = (uint64_t)roc << 16 | highest;
    uint64_t number = (seen + (uint64_t)away) & 0xffffffffffff;
    uint32_t tried = (uint32_t)(number >> 16);

    if (roc == 0 && tried == 0xffffffff) {
        p.answer = REFUSAL(31);
        return p;
    }
    if (roc == 0xffffffff && tried == 0) {
        p.answer = REFUSAL(32);
        return p;
    }
    p.number = number;
    if (away > 0) {
        p.roc = tried;
        p.highest = sequence;
    }
    return p;
}
