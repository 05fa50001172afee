/* The index of packets of a stream, compared with index.c. The input is the ROC, four octets; the highest sequence
 * number, two; and the sequence numbers of packets, two each. Each packet comes to what was kept of those before it. */
#include "lent.h"
#include "paper.h"
#include "target.h"
#include <shawm.h>

static uint16_t two(const uint8_t *at)
{
    return (uint16_t)(at[0] << 8 | at[1]);
}

static struct paper_index compare(uint32_t roc, uint16_t highest, uint16_t sequence)
{
    struct paper_index p = paper_index(roc, highest, sequence);

    AGREE("shawm_index_estimate", sequence, shawm_index_estimate(roc, highest, sequence), p.answer);
    AGREE("shawm_index_number", sequence, shawm_index_number(roc, highest, sequence), p.number);
    AGREE("shawm_index_kept_roc", sequence, shawm_index_kept_roc(roc, highest, sequence), p.roc);
    AGREE("shawm_index_kept_highest", sequence, shawm_index_kept_highest(roc, highest, sequence), p.highest);
    return p;
}

void compare_index(const uint8_t *data, size_t size)
{
    uint32_t roc;
    uint16_t highest;
    size_t at;

    if (size < 6)
        return;
    roc = (uint32_t)two(data) << 16 | two(data + 2);
    highest = two(data + 4);
    for (at = 6; at + 2 <= size; at += 2) {
        struct paper_index p = compare(roc, highest, two(data + at));

        roc = p.roc;
        highest = (uint16_t)p.highest;
    }
}
