/* The receiver of an SRTP stream: which packet is this? A packet carries the low 16 bits of its index, the sequence
 * number. The others, the rollover counter (ROC), are the receiver's to keep (RFC 3711, section 3.3.1). */
#include <inttypes.h>
#include <shawm.h>
#include <stdio.h>

/* An RTP header, and beside it the index that the packet was sent with, which no packet carries. */
struct packet {
    uint8_t header[12];
    uint64_t sent_with;
};

static struct packet send_with(uint64_t index)
{
    struct packet packet = { { 0x80, 0x60, 0, 0, 0, 0, 0, 0, 0x00, 0x00, 0xb0, 0x07 }, index };

    packet.header[2] = (uint8_t)(index >> 8);
    packet.header[3] = (uint8_t)index;
    return packet;
}

/* Octets 2 and 3 of an RTP packet, which has at least twelve. SRTCP is not meant: it carries its whole index. */
static uint16_t sequence_number(const uint8_t *packet)
{
    return (uint16_t)(packet[2] << 8 | packet[3]);
}

/* Stands for SRTP's authentication tag, which does the same: it is worked out with the ROC that the packet was sent
 * under, and matches under another by chance alone. */
static int authentic(const struct packet *packet, uint64_t index)
{
    return packet->sent_with == index;
}

/* A refused packet has no index to be authenticated under, and may be anyone's: what follows is taken as before. */
static const char *meaning(uint32_t refusal)
{
    return refusal == SHAWM_KEY_SPENT ? "after the last index of this key" : "before the first index";
}

static void receive(struct shawm_stream *stream, const struct packet *packet)
{
    uint16_t sequence = sequence_number(packet->header);
    uint64_t index = 0;
    uint32_t answer = shawm_index(stream, sequence, &index);

    printf("  %5u: ", sequence);
    if (shawm_is_refusal(answer)) {
        printf("dropped, refusal %u: %s\n", shawm_refusal_number(answer), meaning(shawm_refusal_number(answer)));
        return;
    }
    if (!authentic(packet, index)) {
        /* Kept all the same, a few forged packets would move the ROC, and the stream's own would fail here. */
        printf("dropped, not authentic as index %" PRIu64 "\n", index);
        return;
    }
    /* A packet that comes twice gets here twice. The replay list (RFC 3711, section 3.3.2) is the media code's, which
     * looks the index up in it before it looks at the tag. */
    shawm_index_update(stream, sequence);
    printf("index %" PRIu64 "; kept: ROC %u, highest %u\n", index, stream->roc, stream->highest);
}

/* The packets of one source (SSRC) as they come, by the indices that they were sent with. */
static void follow(struct shawm_stream stream, const uint64_t *sent, size_t n)
{
    size_t i;

    printf("ROC %u, highest %u\n", stream.roc, stream.highest);
    for (i = 0; i < n; i++) {
        struct packet packet = send_with(sent[i]);

        receive(&stream, &packet);
    }
}

int main(void)
{
    /* The ROC of an EKT plaintext (ekt.c opens one), and the sequence number of the packet that brought it, which has
     * been authenticated. */
    static const struct shawm_stream begun = { 3, 65533 }, first = { 0, 2 }, last = { 4294967295u, 65534 };
    static const uint64_t over_the_wrap[] = {
        262142,   /* the next: 3 * 65,536 + 65,534 */
        262144,   /* the first after the wrap */
        262143,   /* late, from before it */
        262146,   /* 262145 is lost */
        262146,   /* the same packet again */
        216608,   /* 45,538 late, so far that it gets the index of another: 4 * 65,536 + 20,000 */
        262147
    };
    /* 65,532 ahead, so far that it looks like one from before the first index. */
    static const uint64_t too_far[] = { 3, 65535 };
    /* After the last index this sender begins again, as none may under the same key. */
    static const uint64_t again[] = { 281474976710655, 0 };

    follow(begun, over_the_wrap, sizeof over_the_wrap / sizeof over_the_wrap[0]);
    follow(first, too_far, sizeof too_far / sizeof too_far[0]);
    follow(last, again, sizeof again / sizeof again[0]);
    return 0;
}
