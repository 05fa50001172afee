/* Packets captured from programs that nobody here wrote, against what tshark says of them.
 *
 *     sorted CAPTURE VIEW      a capture in pcap form, and what the script view prints of it
 *
 * Each packet is sorted as tshark sees it. Each DTLS packet goes through the tunnel and back, and each RTP or RTCP packet
 * through the three kinds of EKT tag, and comes out as it was. */
#include <shawm.h>
#include <stdio.h>
#include <stdlib.h>
#include <string.h>

static unsigned int counts[6]; /* by kind */

static void require(int holds, const char *what, unsigned int number)
{
    if (!holds) {
        fprintf(stderr, "sorted: packet %u: %s\n", number, what);
        exit(1);
    }
}

/* ------------------------------------------------------------ the capture */

static uint32_t little(const uint8_t *at)
{
    return at[0] | (uint32_t)at[1] << 8 | (uint32_t)at[2] << 16 | (uint32_t)at[3] << 24;
}

/* The next packet's UDP payload, as memory of its own size; NULL at the end of the file. */
static uint8_t *next_packet(FILE *file, size_t *n, unsigned int number)
{
    uint8_t head[16], frame[65536], *packet;
    size_t size, front;

    if (fread(head, 1, sizeof head, file) != sizeof head)
        return NULL;
    size = little(head + 8);
    require(size <= sizeof frame && fread(frame, 1, size, file) == size, "cut off", number);
    /* Ethernet of 14 octets, IPv4 of so many words as its first octet says, UDP of 8. */
    require(size > 34 && frame[12] == 8 && frame[13] == 0 && frame[14] >> 4 == 4 && frame[23] == 17, "not UDP", number);
    front = 14 + (size_t)(frame[14] & 15) * 4 + 8;
    require(size > front, "no payload", number);
    *n = size - front;
    packet = malloc(*n);
    require(packet != NULL, "no memory", number);
    memcpy(packet, frame + front, *n);
    return packet;
}

static FILE *open_capture(const char *path)
{
    uint8_t head[24];
    FILE *file = fopen(path, "rb");

    require(file != NULL && fread(head, 1, sizeof head, file) == sizeof head, path, 0);
    require(little(head) == 0xa1b2c3d4u && little(head + 20) == 1, "not a capture of Ethernet", 0);
    return file;
}

/* ------------------------------------------------------------- the library */

static uint32_t kind_of(const char *view, unsigned int number)
{
    /* A reserved channel is one above 0x4FFF: RFC 5766 allowed it, RFC 8656 does not, and RFC 7983 has no kind for it. */
    static const char *const names[] = { "stun", "dtls", "rtp", "rtcp", "zrtp", "channel-data", "reserved-channel" };
    static const uint32_t kinds[] = { SHAWM_KIND_STUN, SHAWM_KIND_DTLS, SHAWM_KIND_RTP, SHAWM_KIND_RTP, SHAWM_KIND_ZRTP,
                                      SHAWM_KIND_TURN_CHANNEL, SHAWM_KIND_OTHER };
    size_t i;

    for (i = 0; i < sizeof names / sizeof names[0]; i++) {
        if (strcmp(view, names[i]) == 0)
            return kinds[i];
    }
    require(0, "not a kind of packet in the view", number);
    return 0;
}

static void through_the_tunnel(const uint8_t *packet, size_t n, unsigned int number)
{
    uint8_t id[SHAWM_IDENTIFIER_OCTETS], out[SHAWM_MESSAGE_LIMIT];
    struct shawm_message message;
    uint32_t written;

    memset(id, (int)number, sizeof id);
    written = shawm_write_tunneled_dtls(id, sizeof id, packet, n, out, sizeof out);
    require(written == 21 + n, "not wrapped", number);
    require(shawm_read_message(out, written, &message) == SHAWM_TUNNELED_DTLS, "not read back", number);
    require(message.taken == written, "not taken whole", number);
    require(memcmp(message.identifier.at, id, sizeof id) == 0, "another identifier", number);
    require(message.dtls.n == n && memcmp(message.dtls.at, packet, n) == 0, "other DTLS octets", number);
}

static void through_a_tag(const uint8_t *packet, size_t n, const uint8_t *tag, size_t tag_n, unsigned int number)
{
    uint8_t *tagged = malloc(n + tag_n);

    require(tagged != NULL, "no memory", number);
    memcpy(tagged, packet, n);
    memcpy(tagged + n, tag, tag_n);
    require(shawm_tag(tagged, n + tag_n) == tag[tag_n - 1], "the tag is not found", number);
    require(shawm_tag_start(tagged, n + tag_n, SHAWM_TAG_FRONT) == 0, "the front's start", number);
    require(shawm_tag_length(tagged, n + tag_n, SHAWM_TAG_FRONT) == n, "the front is not the packet", number);
    free(tagged);
}

static void through_tags(const uint8_t *packet, size_t n, unsigned int number)
{
    static const uint8_t brief[] = { 0 }, full[] = { 0xc1, 0xc2, 0xc3, 0x12, 0x34, 0x00, 0x01, 0x00, 0x0a, 2 };
    static const uint8_t extension[] = { 0xd1, 0xd2, 0x00, 0x05, 9 };

    through_a_tag(packet, n, brief, sizeof brief, number);
    through_a_tag(packet, n, full, sizeof full, number);
    through_a_tag(packet, n, extension, sizeof extension, number);
}

int main(int argc, char **argv)
{
    FILE *capture, *view;
    uint8_t *packet;
    size_t n;
    unsigned int number, viewed;
    char name[32];

    if (argc != 3)
        return 2;
    capture = open_capture(argv[1]);
    view = fopen(argv[2], "r");
    require(view != NULL, argv[2], 0);
    for (number = 1; (packet = next_packet(capture, &n, number)) != NULL; number++) {
        uint32_t kind = shawm_sort(packet, n);

        require(fscanf(view, "%u %31s", &viewed, name) == 2 && viewed == number, "not in the view", number);
        require(kind == kind_of(name, number), "sorted otherwise than tshark sees it", number);
        counts[kind]++;
        if (kind == SHAWM_KIND_DTLS)
            through_the_tunnel(packet, n, number);
        if (kind == SHAWM_KIND_RTP)
            through_tags(packet, n, number);
        free(packet);
    }
    require(fscanf(view, "%u %31s", &viewed, name) != 2, "in the view alone", number);
    fclose(capture);
    fclose(view);
    printf("%u packets as tshark sees them: %u STUN, %u DTLS, %u RTP or RTCP, %u ZRTP, %u TURN channel, %u other\n",
           number - 1, counts[SHAWM_KIND_STUN], counts[SHAWM_KIND_DTLS], counts[SHAWM_KIND_RTP], counts[SHAWM_KIND_ZRTP],
           counts[SHAWM_KIND_TURN_CHANNEL], counts[SHAWM_KIND_OTHER]);
    return number == 1;
}
