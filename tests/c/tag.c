/* RFC 8870, section 4.1: the tag at the end of a packet, its parts and numbers, and 0 for every other. */
#include "check.h"

struct split {
    const char *packet;
    uint32_t answer;
    size_t front;                 /* its length */
    size_t start, length;         /* of the ciphertext or the data */
    uint32_t spi, epoch;
};

#define NONE (SHAWM_REFUSED | SHAWM_NO_TAG)

static const struct split splits[] = {
    { "", NONE, 0, 0, 0, 0, 0 },
    /* Short: the octet alone. */
    { "00", 0, 0, 0, 0, 0, 0 },
    { "8000 00", 0, 2, 0, 0, 0, 0 },
    /* Full: one octet of ciphertext is the least. */
    { "aa 1234 0001 0008 02", 2, 0, 0, 1, 0x1234, 1 },
    { "80 aa 1234 0001 0008 02", 2, 1, 1, 1, 0x1234, 1 },
    { "8011 aabb ffff 8000 0009 02", 2, 2, 2, 2, 0xffff, 0x8000 },
    { "aa 1234 0001 0007 02", NONE, 0, 0, 0, 0, 0 },
    { "aa 1234 0001 0009 02", NONE, 0, 0, 0, 0, 0 },
    { "1234 0001 0008 02", NONE, 0, 0, 0, 0, 0 },
    { "02", NONE, 0, 0, 0, 0, 0 },
    { "08 02", NONE, 0, 0, 0, 0, 0 },
    { "0000 02", NONE, 0, 0, 0, 0, 0 },
    /* Type 1 is nobody's. */
    { "01", NONE, 0, 0, 0, 0, 0 },
    { "aa 1234 0001 0008 01", NONE, 0, 0, 0, 0, 0 },
    { "bb 0004 01", NONE, 0, 0, 0, 0, 0 },
    /* Extension: one octet of data is the least. */
    { "bb 0004 03", 3, 0, 0, 1, 0, 0 },
    { "80 bbcc 0005 ff", 255, 1, 1, 2, 0, 0 },
    { "bb 0003 03", NONE, 0, 0, 0, 0, 0 },
    { "bb 0005 03", NONE, 0, 0, 0, 0, 0 },
    { "0004 03", NONE, 0, 0, 0, 0, 0 },
    { "04 03", NONE, 0, 0, 0, 0, 0 },
    { "03", NONE, 0, 0, 0, 0, 0 },
};

static const uint32_t asked[] = { 0, 1, 2, 3, 4, 16, 17, 255, 256, 257, 258, 259, 65537, 0x80000001u, 0xffffffffu };

static void check_split(const struct split *split, struct octets packet)
{
    size_t i;

    SAME(shawm_tag(packet.at, packet.n), split->answer);
    for (i = 0; i < sizeof asked / sizeof asked[0]; i++) {
        uint32_t part = asked[i];
        int there = split->answer == 2 ? part == SHAWM_TAG_CIPHERTEXT : split->answer > 2 && part == SHAWM_TAG_DATA;
        size_t length = part == SHAWM_TAG_FRONT ? split->front : there ? split->length : 0;
        uint32_t number = part == SHAWM_TAG_SPI ? split->spi : part == SHAWM_TAG_EPOCH ? split->epoch : 0;

        SAME(shawm_tag_start(packet.at, packet.n, part), there ? split->start : 0);
        SAME(shawm_tag_length(packet.at, packet.n, part), length);
        SAME(shawm_tag_number(packet.at, packet.n, part), number);
    }
}

/* A tag of the greatest length, and one longer, behind a packet of four octets. */
static void limits(void)
{
    struct octets full = join(fill(0xaa, 4 + 251), hold("1234 0001 0102 02"));
    struct octets longer = join(fill(0xaa, 4 + 252), hold("1234 0001 0103 02"));
    struct octets extension = join(fill(0xbb, 4 + 1024), hold("0403 07"));
    struct octets beyond = join(fill(0xbb, 4 + 1025), hold("0404 07"));
    const struct split split_full = { NULL, 2, 4, 4, 251, 0x1234, 1 }, split_extension = { NULL, 7, 4, 4, 1024, 0, 0 };
    const struct split none = { NULL, NONE, 0, 0, 0, 0, 0 };

    check_split(&split_full, full);
    check_split(&none, longer);
    check_split(&split_extension, extension);
    check_split(&none, beyond);
    give_back(full);
    give_back(longer);
    give_back(extension);
    give_back(beyond);
}

void tag(void)
{
    size_t i;

    for (i = 0; i < sizeof splits / sizeof splits[0]; i++) {
        struct octets packet = hold(splits[i].packet);

        check_split(&splits[i], packet);
        give_back(packet);
    }
    {
        struct octets none = { NULL, 0 };

        check_split(&splits[0], none);
    }
    limits();
}
