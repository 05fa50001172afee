/* Document 01, "Tunnel messages": the answer and the octets taken, step by step. */
#include "check.h"

struct reading {
    const char *octets;
    uint32_t answer;
    size_t taken;
};

#define ID "00112233445566778899aabbccddeeff"

static const struct reading readings[] = {
    /* Step 1: fewer than three octets. */
    { "", SHAWM_MORE_NEEDED, 0 },
    { "02", SHAWM_MORE_NEEDED, 0 },
    { "ff ff", SHAWM_MORE_NEEDED, 0 },
    /* Step 2: UnsupportedVersion needs four octets and no more, whatever it announces. */
    { "02 0000", SHAWM_REFUSED | SHAWM_BAD_BODY, 3 },
    { "02 0000 03", SHAWM_REFUSED | SHAWM_BAD_BODY, 3 },
    { "02 0001", SHAWM_MORE_NEEDED, 0 },
    { "02 ffff", SHAWM_MORE_NEEDED, 0 },
    { "02 0001 03", SHAWM_UNSUPPORTED_VERSION, 4 },
    { "02 1388 01", SHAWM_UNSUPPORTED_VERSION, 4 },
    { "02 0001 03 aabbcc", SHAWM_UNSUPPORTED_VERSION, 7 },
    /* Step 3: the announced body is too long, or not there yet. */
    { "03 1001", SHAWM_REFUSED | SHAWM_OVERSIZE, 0 },
    { "00 1001", SHAWM_REFUSED | SHAWM_OVERSIZE, 0 },
    { "06 ffff 00", SHAWM_REFUSED | SHAWM_OVERSIZE, 0 },
    { "03 1000", SHAWM_MORE_NEEDED, 0 },
    { "06 0001", SHAWM_MORE_NEEDED, 0 },
    { "05 0010 " ID, SHAWM_ENDPOINT_DISCONNECT, 19 },
    { "05 0010 00112233445566778899aabbccddee", SHAWM_MORE_NEEDED, 0 },
    /* Step 4: a whole message. */
    { "06 0000", SHAWM_REFUSED | SHAWM_UNLISTED_TYPE, 3 },
    { "00 0002 0102 03", SHAWM_REFUSED | SHAWM_UNLISTED_TYPE, 5 },
    { "ff 0001 00", SHAWM_REFUSED | SHAWM_UNLISTED_TYPE, 4 },
    { "01 0007 00 0004 0009 000a", SHAWM_SUPPORTED_PROFILES, 10 },
    { "01 0007 00 0004 0009 000a 05", SHAWM_SUPPORTED_PROFILES, 10 },
    { "01 0000", SHAWM_REFUSED | SHAWM_BAD_BODY, 3 },
    { "01 0003 00 0000", SHAWM_REFUSED | SHAWM_BAD_BODY, 6 },
    { "01 0004 00 0001 00", SHAWM_REFUSED | SHAWM_BAD_BODY, 7 },
    { "01 0006 00 0003 000900", SHAWM_REFUSED | SHAWM_BAD_BODY, 9 },
    { "01 0006 00 0002 0009 00", SHAWM_REFUSED | SHAWM_BAD_BODY, 9 },
    { "01 0005 00 0004 0009 000a", SHAWM_REFUSED | SHAWM_BAD_BODY, 8 },
    { "04 0013 " ID " 0001 16", SHAWM_TUNNELED_DTLS, 22 },
    { "04 0012 " ID " 0000", SHAWM_REFUSED | SHAWM_BAD_BODY, 21 },
    { "04 0014 " ID " 0001 16 00", SHAWM_REFUSED | SHAWM_BAD_BODY, 23 },
    { "05 0000", SHAWM_REFUSED | SHAWM_BAD_BODY, 3 },
    { "05 000f 00112233445566778899aabbccddee", SHAWM_REFUSED | SHAWM_BAD_BODY, 18 },
    { "05 0011 " ID " 00", SHAWM_REFUSED | SHAWM_BAD_BODY, 20 },
    { "03 001b " ID " 0009 00 01a1 01a2 01a3 01a4", SHAWM_MEDIA_KEYS, 30 },
    { "03 001c " ID " 0009 01a0 01a1 01a2 01a3 01a4", SHAWM_MEDIA_KEYS, 31 },
    { "03 001a " ID " 0009 00 00 01a2 01a3 01a4", SHAWM_REFUSED | SHAWM_BAD_BODY, 29 },
    { "03 001a " ID " 0009 00 01a1 00 01a3 01a4", SHAWM_REFUSED | SHAWM_BAD_BODY, 29 },
    { "03 001a " ID " 0009 00 01a1 01a2 00 01a4", SHAWM_REFUSED | SHAWM_BAD_BODY, 29 },
    { "03 001a " ID " 0009 00 01a1 01a2 01a3 00", SHAWM_REFUSED | SHAWM_BAD_BODY, 29 },
    { "03 001c " ID " 0009 00 01a1 01a2 01a3 01a4 00", SHAWM_REFUSED | SHAWM_BAD_BODY, 31 },
    { "03 001a " ID " 0009 00 01a1 01a2 01a3 01", SHAWM_REFUSED | SHAWM_BAD_BODY, 29 },
    { "03 0000", SHAWM_REFUSED | SHAWM_BAD_BODY, 3 },
};

/* The longest body, and a body one longer. */
static void limits(void)
{
    struct octets longest = join(hold("04 1000 " ID " 0fee"), fill(0x16, SHAWM_DTLS_LIMIT));
    struct octets unlisted = join(hold("07 1000"), fill(0, SHAWM_BODY_LIMIT));
    struct octets longer = join(hold("04 1001 " ID " 0fef"), fill(0x16, SHAWM_DTLS_LIMIT + 1));

    SAME(longest.n, SHAWM_MESSAGE_LIMIT);
    SAME(shawm_read(longest.at, longest.n), SHAWM_TUNNELED_DTLS);
    SAME(shawm_taken(longest.at, longest.n), SHAWM_MESSAGE_LIMIT);
    SAME(shawm_field_length(longest.at, longest.n, SHAWM_FIELD_DTLS), SHAWM_DTLS_LIMIT);
    SAME(shawm_read(longest.at, longest.n - 1), SHAWM_MORE_NEEDED);
    REFUSED(shawm_read(unlisted.at, unlisted.n), SHAWM_UNLISTED_TYPE);
    SAME(shawm_taken(unlisted.at, unlisted.n), SHAWM_MESSAGE_LIMIT);
    REFUSED(shawm_read(longer.at, longer.n), SHAWM_OVERSIZE);
    SAME(shawm_taken(longer.at, longer.n), 0);
    give_back(longest);
    give_back(unlisted);
    give_back(longer);
}

void reading(void)
{
    size_t i;

    for (i = 0; i < sizeof readings / sizeof readings[0]; i++) {
        struct octets octets = hold(readings[i].octets);

        SAME(shawm_read(octets.at, octets.n), readings[i].answer);
        SAME(shawm_taken(octets.at, octets.n), readings[i].taken);
        give_back(octets);
    }
    SAME(shawm_read(NULL, 0), SHAWM_MORE_NEEDED);
    SAME(shawm_taken(NULL, 0), 0);
    limits();
}
