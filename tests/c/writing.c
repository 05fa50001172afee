/* The five writers: what they write, what they leave, and the order of their refusals: 20, 5, 2, 13. */
#include "check.h"

#define ID "00112233445566778899aabbccddeeff"
#define FILLED 0xEE

static uint32_t profiles(size_t list_n, struct octets out)
{
    struct octets list = fill(9, list_n);
    uint32_t answer = shawm_write_supported_profiles(0, list.at, list.n, out.at, out.n);

    give_back(list);
    return answer;
}

static void supported_profiles(void)
{
    struct octets list = hold("0009 000a");
    struct octets out = fill(FILLED, 12);
    struct octets large = fill(FILLED, 66000);

    REFUSED(shawm_write_supported_profiles(0, list.at, 4, out.at, 9), SHAWM_NO_ROOM);
    REFUSED(shawm_write_supported_profiles(0, list.at, 4, NULL, 0), SHAWM_NO_ROOM);
    REFUSED(shawm_write_supported_profiles(0, NULL, 0, out.at, out.n), SHAWM_BAD_BODY);
    REFUSED(shawm_write_supported_profiles(0, list.at, 3, out.at, out.n), SHAWM_BAD_BODY);
    WRITTEN(out, "", FILLED);
    /* RFC 9185, section 7. */
    SAME(shawm_write_supported_profiles(0, list.at, 4, out.at, out.n), 10);
    WRITTEN(out, "01 0007 00 0004 0009 000a", FILLED);
    SAME(shawm_write_supported_profiles(0, list.at, 4, out.at, 10), 10);
    SAME(shawm_write_supported_profiles(255, list.at + 2, 2, out.at, 8), 8);
    WRITTEN(out, "01 0005 ff 0002 000a 000a", FILLED);

    /* 4,092 octets make a body of 4,095; the next even number is over the limit, the odd one between is odd. */
    SAME(profiles(4092, large), 6 + 4092);
    REFUSED(profiles(4093, large), SHAWM_BAD_BODY);
    REFUSED(profiles(4094, large), SHAWM_OVERSIZE);
    REFUSED(profiles(65534, large), SHAWM_OVERSIZE);
    REFUSED(profiles(65536, large), SHAWM_BAD_BODY);
    REFUSED(profiles(65538, large), SHAWM_BAD_BODY);
    /* Earlier in the order than the missing room. */
    REFUSED(profiles(4094, out), SHAWM_OVERSIZE);
    REFUSED(profiles(5, out), SHAWM_BAD_BODY);
    give_back(list);
    give_back(out);
    give_back(large);
}

static void unsupported_version(void)
{
    struct octets out = fill(FILLED, 6);

    REFUSED(shawm_write_unsupported_version(3, out.at, 3), SHAWM_NO_ROOM);
    REFUSED(shawm_write_unsupported_version(3, NULL, 0), SHAWM_NO_ROOM);
    WRITTEN(out, "", FILLED);
    SAME(shawm_write_unsupported_version(3, out.at, 4), 4);
    WRITTEN(out, "02 0001 03", FILLED);
    SAME(shawm_write_unsupported_version(200, out.at, out.n), 4);
    WRITTEN(out, "02 0001 c8", FILLED);
    give_back(out);
}

/* MediaKeys from the lengths of its six stretches: identifier, MKI, client key, server key, client salt, server salt. */
static uint32_t keys(const size_t lengths[6], struct octets out)
{
    struct octets id = hold(ID), fields[5];
    uint32_t answer;
    int i;

    id = join(id, fill(0, 16));
    for (i = 0; i < 5; i++)
        fields[i] = fill((uint8_t)(0xc0 + i), lengths[i + 1]);
    answer = shawm_write_media_keys(id.at, lengths[0], 0x0102, fields[0].at, fields[0].n, fields[1].at, fields[1].n,
                                    fields[2].at, fields[2].n, fields[3].at, fields[3].n, fields[4].at, fields[4].n,
                                    out.at, out.n);
    for (i = 0; i < 5; i++)
        give_back(fields[i]);
    give_back(id);
    return answer;
}

static void media_keys(void)
{
    const size_t small[6] = { 16, 0, 1, 1, 1, 1 }, some[6] = { 16, 1, 2, 3, 1, 2 };
    const size_t longest[6] = { 16, 255, 255, 255, 255, 255 };
    struct octets out = fill(FILLED, 40), large = fill(FILLED, 1301);
    int i;

    SAME(keys(small, out), 30);
    WRITTEN(out, "03 001b " ID " 0102 00 01c1 01c2 01c3 01c4", FILLED);
    SAME(keys(some, out), 35);
    WRITTEN(out, "03 0020 " ID " 0102 01c0 02c1c1 03c2c2c2 01c3 02c4c4", FILLED);
    SAME(keys(longest, large), 26 + 5 * 255);

    memset(large.at, FILLED, large.n);
    for (i = 0; i < 6; i++) {
        size_t lengths[6] = { 16, 255, 255, 255, 255, 255 };

        lengths[i] = i == 0 ? 17 : 256;
        REFUSED(keys(lengths, large), i == 0 ? SHAWM_IDENTIFIER_LENGTH : SHAWM_BAD_BODY);
        lengths[i] = i == 0 ? 15 : 0;
        if (i == 1)
            continue; /* an MKI may be empty */
        REFUSED(keys(lengths, large), i == 0 ? SHAWM_IDENTIFIER_LENGTH : SHAWM_BAD_BODY);
        WRITTEN(large, "", FILLED);
    }
    {
        const size_t wrong[6] = { 0, 256, 0, 0, 0, 0 }, bad[6] = { 16, 256, 0, 0, 0, 0 };
        struct octets none = { NULL, 0 };

        REFUSED(keys(wrong, none), SHAWM_IDENTIFIER_LENGTH);
        REFUSED(keys(bad, none), SHAWM_BAD_BODY);
        REFUSED(keys(small, none), SHAWM_NO_ROOM);
    }
    give_back(out);
    give_back(large);
}

static uint32_t dtls(size_t id_n, size_t n, struct octets out)
{
    struct octets id = join(hold(ID), fill(0, 16)), packet = fill(0x16, n);
    uint32_t answer = shawm_write_tunneled_dtls(id.at, id_n, packet.at, packet.n, out.at, out.n);

    give_back(id);
    give_back(packet);
    return answer;
}

static void tunneled_dtls(void)
{
    struct octets out = fill(FILLED, 30), large = fill(FILLED, 70000), none = { NULL, 0 };

    REFUSED(dtls(15, 1, out), SHAWM_IDENTIFIER_LENGTH);
    REFUSED(dtls(17, 0, none), SHAWM_IDENTIFIER_LENGTH);
    REFUSED(dtls(0, 1, out), SHAWM_IDENTIFIER_LENGTH);
    REFUSED(dtls(16, 0, none), SHAWM_BAD_BODY);
    REFUSED(dtls(16, 65536, none), SHAWM_BAD_BODY);
    REFUSED(dtls(16, 65537, large), SHAWM_BAD_BODY);
    REFUSED(dtls(16, SHAWM_DTLS_LIMIT + 1, none), SHAWM_OVERSIZE);
    REFUSED(dtls(16, 65535, large), SHAWM_OVERSIZE);
    REFUSED(dtls(16, 10, out), SHAWM_NO_ROOM);
    WRITTEN(out, "", FILLED);
    SAME(dtls(16, 3, out), 24);
    WRITTEN(out, "04 0015 " ID " 0003 161616", FILLED);
    SAME(dtls(16, SHAWM_DTLS_LIMIT, large), SHAWM_MESSAGE_LIMIT);
    SAME(large.at[SHAWM_MESSAGE_LIMIT - 1], 0x16);
    SAME(large.at[SHAWM_MESSAGE_LIMIT], FILLED);
    give_back(out);
    give_back(large);
}

static void endpoint_disconnect(void)
{
    struct octets id = hold(ID "00"), out = fill(FILLED, 20);

    REFUSED(shawm_write_endpoint_disconnect(id.at, 15, out.at, out.n), SHAWM_IDENTIFIER_LENGTH);
    REFUSED(shawm_write_endpoint_disconnect(id.at, 17, NULL, 0), SHAWM_IDENTIFIER_LENGTH);
    REFUSED(shawm_write_endpoint_disconnect(NULL, 0, out.at, out.n), SHAWM_IDENTIFIER_LENGTH);
    REFUSED(shawm_write_endpoint_disconnect(id.at, 16, out.at, 18), SHAWM_NO_ROOM);
    WRITTEN(out, "", FILLED);
    SAME(shawm_write_endpoint_disconnect(id.at, 16, out.at, out.n), 19);
    WRITTEN(out, "05 0010 " ID, FILLED);
    SAME(shawm_write_endpoint_disconnect(id.at, 16, out.at, 19), 19);
    give_back(id);
    give_back(out);
}

void writing(void)
{
    supported_profiles();
    unsupported_version();
    media_keys();
    tunneled_dtls();
    endpoint_disconnect();
}
