/* RFC 7983, section 7: the first octet decides. */
#include "check.h"

/* All first octets, 16 to a row: S STUN, Z ZRTP, D DTLS, T TURN channel, R RTP or RTCP, and a dot for Other. */
static const char map[16][17] = {
    "SSSS............", /* 0 */
    "ZZZZDDDDDDDDDDDD", /* 16 */
    "DDDDDDDDDDDDDDDD",
    "DDDDDDDDDDDDDDDD",
    "TTTTTTTTTTTTTTTT", /* 64 */
    "................", /* 80 */
    "................",
    "................",
    "RRRRRRRRRRRRRRRR", /* 128 */
    "RRRRRRRRRRRRRRRR",
    "RRRRRRRRRRRRRRRR",
    "RRRRRRRRRRRRRRRR",
    "................", /* 192 */
    "................",
    "................",
    "................"
};

static uint32_t kind_of(unsigned int octet)
{
    switch (map[octet / 16][octet % 16]) {
    case 'S':
        return SHAWM_KIND_STUN;
    case 'Z':
        return SHAWM_KIND_ZRTP;
    case 'D':
        return SHAWM_KIND_DTLS;
    case 'T':
        return SHAWM_KIND_TURN_CHANNEL;
    case 'R':
        return SHAWM_KIND_RTP;
    default:
        return SHAWM_KIND_OTHER;
    }
}

void sorting(void)
{
    unsigned int octet;

    for (octet = 0; octet <= 255; octet++) {
        struct octets one = fill((uint8_t)octet, 1);
        struct octets many = fill((uint8_t)octet, 1500);

        SAME(shawm_sort(one.at, one.n), kind_of(octet));
        SAME(shawm_sort(many.at, many.n), kind_of(octet));
        give_back(one);
        give_back(many);
    }
    REFUSED(shawm_sort(NULL, 0), SHAWM_EMPTY_PACKET);
    {
        struct octets none = fill(22, 0);

        REFUSED(shawm_sort(none.at, 0), SHAWM_EMPTY_PACKET);
        give_back(none);
    }
}
