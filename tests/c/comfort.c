/* The inline readers of the header. */
#include "check.h"

#define ID "00112233445566778899aabbccddeeff"

/* Parts by their place in the octets; NULL where there is none. */
#define PART(part, octets, start, length)      \
    do {                                       \
        SAME((part).at == (octets).at + (start), 1); \
        SAME((part).n, (length));              \
    } while (0)
#define NO_PART(part)                \
    do {                             \
        SAME((part).at == NULL, 1);  \
        SAME((part).n, 0);           \
    } while (0)

static struct shawm_message read_all(struct octets octets)
{
    struct shawm_message message;

    /* Nothing of what stood there before may be left. */
    memset(&message, 0xA5, sizeof message);
    SAME(shawm_read_message(octets.at, octets.n, &message), shawm_read(octets.at, octets.n));
    SAME(message.answer, shawm_read(octets.at, octets.n));
    SAME(message.taken, shawm_taken(octets.at, octets.n));
    return message;
}

static void no_parts_but_identifier(const struct shawm_message *message)
{
    NO_PART(message->profile_list);
    NO_PART(message->mki);
    NO_PART(message->client_key);
    NO_PART(message->server_key);
    NO_PART(message->client_salt);
    NO_PART(message->server_salt);
}

static void media_keys(void)
{
    struct octets octets = hold("03 0023 " ID " 000a 00 01a1 02a2a2 03a3a3a3 05a4a4a4a4a4 00");
    struct shawm_message message = read_all(octets);

    SAME(message.answer, SHAWM_REFUSED | SHAWM_BAD_BODY);
    SAME(message.taken, 38);
    NO_PART(message.identifier);
    no_parts_but_identifier(&message);
    octets.at[2] = 0x22;
    message = read_all(octets);
    SAME(message.answer, SHAWM_MEDIA_KEYS);
    SAME(message.taken, 37);
    SAME(message.profile, 10);
    SAME(message.version, 0);
    PART(message.identifier, octets, 3, 16);
    PART(message.mki, octets, 22, 0);
    PART(message.client_key, octets, 23, 1);
    PART(message.server_key, octets, 25, 2);
    PART(message.client_salt, octets, 28, 3);
    PART(message.server_salt, octets, 32, 5);
    NO_PART(message.profile_list);
    NO_PART(message.dtls);
    give_back(octets);
}

static void others(void)
{
    struct octets profiles = hold("01 0005 07 0002 0009"), version = hold("02 0001 09"), none = { NULL, 0 };
    struct octets dtls = hold("04 0014 " ID " 0002 16fe"), gone = hold("05 0010 " ID);
    struct shawm_message message = read_all(profiles);

    SAME(message.version, 7);
    SAME(message.profile, 0);
    PART(message.profile_list, profiles, 6, 2);
    NO_PART(message.identifier);
    message = read_all(version);
    SAME(message.version, 9);
    NO_PART(message.identifier);
    no_parts_but_identifier(&message);
    message = read_all(dtls);
    PART(message.identifier, dtls, 3, 16);
    PART(message.dtls, dtls, 21, 2);
    SAME(memcmp(message.dtls.at, "\x16\xfe", 2), 0);
    no_parts_but_identifier(&message);
    message = read_all(gone);
    PART(message.identifier, gone, 3, 16);
    NO_PART(message.dtls);
    no_parts_but_identifier(&message);
    message = read_all(none);
    SAME(message.answer, SHAWM_MORE_NEEDED);
    SAME(message.version + message.profile, 0);
    NO_PART(message.identifier);
    NO_PART(message.dtls);
    no_parts_but_identifier(&message);
    give_back(profiles);
    give_back(version);
    give_back(dtls);
    give_back(gone);
}

void comfort(void)
{
    SAME(shawm_is_refusal(0), 0);
    SAME(shawm_is_refusal(0x7fffffffu), 0);
    SAME(shawm_is_refusal(SHAWM_REFUSED), 1);
    SAME(shawm_refusal_number(19), 0);
    SAME(shawm_refusal_number(SHAWM_REFUSED | 19), SHAWM_EMPTY_PACKET);
    SAME(shawm_refusal_number(shawm_sort(NULL, 0)), SHAWM_EMPTY_PACKET);
    SAME(shawm_refusal_number(SHAWM_REFUSED | 0x7fffff14u), SHAWM_IDENTIFIER_LENGTH);
    media_keys();
    others();
}
