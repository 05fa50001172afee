/* Where each field of each reading stands, and that every other field of every reading is 0 and 0. */
#include "check.h"

#define ID "00112233445566778899aabbccddeeff"

struct place {
    uint32_t field;
    size_t start, length;
};

struct number {
    uint32_t field, value;
};

struct message {
    const char *octets;
    struct place places[7];    /* those that are there; field 0 ends them */
    struct number number;      /* field 0: none */
};

static const struct message messages[] = {
    /* More needed. */
    { "", { { 0, 0, 0 } }, { 0, 0 } },
    { "04 00", { { 0, 0, 0 } }, { 0, 0 } },
    { "02 0001", { { 0, 0, 0 } }, { 0, 0 } },
    { "05 0010 0011223344", { { 0, 0, 0 } }, { 0, 0 } },
    /* Refused: 2, 3 and, for each type, 5. */
    { "03 1001 " ID " 0009", { { 0, 0, 0 } }, { 0, 0 } },
    { "06 0010 " ID, { { 0, 0, 0 } }, { 0, 0 } },
    { "01 0006 07 0003 000900", { { 0, 0, 0 } }, { 0, 0 } },
    { "02 0000 07", { { 0, 0, 0 } }, { 0, 0 } },
    { "03 001a " ID " 0009 00 01a1 01a2 01a3 00", { { 0, 0, 0 } }, { 0, 0 } },
    { "04 0012 " ID " 0000", { { 0, 0, 0 } }, { 0, 0 } },
    { "05 0011 " ID " 00", { { 0, 0, 0 } }, { 0, 0 } },
    /* SupportedProfiles. */
    { "01 0007 00 0004 0009 000a", { { SHAWM_FIELD_PROFILE_LIST, 6, 4 }, { 0, 0, 0 } }, { SHAWM_FIELD_VERSION, 0 } },
    { "01 0005 ff 0002 fffe 05", { { SHAWM_FIELD_PROFILE_LIST, 6, 2 }, { 0, 0, 0 } }, { SHAWM_FIELD_VERSION, 255 } },
    /* UnsupportedVersion. */
    { "02 0001 03", { { 0, 0, 0 } }, { SHAWM_FIELD_VERSION, 3 } },
    { "02 1388 80 01", { { 0, 0, 0 } }, { SHAWM_FIELD_VERSION, 128 } },
    /* MediaKeys; an MKI of no octets has its place. */
    { "03 001b " ID " 8009 00 01a1 01a2 01a3 01a4",
      { { SHAWM_FIELD_IDENTIFIER, 3, 16 }, { SHAWM_FIELD_MKI, 22, 0 }, { SHAWM_FIELD_CLIENT_KEY, 23, 1 },
        { SHAWM_FIELD_SERVER_KEY, 25, 1 }, { SHAWM_FIELD_CLIENT_SALT, 27, 1 }, { SHAWM_FIELD_SERVER_SALT, 29, 1 },
        { 0, 0, 0 } },
      { SHAWM_FIELD_PROFILE, 0x8009 } },
    { "03 0024 " ID " 0000 02c0c0 01a1 02a2a2 03a3a3a3 05a4a4a4a4a4 ee",
      { { SHAWM_FIELD_IDENTIFIER, 3, 16 }, { SHAWM_FIELD_MKI, 22, 2 }, { SHAWM_FIELD_CLIENT_KEY, 25, 1 },
        { SHAWM_FIELD_SERVER_KEY, 27, 2 }, { SHAWM_FIELD_CLIENT_SALT, 30, 3 }, { SHAWM_FIELD_SERVER_SALT, 34, 5 },
        { 0, 0, 0 } },
      { SHAWM_FIELD_PROFILE, 0 } },
    /* TunneledDtls and EndpointDisconnect. */
    { "04 0015 " ID " 0003 16fefd ff",
      { { SHAWM_FIELD_IDENTIFIER, 3, 16 }, { SHAWM_FIELD_DTLS, 21, 3 }, { 0, 0, 0 } }, { 0, 0 } },
    { "05 0010 " ID, { { SHAWM_FIELD_IDENTIFIER, 3, 16 }, { 0, 0, 0 } }, { 0, 0 } },
};

static const uint32_t asked[] = {
    0, 1, 2, 3, 4, 5, 6, 7, 8, 9, 10, 11, 12, 13, 14, 15, 16, 17, 18, 19, 255, 256, 257, 264, 272, 273,
    65537, 65553, 0x7fffffffu, 0x80000000u, 0x80000001u, 0x80000010u, 0xffffffffu,
};

static void ask(const struct message *message, struct octets octets, uint32_t field)
{
    size_t start = 0, length = 0, i;
    uint32_t number = 0;

    for (i = 0; message->places[i].field != 0; i++) {
        if (message->places[i].field == field) {
            start = message->places[i].start;
            length = message->places[i].length;
        }
    }
    if (field != 0 && message->number.field == field)
        number = message->number.value;
    SAME(shawm_field_start(octets.at, octets.n, field), start);
    SAME(shawm_field_length(octets.at, octets.n, field), length);
    SAME(shawm_field_number(octets.at, octets.n, field), number);
}

void fields(void)
{
    size_t i, j;

    for (i = 0; i < sizeof messages / sizeof messages[0]; i++) {
        struct octets octets = hold(messages[i].octets);

        for (j = 0; j < sizeof asked / sizeof asked[0]; j++)
            ask(&messages[i], octets, asked[j]);
        give_back(octets);
    }
    for (j = 0; j < sizeof asked / sizeof asked[0]; j++) {
        SAME(shawm_field_start(NULL, 0, asked[j]), 0);
        SAME(shawm_field_length(NULL, 0, asked[j]), 0);
        SAME(shawm_field_number(NULL, 0, asked[j]), 0);
    }
}
