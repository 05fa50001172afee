/* Document 02, order 1: status pages by hand, their count and entries, and 29 for what is none. */
#include "check.h"

struct shown {
    uint32_t place, keyed, endpoint;
};

/* 6 bits of count; 5 bits of place, 1 of state, 32 of endpoint; zeros. */
struct status {
    const char *page;
    uint32_t count;
    struct shown entries[3];
};

#define NONE (SHAWM_REFUSED | SHAWM_NOT_A_PAGE)
#define NO_ENTRIES { { 0, 0, 0 }, { 0, 0, 0 }, { 0, 0, 0 } }

static const struct status by_hand[] = {
    { "", NONE, NO_ENTRIES },
    { "00", 0, NO_ENTRIES },
    { "00 00", NONE, NO_ENTRIES },
    /* Ones in the two bits behind the count. */
    { "01", NONE, NO_ENTRIES },
    { "02", NONE, NO_ENTRIES },
    { "03", NONE, NO_ENTRIES },
    /* One entry: 44 bits, so four of filling. */
    { "04 00 00 00 00 00", 1, { { 0, 0, 0 }, { 0, 0, 0 }, { 0, 0, 0 } } },
    { "04 1f ff ff ff f0", 1, { { 0, 1, 0xffffffffu }, { 0, 0, 0 }, { 0, 0, 0 } } },
    { "07 e0 10 20 30 40", 1, { { 31, 0, 0x01020304u }, { 0, 0, 0 }, { 0, 0, 0 } } },
    { "06 18 00 00 00 10", 1, { { 16, 1, 0x80000001u }, { 0, 0, 0 }, { 0, 0, 0 } } },
    { "04 00 00 00 00", NONE, NO_ENTRIES },
    { "04 00 00 00 00 00 00", NONE, NO_ENTRIES },
    { "04 00 00 00 00 08", NONE, NO_ENTRIES },
    { "04 00 00 00 00 01", NONE, NO_ENTRIES },
    { "04", NONE, NO_ENTRIES },
    /* Two entries: 82 bits, so six of filling. */
    { "08 70 10 20 30 4f bf ff ff ff 80", 2, { { 3, 1, 0x01020304u }, { 31, 0, 0xfffffffeu }, { 0, 0, 0 } } },
    { "08 70 10 20 30 4f bf ff ff ff a0", NONE, NO_ENTRIES },
    { "08 70 10 20 30 4f bf ff ff ff 81", NONE, NO_ENTRIES },
    { "08 70 10 20 30 4f bf ff ff ff", NONE, NO_ENTRIES },
    { "08 70 10 20 30 4f bf ff ff ff 80 00", NONE, NO_ENTRIES },
    /* Places 0 and 1; the same twice, open and open, open and keyed; 1 and 0. */
    { "08 00 00 00 00 00 80 00 00 00 40", 2, { { 0, 0, 0 }, { 1, 0, 1 }, { 0, 0, 0 } } },
    { "08 00 00 00 00 00 00 00 00 00 40", NONE, NO_ENTRIES },
    { "08 00 00 00 00 00 40 00 00 00 40", NONE, NO_ENTRIES },
    { "08 20 00 00 00 00 00 00 00 00 40", NONE, NO_ENTRIES },
    /* Endpoints that differ in their first bit; the same twice, open and open, open and keyed. */
    { "08 00 00 00 00 00 a0 00 00 00 00", 2, { { 0, 0, 0 }, { 1, 0, 0x80000000u }, { 0, 0, 0 } } },
    { "08 00 00 00 00 00 80 00 00 00 00", NONE, NO_ENTRIES },
    { "08 00 00 00 00 00 c0 00 00 00 00", NONE, NO_ENTRIES },
    /* Three entries fill 15 octets: no filling. The first and the last may not have one endpoint either. */
    { "0c 00 00 00 00 00 80 00 00 00 44 00 00 00 02", 3, { { 0, 0, 0 }, { 1, 0, 1 }, { 2, 0, 2 } } },
    { "0c 00 00 00 00 00 80 00 00 00 44 00 00 00 00", NONE, NO_ENTRIES },
    { "0c 00 00 00 00 00 80 00 00 00 44 00 00 00 02 00", NONE, NO_ENTRIES },
};

/* Beyond every page; some have the low bits of an entry's number, or 38 times them has. */
static const size_t beyond[] = { 3, 4, 31, 32, 33, 256, 65536, 0xffffffffu, (size_t)1 << 32,
                                 (size_t)1 << 63, SIZE_MAX / 38 + 1, SIZE_MAX };

static void check_page(const struct status *status, struct octets octets)
{
    uint32_t count = shawm_is_refusal(status->count) ? 0 : status->count;
    size_t i;

    SAME(shawm_page_count(octets.at, octets.n), status->count);
    for (i = 0; i < count; i++) {
        const struct shown *entry = &status->entries[i];

        SAME(shawm_page_entry(octets.at, octets.n, i), 2 * entry->place + entry->keyed);
        SAME(shawm_page_endpoint(octets.at, octets.n, i), entry->endpoint);
    }
    REFUSED(shawm_page_entry(octets.at, octets.n, count), SHAWM_NOT_A_PAGE);
    SAME(shawm_page_endpoint(octets.at, octets.n, count), 0);
    for (i = 0; i < sizeof beyond / sizeof beyond[0]; i++) {
        REFUSED(shawm_page_entry(octets.at, octets.n, beyond[i]), SHAWM_NOT_A_PAGE);
        SAME(shawm_page_endpoint(octets.at, octets.n, beyond[i]), 0);
    }
}

void page(void)
{
    struct octets none = { NULL, 0 };
    size_t i;

    SAME(SHAWM_NOT_A_PAGE, 29);
    for (i = 0; i < sizeof by_hand / sizeof by_hand[0]; i++) {
        struct octets octets = hold(by_hand[i].page);

        check_page(&by_hand[i], octets);
        give_back(octets);
    }
    check_page(&by_hand[0], none);
}
