/* Status pages of every number of entries: their lengths, and the inline reader. */
#include "check.h"

struct shown {
    uint32_t place, keyed, endpoint;
};

static struct shown shown_at(uint32_t i)
{
    struct shown entry = { i, i % 2, 0xfedcba00u + i };

    return entry;
}

/* Puts so many low bits of a number behind the bits that are there. */
static size_t put_bits(struct octets page, size_t at, uint32_t number, unsigned int width)
{
    for (; width > 0; width--, at++) {
        if (at / 8 < page.n)
            page.at[at / 8] = (uint8_t)(page.at[at / 8] | (number >> (width - 1) & 1u) << (7 - at % 8));
    }
    return at;
}

/* So many entries, laid out in n octets: cut there, or with zeros behind. */
static struct octets lay_out(uint32_t count, size_t n)
{
    struct octets page = fill(0, n);
    size_t at = put_bits(page, 0, count, 6);
    uint32_t i;

    for (i = 0; i < count; i++) {
        struct shown entry = shown_at(i);

        at = put_bits(page, at, entry.place, 5);
        at = put_bits(page, at, entry.keyed, 1);
        at = put_bits(page, at, entry.endpoint, 32);
    }
    return page;
}

static void entries_of(struct octets page, uint32_t count)
{
    uint32_t i;

    SAME(shawm_page_count(page.at, page.n), count);
    for (i = 0; i < count; i++) {
        struct shown entry = shown_at(i);

        SAME(shawm_page_entry(page.at, page.n, i), 2 * entry.place + entry.keyed);
        SAME(shawm_page_endpoint(page.at, page.n, i), entry.endpoint);
    }
    REFUSED(shawm_page_entry(page.at, page.n, count), SHAWM_NOT_A_PAGE);
    SAME(shawm_page_endpoint(page.at, page.n, count), 0);
}

static size_t length_of(uint32_t count)
{
    return (6 + (size_t)count * 38 + 7) / 8;
}

/* Every number of entries in its own length, one less and one more; 32 entries are a full page, 33 are none. */
static void lengths(void)
{
    uint32_t count;

    for (count = 0; count <= 63; count++) {
        size_t n = length_of(count);
        struct octets less = lay_out(count, n - 1), page = lay_out(count, n), more = lay_out(count, n + 1);

        if (count <= SHAWM_PLACES)
            entries_of(page, count);
        else
            REFUSED(shawm_page_count(page.at, page.n), SHAWM_NOT_A_PAGE);
        REFUSED(shawm_page_count(less.at, less.n), SHAWM_NOT_A_PAGE);
        REFUSED(shawm_page_count(more.at, more.n), SHAWM_NOT_A_PAGE);
        REFUSED(shawm_page_entry(less.at, less.n, 0), SHAWM_NOT_A_PAGE);
        REFUSED(shawm_page_entry(more.at, more.n, 0), SHAWM_NOT_A_PAGE);
        SAME(shawm_page_endpoint(less.at, less.n, 0), 0);
        SAME(shawm_page_endpoint(more.at, more.n, 0), 0);
        give_back(less);
        give_back(page);
        give_back(more);
    }
    SAME(SHAWM_PLACES, 32);
    SAME(SHAWM_PAGE_LIMIT, length_of(SHAWM_PLACES));
}

/* Counts that no table has, in the octets of a full page. */
static void counts(void)
{
    uint32_t count;

    for (count = SHAWM_PLACES + 1; count <= 63; count++) {
        struct octets page = lay_out(count, SHAWM_PAGE_LIMIT);

        REFUSED(shawm_page_count(page.at, page.n), SHAWM_NOT_A_PAGE);
        REFUSED(shawm_page_entry(page.at, page.n, 0), SHAWM_NOT_A_PAGE);
        give_back(page);
    }
}

/* Reads into entries that hold other values before; gives how many of them still do, from the last one back. */
static size_t kept(struct octets page, struct shawm_entry *entries)
{
    struct shawm_entry before;
    size_t n = 0;

    memset(entries, 0xA5, SHAWM_PLACES * sizeof *entries);
    memset(&before, 0xA5, sizeof before);
    SAME(shawm_read_page(page.at, page.n, entries), shawm_page_count(page.at, page.n));
    while (n < SHAWM_PLACES && memcmp(&entries[SHAWM_PLACES - 1 - n], &before, sizeof before) == 0)
        n++;
    return n;
}

static void reads(void)
{
    struct shawm_entry entries[SHAWM_PLACES];
    uint32_t count, i;

    for (count = 0; count <= SHAWM_PLACES; count++) {
        struct octets page = lay_out(count, length_of(count)), more = lay_out(count, length_of(count) + 1);

        SAME(kept(more, entries), SHAWM_PLACES);
        SAME(kept(page, entries), SHAWM_PLACES - count);
        for (i = 0; i < count; i++) {
            struct shown entry = shown_at(i);

            SAME(entries[i].place, entry.place);
            SAME(entries[i].keyed, entry.keyed);
            SAME(entries[i].endpoint, entry.endpoint);
        }
        give_back(page);
        give_back(more);
    }
    {
        struct octets none = { NULL, 0 };

        SAME(kept(none, entries), SHAWM_PLACES);
        REFUSED(shawm_read_page(NULL, 0, entries), SHAWM_NOT_A_PAGE);
    }
}

void pages(void)
{
    lengths();
    counts();
    reads();
}
