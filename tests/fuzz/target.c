/* One input for the library, compared with paper.c. The first octet chooses the calls:
 *   0 sorting, reading, the tag and the status page, of the rest of the input
 *   1 to 5 the writer of that type: see message_of below
 *   6 wrapping, 7 and 8 unwrapping: see target_keywrap.c
 *   9 packets of a stream: see target_index.c
 * Any other value is taken modulo 6. Each stretch is lent twice: ending at a closed page, and beginning behind one. */
#include "lent.h"
#include "paper.h"
#include "target.h"
#include <shawm.h>
#include <string.h>

/* --------------------------------------------- sorting, reading, tag, page */

/* All numbers that the interface knows, those around them, and some with the same low bits. */
static const uint32_t asked[] = { 0,  1,  2,  3,  4,  5,  6,  7,  8,   9,     15,    16,          17,         18,
                                  19, 255, 257, 264, 272, 273, 65537, 65552, 0x80000001u, 0xffffffffu };

static void compare_reading(const uint8_t *octets, size_t n)
{
    struct paper_reading r = paper_read(octets, n);
    size_t i;

    AGREE("shawm_read", n, shawm_read(octets, n), r.answer);
    AGREE("shawm_taken", n, shawm_taken(octets, n), r.taken);
    for (i = 0; i < sizeof asked / sizeof asked[0]; i++) {
        uint32_t field = asked[i];

        AGREE("shawm_field_start", field, shawm_field_start(octets, n, field), field < 18 ? r.places[field].start : 0);
        AGREE("shawm_field_length", field, shawm_field_length(octets, n, field), field < 18 ? r.places[field].length : 0);
        AGREE("shawm_field_number", field, shawm_field_number(octets, n, field), field < 18 ? r.numbers[field] : 0);
    }
}

static void compare_tag(const uint8_t *packet, size_t n)
{
    struct paper_tag t = paper_split(packet, n);
    size_t i;

    AGREE("shawm_tag", n, shawm_tag(packet, n), t.answer);
    for (i = 0; i < sizeof asked / sizeof asked[0]; i++) {
        uint32_t part = asked[i];

        AGREE("shawm_tag_start", part, shawm_tag_start(packet, n, part), part < 4 ? t.parts[part].start : 0);
        AGREE("shawm_tag_length", part, shawm_tag_length(packet, n, part), part < 4 ? t.parts[part].length : 0);
        AGREE("shawm_tag_number", part, shawm_tag_number(packet, n, part), part < 4 ? t.numbers[part] : 0);
    }
}

/* The numbers of all entries and of one more, and some with the same low bits, or the same bits times 38. */
static void compare_page(const uint8_t *page, size_t n)
{
    static const size_t beyond[] = { 33, 63, 256, 65536, (size_t)1 << 32, (size_t)1 << 63, SIZE_MAX / 38 + 1, SIZE_MAX };
    struct paper_page p = paper_show(page, n);
    size_t count = p.count >> 31 ? 0 : p.count, i;

    AGREE("shawm_page_count", n, shawm_page_count(page, n), p.count);
    for (i = 0; i <= count + sizeof beyond / sizeof beyond[0]; i++) {
        size_t number = i <= count ? i : beyond[i - count - 1];
        int there = number < count;

        AGREE("shawm_page_entry", number, shawm_page_entry(page, n, number), there ? p.entries[number] : 0x8000001du);
        AGREE("shawm_page_endpoint", number, shawm_page_endpoint(page, n, number), there ? p.endpoints[number] : 0);
    }
}

static void compare_octets(const uint8_t *octets, size_t n)
{
    const uint8_t *lent = lend(0, octets, n);

    AGREE("shawm_sort", n, shawm_sort(lent, n), paper_sort(octets, n));
    compare_reading(lent, n);
    compare_tag(lent, n);
    compare_page(lent, n);
    unchanged(lent, octets, n);
}

/* ---------------------------------------------------------------- writing */

/* Takes a number of two octets off the input; 0 where it has ended. */
static size_t number(const uint8_t **data, size_t *size)
{
    size_t value = 0, n = *size < 2 ? *size : 2, i;

    for (i = 0; i < n; i++)
        value = value << 8 | (*data)[i];
    *data += n;
    *size -= n;
    return value;
}

/* The octets of all stretches of a message, each from its own start. */
static uint8_t source[LARGEST];

/* Fills the first n octets of the source by repeating the data, as whole copies: n may be large. */
static void repeat(const uint8_t *data, size_t size, size_t n)
{
    size_t done = size == 0 ? 1 : size, more;

    source[0] = 0x5A;
    memcpy(source, data, size);
    for (; done < n; done += more) {
        more = done < n - done ? done : n - done;
        memcpy(source + done, source, more);
    }
}

/* A message from the input: version and room, the identifier's length, each field's length, all of two octets; what
 * stands behind is repeated as the octets of all stretches. A length of 0xffff is made 65,536. */
static struct paper_message message_of(int type, const uint8_t *data, size_t size, size_t *room)
{
    struct paper_message m;
    size_t i, longest;

    memset(&m, 0, sizeof m);
    m.type = type;
    m.version = (uint8_t)number(&data, &size);
    *room = number(&data, &size);
    m.profile = (uint16_t)(*room ^ m.version);
    longest = m.id_n = number(&data, &size);
    for (i = 0; i < 5; i++) {
        m.lengths[i] = number(&data, &size);
        m.lengths[i] += m.lengths[i] == 0xffff;
        longest = m.lengths[i] > longest ? m.lengths[i] : longest;
    }
    repeat(data, size, longest + 5);
    m.id = lend(0, source, m.id_n);
    for (i = 0; i < 5; i++)
        m.fields[i] = lend(1 + (int)i, source + i, m.lengths[i]);
    return m;
}

static uint32_t by_library(const struct paper_message *m, uint8_t *out, size_t room)
{
    const uint8_t *const *f = m->fields;
    const size_t *n = m->lengths;

    switch (m->type) {
    case 1:
        return shawm_write_supported_profiles(m->version, f[0], n[0], out, room);
    case 2:
        return shawm_write_unsupported_version(m->version, out, room);
    case 3:
        return shawm_write_media_keys(m->id, m->id_n, m->profile, f[0], n[0], f[1], n[1], f[2], n[2], f[3], n[3],
                                      f[4], n[4], out, room);
    case 4:
        return shawm_write_tunneled_dtls(m->id, m->id_n, f[0], n[0], out, room);
    default:
        return shawm_write_endpoint_disconnect(m->id, m->id_n, out, room);
    }
}

static void compare_writer(int type, const uint8_t *data, size_t size)
{
    static uint8_t wanted[4099];
    size_t room, i;
    struct paper_message m = message_of(type, data, size, &room);
    uint8_t poison = (uint8_t)(0xA5 ^ size), *out = poisoned(room, poison);
    answer paper = paper_write(&m, room, wanted);

    AGREE("writer", (size_t)type, by_library(&m, out, room), paper);
    written(out, room, poison, wanted, paper >> 31 ? 0 : paper);
    unchanged(m.id, source, m.id_n);
    for (i = 0; i < 5; i++)
        unchanged(m.fields[i], source + i, m.lengths[i]);
}

int LLVMFuzzerTestOneInput(const uint8_t *data, size_t size)
{
    reserve();
    if (size == 0 || size > LARGEST)
        return 0;
    for (at_end = 0; at_end <= 1; at_end++) {
        if (data[0] >= 6 && data[0] <= 8)
            compare_keywrap(data[0], data + 1, size - 1);
        else if (data[0] == 9)
            compare_index(data + 1, size - 1);
        else if (data[0] % 6 == 0)
            compare_octets(data + 1, size - 1);
        else
            compare_writer(data[0] % 6, data + 1, size - 1);
    }
    return 0;
}
