#include "paper.h"
#include <string.h>

#define REFUSAL(number) (0x80000000u | (number))

static size_t two(const uint8_t *at)
{
    return (size_t)at[0] << 8 | at[1];
}

/* The kinds of RFC 7983, section 7, by their numbers in shawm.h: those that RFC 5764 did not have come last. */
enum { STUN, DTLS, MEDIA, OTHER, ZRTP, CHANNEL };

/* Upwards: each limit is for what those before it have left. */
answer paper_sort(const uint8_t *packet, size_t n)
{
    if (n == 0)
        return REFUSAL(19);
    if (packet[0] < 4)
        return STUN;
    if (packet[0] < 16)
        return OTHER;
    if (packet[0] < 20)
        return ZRTP;
    if (packet[0] < 64)
        return DTLS;
    if (packet[0] < 80)
        return CHANNEL;
    if (packet[0] < 128)
        return OTHER;
    if (packet[0] < 192)
        return MEDIA;
    return OTHER;
}

/* ------------------------------------------------------ RFC 9185, section 6 */

/* The layout of each type: a letter for each field, then its number. F fixed at 16 octets; B and W a number of one and
 * two octets; V and v a stretch behind one length octet, of at least 1 and 0 octets; L a stretch behind two. */
static const char *const layouts[6] = { "", "B\020L\002", "", "F\001W\021v\003V\004V\005V\006V\007", "F\001L\010", "F\001" };

/* Takes one field off the body, which stands from *at to end; 0 where it does not fit. */
static int take(const uint8_t *octets, size_t *at, size_t end, char kind, struct paper_reading *r, uint8_t field)
{
    size_t head = kind == 'W' || kind == 'L' ? 2 : kind == 'F' ? 0 : 1, length = 0;

    if (end - *at < head)
        return 0;
    if (kind == 'B' || kind == 'W') {
        r->numbers[field] = (uint32_t)(head == 1 ? octets[*at] : two(octets + *at));
    } else {
        length = kind == 'F' ? 16 : head == 1 ? octets[*at] : two(octets + *at);
        if ((length == 0 && kind != 'v') || end - *at - head < length)
            return 0;
        r->places[field].start = *at + head;
        r->places[field].length = length;
    }
    *at += head + length;
    return 1;
}

static int take_all(const uint8_t *octets, size_t end, const char *layout, struct paper_reading *r)
{
    size_t at = 3;

    for (; *layout != '\0'; layout += 2) {
        if (!take(octets, &at, end, layout[0], r, (uint8_t)layout[1]))
            return 0;
    }
    /* The list of profiles is the one stretch with a rule on its length. */
    return at == end && r->places[2].length % 2 == 0;
}

struct paper_reading paper_read(const uint8_t *octets, size_t n)
{
    struct paper_reading r, nothing;
    size_t length;

    memset(&r, 0, sizeof r);
    nothing = r;
    if (n < 3)
        return r;
    length = two(octets + 1);
    if (octets[0] == 2) {
        if (length == 0) {
            r.answer = REFUSAL(5);
            r.taken = 3;
        } else if (n >= 4) {
            r.answer = 2;
            r.taken = n;
            r.numbers[16] = octets[3];
        }
        return r;
    }
    if (length > 4096)
        r.answer = REFUSAL(2);
    if (length > 4096 || n - 3 < length)
        return r;
    r.answer = octets[0];
    if (octets[0] == 0 || octets[0] > 5)
        r.answer = REFUSAL(3);
    else if (!take_all(octets, 3 + length, layouts[octets[0]], &r)) {
        r = nothing;
        r.answer = REFUSAL(5);
    }
    r.taken = 3 + length;
    return r;
}

/* 5 where a field is too short or too long; otherwise the length of the body. */
static answer body_length(const struct paper_message *m, size_t *body)
{
    size_t i;

    *body = m->type == 1 ? 3 : m->type == 2 ? 1 : m->type == 3 ? 16 + 2 + 5 : m->type == 4 ? 16 + 2 : 16;
    if (m->type == 2 || m->type == 5)
        return 0;
    for (i = 0; i < (m->type == 3 ? 5u : 1u); i++) {
        size_t least = m->type == 1 ? 2 : m->type == 3 && i == 0 ? 0 : 1;

        if (m->lengths[i] < least || m->lengths[i] > (m->type == 3 ? 255u : 65535u))
            return REFUSAL(5);
        *body += m->lengths[i];
    }
    return m->type == 1 && m->lengths[0] % 2 == 1 ? REFUSAL(5) : 0;
}

static uint8_t *put(uint8_t *out, size_t number, int width)
{
    while (width-- > 0)
        *out++ = (uint8_t)(number >> 8 * width);
    return out;
}

static uint8_t *put_all(uint8_t *out, const uint8_t *octets, size_t n)
{
    if (n > 0)
        memcpy(out, octets, n);
    return out + n;
}

answer paper_write(const struct paper_message *m, size_t room, uint8_t *out)
{
    size_t body, i;

    if (m->type >= 3 && m->id_n != 16)
        return REFUSAL(20);
    if (body_length(m, &body) != 0)
        return REFUSAL(5);
    if (body > 4096)
        return REFUSAL(2);
    if (room < 3 + body)
        return REFUSAL(13);
    out = put(put(out, (size_t)m->type, 1), body, 2);
    if (m->type <= 2)
        out = put(out, m->version, 1);
    else
        out = put_all(out, m->id, 16);
    if (m->type == 3)
        out = put(out, m->profile, 2);
    for (i = 0; i < (m->type == 3 ? 5u : m->type == 1 || m->type == 4 ? 1u : 0u); i++) {
        out = put(out, m->lengths[i], m->type == 3 ? 1 : 2);
        out = put_all(out, m->fields[i], m->lengths[i]);
    }
    return (answer)(3 + body);
}

/* ---------------------------------------------------- RFC 8870, section 4.1 */

struct paper_tag paper_split(const uint8_t *packet, size_t n)
{
    struct paper_tag t;
    size_t length, type;

    memset(&t, 0, sizeof t);
    t.answer = REFUSAL(18);
    if (n == 0 || packet[n - 1] == 1)
        return t;
    type = packet[n - 1];
    if (type == 0) {
        t.answer = 0;
        t.parts[1].length = n - 1;
        return t;
    }
    if (n < 3)
        return t;
    length = two(packet + n - 3);
    if (length > n || length < (type == 2 ? 8u : 4u) || length > (type == 2 ? 258u : 1027u))
        return t;
    t.answer = (answer)type;
    t.parts[1].length = n - length;
    if (type == 2) {
        t.parts[2].start = n - length;
        t.parts[2].length = length - 7;
        t.numbers[1] = (uint32_t)two(packet + n - 7);
        t.numbers[2] = (uint32_t)two(packet + n - 5);
    } else {
        t.parts[3].start = n - length;
        t.parts[3].length = length - 3;
    }
    return t;
}

/* ------------------------------------------------------ document 02, order 1 */

/* Takes so many bits, 32 at most, off the page. */
static uint32_t take_bits(const uint8_t *page, size_t *bit, int width)
{
    uint32_t value = 0;

    for (; width > 0; width--, ++*bit)
        value = value << 1 | (page[*bit / 8] >> (7 - *bit % 8) & 1u);
    return value;
}

/* Whether entry i may stand behind those before it: its place is higher than the last, its endpoint another. */
static int in_order(const struct paper_page *p, uint32_t i)
{
    uint32_t j;

    if (i > 0 && p->entries[i] / 2 <= p->entries[i - 1] / 2)
        return 0;
    for (j = 0; j < i; j++) {
        if (p->endpoints[i] == p->endpoints[j])
            return 0;
    }
    return 1;
}

struct paper_page paper_show(const uint8_t *page, size_t n)
{
    struct paper_page p;
    size_t bit = 0;
    uint32_t count, i;

    memset(&p, 0, sizeof p);
    p.count = REFUSAL(29);
    if (n == 0)
        return p;
    count = take_bits(page, &bit, 6);
    if (count > 32 || n != (6 + 38 * count + 7) / 8)
        return p;
    for (i = 0; i < count; i++) {
        p.entries[i] = take_bits(page, &bit, 6);
        p.endpoints[i] = take_bits(page, &bit, 32);
        if (!in_order(&p, i))
            return p;
    }
    if (take_bits(page, &bit, (int)(8 * n - bit)) == 0)
        p.count = count;
    return p;
}
