/* The C interface by the rules in tests/fuzz, in the place of the library. As it stands every test passes with it; the
 * faults are edits of this file or of those rules, and a test that passes with one of them is no test. */
#include "paper.h"
#include <shawm.h>
#include <string.h>

uint32_t shawm_sort(const uint8_t *packet, size_t n)
{
    return paper_sort(packet, n);
}

uint32_t shawm_read(const uint8_t *octets, size_t n)
{
    return paper_read(octets, n).answer;
}

size_t shawm_taken(const uint8_t *octets, size_t n)
{
    return paper_read(octets, n).taken;
}

size_t shawm_field_start(const uint8_t *octets, size_t n, uint32_t field)
{
    return field < 18 ? paper_read(octets, n).places[field].start : 0;
}

size_t shawm_field_length(const uint8_t *octets, size_t n, uint32_t field)
{
    return field < 18 ? paper_read(octets, n).places[field].length : 0;
}

uint32_t shawm_field_number(const uint8_t *octets, size_t n, uint32_t field)
{
    return field < 18 ? paper_read(octets, n).numbers[field] : 0;
}

uint32_t shawm_tag(const uint8_t *packet, size_t n)
{
    return paper_split(packet, n).answer;
}

size_t shawm_tag_start(const uint8_t *packet, size_t n, uint32_t part)
{
    return part < 4 ? paper_split(packet, n).parts[part].start : 0;
}

size_t shawm_tag_length(const uint8_t *packet, size_t n, uint32_t part)
{
    return part < 4 ? paper_split(packet, n).parts[part].length : 0;
}

uint32_t shawm_tag_number(const uint8_t *packet, size_t n, uint32_t field)
{
    return field < 4 ? paper_split(packet, n).numbers[field] : 0;
}

uint32_t shawm_page_count(const uint8_t *page, size_t n)
{
    return paper_show(page, n).count;
}

/* How many entries there are; none in what is no page. */
static size_t entries_of(const struct paper_page *p)
{
    return shawm_is_refusal(p->count) ? 0 : p->count;
}

uint32_t shawm_page_entry(const uint8_t *page, size_t n, size_t number)
{
    struct paper_page p = paper_show(page, n);

    return number < entries_of(&p) ? p.entries[number] : SHAWM_REFUSED | SHAWM_NOT_A_PAGE;
}

uint32_t shawm_page_endpoint(const uint8_t *page, size_t n, size_t number)
{
    struct paper_page p = paper_show(page, n);

    return number < entries_of(&p) ? p.endpoints[number] : 0;
}

static uint32_t write_message(const struct paper_message *m, uint8_t *out, size_t out_n)
{
    uint8_t message[4099];
    uint32_t answer = paper_write(m, out_n, message);

    if (!shawm_is_refusal(answer))
        memcpy(out, message, answer);
    return answer;
}

static struct paper_message message_of(int type, const uint8_t *id, size_t id_n)
{
    struct paper_message m;

    memset(&m, 0, sizeof m);
    m.type = type;
    m.id = id;
    m.id_n = id_n;
    return m;
}

static void field_of(struct paper_message *m, int i, const uint8_t *octets, size_t n)
{
    m->fields[i] = octets;
    m->lengths[i] = n;
}

uint32_t shawm_write_supported_profiles(uint8_t version, const uint8_t *list, size_t list_n, uint8_t *out, size_t out_n)
{
    struct paper_message m = message_of(1, NULL, 0);

    m.version = version;
    field_of(&m, 0, list, list_n);
    return write_message(&m, out, out_n);
}

uint32_t shawm_write_unsupported_version(uint8_t version, uint8_t *out, size_t out_n)
{
    struct paper_message m = message_of(2, NULL, 0);

    m.version = version;
    return write_message(&m, out, out_n);
}

uint32_t shawm_write_media_keys(const uint8_t *id, size_t id_n, uint16_t profile, const uint8_t *mki, size_t mki_n,
                                const uint8_t *client_key, size_t client_key_n, const uint8_t *server_key,
                                size_t server_key_n, const uint8_t *client_salt, size_t client_salt_n,
                                const uint8_t *server_salt, size_t server_salt_n, uint8_t *out, size_t out_n)
{
    struct paper_message m = message_of(3, id, id_n);

    m.profile = profile;
    field_of(&m, 0, mki, mki_n);
    field_of(&m, 1, client_key, client_key_n);
    field_of(&m, 2, server_key, server_key_n);
    field_of(&m, 3, client_salt, client_salt_n);
    field_of(&m, 4, server_salt, server_salt_n);
    return write_message(&m, out, out_n);
}

uint32_t shawm_write_tunneled_dtls(const uint8_t *id, size_t id_n, const uint8_t *dtls, size_t dtls_n, uint8_t *out,
                                   size_t out_n)
{
    struct paper_message m = message_of(4, id, id_n);

    field_of(&m, 0, dtls, dtls_n);
    return write_message(&m, out, out_n);
}

uint32_t shawm_write_endpoint_disconnect(const uint8_t *id, size_t id_n, uint8_t *out, size_t out_n)
{
    struct paper_message m = message_of(5, id, id_n);

    return write_message(&m, out, out_n);
}

/* Longer than any plaintext or ciphertext, for those faults that take more than is right. */
enum { TEXT = 512 };

static uint32_t write_text(const uint8_t *text, uint32_t answer, uint8_t *out)
{
    size_t front = shawm_is_refusal(answer) ? 0 : answer;

    if (front > 0)
        memcpy(out, text, front);
    return answer;
}

uint32_t shawm_wrap(const uint8_t *key, size_t key_n, const uint8_t *plaintext, size_t plaintext_n, uint8_t *out,
                    size_t out_n)
{
    uint8_t text[TEXT];

    return write_text(text, paper_wrap(key, key_n, plaintext, plaintext_n, out_n, text), out);
}

uint32_t shawm_unwrap(const uint8_t *key, size_t key_n, const uint8_t *ciphertext, size_t ciphertext_n, uint8_t *out,
                      size_t out_n)
{
    uint8_t text[TEXT];

    return write_text(text, paper_unwrap(key, key_n, ciphertext, ciphertext_n, out_n, text), out);
}

uint32_t shawm_index_estimate(uint32_t roc, uint16_t highest, uint16_t sequence)
{
    return paper_index(roc, highest, sequence).answer;
}

uint64_t shawm_index_number(uint32_t roc, uint16_t highest, uint16_t sequence)
{
    return paper_index(roc, highest, sequence).number;
}

uint32_t shawm_index_kept_roc(uint32_t roc, uint16_t highest, uint16_t sequence)
{
    return paper_index(roc, highest, sequence).roc;
}

uint32_t shawm_index_kept_highest(uint32_t roc, uint16_t highest, uint16_t sequence)
{
    return paper_index(roc, highest, sequence).highest;
}
