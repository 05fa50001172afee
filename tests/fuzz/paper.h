/* The rules of document 01 for messages and the tag, and of document 02 for sorting, the status page, the key wrap and
 * the index of a packet, in C, written from the papers alone. With coverage by the fuzzer's compiler, which the library
 * does not have, they also show it the way to new answers. */
#ifndef PAPER_H
#define PAPER_H

#include <stddef.h>
#include <stdint.h>

/* An answer: a value, or 2^31 with the refusal's number. */
typedef uint32_t answer;

struct place {
    size_t start, length;
};

struct paper_reading {
    answer answer;
    size_t taken;
    struct place places[18];   /* by field number; 0 and 0 where there is none */
    uint32_t numbers[18];
};

struct paper_tag {
    answer answer;
    struct place parts[4];
    uint32_t numbers[4];
};

struct paper_page {
    answer count;
    uint32_t entries[32];      /* twice the place, and 1 more where it is keyed */
    uint32_t endpoints[32];
};

struct paper_index {
    answer answer;             /* 0, or the refusal */
    uint64_t number;           /* the index; 0 where there is none */
    uint32_t roc, highest;     /* to be kept once the packet has been accepted */
};

/* Fields of a message to be written: of type 1 the list, of type 3 MKI, keys and salts, of type 4 the DTLS octets. */
struct paper_message {
    int type;
    uint8_t version;
    uint16_t profile;
    const uint8_t *id;
    size_t id_n;
    const uint8_t *fields[5];
    size_t lengths[5];
};

answer paper_sort(const uint8_t *packet, size_t n);
struct paper_reading paper_read(const uint8_t *octets, size_t n);
struct paper_tag paper_split(const uint8_t *packet, size_t n);
struct paper_page paper_show(const uint8_t *page, size_t n);
/* Writes into out, which has room for 4,099 octets, what a call with an output of room octets must write. */
answer paper_write(const struct paper_message *message, size_t room, uint8_t *out);

/* In keywrap.c. Out has room for 248 octets, and for 240. */
answer paper_wrap(const uint8_t *key, size_t key_n, const uint8_t *plaintext, size_t n, size_t room, uint8_t *out);
answer paper_unwrap(const uint8_t *key, size_t key_n, const uint8_t *ciphertext, size_t n, size_t room, uint8_t *out);
/* Makes a ciphertext of two registers or more, whatever stands in them. */
void paper_close(const uint8_t *key, uint8_t *text, size_t n);

/* In index.c. */
struct paper_index paper_index(uint32_t roc, uint16_t highest, uint16_t sequence);

#endif
