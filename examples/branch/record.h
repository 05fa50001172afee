/* The record of an association as the relay's Look gives it: 172 octets (docs/RELAY.md). It holds keys: wipe it. */
#ifndef BRANCH_RECORD_H
#define BRANCH_RECORD_H

#include <stddef.h>
#include <stdint.h>

enum { RECORD_OCTETS = 172, RECORD_KEYED = 2 };

/* Where a field's length octet stands; its octets follow. */
enum record_field {
    RECORD_MKI = 23,
    RECORD_CLIENT_KEY = 40,
    RECORD_SERVER_KEY = 73,
    RECORD_CLIENT_SALT = 106,
    RECORD_SERVER_SALT = 139
};

struct record {
    uint8_t octets[RECORD_OCTETS];
};

static inline int record_is_keyed(const struct record *record)
{
    return record->octets[0] == RECORD_KEYED;
}

static inline unsigned record_profile(const struct record *record)
{
    return (unsigned)record->octets[21] << 8 | record->octets[22];
}

static inline size_t record_length(const struct record *record, enum record_field field)
{
    return record->octets[field];
}

static inline const uint8_t *record_octets(const struct record *record, enum record_field field)
{
    return record->octets + field + 1;
}

#endif
