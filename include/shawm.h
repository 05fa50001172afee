/*
 * shawm.h: the Media Distributor of RFC 9185, for C and C++.
 *
 * What it does
 *   sort    says by its first octet what a packet is (RFC 7983, section 7)
 *   read    reads the front of the octets that came through the tunnel, as one
 *           tunnel message (RFC 9185, section 6), and says where its fields are
 *   write   writes each of the five tunnel messages from its fields
 *   tag     finds the EKT tag at the end of a media packet (RFC 8870,
 *           section 4.1), and says where its parts are
 *   wrap    encrypts an EKT plaintext under an EKT key, and unwrap opens an EKT
 *           ciphertext: AESKW128, the AES key wrap with padding (RFC 5649)
 *   index   finds the index of an SRTP packet from its sequence number, and says
 *           what its receiver keeps of the stream (RFC 3711, section 3.3.1)
 *   page    reads a status page: which places of the table are taken, by which
 *           endpoints, and which of them have keys
 *
 * What it does not: open sockets, speak TLS or DTLS, encrypt media, or look at a
 * clock.
 *
 * How to call it
 *   Octets are lent: a pointer, then how many octets stand there. A pointer with
 *   length 0 is never followed, so NULL with length 0 is an empty stretch.
 *
 *   What you lend to be read is never written. What you lend to be written (out,
 *   out_n) must not overlap with any other stretch of the same call.
 *
 *   Nothing is kept between calls: no memory is taken, there is nothing to set up
 *   or to free, and any number of threads may call at once. An offset that is
 *   handed back is an index into the octets that you lent, good for as long as
 *   you leave them there unchanged.
 *
 *   Every function answers for every input. There is nothing to check before.
 *
 * How to read an answer
 *   A uint32_t from shawm_sort, shawm_read, shawm_tag, shawm_wrap, shawm_unwrap,
 *   shawm_index_estimate, shawm_page_count, shawm_page_entry or one of the writers
 *   is a refusal exactly when its top bit, SHAWM_REFUSED, is set; its low octet is
 *   then the refusal's number (enum shawm_refusal). The bits between are 0 today and
 *   may come to say more, so take the number with shawm_refusal_number. A refused
 *   call writes nothing.
 *
 *       uint32_t answer = shawm_sort(packet, n);
 *       if (shawm_is_refusal(answer))
 *           log_it(shawm_refusal_number(answer));
 *
 *   The other functions (start, length, number, taken, endpoint) give an offset, a
 *   length or a number, and 0 where there is none; shawm_index_kept_roc and
 *   shawm_index_kept_highest what to keep, also beside a refusal.
 *
 * Link with -lshawm. x86-64 only.
 */
#ifndef SHAWM_H
#define SHAWM_H

#include <stddef.h>
#include <stdint.h>

#ifdef __cplusplus
extern "C" {
#endif

/* ------------------------------------------------------------------ numbers */

/* Set in an answer that is a refusal, and in no other. */
#define SHAWM_REFUSED 0x80000000u

/* An association identifier: a UUID of this many octets. */
#define SHAWM_IDENTIFIER_OCTETS 16

/* The longest body of a message, read or written; UnsupportedVersion alone may
 * announce more. */
#define SHAWM_BODY_LIMIT 4096

/* The longest message: type octet, two length octets, body. An output of this
 * size is always large enough. */
#define SHAWM_MESSAGE_LIMIT (3 + SHAWM_BODY_LIMIT)

/* The longest DTLS packet that fits a message: the body has the identifier and
 * two length octets beside it. */
#define SHAWM_DTLS_LIMIT (SHAWM_BODY_LIMIT - SHAWM_IDENTIFIER_OCTETS - 2)

/* Live associations at most: the places of the table, numbered from 0. */
#define SHAWM_PLACES 32

/* The longest status page: 6 bits and 38 for each place, in whole octets. */
#define SHAWM_PAGE_LIMIT 153

/* A key to wrap and unwrap with: this many octets. */
#define SHAWM_WRAP_KEY_OCTETS 16

/* The longest plaintext that is wrapped, and the longest that is unwrapped. */
#define SHAWM_PLAINTEXT_LIMIT 240

/* The longest ciphertext: eight octets and the longest plaintext. */
#define SHAWM_CIPHERTEXT_LIMIT (8 + SHAWM_PLAINTEXT_LIMIT)

/* Refusal numbers. The functions below give 2, 3, 5, 13, 18, 19, 20, 22, 29 and 31 to
 * 34. The others belong to the table of associations, which is not called from C; they
 * are listed so that a number in a log has a name. Where more than one fits, the
 * function's comment says which is given. */
enum shawm_refusal {
    SHAWM_TUNNEL_DOWN = 1,          /* the tunnel is down */
    SHAWM_OVERSIZE = 2,             /* body over SHAWM_BODY_LIMIT, type not 2, read or to be written */
    SHAWM_UNLISTED_TYPE = 3,        /* message type 0 or 6 to 255 */
    SHAWM_WRONG_DIRECTION = 4,      /* SupportedProfiles from the key distributor */
    SHAWM_BAD_BODY = 5,             /* body read, or fields to be written, do not match the layout */
    SHAWM_NO_ASSOCIATION = 6,       /* no live association with that identifier or endpoint */
    SHAWM_PROFILE_NOT_OFFERED = 7,  /* profile not in the list that this tunnel started with */
    SHAWM_KEY_LENGTH = 8,           /* either key not of the profile's length */
    SHAWM_MKI_OR_SALT_LENGTH = 9,   /* MKI over 16 or a salt over 32 octets */
    SHAWM_TABLE_FULL = 10,          /* 32 live associations */
    SHAWM_IDENTIFIER_LIVE = 11,     /* identifier live already */
    SHAWM_ENDPOINT_LIVE = 12,       /* endpoint live already */
    SHAWM_NO_ROOM = 13,             /* out_n smaller than what must be written */
    SHAWM_NOT_DTLS = 14,            /* packet empty or not DTLS */
    SHAWM_PACKET_TOO_LONG = 15,     /* packet over SHAWM_DTLS_LIMIT */
    SHAWM_BAD_PROFILE_LIST = 16,    /* list empty, odd, with a repeat or an unknown profile */
    SHAWM_TUNNEL_UP = 17,           /* the tunnel is up already */
    SHAWM_NO_TAG = 18,              /* no EKT tag of the grammar ends this packet */
    SHAWM_EMPTY_PACKET = 19,        /* empty packet to sort */
    SHAWM_IDENTIFIER_LENGTH = 20,   /* identifier not of SHAWM_IDENTIFIER_OCTETS */
    SHAWM_BAD_CIPHERTEXT = 22,      /* ciphertext that no plaintext of 1 to SHAWM_PLAINTEXT_LIMIT octets wraps to */
    SHAWM_NOT_A_PAGE = 29,          /* octets that no table's page has, or a page without that entry */
    SHAWM_NO_SUCH_INDEX = 31,       /* packet before the first index */
    SHAWM_KEY_SPENT = 32,           /* packet after the last index: the key is spent */
    SHAWM_PLAINTEXT_LENGTH = 33,    /* plaintext to be wrapped empty or over SHAWM_PLAINTEXT_LIMIT */
    SHAWM_EKT_KEY_OR_SALT_LENGTH = 34  /* key to wrap or unwrap with not of SHAWM_WRAP_KEY_OCTETS (or a salt, in calls to come) */
};

/* 1 if an answer is a refusal, 0 if not. */
static inline int shawm_is_refusal(uint32_t answer)
{
    return (answer & SHAWM_REFUSED) != 0;
}

/* The number of a refusal (enum shawm_refusal); 0 for an answer that is none. */
static inline uint32_t shawm_refusal_number(uint32_t answer)
{
    return shawm_is_refusal(answer) ? answer & 0xFFu : 0;
}

/* --------------------------------------------------------- sorting a packet */

/* Once given, a number stays, and a new kind gets the next. */
enum shawm_kind {
    SHAWM_KIND_STUN = 0,          /* first octet 0 to 3 */
    SHAWM_KIND_DTLS = 1,          /* 20 to 63 */
    SHAWM_KIND_RTP = 2,           /* 128 to 191: RTP or RTCP */
    SHAWM_KIND_OTHER = 3,         /* every other value: 4 to 15, 80 to 127, 192 to 255 */
    SHAWM_KIND_ZRTP = 4,          /* 16 to 19 */
    SHAWM_KIND_TURN_CHANNEL = 5   /* 64 to 79: TURN's ChannelData */
};

/* The kind of a packet (enum shawm_kind). Only its first octet is looked at.
 * Refused with SHAWM_EMPTY_PACKET, exactly when n is 0.
 *
 * By RFC 7983 a packet of kind SHAWM_KIND_OTHER is to be dropped. A later library
 * may know more kinds: drop those that you do not know as well.
 *
 * TURN's channels are 0x4000 to 0x4FFF (RFC 8656). A peer that still binds higher
 * ones, as RFC 5766 allowed, sends ChannelData that is SHAWM_KIND_OTHER. */
uint32_t shawm_sort(const uint8_t *packet, size_t n);

/* -------------------------------------------------- reading a tunnel message */

enum shawm_type {
    SHAWM_MORE_NEEDED = 0,          /* not a message yet: call again with more octets */
    SHAWM_SUPPORTED_PROFILES = 1,
    SHAWM_UNSUPPORTED_VERSION = 2,
    SHAWM_MEDIA_KEYS = 3,
    SHAWM_TUNNELED_DTLS = 4,
    SHAWM_ENDPOINT_DISCONNECT = 5
};

/* Reads one message at the front of n octets from the tunnel. Octets behind it are
 * not looked at. Answers SHAWM_MORE_NEEDED, the type of the accepted message (enum
 * shawm_type), or a refusal, by the first of these that holds:
 *   fewer than three octets         SHAWM_MORE_NEEDED
 *   type 2 with length 0            refused: SHAWM_BAD_BODY; three octets taken
 *   type 2, fewer than four octets  SHAWM_MORE_NEEDED
 *   type 2                          SHAWM_UNSUPPORTED_VERSION, whatever its length
 *                                   says; every octet that was lent is taken
 *   length over SHAWM_BODY_LIMIT    refused: SHAWM_OVERSIZE; none taken
 *   not all of it there yet         SHAWM_MORE_NEEDED
 *   type 0 or 6 to 255              refused: SHAWM_UNLISTED_TYPE; all of it taken
 *   a body that is not of its type  refused: SHAWM_BAD_BODY; all of it taken
 *   none of these                   its type; all of it taken
 *
 * Close the connection after SHAWM_OVERSIZE, as no boundary can be found again, and
 * after SHAWM_UNSUPPORTED_VERSION, as what follows is to be discarded (RFC 9185,
 * section 5.5). After any other answer reading goes on. */
uint32_t shawm_read(const uint8_t *octets, size_t n);

/* How many octets that same reading takes: drop so many from the front before
 * reading again, also after a refusal. 0 for SHAWM_MORE_NEEDED and
 * SHAWM_OVERSIZE. */
size_t shawm_taken(const uint8_t *octets, size_t n);

/* The fields of a message, in which types they are, and what the layout allows. */
enum shawm_field {
    /* for shawm_field_start and shawm_field_length */
    SHAWM_FIELD_IDENTIFIER = 1,     /* types 3, 4, 5: SHAWM_IDENTIFIER_OCTETS */
    SHAWM_FIELD_PROFILE_LIST = 2,   /* type 1: two octets to a profile, at least one profile */
    SHAWM_FIELD_MKI = 3,            /* type 3: 0 to 255 octets */
    SHAWM_FIELD_CLIENT_KEY = 4,     /* type 3: 1 to 255, as the three below */
    SHAWM_FIELD_SERVER_KEY = 5,
    SHAWM_FIELD_CLIENT_SALT = 6,
    SHAWM_FIELD_SERVER_SALT = 7,
    SHAWM_FIELD_DTLS = 8,           /* type 4: 1 to SHAWM_DTLS_LIMIT octets */
    /* for shawm_field_number */
    SHAWM_FIELD_VERSION = 16,       /* types 1 and 2: 0 to 255 */
    SHAWM_FIELD_PROFILE = 17        /* type 3: 0 to 65535 */
};

/* Where a field of an accepted message stands: octets[start] is its first octet,
 * and it has length octets. A field that is there and empty, which only an MKI can
 * be, has its offset and length 0. Both are 0 where the reading has no such field:
 * more needed, refused, another type, a number that is not in the list above. A
 * field that is there never starts at 0. */
size_t shawm_field_start(const uint8_t *octets, size_t n, uint32_t field);
size_t shawm_field_length(const uint8_t *octets, size_t n, uint32_t field);

/* The value of a number of an accepted message; 0 where the reading has none. */
uint32_t shawm_field_number(const uint8_t *octets, size_t n, uint32_t field);

/* -------------------------------------------------- writing a tunnel message */

/* Each writes one whole message at the front of out and answers how many octets
 * that are. Octets of out behind them keep their values. Refused, in this order:
 *   SHAWM_IDENTIFIER_LENGTH  id_n is not SHAWM_IDENTIFIER_OCTETS
 *   SHAWM_BAD_BODY           a field is shorter than its least length or longer than
 *                            its length octets can say, or a profile list is odd
 *   SHAWM_OVERSIZE           the body would be over SHAWM_BODY_LIMIT
 *   SHAWM_NO_ROOM            out_n is smaller than the message
 * A refused call leaves out as it was. */

/* Type 1, 6 + list_n octets. list: profiles, two octets each, the high one first;
 * at least one. Any values are written. */
uint32_t shawm_write_supported_profiles(uint8_t version,
                                        const uint8_t *list, size_t list_n,
                                        uint8_t *out, size_t out_n);

/* Type 2, 4 octets. */
uint32_t shawm_write_unsupported_version(uint8_t version, uint8_t *out, size_t out_n);

/* Type 3, 26 octets and the five fields. mki: 0 to 255 octets; keys and salts: 1 to
 * 255 each. Lengths are not held to the profile. */
uint32_t shawm_write_media_keys(const uint8_t *id, size_t id_n,
                                uint16_t profile,
                                const uint8_t *mki, size_t mki_n,
                                const uint8_t *client_key, size_t client_key_n,
                                const uint8_t *server_key, size_t server_key_n,
                                const uint8_t *client_salt, size_t client_salt_n,
                                const uint8_t *server_salt, size_t server_salt_n,
                                uint8_t *out, size_t out_n);

/* Type 4, 21 + dtls_n octets. dtls: 1 to SHAWM_DTLS_LIMIT octets, not looked at. */
uint32_t shawm_write_tunneled_dtls(const uint8_t *id, size_t id_n,
                                   const uint8_t *dtls, size_t dtls_n,
                                   uint8_t *out, size_t out_n);

/* Type 5, 19 octets. */
uint32_t shawm_write_endpoint_disconnect(const uint8_t *id, size_t id_n,
                                         uint8_t *out, size_t out_n);

/* ------------------------------------------------------ splitting the EKT tag */

enum shawm_tag_type {
    SHAWM_TAG_SHORT = 0,
    SHAWM_TAG_FULL = 2,
    SHAWM_TAG_EXTENSION = 3   /* 3 to 255: every type from here on is an Extension */
};

/* The type octet of the EKT tag that ends the packet. Refused with SHAWM_NO_TAG
 * where no tag of the grammar does: an empty packet, type 1, or a length outside
 * its range (Full 8 to 258, Extension 4 to 1027) or beyond the packet. */
uint32_t shawm_tag(const uint8_t *packet, size_t n);

enum shawm_tag_part {
    SHAWM_TAG_FRONT = 1,        /* every tag: the packet in front of it; may be empty */
    SHAWM_TAG_CIPHERTEXT = 2,   /* Full: 1 to 251 octets */
    SHAWM_TAG_DATA = 3          /* Extension: 1 to 1024 octets */
};

/* Where a part stands in the packet. Both are 0 where the packet has no such part:
 * refused, another type of tag, a number that is not in the list above. The front
 * starts at 0, so ask shawm_tag whether there is a tag. */
size_t shawm_tag_start(const uint8_t *packet, size_t n, uint32_t part);
size_t shawm_tag_length(const uint8_t *packet, size_t n, uint32_t part);

enum shawm_tag_field {
    SHAWM_TAG_SPI = 1,     /* Full: 0 to 65535 */
    SHAWM_TAG_EPOCH = 2    /* Full: 0 to 65535 */
};

/* The value of a number of a Full tag; 0 where there is none. */
uint32_t shawm_tag_number(const uint8_t *packet, size_t n, uint32_t field);

/* -------------------------------------- wrapping and unwrapping an EKT plaintext */

/* RFC 8870's cipher AESKW128: AES-128 (FIPS 197) in the key wrap with padding of
 * RFC 5649. Any octets are wrapped; the layout of an EKT plaintext is not looked at.
 *
 * What the time of a call and the memory that it touches may tell: the lengths that
 * are lent; of an unwrapping also whether something wraps to the ciphertext, and how
 * many octets that is. Nothing else of the key or the plaintext; this is tested, and
 * not proved as the answers are.
 *
 * A call clears what it worked with. While shawm_wrap runs, out holds the plaintext:
 * lend no memory that others read.
 * The key and the plaintext remain yours to clear, the one in out as well. */

/* Writes the ciphertext of the plaintext under the key at the front of out and
 * answers how many octets that are: the plaintext's, rounded up to whole eights, and
 * eight more; 16 to SHAWM_CIPHERTEXT_LIMIT. Octets of out behind them keep their
 * values. Refused, in this order:
 *   SHAWM_EKT_KEY_OR_SALT_LENGTH  key_n is not SHAWM_WRAP_KEY_OCTETS
 *   SHAWM_PLAINTEXT_LENGTH        plaintext_n is 0 or over SHAWM_PLAINTEXT_LIMIT
 *   SHAWM_NO_ROOM                 out_n is smaller than the ciphertext
 * A refused call leaves out as it was. */
uint32_t shawm_wrap(const uint8_t *key, size_t key_n,
                    const uint8_t *plaintext, size_t plaintext_n,
                    uint8_t *out, size_t out_n);

/* Writes the plaintext that wraps to this ciphertext under the key at the front of
 * out and answers how many octets that are: 1 to SHAWM_PLAINTEXT_LIMIT. Octets of
 * out behind them keep their values. Refused, in this order:
 *   SHAWM_EKT_KEY_OR_SALT_LENGTH  key_n is not SHAWM_WRAP_KEY_OCTETS
 *   SHAWM_BAD_CIPHERTEXT          no plaintext wraps to it: another length, another
 *                                 key, or octets that were changed
 *   SHAWM_NO_ROOM                 out_n is smaller than the plaintext
 * A refused call leaves out as it was. Out needs room for the plaintext alone, never
 * for its padding: ciphertext_n - 8 octets are always enough. */
uint32_t shawm_unwrap(const uint8_t *key, size_t key_n,
                      const uint8_t *ciphertext, size_t ciphertext_n,
                      uint8_t *out, size_t out_n);

/* --------------------------------------------------- the index of an SRTP packet */

/* RFC 3711, section 3.3.1 and appendix A. The index of a packet is 65,536 times the
 * rollover counter (ROC) that it was sent under, plus its sequence number. The packet
 * carries the sequence number alone, in octets 2 and 3 of its RTP header, so a receiver
 * keeps two numbers of each stream, that is, of each SSRC: roc, and highest, the highest
 * sequence number seen under it. This is for SRTP; SRTCP packets carry their index.
 *
 * A stream begins with the ROC that an EKT plaintext ends with, and the sequence number
 * of the packet that brought it, once that packet has been authenticated under the index
 * that the two make: the EKT tag does not cover the sequence number. A later tag begins
 * it again only where that index is higher than 65,536 * roc + highest, or the key is a
 * new one: an old packet may be sent a second time.
 *
 * The ROC that a sequence number is tried under, modulo 2^32:
 *   highest below 32,768:     one less where sequence > highest + 32,768, else roc
 *   highest 32,768 or above:  one more where sequence < highest - 32,768, else roc
 * Refused:
 *   SHAWM_NO_SUCH_INDEX  one less than 0: there is no such index yet
 *   SHAWM_KEY_SPENT      one more than 4294967295: the key has no more indices
 * Drop a refused packet and go on: its sequence number may be forged. Otherwise the index
 * is the one with that sequence number that is nearest to 65,536 * roc + highest; where
 * two are as near, it is the one under roc.
 *
 * It is an estimate. A packet gets its own index where that is less than 32,768 away
 * from 65,536 * roc + highest; where it is 32,768 away, only under roc; farther away it
 * gets the index of another packet, or is refused. The authentication tag tells whether
 * it is its own. Where more than 32,766 packets in a row are lost, those that follow may
 * all be taken for others: the next EKT tag begins the stream again. A repeated packet
 * gets its index again while that is near: the replay list (section 3.3.2) is yours to
 * keep. */

/* 0 where a packet with this sequence number has an index, else the refusal. */
uint32_t shawm_index_estimate(uint32_t roc, uint16_t highest, uint16_t sequence);

/* Its index, below 2^48; the ROC that it was tried under is the index / 65,536. 0 where
 * it is refused, but 0 is an index too: ask shawm_index_estimate whether there is one. */
uint64_t shawm_index_number(uint32_t roc, uint16_t highest, uint16_t sequence);

/* What to keep as roc and highest once the packet has been accepted, that is,
 * authenticated: the ROC that it was tried under and its sequence number where its index
 * is higher than 65,536 * roc + highest; else, and where it is refused, roc and highest
 * as they are. Both estimate the index again, so hand them the roc and highest under
 * which the packet was authenticated: under later ones it may get another index. */
uint32_t shawm_index_kept_roc(uint32_t roc, uint16_t highest, uint16_t sequence);
uint32_t shawm_index_kept_highest(uint32_t roc, uint16_t highest, uint16_t sequence);

/* ----------------------------------------------------- reading a status page */

/* A status page shows which places of the table are taken: the number of live
 * associations in 6 bits; for each live place, the lowest first, the place in 5
 * bits, its state in 1 (1: keyed, 0: open), its endpoint in 32; zero bits up to a
 * whole octet. Highest bits first. While the tunnel is down it shows none. The relay
 * writes it (docs/RELAY.md). It holds no identifier and nothing of a key. */

/* How many entries the page has: 0 to SHAWM_PLACES. Refused with SHAWM_NOT_A_PAGE
 * where no table has these octets as its page: an octet too many or too few, ones
 * behind the last entry, places that do not rise, an endpoint twice. */
uint32_t shawm_page_count(const uint8_t *page, size_t n);

/* The place and the state of the entry with this number, counted from 0: twice the
 * place, and 1 more where it is keyed. Refused with SHAWM_NOT_A_PAGE where there is
 * no page, or none with such an entry. */
uint32_t shawm_page_entry(const uint8_t *page, size_t n, size_t number);

/* The endpoint of that entry: any number of 32 bits, so ask shawm_page_entry whether
 * there is one. 0 where there is none. */
uint32_t shawm_page_endpoint(const uint8_t *page, size_t n, size_t number);

/* ------------------------------------------------------- inline functions */

/* A part of octets that you lent. Where there is none, at is NULL and n is 0; a
 * part that is there and empty has its address and n 0. */
struct shawm_part {
    const uint8_t *at;
    size_t n;
};

/* A message with all that the calls above say of it. */
struct shawm_message {
    uint32_t answer;                 /* of shawm_read: look here first */
    size_t taken;
    uint32_t version;                /* types 1 and 2 */
    uint32_t profile;                /* type 3 */
    struct shawm_part identifier;    /* types 3, 4, 5 */
    struct shawm_part profile_list;  /* type 1 */
    struct shawm_part mki;           /* type 3, as the four below */
    struct shawm_part client_key;
    struct shawm_part server_key;
    struct shawm_part client_salt;
    struct shawm_part server_salt;
    struct shawm_part dtls;          /* type 4 */
};

/* One field as a part of the lent octets. */
static inline struct shawm_part shawm_field(const uint8_t *octets, size_t n, uint32_t field)
{
    struct shawm_part part = { NULL, 0 };
    size_t start = shawm_field_start(octets, n, field);

    if (start != 0) {
        part.at = octets + start;
        part.n = shawm_field_length(octets, n, field);
    }
    return part;
}

/* Reads one message, fills all of *message, and answers as shawm_read does. */
static inline uint32_t shawm_read_message(const uint8_t *octets, size_t n,
                                          struct shawm_message *message)
{
    message->answer = shawm_read(octets, n);
    message->taken = shawm_taken(octets, n);
    message->version = shawm_field_number(octets, n, SHAWM_FIELD_VERSION);
    message->profile = shawm_field_number(octets, n, SHAWM_FIELD_PROFILE);
    message->identifier = shawm_field(octets, n, SHAWM_FIELD_IDENTIFIER);
    message->profile_list = shawm_field(octets, n, SHAWM_FIELD_PROFILE_LIST);
    message->mki = shawm_field(octets, n, SHAWM_FIELD_MKI);
    message->client_key = shawm_field(octets, n, SHAWM_FIELD_CLIENT_KEY);
    message->server_key = shawm_field(octets, n, SHAWM_FIELD_SERVER_KEY);
    message->client_salt = shawm_field(octets, n, SHAWM_FIELD_CLIENT_SALT);
    message->server_salt = shawm_field(octets, n, SHAWM_FIELD_SERVER_SALT);
    message->dtls = shawm_field(octets, n, SHAWM_FIELD_DTLS);
    return message->answer;
}

/* What the receiver of a stream keeps of it. */
struct shawm_stream {
    uint32_t roc;
    uint16_t highest;
};

/* Finds the index of the packet with this sequence number, for *index, and answers
 * as shawm_index_estimate does. Beside a refusal *index keeps its value. */
static inline uint32_t shawm_index(const struct shawm_stream *stream, uint16_t sequence,
                                   uint64_t *index)
{
    uint32_t answer = shawm_index_estimate(stream->roc, stream->highest, sequence);

    if (!shawm_is_refusal(answer))
        *index = shawm_index_number(stream->roc, stream->highest, sequence);
    return answer;
}

/* Keeps what there is to keep of the packet with this sequence number, which has been
 * authenticated under the index that shawm_index found by this *stream, and answers as
 * shawm_index_estimate does. Beside a refusal *stream keeps its values. */
static inline uint32_t shawm_index_update(struct shawm_stream *stream, uint16_t sequence)
{
    uint32_t roc = stream->roc;
    uint16_t highest = stream->highest;

    stream->roc = shawm_index_kept_roc(roc, highest, sequence);
    stream->highest = shawm_index_kept_highest(roc, highest, sequence) & 0xFFFFu;
    return shawm_index_estimate(roc, highest, sequence);
}

/* A live place of the table, as a status page shows it. */
struct shawm_entry {
    uint32_t place;
    uint32_t keyed;     /* 1 keyed, 0 open */
    uint32_t endpoint;
};

/* Reads a whole page into entries, which has room for SHAWM_PLACES, and answers as
 * shawm_page_count does. What stands behind the entries of the page, and all of it
 * beside a refusal, keeps its values. */
static inline uint32_t shawm_read_page(const uint8_t *page, size_t n,
                                       struct shawm_entry *entries)
{
    uint32_t count = shawm_page_count(page, n), i;

    for (i = 0; !shawm_is_refusal(count) && i < count; i++) {
        uint32_t entry = shawm_page_entry(page, n, i);

        entries[i].place = entry / 2;
        entries[i].keyed = entry % 2;
        entries[i].endpoint = shawm_page_endpoint(page, n, i);
    }
    return count;
}

#ifdef __cplusplus
}
#endif

#endif /* SHAWM_H */
