/* The tunnel: messages from the key distributor, which come in pieces of any size. */
#include <shawm.h>
#include <stdio.h>
#include <string.h>

static void show(const char *name, struct shawm_part part)
{
    size_t i;

    printf("  %s:", name);
    for (i = 0; i < part.n; i++)
        printf(" %02x", part.at[i]);
    printf("\n");
}

/* Handles one message of the key distributor. Answers 0, or -1 if nothing behind it is to be read. */
static int handle(const struct shawm_message *m)
{
    switch (m->answer) {
    case SHAWM_TUNNELED_DTLS:   /* m->dtls goes to the booth of m->identifier */
        printf("DTLS for a booth\n");
        show("identifier", m->identifier);
        show("octets", m->dtls);
        return 0;
    case SHAWM_MEDIA_KEYS:      /* keys for the media of m->identifier */
        printf("keys of profile %04x, %zu octets each, never to be shown\n", m->profile, m->client_key.n);
        show("identifier", m->identifier);
        return 0;
    case SHAWM_ENDPOINT_DISCONNECT:
        printf("a booth is gone\n");
        return 0;
    case SHAWM_UNSUPPORTED_VERSION:   /* what follows is to be discarded: RFC 9185, section 5.5 */
        printf("the key distributor speaks version %u: start again with that\n", m->version);
        return -1;
    case SHAWM_SUPPORTED_PROFILES:
        printf("dropped: that one is ours to send\n");
        return 0;
    default:                    /* behind an oversize message no other can be found */
        printf("dropped: refusal %u\n", shawm_refusal_number(m->answer));
        return shawm_refusal_number(m->answer) == SHAWM_OVERSIZE ? -1 : 0;
    }
}

/* Handles every whole message at the front of n octets. Answers 0, with the number of octets that
 * are done with in *done: keep the rest, and call again when more have come. Or answers -1: close
 * the connection, and read nothing that was kept or comes from it. */
static int receive(const uint8_t *octets, size_t n, size_t *done)
{
    struct shawm_message m;

    *done = 0;
    while (shawm_read_message(octets + *done, n - *done, &m) != SHAWM_MORE_NEEDED) {
        if (handle(&m) != 0)
            return -1;
        *done += m.taken;
    }
    return 0;
}

#define ID 0x4f, 0x8a, 0x1c, 0x00, 0x52, 0x3e, 0x4d, 0x11, 0x9b, 0x07, 0xe2, 0x60, 0x33, 0x10, 0x5d, 0xc4
#define DISCONNECT 0x05, 0x00, 0x10, ID

/* What comes from the key distributor on three connections. */
static const uint8_t messages[] = {
    0x04, 0x00, 0x15, ID, 0x00, 0x03, 0x16, 0xfe, 0xfd,
    0x03, 0x00, 0x1b, ID, 0x00, 0x09, 0x00, 0x01, 0xa1, 0x01, 0xa2, 0x01, 0xa3, 0x01, 0xa4,
    0x06, 0x00, 0x01, 0xff,
    DISCONNECT
};

/* UnsupportedVersion in a form that we do not know. What looks like a message in it is none. */
static const uint8_t version[] = { 0x02, 0x00, 0x18, 0x03, 0x00, 0x00, 0x00, 0x00, DISCONNECT };

/* The same within a body of 4,097 octets, of which these are the first. */
static const uint8_t oversize[] = { 0x03, 0x10, 0x01, 0x00, 0x00, 0x00, 0x00, 0x00, DISCONNECT };

/* As recv() does: octets that came on a connection, here eight at most. */
static size_t next_octets(const uint8_t *came, size_t n, uint8_t *into, size_t room)
{
    if (n > 8)
        n = 8;
    if (n > room)
        n = room;
    memcpy(into, came, n);
    return n;
}

/* Reads a connection to its end. */
static void serve(const uint8_t *came, size_t came_n)
{
    /* A whole message always fits, so there is room for at least one octet more. */
    uint8_t kept[SHAWM_MESSAGE_LIMIT];
    size_t n = 0, at = 0, more, done;

    while ((more = next_octets(came + at, came_n - at, kept + n, sizeof kept - n)) > 0) {
        at += more;
        n += more;
        if (receive(kept, n, &done) != 0) {
            printf("closed by us\n");
            return;
        }
        memmove(kept, kept + done, n - done);
        n -= done;
    }
    printf("closed by the key distributor, %zu octets left\n", n);
}

int main(void)
{
    serve(messages, sizeof messages);
    serve(version, sizeof version);
    serve(oversize, sizeof oversize);
    return 0;
}
