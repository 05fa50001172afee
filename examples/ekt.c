/* A booth unit's side of EKT (RFC 8870): the SRTP master key comes wrapped in the Full tag of a media packet. */
#include <shawm.h>
#include <stdio.h>
#include <string.h>

enum { KEY_OCTETS = 16, PLAINTEXT_OCTETS = 1 + KEY_OCTETS + 4 + 4, PACKET_ROOM = 300 };

/* Through volatile, so that the compiler does not leave it out. */
static void clear(uint8_t *octets, size_t n)
{
    volatile uint8_t *at = octets;

    while (n-- > 0)
        *at++ = 0;
}

static uint32_t number32(const uint8_t *at)
{
    return (uint32_t)at[0] << 24 | (uint32_t)at[1] << 16 | (uint32_t)at[2] << 8 | at[3];
}

/* An EKTPlaintext is SRTPMasterKeyLength, SRTPMasterKey, SSRC, ROC. The key itself is for SRTP and is not shown. A booth
 * unit also takes it for the packet's own source alone (octets 8 to 11 of the packet) and not with an old epoch. */
static void show(const uint8_t *plaintext, size_t n)
{
    size_t key = plaintext[0];

    if (key > 0 && n == 1 + key + 4 + 4)
        printf("SRTP master key of %zu octets, SSRC %08x, ROC %u\n", key, number32(plaintext + 1 + key),
               number32(plaintext + 1 + key + 4));
    else
        printf("not an EKT plaintext\n");
}

/* Opens the EKT ciphertext of a media packet with the EKT key of its SPI. */
static void open_tag(const uint8_t key[SHAWM_WRAP_KEY_OCTETS], const uint8_t *packet, size_t n)
{
    uint8_t plaintext[SHAWM_PLAINTEXT_LIMIT];
    uint32_t answer;

    if (shawm_tag(packet, n) != SHAWM_TAG_FULL) {
        printf("no Full tag\n");
        return;
    }
    printf("SPI %04x, epoch %u: ", shawm_tag_number(packet, n, SHAWM_TAG_SPI),
           shawm_tag_number(packet, n, SHAWM_TAG_EPOCH));
    answer = shawm_unwrap(key, SHAWM_WRAP_KEY_OCTETS, packet + shawm_tag_start(packet, n, SHAWM_TAG_CIPHERTEXT),
                          shawm_tag_length(packet, n, SHAWM_TAG_CIPHERTEXT), plaintext, sizeof plaintext);
    if (shawm_is_refusal(answer))
        printf("refusal %u\n", shawm_refusal_number(answer));
    else
        show(plaintext, answer);
    clear(plaintext, sizeof plaintext);
}

/* The sender's side: a media packet with a Full tag behind it. Answers how many octets that are, 0 where it is refused. */
static size_t write_packet(const uint8_t key[SHAWM_WRAP_KEY_OCTETS], uint8_t out[PACKET_ROOM])
{
    static const uint8_t media[] = { 0x80, 0x60, 0, 1, 0, 0, 0, 0, 0x00, 0x00, 0xb0, 0x07, 0xaa, 0xbb };
    static const uint8_t ssrc_and_roc[] = { 0x00, 0x00, 0xb0, 0x07, 0, 0, 0, 3 };
    uint8_t tag_end[] = { 0x12, 0x34, 0x00, 0x01, 0, 0, SHAWM_TAG_FULL };
    uint8_t plaintext[PLAINTEXT_OCTETS];
    uint32_t n;

    plaintext[0] = KEY_OCTETS;
    memset(plaintext + 1, 0x5c, KEY_OCTETS); /* stands for a random one */
    memcpy(plaintext + 1 + KEY_OCTETS, ssrc_and_roc, sizeof ssrc_and_roc);
    memcpy(out, media, sizeof media);
    n = shawm_wrap(key, SHAWM_WRAP_KEY_OCTETS, plaintext, sizeof plaintext, out + sizeof media,
                   PACKET_ROOM - sizeof media - sizeof tag_end);
    clear(plaintext, sizeof plaintext);
    if (shawm_is_refusal(n))
        return 0;
    tag_end[5] = (uint8_t)(n + sizeof tag_end); /* the whole tag's length */
    memcpy(out + sizeof media + n, tag_end, sizeof tag_end);
    return sizeof media + n + sizeof tag_end;
}

int main(void)
{
    uint8_t key[SHAWM_WRAP_KEY_OCTETS], packet[PACKET_ROOM];
    size_t n;

    memset(key, 0x2b, sizeof key); /* stands for the one that comes through DTLS, in EKTKey */
    n = write_packet(key, packet);
    if (n == 0) {
        clear(key, sizeof key);
        return 1;
    }
    printf("a packet of %zu octets\n", n);
    open_tag(key, packet, n);
    packet[20] ^= 1; /* of the ciphertext */
    open_tag(key, packet, n);
    clear(key, sizeof key);
    return 0;
}
