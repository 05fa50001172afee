/* A booth's packets: DTLS goes through the tunnel to the key distributor, the rest elsewhere. */
#include <shawm.h>
#include <stdio.h>

/* [quoted in README.md] */
/* Wraps a booth's DTLS packet for the key distributor. Answers how many octets of out to send,
 * and 0 for a packet that is not for the tunnel. */
static size_t wrap(const uint8_t id[SHAWM_IDENTIFIER_OCTETS], const uint8_t *packet, size_t n,
                   uint8_t out[SHAWM_MESSAGE_LIMIT])
{
    uint32_t answer;

    if (shawm_sort(packet, n) != SHAWM_KIND_DTLS)
        return 0;
    answer = shawm_write_tunneled_dtls(id, SHAWM_IDENTIFIER_OCTETS, packet, n, out, SHAWM_MESSAGE_LIMIT);
    if (shawm_is_refusal(answer)) {
        fprintf(stderr, "not wrapped: refusal %u\n", shawm_refusal_number(answer));
        return 0;
    }
    return answer;
}
/* [end] */

int main(void)
{
    static const uint8_t id[SHAWM_IDENTIFIER_OCTETS] = {
        0x4f, 0x8a, 0x1c, 0x00, 0x52, 0x3e, 0x4d, 0x11, 0x9b, 0x07, 0xe2, 0x60, 0x33, 0x10, 0x5d, 0xc4
    };
    static const uint8_t stun[] = { 0x00, 0x01, 0x00, 0x00 };
    static const uint8_t handshake[] = { 0x16, 0xfe, 0xfd, 0x00, 0x00 };
    static const uint8_t channel[] = { 0x40, 0x00, 0x00, 0x02, 0xab, 0xcd };
    static const uint8_t media[] = { 0x80, 0x60, 0x00, 0x01 };
    uint8_t out[SHAWM_MESSAGE_LIMIT];
    size_t n, i;

    printf("STUN: %zu octets for the tunnel\n", wrap(id, stun, sizeof stun, out));
    printf("TURN channel: %zu octets for the tunnel\n", wrap(id, channel, sizeof channel, out));
    printf("media: %zu octets for the tunnel\n", wrap(id, media, sizeof media, out));
    n = wrap(id, handshake, sizeof handshake, out);
    printf("DTLS: %zu octets for the tunnel:", n);
    for (i = 0; i < n; i++)
        printf(" %02x", out[i]);
    printf("\n");
    return 0;
}
