/* A media packet: the EKT tag at its end is taken off before the packet goes on. */
#include <shawm.h>
#include <stdio.h>

/* Answers how many octets at the front of a media packet are left without its EKT tag, and all of
 * them where no tag ends it. */
static size_t without_tag(const uint8_t *packet, size_t n)
{
    uint32_t type = shawm_tag(packet, n);

    if (shawm_is_refusal(type))
        return n;
    if (type == SHAWM_TAG_FULL) {
        printf("SPI %04x, epoch %u, ciphertext of %zu octets\n",
               shawm_tag_number(packet, n, SHAWM_TAG_SPI),
               shawm_tag_number(packet, n, SHAWM_TAG_EPOCH),
               shawm_tag_length(packet, n, SHAWM_TAG_CIPHERTEXT));
    }
    return shawm_tag_length(packet, n, SHAWM_TAG_FRONT);
}

int main(void)
{
    static const uint8_t full[] = { 0x80, 0x60, 0x00, 0x01, 0xaa, 0xbb, 0x12, 0x34, 0x00, 0x01, 0x00, 0x09, 0x02 };
    static const uint8_t brief[] = { 0x80, 0x60, 0x00, 0x02, 0x00 };
    static const uint8_t none[] = { 0x80, 0x60, 0x00, 0x03, 0x01 };

    printf("%zu octets go on\n", without_tag(full, sizeof full));
    printf("%zu octets go on\n", without_tag(brief, sizeof brief));
    printf("%zu octets go on\n", without_tag(none, sizeof none));
    return 0;
}
