/* Linked into the branch by one test (-Wl,--wrap=shawm_sort): a later library, which has more kinds of packets. */
#include <shawm.h>

uint32_t __real_shawm_sort(const uint8_t *packet, size_t n);

uint32_t __wrap_shawm_sort(const uint8_t *packet, size_t n)
{
    static const uint32_t kinds[] = { SHAWM_KIND_TURN_CHANNEL + 1, SHAWM_KIND_TURN_CHANNEL + 2, 255,
                                      SHAWM_REFUSED - 1 };

    if (n > 0 && packet[0] >= 0xF0 && packet[0] < 0xF4)
        return kinds[packet[0] - 0xF0];
    return __real_shawm_sort(packet, n);
}
