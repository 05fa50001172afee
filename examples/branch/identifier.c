#include "identifier.h"

#include <errno.h>
#include <stdio.h>
#include <sys/random.h>

int identifier_make(uint8_t id[SHAWM_IDENTIFIER_OCTETS])
{
    size_t have = 0;

    while (have < SHAWM_IDENTIFIER_OCTETS) {
        ssize_t got = getrandom(id + have, SHAWM_IDENTIFIER_OCTETS - have, 0);

        if (got < 0 && errno != EINTR)
            return -1;
        if (got > 0)
            have += (size_t)got;
    }
    id[6] = (uint8_t)(0x40 | (id[6] & 0x0F));
    id[8] = (uint8_t)(0x80 | (id[8] & 0x3F));
    return 0;
}

void identifier_text(const uint8_t id[SHAWM_IDENTIFIER_OCTETS], char text[IDENTIFIER_TEXT])
{
    snprintf(text, IDENTIFIER_TEXT, "%02x%02x%02x%02x-%02x%02x-%02x%02x-%02x%02x-%02x%02x%02x%02x%02x%02x",
             id[0], id[1], id[2], id[3], id[4], id[5], id[6], id[7],
             id[8], id[9], id[10], id[11], id[12], id[13], id[14], id[15]);
}
