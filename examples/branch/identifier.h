/* Association identifiers: the Media Distributor makes version 4 UUIDs (RFC 9185, section 5.3; RFC 4122, 4.4). */
#ifndef BRANCH_IDENTIFIER_H
#define BRANCH_IDENTIFIER_H

#include <shawm.h>

enum { IDENTIFIER_TEXT = 37 };

/* 0, or -1 with errno where the system has no random octets to give. */
int identifier_make(uint8_t id[SHAWM_IDENTIFIER_OCTETS]);

void identifier_text(const uint8_t id[SHAWM_IDENTIFIER_OCTETS], char text[IDENTIFIER_TEXT]);

#endif
