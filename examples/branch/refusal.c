#include "refusal.h"

#include <shawm.h>

static const char *const meanings[] = {
    [SHAWM_TUNNEL_DOWN] = "the tunnel is down",
    [SHAWM_OVERSIZE] = "message body above 4,096 octets",
    [SHAWM_UNLISTED_TYPE] = "message type that RFC 9185 does not list",
    [SHAWM_WRONG_DIRECTION] = "SupportedProfiles from the key distributor",
    [SHAWM_BAD_BODY] = "message body does not match its layout",
    [SHAWM_NO_ASSOCIATION] = "no live association with that identifier or endpoint",
    [SHAWM_PROFILE_NOT_OFFERED] = "profile not in the list that this tunnel started with",
    [SHAWM_KEY_LENGTH] = "a key is not of the profile's length",
    [SHAWM_MKI_OR_SALT_LENGTH] = "MKI over 16 or a salt over 32 octets",
    [SHAWM_TABLE_FULL] = "the table is full",
    [SHAWM_IDENTIFIER_LIVE] = "identifier live already",
    [SHAWM_ENDPOINT_LIVE] = "endpoint live already",
    [SHAWM_NO_ROOM] = "output too short",
    [SHAWM_NOT_DTLS] = "packet empty or not DTLS",
    [SHAWM_PACKET_TOO_LONG] = "packet too long for a message",
    [SHAWM_BAD_PROFILE_LIST] = "profile list not acceptable",
    [SHAWM_TUNNEL_UP] = "the tunnel is up already",
    [SHAWM_NO_TAG] = "no EKT tag ends this packet",
    [SHAWM_EMPTY_PACKET] = "empty packet",
    [SHAWM_IDENTIFIER_LENGTH] = "identifier not of 16 octets",
    [SHAWM_NOT_A_PAGE] = "no status page, or none with that entry"
};

const char *refusal_meaning(unsigned number)
{
    if (number >= sizeof meanings / sizeof meanings[0] || meanings[number] == NULL)
        return "a number that is not in the list";
    return meanings[number];
}
