"""The tunnel messages of RFC 9185, section 6, as the key distributor writes and reads them. No code of the library."""

import struct

SUPPORTED_PROFILES, UNSUPPORTED_VERSION, MEDIA_KEYS, TUNNELED_DTLS, ENDPOINT_DISCONNECT = range(1, 6)
IDENTIFIER = 16


def message(kind, body):
    return struct.pack(">BH", kind, len(body)) + body


def counted(octets):
    return bytes([len(octets)]) + octets


def media_keys(identifier, profile, client_key, server_key, client_salt, server_salt, mki=b""):
    fields = (mki, client_key, server_key, client_salt, server_salt)
    return message(MEDIA_KEYS, identifier + struct.pack(">H", profile) + b"".join(map(counted, fields)))


def tunneled_dtls(identifier, dtls):
    return message(TUNNELED_DTLS, identifier + struct.pack(">H", len(dtls)) + dtls)


def endpoint_disconnect(identifier):
    return message(ENDPOINT_DISCONNECT, identifier)


def unsupported_version(version):
    return message(UNSUPPORTED_VERSION, bytes([version]))


def first(octets):
    """Type, body and the octets behind the message at the front; None if it is not whole yet."""
    if len(octets) < 3:
        return None
    kind, length = struct.unpack(">BH", octets[:3])
    if len(octets) < 3 + length:
        return None
    return kind, octets[3:3 + length], octets[3 + length:]


def profiles_of(body):
    """Version and profiles of a SupportedProfiles body."""
    version, length = struct.unpack(">BH", body[:3])
    if length != len(body) - 3 or length == 0 or length % 2:
        raise ValueError("SupportedProfiles with a wrong length")
    return version, list(struct.unpack(">%dH" % (length // 2), body[3:]))


def dtls_of(body):
    """Identifier and DTLS octets of a TunneledDtls body."""
    identifier, (length,) = body[:IDENTIFIER], struct.unpack(">H", body[IDENTIFIER:IDENTIFIER + 2])
    if length != len(body) - IDENTIFIER - 2 or length == 0:
        raise ValueError("TunneledDtls with a wrong length")
    return identifier, body[IDENTIFIER + 2:]
