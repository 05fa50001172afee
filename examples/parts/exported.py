"""Keying material that OpenSSL exports for DTLS-SRTP (RFC 5764, section 4.2), for SRTP_AEAD_AES_128_GCM (RFC 7714)."""

import re

KEY, SALT = 16, 12
LENGTH = 2 * (KEY + SALT)

# How s_client and s_server are asked for it.
OPTIONS = ["-use_srtp", "SRTP_AEAD_AES_128_GCM",
           "-keymatexport", "EXTRACTOR-dtls_srtp", "-keymatexportlen", str(LENGTH)]


def found_in(output):
    """The octets, from what s_client or s_server printed; None if they are not there yet."""
    line = re.search(rb"Keying material: ([0-9A-F]{%d})\r?\n" % (2 * LENGTH), output)
    return bytes.fromhex(line.group(1).decode()) if line else None


def fields(octets):
    """Client key, server key, client salt, server salt."""
    ends = (0, KEY, 2 * KEY, 2 * KEY + SALT, LENGTH)
    return [octets[ends[i]:ends[i + 1]] for i in range(4)]
