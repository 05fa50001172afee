"""The list of booths: a line for each with its address, its endpoint and its name.

The branch reads the same file by the same rules; the screen shows names and endpoints and has no use for addresses."""

import collections
import re
import socket
import unicodedata

MOST_BOOTHS = 256
MOST_OCTETS = 1 << 20      # of the file
MOST_LINE = 511            # octets of a line
MOST_NAME = 63             # octets of a name
MOST_ENDPOINT = 0xFFFFFFFF

LINE = re.compile(rb"([^ \t]+)[ \t]+([^ \t]+)[ \t]+(.*)", re.DOTALL)

Booth = collections.namedtuple("Booth", "endpoint name")


class Bad(Exception):
    """A line that is not one of a list of booths."""


def quoted(octets):
    """Fit for a terminal, whatever they are."""
    return repr(octets[:60])[1:]


def numeral(family, octets):
    """16 octets: an IPv4 address is that IPv6 address which stands for it (RFC 4291, section 2.5.5.2)."""
    try:
        front = b"" if family == socket.AF_INET6 else bytes(10) + b"\xff\xff"
        return front + socket.inet_pton(family, octets.decode("latin-1"))
    except (OSError, ValueError):
        raise Bad("%s is no numeral IPv4 or IPv6 address" % quoted(octets)) from None


def port(octets):
    if not re.fullmatch(rb"[0-9]{1,5}", octets) or not 1 <= int(octets) <= 65535:
        raise Bad("%s is no port" % quoted(octets))
    return int(octets)


def address(octets):
    """The address in 16 octets, and its port; None for every port of it."""
    bracketed = re.fullmatch(rb"\[([^]]*)\](?::(.*))?", octets, re.DOTALL)
    if bracketed:
        at, behind = numeral(socket.AF_INET6, bracketed[1]), bracketed[2]
    elif octets.count(b":") > 1:
        at, behind = numeral(socket.AF_INET6, octets), None
    else:
        front, colon, rest = octets.partition(b":")
        at, behind = numeral(socket.AF_INET, front), rest if colon else None
    return at, None if behind is None else port(behind)


def endpoint(octets):
    if not re.fullmatch(rb"[0-9]{1,10}", octets) or int(octets) > MOST_ENDPOINT:
        raise Bad("%s is no endpoint: a decimal number from 0 to %d" % (quoted(octets), MOST_ENDPOINT))
    return int(octets)


def name(octets):
    octets = octets.rstrip(b" \t")
    if not 1 <= len(octets) <= MOST_NAME:
        raise Bad("a name has 1 to %d octets, and this has %d" % (MOST_NAME, len(octets)))
    try:
        text = octets.decode("utf-8")
    except UnicodeDecodeError:
        raise Bad("the name is not UTF-8") from None
    if any(unicodedata.category(character) == "Cc" for character in text):
        raise Bad("there is a control character in the name")
    return text


class List:
    """The booths so far, and what a further one may not repeat."""

    def __init__(self):
        self.booths = []
        self.endpoints = set()
        self.ports = {}        # address: the ports that are taken; None stands for every one

    def add(self, line):
        if len(line) > MOST_LINE:
            raise Bad("a line has at most %d octets, and this has %d" % (MOST_LINE, len(line)))
        if not line.strip(b" \t"):
            return
        parts = LINE.fullmatch(line)
        if not parts:
            raise Bad("a line is ADDRESS ENDPOINT NAME")
        (at, its_port), number, text = address(parts[1]), endpoint(parts[2]), name(parts[3])
        taken = self.ports.setdefault(at, set())
        if taken and (its_port is None or None in taken or its_port in taken):
            raise Bad("the address %s is in the list already" % quoted(parts[1]))
        if number in self.endpoints:
            raise Bad("endpoint %d is in the list already" % number)
        if len(self.booths) == MOST_BOOTHS:
            raise Bad("a list has at most %d booths" % MOST_BOOTHS)
        taken.add(its_port)
        self.endpoints.add(number)
        self.booths.append(Booth(number, text))


def read(path):
    """The booths of the file, in its order. Raises Bad, with the number of the line, and OSError."""
    with open(path, "rb") as file:
        octets = file.read(MOST_OCTETS + 1)
    if len(octets) > MOST_OCTETS:
        raise Bad("%s: longer than %d octets" % (path, MOST_OCTETS))
    found = List()
    for number, line in enumerate(octets.split(b"\n"), 1):
        try:
            if not line.startswith(b"#"):
                found.add(line)
        except Bad as problem:
            raise Bad("%s, line %d: %s" % (path, number, problem)) from None
    return found.booths
