"""One HTTP request's first line and fields. What is not plainly a request is refused, with the status to answer."""

import ipaddress
import re

MOST_LINE = 2048      # octets of the first line
MOST_HEAD = 8192      # octets of the first line and the fields together
METHODS = (b"GET", b"HEAD")

TOKEN = rb"[!#$%&'*+.^_`|~0-9A-Za-z-]+"
LINE = re.compile(rb"(%s) ([\x21-\x7e]+) HTTP/([0-9]\.[0-9])\r\n" % TOKEN)
FIELD = re.compile(rb"(%s):[ \t]*([\t\x20-\x7e\x80-\xff]*)\r\n" % TOKEN)
HOST = re.compile(rb"(?:\[([0-9A-Fa-f:.]+)\]|([0-9A-Za-z.-]+))(?::[0-9]{0,5})?")


class Refused(Exception):
    def __init__(self, status):
        super().__init__(status)
        self.status = status


class Request:
    """Filled line by line: the method, the path, and the host that was asked for."""

    def __init__(self, line):
        parts = LINE.fullmatch(line)
        if not parts:
            raise Refused(400)
        self.method, target, version = parts.groups()
        if version not in (b"1.0", b"1.1"):
            raise Refused(505)
        if not target.startswith(b"/"):
            raise Refused(400)
        self.path = target.partition(b"?")[0]
        self.host = None

    def field(self, line):
        parts = FIELD.fullmatch(line)
        if not parts:
            raise Refused(400)
        if parts[1].lower() == b"host":
            self.named(parts[2].rstrip(b" \t"))

    def named(self, value):
        parts = HOST.fullmatch(value)
        if not parts or self.host is not None:
            raise Refused(400)
        self.host = (parts[1] or parts[2]).decode().lower()

    def check(self, address):
        """Whether the request is for us, who were reached at this address. A page of another site that has its own name
        lead to this address (DNS rebinding) comes with that name, and goes without an answer."""
        if self.host is None:
            raise Refused(400)
        if self.host != "localhost" and not same(self.host, address):
            raise Refused(421)
        if self.method not in METHODS:
            raise Refused(405)


def same(host, address):
    try:
        return ipaddress.ip_address(host) == ipaddress.ip_address(address.partition("%")[0])
    except ValueError:
        return False
