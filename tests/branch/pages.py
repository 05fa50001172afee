"""Status pages and the word beside them, read by the words of document 02, order 1. No code of the library."""

import os
import time

# The words.
UP, DOWN = "up\n", "down\n"

# Seconds to wait for a page: fewer than after which one is written even if nothing has changed.
SOON = 3


class NotAPage(Exception):
    pass


def take(bits, n):
    """The number in the first n bits, and the others."""
    if len(bits) < n:
        raise NotAPage("it ends within a field")
    return int(bits[:n], 2), bits[n:]


def entries(octets):
    """(place, state, endpoint) of each live place: 6 bits for their number; for each 5 bits place, 1 bit state, 32 bits
    endpoint; zero bits to the end of the octet."""
    count, rest = take("".join(format(octet, "08b") for octet in octets), 6)
    found = []
    for _ in range(count):
        place, rest = take(rest, 5)
        state, rest = take(rest, 1)
        endpoint, rest = take(rest, 32)
        found.append((place, ("open", "keyed")[state], endpoint))
    if len(rest) >= 8 or "1" in rest:
        raise NotAPage("the filling is not zero, or there is more of it")
    places, endpoints = [entry[0] for entry in found], {entry[2] for entry in found}
    if count > 32 or places != sorted(set(places)) or len(endpoints) != count:
        raise NotAPage("the places do not rise, or an endpoint is there twice")
    return found


def read(path):
    with open(path, "rb") as file:
        return file.read()


def wait_for(path, word, wanted, seconds=SOON):
    """Until the files have this word and these entries."""
    limit, there = time.monotonic() + seconds, None
    while there != (word, wanted):
        assert time.monotonic() < limit, "there is %s, and it had to be %s" % (there, (word, wanted))
        time.sleep(0.005)
        if os.path.exists(path) and os.path.exists(path + ".tunnel"):
            there = read(path + ".tunnel").decode(), entries(read(path))
