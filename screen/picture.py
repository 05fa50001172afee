"""What there is to show at one moment: made from the two files, the list of booths and the clock, and never changed."""

import collections
import time

import files
import page

OK, STALE, MISSING, UNREADABLE, NOT_A_PAGE = "ok", "stale", "missing", "unreadable", "not-a-page"
FREE, CONNECTING, IN_A_CALL, CANNOT_CALL, NOT_KNOWN = "free", "connecting", "in a call", "cannot call", "not known"

# listed: whether the endpoint is in the list of booths; None where there is no list.
Tile = collections.namedtuple("Tile", "endpoint name state place listed")
Picture = collections.namedtuple("Picture", "state tunnel now written refusal live tiles")


class Source:
    """Where pictures come from."""

    def __init__(self, reader, path, booths, stale):
        """booths: a list, or None where there is no file of them."""
        self.reader, self.path, self.booths, self.stale = reader, path, booths, stale

    def picture(self):
        # The page first: the branch says that the tunnel is down before it writes the page without the booths, so that
        # these are never seen free beside the word "up".
        found = files.status(self.path)
        tunnel = files.tunnel(self.path)
        now = time.time()
        state, entries, refusal = self.judged(found, now)
        tiles = shown(self.booths, entries, tunnel)
        return Picture(state, tunnel, now, found.written, refusal, len(entries or ()), tiles)

    def judged(self, found, now):
        """The state of the page, its entries (None where they are not known), and the refusal's number."""
        if found.how in (files.MISSING, files.UNREADABLE):
            return (MISSING if found.how == files.MISSING else UNREADABLE), None, None
        if found.how == files.OTHER:
            return NOT_A_PAGE, None, None
        try:
            entries = self.reader.entries(found.octets)
        except page.NotAPage as refused:
            return NOT_A_PAGE, None, refused.number
        # A time that is far ahead of the clock says as little as one that is far behind.
        return (OK if abs(now - found.written) <= self.stale else STALE), entries, None


def shown(booths, entries, tunnel):
    """A tile for each booth in the list's order, then one for each endpoint that is live and not in the list."""
    live = {entry.endpoint: entry for entry in entries or ()}
    idle = NOT_KNOWN if entries is None else CANNOT_CALL if tunnel == "down" else FREE
    listed = {booth.endpoint for booth in booths or ()}
    tiles = [tile(booth.endpoint, booth.name, live.get(booth.endpoint), idle, True) for booth in booths or ()]
    others = sorted(endpoint for endpoint in live if endpoint not in listed)
    words, listed = ("Endpoint %d", None) if booths is None else ("Endpoint %d, not in the list", False)
    return tuple(tiles + [tile(endpoint, words % endpoint, live[endpoint], idle, listed) for endpoint in others])


def tile(endpoint, name, entry, idle, listed):
    if entry is None:
        return Tile(endpoint, name, idle, None, listed)
    return Tile(endpoint, name, IN_A_CALL if entry.keyed else CONNECTING, entry.place, listed)
