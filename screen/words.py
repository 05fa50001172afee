"""The sentences, which every form of the screen shows alike."""

import collections
import time

import picture

Notice = collections.namedtuple("Notice", "kind text")

NOTHING_KNOWN = {
    picture.MISSING: "there is no status file.",
    picture.UNREADABLE: "the status file may not be read.",
    picture.NOT_A_PAGE: "what stands in the status file's place is not a status page",
}
ORDER = (picture.IN_A_CALL, picture.CONNECTING, picture.FREE, picture.CANNOT_CALL, picture.NOT_KNOWN)


def clock(moment, now):
    """The time of day, with the date where it is another day's."""
    moment, now = time.localtime(moment), time.localtime(now)
    return time.strftime("%H:%M:%S" if moment[:3] == now[:3] else "%Y-%m-%d %H:%M:%S", moment)


def duration(seconds):
    for unit, length in (("day", 86400), ("hour", 3600), ("minute", 60)):
        if seconds >= 2 * length:
            return "%d %ss" % (seconds // length, unit)
    return "%d second%s" % (seconds, "" if seconds == 1 else "s")


def summary(shown):
    """How many booths are in which state."""
    counts = collections.Counter(tile.state for tile in shown.tiles)
    parts = ["%d %s" % (counts[state], state) for state in ORDER if counts[state]]
    if parts:
        return ", ".join(parts)
    return "no booth is connected" if known(shown) else "not known"


def known(shown):
    return shown.state in (picture.OK, picture.STALE)


def notices(shown):
    """What a person has to be told beside the booths."""
    found = [of_page(shown), of_tunnel(shown), of_others(shown)]
    return [notice for notice in found if notice is not None]


def of_page(shown):
    if shown.state == picture.OK:
        return None
    if shown.state == picture.STALE:
        return Notice("stale", old(shown))
    number = "" if shown.state != picture.NOT_A_PAGE else "." if shown.refusal is None else " (refusal %d)." % shown.refusal
    return Notice(shown.state, "Nothing is known of the booths: " + NOTHING_KNOWN[shown.state] + number)


def old(shown):
    seconds, at = int(shown.now - shown.written), clock(shown.written, shown.now)
    if seconds < 0:
        return "The status file's time, %s, is ahead of this machine's clock. What is shown may be old." % at
    return "No news since %s, %s ago. What is shown was known then." % (at, duration(seconds))


def of_tunnel(shown):
    if shown.tunnel == "down":
        return Notice("tunnel-down", "The tunnel to the key distributor is down. No booth can begin a call.")
    if shown.tunnel == "unknown" and known(shown):
        return Notice("tunnel-unknown", "It is not known whether the tunnel to the key distributor is up.")
    return None


def of_others(shown):
    others = [tile.endpoint for tile in shown.tiles if tile.listed is False]
    if not others:
        return None
    numbers = ", ".join(map(str, others))
    return Notice("not-in-the-list", "Connected, and in no line of the list of booths: endpoint%s %s."
                  % ("" if len(others) == 1 else "s", numbers))
