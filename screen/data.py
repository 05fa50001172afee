"""The picture as JSON, for the page's script and for whoever else reads /status."""

import json

import words


def of(shown):
    return {
        "state": shown.state,
        "tunnel": shown.tunnel,
        "age": None if shown.written is None else int(shown.now - shown.written),
        "time": words.clock(shown.now, shown.now),
        "live": shown.live,
        "summary": words.summary(shown),
        "notices": [notice._asdict() for notice in words.notices(shown)],
        "booths": [tile._asdict() for tile in shown.tiles],
    }


def octets(shown):
    """ASCII alone, and no sign of HTML, so that it is harmless wherever it is put."""
    text = json.dumps(of(shown), separators=(",", ":"))
    for sign in "<>&":
        text = text.replace(sign, "\\u%04x" % ord(sign))
    return text.encode("ascii") + b"\n"
