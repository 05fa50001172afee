"""The picture as lines for a terminal. Without a time of day, but where the page is old."""

import picture
import words

MARKS = {picture.IN_A_CALL: "[#]", picture.CONNECTING: "[~]", picture.FREE: "[ ]", picture.CANNOT_CALL: "[x]",
         picture.NOT_KNOWN: "[?]"}
WIDTH = max(map(len, MARKS))


def lines(shown):
    yield from ("! " + notice.text for notice in words.notices(shown))
    yield "Booths: " + words.summary(shown)
    yield from ("  %s %-*s  %s" % (MARKS[tile.state], WIDTH, tile.state, tile.name) for tile in shown.tiles)
