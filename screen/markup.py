"""The picture as one HTML page that needs nothing else: style and script stand in it, allowed by their hashes."""

import base64
import hashlib
import html
import os
import string

import picture
import words

HERE = os.path.dirname(os.path.abspath(__file__))


def of_file(name):
    with open(os.path.join(HERE, name), encoding="utf-8") as file:
        return file.read()


def allowed(text):
    return "'sha256-%s'" % base64.b64encode(hashlib.sha256(text.encode()).digest()).decode()


STYLE, SCRIPT = of_file("desk.css"), of_file("desk.js")
PAGE = string.Template(of_file("desk.html"))
POLICY = "; ".join(["default-src 'none'", "style-src " + allowed(STYLE), "script-src " + allowed(SCRIPT),
                    "connect-src 'self'", "img-src data:", "base-uri 'none'", "form-action 'none'",
                    "frame-ancestors 'none'", "require-trusted-types-for 'script'"])

TILE = """<li class="booth" data-state="%s" data-endpoint="%s">
<h2><bdi class="name">%s</bdi></h2>
<p class="word"><svg class="mark" aria-hidden="true" focusable="false"><use href="#mark-%s"></use></svg>\
<span class="state">%s</span></p>
</li>
"""
NOTICE = '<p class="notice" data-kind="%s">%s</p>\n'


def tile(endpoint, name, state):
    return TILE % (html.escape(state), endpoint, html.escape(name), state.replace(" ", "-"), html.escape(state))


def octets(shown):
    summary = words.summary(shown)
    return PAGE.substitute(
        title=html.escape(summary + " \u2013 Booths"), style=STYLE, script=SCRIPT, state=shown.state,
        summary=html.escape(summary), time=words.clock(shown.now, shown.now),
        notices="".join(NOTICE % (notice.kind, html.escape(notice.text)) for notice in words.notices(shown)),
        tiles="".join(tile(one.endpoint, one.name, one.state) for one in shown.tiles),
        blank=tile("", "", picture.NOT_KNOWN)).encode()
