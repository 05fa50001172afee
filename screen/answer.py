"""One HTTP answer's octets. Every one, refusals too, says the same about what a browser may do with it."""

import email.utils
import http

import markup

HTML, JSON, PLAIN = "text/html; charset=utf-8", "application/json", "text/plain; charset=utf-8"

FIELDS = [
    ("Content-Security-Policy", markup.POLICY),
    ("X-Content-Type-Options", "nosniff"),
    ("X-Frame-Options", "DENY"),
    ("Referrer-Policy", "no-referrer"),
    ("Permissions-Policy", "camera=(), microphone=(), geolocation=()"),
    ("Cross-Origin-Opener-Policy", "same-origin"),
    ("Cross-Origin-Embedder-Policy", "require-corp"),
    ("Cross-Origin-Resource-Policy", "same-origin"),
    ("Cache-Control", "no-store"),
    ("Connection", "close"),
]


def octets(status, kind, body, with_body=True):
    fields = [("Date", email.utils.formatdate(usegmt=True)), ("Content-Type", kind), ("Content-Length", len(body))] + FIELDS
    if status == 405:
        fields.append(("Allow", "GET, HEAD"))
    head = "HTTP/1.1 %d %s\r\n" % (status, http.HTTPStatus(status).phrase)
    head += "".join("%s: %s\r\n" % field for field in fields) + "\r\n"
    return head.encode("ascii") + (body if with_body else b"")


def refusal(status, with_body=True):
    return octets(status, PLAIN, b"%d %s\n" % (status, http.HTTPStatus(status).phrase.encode()), with_body)
