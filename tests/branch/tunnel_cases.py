"""The key distributor's side: octets cut anywhere, messages in a row, and every way in which a tunnel ends."""

import time

import messages
from harness import DTLS, KEYS, OTHER_KEYS, Distributor

DOWN = "refused, 1: the tunnel is down"
NONE = "refused, 6: no live association with that identifier or endpoint"


def everything(booth, other):
    """Every kind of message from the key distributor that leaves the tunnel up, and the branch's line for each."""
    mine, longest = booth.identifier, DTLS + b"\x5A" * (4078 - 3)
    return [
        (messages.media_keys(mine, 0x0009, *KEYS), "booth %s: keys stored" % booth.address),
        (messages.message(6, b"reboot"), "tunnel: message refused, 3: "),
        (messages.message(0, b""), "tunnel: message refused, 3: "),
        (bytes.fromhex("010007000004") + bytes.fromhex("0009000A"), "tunnel: message refused, 4: "),
        (messages.endpoint_disconnect(mine[:15]), "tunnel: message refused, 5: "),
        (messages.message(2, b""), "tunnel: message refused, 5: "),
        (messages.media_keys(bytes(16), 0x0009, *KEYS), "tunnel: message refused, 6: "),
        (messages.media_keys(mine, 0x0007, *KEYS), "tunnel: message refused, 7: "),
        (messages.media_keys(mine, 0x000A, *OTHER_KEYS), "tunnel: message refused, 8: "),
        (messages.media_keys(mine, 0x0009, *OTHER_KEYS, mki=bytes(17)), "tunnel: message refused, 9: "),
        (messages.tunneled_dtls(mine, longest), None),
        (messages.tunneled_dtls(other.identifier, DTLS + b"2"), None),
        (messages.endpoint_disconnect(other.identifier),
         "booth %s: association ended by the key distributor" % other.address),
    ]


def pieces(bench, cut):
    branch, distributor = bench.up()
    booth, other = branch.booth(), branch.booth()
    sent = everything(booth, other)
    distributor.send(b"".join(octets for octets, _ in sent), cut)
    for _, line in sent:
        if line:
            branch.say(line)
    assert booth.receive() == DTLS + b"\x5A" * (4078 - 3)
    assert other.receive() == DTLS + b"2"
    assert branch.compare(booth.endpoint, KEYS) == "match"
    assert branch.ask("look %d" % other.endpoint) == NONE


def messages_in_one_write(bench):
    pieces(bench, 0)


def messages_cut_into_single_octets(bench):
    pieces(bench, 1)


def messages_cut_everywhere_else(bench):
    pieces(bench, 7)
    bench.close()
    pieces(bench, 1000)


def keys_twice(bench):
    branch, _ = bench.up()
    booth, other = branch.booth(), branch.booth()
    branch.key(booth, KEYS)
    branch.key(other, KEYS)
    assert branch.ask("keep %d" % other.endpoint) == "kept"
    branch.key(booth, OTHER_KEYS)
    assert branch.compare(booth.endpoint, OTHER_KEYS) == "match"
    assert branch.compare(booth.endpoint, KEYS) == "differs"
    assert branch.ask("same %d" % other.endpoint) == "equal"


def every_field_is_compared(bench):
    """What the tests compare by: one octet of one field that is another is a difference."""
    branch, _ = bench.up()
    booth = branch.booth()
    assert branch.ask("look %d" % booth.endpoint) == "open"
    assert branch.compare(booth.endpoint, KEYS) == "differs"
    branch.ask("keep %d" % booth.endpoint)
    branch.key(booth, KEYS)
    assert branch.ask("same %d" % booth.endpoint) == "changed"
    for at in range(4):
        for octet in (0, len(KEYS[at]) - 1):
            wrong = [bytearray(field) for field in KEYS]
            wrong[at][octet] ^= 1
            assert branch.compare(booth.endpoint, wrong) == "differs"
        shorter = KEYS[:at] + [KEYS[at][:-1]] + KEYS[at + 1:]
        assert branch.compare(booth.endpoint, shorter) == "differs"
    assert branch.compare(booth.endpoint, KEYS) == "match"


def ended_by_the_key_distributor(bench):
    """The booth may begin again: its next packet opens another association."""
    branch, distributor = bench.up()
    booth, other = branch.booth(), branch.booth()
    branch.key(booth, KEYS)
    distributor.send(messages.endpoint_disconnect(booth.identifier))
    branch.say("booth %s: association ended by the key distributor" % booth.address)
    assert branch.ask("look %d" % booth.endpoint) == NONE
    before = booth.identifier
    branch.reopen(booth)
    assert booth.identifier != before
    assert branch.ask("look %d" % booth.endpoint) == "open"
    assert branch.ask("look %d" % other.endpoint) == "open"


def again(branch, distributor, booth):
    """The branch connects again, with an empty table, and the booth's next packet opens another association."""
    assert branch.ask("look %d" % booth.endpoint) == DOWN
    distributor.accept()
    branch.say("tunnel: up")
    assert distributor.message() == (1, bytes.fromhex("0000040009000a"))
    assert branch.ask("look %d" % booth.endpoint) == NONE
    before = booth.identifier
    branch.reopen(booth)
    assert booth.identifier != before
    branch.key(booth, KEYS)
    assert branch.compare(booth.endpoint, KEYS) == "match"


def unsupported_version(bench):
    branch, distributor = bench.up()
    booth = branch.booth()
    distributor.send(bytes.fromhex("02138801") + b"whatever a newer version says")
    branch.say("tunnel: down: the key distributor speaks version 1 at most; 1 associations gone")
    assert distributor.message() is None
    again(branch, distributor, booth)


def oversize(bench):
    branch, distributor = bench.up()
    booth = branch.booth()
    branch.key(booth, KEYS)
    distributor.send(bytes.fromhex("031001"))
    branch.say("tunnel: message refused, 2: ")
    branch.say("tunnel: down: ")
    assert "message refused, 1: " not in branch.child.output().decode()   # the first answer was understood
    assert distributor.message() is None
    again(branch, distributor, booth)


def closed_by_the_key_distributor(bench):
    branch, distributor = bench.up()
    booth = branch.booth()
    distributor.tunnel.close()
    branch.say("tunnel: down: closed by the key distributor; 1 associations gone")
    again(branch, distributor, booth)


def closed_within_a_message(bench):
    branch, distributor = bench.up()
    booth = branch.booth()
    distributor.send(messages.media_keys(booth.identifier, 0x0009, *KEYS)[:-1])
    distributor.tunnel.close()
    branch.say("tunnel: down: closed by the key distributor; 1 associations gone")
    again(branch, distributor, booth)


def reset_by_the_key_distributor(bench):
    branch, distributor = bench.up()
    booth = branch.booth()
    distributor.reset()
    branch.say("tunnel: down: Connection reset by peer; 1 associations gone")
    again(branch, distributor, booth)


def reset_while_booths_send(bench):
    """A write to a connection that is gone is an error and no signal."""
    branch, distributor = bench.up()
    booths = [branch.booth() for _ in range(4)]
    distributor.reset()
    for _ in range(50):
        for booth in booths:
            booth.send(DTLS + bytes(1000))
    branch.say("tunnel: down: ")
    time.sleep(0.05)
    again(branch, distributor, booths[0])


def nobody_listens(bench):
    """Its port is taken all the while, so that nobody else can come to it."""
    branch, distributor = bench.start("--retry", "50", distributor=Distributor(listens=False))
    for _ in range(3):
        branch.say("tunnel: down: Connection refused; 0 associations gone; next connection in 50 ms")
    assert branch.ask("look 1") == DOWN
    distributor.listener.listen()
    distributor.accept()
    branch.say("tunnel: up")


def who_does_not_read(bench):
    """The key distributor stops reading. Packets are lost, nothing else; what arrives later is whole messages, and every
    disconnect is among them."""
    branch, distributor = bench.up("--idle", "1500")
    booth, silent = branch.booth(), [branch.booth() for _ in range(3)]
    flood(branch, booth, DTLS + bytes(4000), "packet lost: the key distributor does not keep up", 1)
    flood(branch, booth, DTLS[:1], "closed: silent for too long", 3)
    assert branch.ask("look %d" % booth.endpoint) == "open"
    gone = set()
    while len(gone) < 3:
        kind, body = distributor.message()
        assert kind in (messages.TUNNELED_DTLS, messages.ENDPOINT_DISCONNECT)
        if kind == messages.ENDPOINT_DISCONNECT:
            gone.add(body)
    assert gone == {one.identifier for one in silent}


def flood(branch, booth, packet, line, count):
    """Sends a packet again and again until the branch has said the line so often."""
    limit = time.monotonic() + 8
    while branch.child.output().decode().count(line) < count:
        assert time.monotonic() < limit, "it did not say '%s'" % line
        for _ in range(20):
            booth.send(packet)
        time.sleep(0.002)


CASES = [messages_in_one_write, messages_cut_into_single_octets, messages_cut_everywhere_else, keys_twice,
         every_field_is_compared, ended_by_the_key_distributor, unsupported_version, oversize,
         closed_by_the_key_distributor, closed_within_a_message, reset_by_the_key_distributor, reset_while_booths_send,
         nobody_listens, who_does_not_read]
