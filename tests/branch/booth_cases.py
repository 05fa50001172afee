"""The booths' side: who is a booth, what becomes of each kind of packet, and when an association ends."""

import signal
import time
import uuid

import builds
import messages
from harness import DTLS, KEYS, Booth
from status_cases import listened_to, requests

# The kinds that are dropped as the log has them, and the first octets at the limits of each (RFC 7983, section 7).
LIMITS = {"STUN": (0, 3), "ZRTP": (16, 19), "TURN channel data": (64, 79), "of no known kind": (4, 15, 80, 127, 192, 255)}

# What the relay can be asked for (docs/RELAY.md).
OPEN, PACKET = 2, 3


def identifiers_are_version_4(bench):
    branch, _ = bench.up()
    found = [uuid.UUID(bytes=branch.booth().identifier) for _ in range(8)]
    assert all(one.version == 4 and one.variant == uuid.RFC_4122 for one in found)
    assert len(set(found)) == 8
    assert len({one.bytes[:6] for one in found}) == 8 and len({one.bytes[9:] for one in found}) == 8


def each_booth_its_own(bench):
    branch, distributor = bench.up()
    booths = [branch.booth() for _ in range(5)]
    assert len({booth.endpoint for booth in booths}) == 5
    for booth in reversed(booths):
        distributor.send(messages.tunneled_dtls(booth.identifier, DTLS + booth.address.encode()))
    for booth in booths:
        assert booth.receive() == DTLS + booth.address.encode()
        booth.send(DTLS + b"again")
        assert distributor.message() == (4, booth.identifier + b"\x00\x08" + DTLS + b"again")


def endpoints_above_255(bench):
    """Every octet of an endpoint number counts, for disconnects, keys and packets."""
    branch, distributor = bench.up()
    for _ in range(8):
        booths = [Booth(branch.port) for _ in range(32)]
        for booth in booths:
            booth.send(DTLS)
        opened = [messages.dtls_of(distributor.message()[1])[0] for _ in booths]
        distributor.send(b"".join(messages.endpoint_disconnect(identifier) for identifier in opened))
        for booth in booths:
            branch.say("booth %s: association ended by the key distributor" % booth.address)
    booth = branch.booth()
    assert booth.endpoint == 257
    branch.key(booth, KEYS)
    distributor.send(messages.tunneled_dtls(booth.identifier, DTLS))
    assert booth.receive() == DTLS


def lengths(bench):
    branch, distributor = bench.up()
    booth = branch.booth(DTLS[:1])
    longest = DTLS + bytes(4078 - 3)
    booth.send(longest)
    assert messages.dtls_of(distributor.message()[1]) == (booth.identifier, longest)
    for n in (4079, 4095, 4096, 4097, 65507):
        booth.send(DTLS + bytes(n - 3))
        branch.say("booth %s: packet refused, 15: " % booth.address)
    booth.send(bytes([0x80]) + bytes(4094) + b"\x00")
    branch.say("booth %s: media with a Short EKT tag" % booth.address)
    booth.send(bytes([0x80]) + bytes(4095) + b"\x00")
    branch.say("booth %s: media dropped: above 4096 octets" % booth.address)
    assert distributor.quiet(0.1)


def dropped(branch, booth, octet, kind):
    """Sends a packet with this first octet, for which the log has a line that says its kind and nothing more."""
    line = "booth %s: packet dropped: %s" % (booth.label, kind)
    booth.send(bytes([octet]) + bytes(19))
    assert branch.say(line) == line


def kinds(bench):
    """First octets on both sides of every limit. Only DTLS is for the relay. As the log has one line of a kind in a
    while, each branch gets one packet of each kind that is dropped."""
    for at in range(max(map(len, LIMITS.values()))):
        branch, distributor = bench.up(relay=listened_to(bench))
        booth = branch.booth()
        for kind, octets in LIMITS.items():
            if at < len(octets):
                dropped(branch, booth, octets[at], kind)
        for packet, tag in ((b"\x80\x00", "a Short"), (b"\xBF\x01", "no")):
            booth.send(packet)
            branch.say("booth %s: media with %s EKT tag" % (booth.label, tag))
        for octet in (20, 63):
            booth.send(bytes([octet]))
            assert messages.dtls_of(distributor.message()[1]) == (booth.identifier, bytes([octet]))
        assert distributor.quiet(0.05) and branch.end() == 0
        asked = requests(bench.path("requests"))
        assert (asked.count(OPEN), asked.count(PACKET)) == (1, 3), asked
        bench.close()


def every_first_octet(bench):
    """All 256 from a booth, and all but DTLS from an address without an association. A kind that is dropped has one line
    at once, and later ones that say how many were left out: the limit is one for each kind, whoever sent them."""
    branch, distributor = bench.up()
    booth, unknown = branch.booth(), Booth(branch.port)
    began, arrived = time.monotonic(), []
    for octet in range(256):
        booth.send(bytes([octet, octet % 2]))       # of media every other has a Short tag, so each has its line
        if not 20 <= octet < 64:
            unknown.send(bytes([octet, 0]))
        booth.send(DTLS)                            # behind the others
        while (packet := messages.dtls_of(distributor.message()[1])[1]) != DTLS:
            arrived.append(packet)
    assert arrived == [bytes([octet, octet % 2]) for octet in range(20, 64)]
    assert branch.ask("look 2").startswith("refused, 6: ")
    assert branch.child.output().count(b": media with ") == 64
    took = time.monotonic() - began
    time.sleep(5.2)
    for octet in (0, 16, 64, 4, 128):
        unknown.send(bytes([octet, 0]))
    booth.send(DTLS)                                # behind them
    assert messages.dtls_of(distributor.message()[1])[1] == DTLS
    lines = branch.child.lines()
    for kind, count in (("STUN", 2 * 4), ("ZRTP", 2 * 4), ("TURN channel data", 2 * 16), ("of no known kind", 2 * 124),
                        ("media, and no association with that address", 64)):
        said = [line.split(": packet dropped: " + kind)[1] for line in lines if ": packet dropped: " + kind in line]
        left_out = sum(int(rest.split()[1]) for rest in said if rest != "")
        assert said[0] == "" and len(said) + left_out == count + 1 and len(said) <= 2 + took / 5, (kind, said)


def kinds_of_a_later_library(bench):
    """A kind that the branch has no name for is one that nobody knows."""
    bench.program = builds.build("branch-later")
    for number in range(4):
        branch, distributor = bench.up()
        booth, unknown = branch.booth(), Booth(branch.port)
        dropped(branch, (booth, unknown)[number % 2], 0xF0 + number, "of no known kind")
        assert distributor.quiet(0.05) and branch.ask("look 2").startswith("refused, 6: ")
        bench.close()


def channel_data_at_the_rate_of_media(bench):
    """From a booth and from a stranger, beside a booth that talks: nothing of that one is lost, nothing is opened, and
    the log does not grow."""
    branch, distributor = bench.up()
    talking, booth, stranger = branch.booth(), branch.booth(), Booth(branch.port)
    channel = bytes([0x40, 0x00, 0x00, 0xAC, 0x80, 0x60]) + bytes(170)
    began = time.monotonic()
    for number in range(100):
        for _ in range(20):
            booth.send(channel)
            stranger.send(channel)
        talking.send(b"\x80" + bytes([number % 2]))
        talking.send(DTLS + bytes([number]))
        assert messages.dtls_of(distributor.message()[1]) == (talking.identifier, DTLS + bytes([number]))
    lines = branch.child.lines()
    assert sum("media with" in line for line in lines) == 100
    assert 1 <= sum("TURN channel data" in line for line in lines) <= 1 + (time.monotonic() - began) / 5, lines
    assert len(lines) < 110 and distributor.quiet(0.05), lines
    assert branch.ask("look 2") == "open" and branch.ask("look 3").startswith("refused, 6: ")
    branch.reopen(stranger)
    assert stranger.endpoint == 3


def tags(bench):
    branch, distributor = bench.up()
    booth = branch.booth()
    for packet, line in ((b"", "packet refused, 19: "), (b"\x80\x00", "media with a Short EKT tag"),
                         (b"\x80" + bytes.fromhex("AA12340001000802"), "media with a Full EKT tag"),
                         (b"\xBF" + bytes.fromhex("BB000403"), "media with an Extension EKT tag"),
                         (b"\x80\x01", "media with no EKT tag: refused, 18: ")):
        booth.send(packet)
        branch.say("booth %s: %s" % (booth.address, line))
    assert distributor.quiet(0.1)


def unknown_addresses(bench):
    """Only DTLS makes an association, and only for DTLS the relay is asked."""
    branch, distributor = bench.up(relay=listened_to(bench))
    unknown = Booth(branch.port)
    for kind, octets in LIMITS.items():
        dropped(branch, unknown, octets[0], kind)
    dropped(branch, unknown, 128, "media, and no association with that address")
    unknown.send(b"")
    branch.say("booth %s: packet refused, 19: " % unknown.address)
    assert distributor.quiet(0.1)
    branch.reopen(unknown)
    assert unknown.endpoint == 1 and branch.end() == 0
    asked = requests(bench.path("requests"))
    assert (asked.count(OPEN), asked.count(PACKET)) == (1, 1), asked


def silence_ends_an_association(bench):
    branch, distributor = bench.up("--idle", "600")
    quiet, talking, medium = branch.booth(), branch.booth(), branch.booth()
    branch.key(quiet, KEYS)
    began = time.monotonic()
    while distributor.quiet(0.1) and time.monotonic() - began < 3:
        medium.send(b"\x80\x00")
        talking.send(DTLS)
        assert messages.dtls_of(distributor.message()[1])[0] == talking.identifier
    assert 0.3 < time.monotonic() - began < 3
    assert distributor.message() == (5, quiet.identifier)
    branch.say("booth %s: closed: silent for too long" % quiet.address)
    assert branch.ask("look %d" % quiet.endpoint).startswith("refused, 6: ")
    assert branch.ask("look %d" % talking.endpoint) == "open"
    assert branch.ask("look %d" % medium.endpoint) == "open"


def ended_while_nothing_comes(bench):
    """The clock alone is enough: no packet has to come for a silent booth to be closed."""
    branch, distributor = bench.up("--idle", "300")
    booth = branch.booth()
    assert not distributor.quiet(3)
    assert distributor.message() == (5, booth.identifier)


def rubbish_is_silence(bench):
    """What is refused or dropped does not keep an association."""
    branch, distributor = bench.up("--idle", "500")
    booth = branch.booth()
    began = time.monotonic()
    while distributor.quiet(0.05) and time.monotonic() - began < 3:
        for packet in (b"", DTLS + bytes(4079), *(bytes([octets[0]]) for octets in LIMITS.values())):
            booth.send(packet)
    assert time.monotonic() - began < 3
    assert distributor.message() == (5, booth.identifier)


def burst(bench):
    """Packets that come faster than they are handled are not lost while the key distributor reads."""
    branch, distributor = bench.up()
    booth = branch.booth()
    branch.child.process.send_signal(signal.SIGSTOP)
    for number in range(20):
        booth.send(DTLS + bytes([number]) * 4000)
    branch.child.process.send_signal(signal.SIGCONT)
    for number in range(20):
        assert distributor.message() == (4, booth.identifier + b"\x0F\xA3" + DTLS + bytes([number]) * 4000)


def full(bench):
    branch, distributor = bench.up()
    booths = [branch.booth() for _ in range(32)]
    late = Booth(branch.port)
    late.send(DTLS)
    branch.say("booth %s: opening refused, 10: " % late.address)
    distributor.send(messages.endpoint_disconnect(booths[7].identifier))
    branch.say("booth %s: association ended by the key distributor" % booths[7].address)
    branch.reopen(late)
    for booth in booths[:7] + booths[8:]:
        assert branch.ask("look %d" % booth.endpoint) == "open"


def booth_that_is_gone(bench):
    """What cannot be delivered harms nobody else."""
    branch, distributor = bench.up()
    gone, here = branch.booth(), branch.booth()
    gone.socket.connect(("127.0.0.1", 9))   # as closed to the branch, and no other program gets its port
    for _ in range(20):
        distributor.send(messages.tunneled_dtls(gone.identifier, DTLS) + messages.tunneled_dtls(here.identifier, DTLS))
        assert here.receive() == DTLS
    here.send(DTLS + b"!")
    assert distributor.message() == (4, here.identifier + b"\x00\x04" + DTLS + b"!")


def without_a_tunnel(bench):
    branch, distributor = bench.up("--retry", "60000")
    distributor.tunnel.close()
    branch.say("tunnel: down: ")
    booth = Booth(branch.port)
    for _ in range(3):
        booth.send(DTLS)
        branch.say("booth %s: opening refused, 1: the tunnel is down" % booth.address)


# For one build alone: with interrupted calls it does not write fast enough; this waits for a time limit of the program;
# this has a build of its own.
ONLY = {burst: "branch-plain", every_first_octet: "branch-plain", kinds_of_a_later_library: "branch-plain"}
CASES = [identifiers_are_version_4, each_booth_its_own, endpoints_above_255, lengths, kinds, every_first_octet,
         kinds_of_a_later_library, channel_data_at_the_rate_of_media, tags, unknown_addresses, silence_ends_an_association,
         ended_while_nothing_comes, rubbish_is_silence, burst, full, booth_that_is_gone, without_a_tunnel]
