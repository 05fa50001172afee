"""The status page and the word beside it: what they say, and when the relay is asked for the page."""

import os
import signal
import time

import builds
import messages
import pages
from harness import DTLS, KEYS, OTHER_KEYS, Distributor
from pages import DOWN, UP
from program_cases import script


def page_of_every_state(bench):
    """Word and page after each thing that changes them."""
    path = bench.path("status")
    branch, distributor = bench.start("--status", path, distributor=Distributor(listens=False))
    pages.wait_for(path, DOWN, [])
    distributor.listener.listen()
    branch.up()
    pages.wait_for(path, UP, [])
    first = branch.booth()
    pages.wait_for(path, UP, [(0, "open", 1)])
    second = branch.booth()
    pages.wait_for(path, UP, [(0, "open", 1), (1, "open", 2)])
    branch.key(second, KEYS)
    pages.wait_for(path, UP, [(0, "open", 1), (1, "keyed", 2)])
    distributor.send(messages.endpoint_disconnect(first.identifier))
    pages.wait_for(path, UP, [(1, "keyed", 2)])
    third = branch.booth()
    pages.wait_for(path, UP, [(0, "open", 3), (1, "keyed", 2)])
    branch.key(third, OTHER_KEYS)
    pages.wait_for(path, UP, [(0, "keyed", 3), (1, "keyed", 2)])


def page_of_silence(bench):
    """An association that the branch closes by the clock."""
    branch, distributor, path = bench.shown("--idle", "1500")
    booth = branch.booth()
    pages.wait_for(path, UP, [(0, "open", 1)])
    branch.say("booth %s: closed: silent for too long" % booth.label)
    pages.wait_for(path, UP, [])


def page_of_a_tunnel_that_ends(bench):
    """By each of the ways in which it ends."""
    branch, distributor, path = bench.shown()
    for end in (lambda: distributor.send(bytes.fromhex("02000101")), lambda: distributor.send(bytes.fromhex("031001")),
                lambda: distributor.tunnel.close()):
        branch.key(branch.booth(), KEYS)
        booth = branch.booth()
        pages.wait_for(path, UP, [(0, "keyed", booth.endpoint - 1), (1, "open", booth.endpoint)])
        end()
        pages.wait_for(path, DOWN, [])
        distributor.accept()
        assert distributor.message()[0] == messages.SUPPORTED_PROFILES
        pages.wait_for(path, UP, [])


def page_of_the_end(bench):
    """When the program has ended, the page shows none."""
    branch, distributor, path = bench.shown()
    branch.key(branch.booth(), KEYS)
    pages.wait_for(path, UP, [(0, "keyed", 1)])
    assert branch.end() == 0
    assert (pages.read(path + ".tunnel"), pages.read(path)) == (DOWN.encode(), b"\x00")
    assert sorted(os.listdir(bench.folder)) == ["branch.log", "status", "status.tunnel"]


def page_of_32(bench):
    """The longest page; and every bit of an endpoint is in it."""
    numbers = [(1 << i) ^ (0xFFFFFFFF if i % 3 == 0 else 0) for i in range(32)]
    lines = "".join("127.0.2.%d %d Booth %d\n" % (i + 1, number, i) for i, number in enumerate(numbers))
    branch, distributor, path = bench.shown("--booths", bench.write("booths", lines))
    booths = [branch.booth(host="127.0.2.%d" % (i + 1), name="Booth %d" % i) for i in range(32)]
    for booth in booths[::3]:
        branch.key(booth, KEYS)
    states = ["open" if i % 3 else "keyed" for i in range(32)]
    pages.wait_for(path, UP, list(zip(range(32), states, numbers)))
    assert len(pages.read(path)) == 153


def requests(path):
    """The kinds of the whole frames in what was sent to the relay."""
    octets, kinds = pages.read(path), []
    while len(octets) > 2 and len(octets) >= 2 + int.from_bytes(octets[:2], "big"):
        kinds.append(octets[2])
        octets = octets[2 + int.from_bytes(octets[:2], "big"):]
    return kinds


def listened_to(bench):
    """The relay, with what is sent to it kept in a file."""
    return script(bench, "exec tee %s | %s\n" % (bench.path("requests"), builds.RELAY))


def asked_when_it_can_have_changed(bench):
    """Not for every packet: packets, media, refusals and deliveries change nothing."""
    relay = listened_to(bench)
    branch, distributor, path = bench.shown(relay=relay)
    booth = branch.booth()
    pages.wait_for(path, UP, [(0, "open", 1)])
    began, before = time.monotonic(), requests(bench.path("requests")).count(8)
    assert 2 <= before <= 4, before
    for number in range(30):
        for packet in (DTLS + bytes([number]), b"\x80\x00", b"\x40", b""):
            booth.send(packet)
        assert distributor.message()[0] == messages.TUNNELED_DTLS
        distributor.send(messages.tunneled_dtls(booth.identifier, DTLS) + messages.message(6, b""))
        assert booth.receive() == DTLS
        assert branch.ask("look 1") == "open"
    after = requests(bench.path("requests")).count(8)
    assert after - before <= 1 + (time.monotonic() - began) / 5, "it was asked %d times" % (after - before)
    branch.key(booth, KEYS)
    pages.wait_for(path, UP, [(0, "keyed", 1)])


def not_asked_without_the_option(bench):
    branch, distributor = bench.up(relay=listened_to(bench))
    branch.key(branch.booth(), KEYS)
    assert branch.end() == 0
    kinds = requests(bench.path("requests"))
    assert 4 in kinds and 8 not in kinds and "status" not in branch.child.output().decode()


def wrong_pages(bench):
    """A page that no table has, one that is too long, an answer of another kind, a refusal, and that of a relay which does
    not know the request: the relay is broken, and nothing of it is in the file."""
    another = "gave an answer that does not belong to the request"
    for answer, line in (("000 002 012 001", "branch: page refused, 29: "), ("000 003 012 000 000", "gave what is no page"),
                         ("000 007 012 004 000 000 000 000 001", "gave what is no page"),
                         ("000 001 012", another), ("000 233 012" + " 000" * 154, another), ("000 001 004", another),
                         ("000 004 001 015 000 000", another), ("000 001 200", another)):
        path = bench.write("status", b"\x00before")
        octets = "".join("\\" + octet for octet in answer.split())
        relay = script(bench, "dd bs=1 count=3 2> /dev/null > /dev/null\nprintf '%s'\nexec cat > /dev/null\n" % octets)
        branch, _ = bench.start("--status", path, relay=relay)
        bench.expected = 1
        branch.say(line)
        assert branch.child.process.wait(10) == 1
        assert (pages.read(path + ".tunnel"), pages.read(path)) == (DOWN.encode(), b"\x00before")
        bench.close()


def page_of_a_lost_table(bench):
    """The relay is gone: the word is down, and the page, which nobody can give any more, is left to its age."""
    branch, _, path = bench.shown()
    branch.booth()
    pages.wait_for(path, UP, [(0, "open", 1)])
    os.kill(branch.relay_process(), signal.SIGKILL)
    bench.expected = 1
    assert branch.child.process.wait(10) == 1
    pages.wait_for(path, DOWN, [(0, "open", 1)])


CASES = [page_of_every_state, page_of_silence, page_of_a_tunnel_that_ends, page_of_the_end, page_of_32,
         asked_when_it_can_have_changed, not_asked_without_the_option, wrong_pages, page_of_a_lost_table]
