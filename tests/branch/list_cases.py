"""The list of booths: who is served, with which endpoint number, and under which name."""

import subprocess
import time

import messages
from harness import DTLS, KEYS, Booth, NotRun

GROUND, FIRST, UMLAUT = "Booth 3, ground floor", "Booth 4, first floor", "K\u00e4fig \u2116 5"

# What is wrong with a line, and such lines.
ADDRESS, ENDPOINT, NAME = "no numeral address", "no endpoint number", "no name"
LONG, TEXT = "a name above 63 octets", "a name that is not UTF-8, or has a control character"
BAD = [
    (ADDRESS, [b"x", b"localhost 1 a", b"127.0.0.0x1 1 a", b"127.1 1 a", b"127.0.0.01 1 a", b"127.0.0.256 1 a",
               b" 127.0.0.1 1 a", b"127.0.0.1: 1 a", b"127.0.0.1:0 1 a", b"127.0.0.1:65536 1 a", b"127.0.0.1:+1 1 a",
               b"127.0.0.1:000001 1 a", b"[127.0.0.1]:1 1 a", b"[::1 1 a", b"[::1]1 1 a", b"[::1]: 1 a", b"[::1]:1:1 1 a",
               b"::1::2 1 a", b"fe80::1%lo 1 a", b"\x001.2.3.4 1 a", b"127.0.0.1\x00 1 a", b" # 1 a"]),
    (ENDPOINT, [b"127.0.0.1", b"127.0.0.1 ", b"127.0.0.1 x a", b"127.0.0.1 -1 a", b"127.0.0.1 +1 a",
                b"127.0.0.1 4294967296 a", b"127.0.0.1 18446744073709551617 a", b"127.0.0.1 0x1 a",
                b"127.0.0.1 00000000001 a", b"127.0.0.1 1\x00 a"]),
    (NAME, [b"127.0.0.1 1", b"127.0.0.1 1 \t"]),
    (LONG, [b"127.0.0.1 1 " + b"a" * 64, b"127.0.0.1 1 " + "\u00e4".encode() * 32]),
    (TEXT, [b"127.0.0.1 1 " + name for name in (
        b"a\tb", b"a\r", b"\x1bc", b"a\x7fb", b"a\x00b", b"\xc2\x80", b"\xc2\x9f", b"\xff", b"\xc3", b"\xa4", b"\xc1\xa1",
        b"\xc3\xc3", b"\xe0\x9f\xbf", b"\xf0\x8f\xbf\xbf", b"\xed\xa0\x80", b"\xed\xbf\xbf", b"\xf4\x90\x80\x80",
        b"\xf8\x88\x80\x80\x80")]),
    ("an endpoint number that a line before it has", [b"127.0.0.9 77 a", b"127.0.0.9 077 a"]),
    ("an address that a line before it has", [b"127.0.0.7 1 a", b"127.0.0.7:1 1 a", b"127.0.0.8 1 a", b"127.0.0.8:5004 1 a",
                                              b"::ffff:127.0.0.7 1 a", b"2001:db8:0::1 1 a", b"[2001:db8::1]:9 1 a"]),
    ("too long", [b"127.0.0.1 1 a" + b" " * 600, b" " * 600]),
]
BEFORE = b"# booths\n\n127.0.0.7 77 seven\n127.0.0.8:5004 88 eight\n \t\n2001:db8::1 99 nine\n"
GOOD = [b"127.0.0.1 1 a", b"127.0.0.1:1 0 a", b"127.0.0.1:65535 4294967295 a", b"127.0.0.8:5005 1 a", b"::1\t2 \t a b  c\t ",
        b"[::1]:5004 2 a", b"[::1] 2 a", b"::ffff:127.0.0.9 1 a", b"127.0.0.1 0000000001 " + b"a" * 63,
        b"127.0.0.1 1 " + "\u00e4".encode() * 31, b"127.0.0.1 1 \xc2\xa0", b"127.0.0.1 1 \xe0\xa0\x80\xed\x9f\xbf\xee\x80\x80",
        b"127.0.0.1 1 \xf0\x90\x80\x80\xf4\x8f\xbf\xbf", b"127.0.0.1 1 # a", b"#" + b"a" * 2000 + b"\x00\xff", b"", b"\t"]


def started(bench, path):
    """What the program says, which cannot start for want of a relay."""
    words = [bench.program, "--relay", "/nowhere/relay", "--distributor-port", "1", "--booths", path]
    done = subprocess.run(words, stdin=subprocess.DEVNULL, capture_output=True, timeout=10)
    assert done.returncode == 1, done
    return done.stderr.decode("utf-8", "replace").split("\n")


def bad_lines(bench):
    """Each is an end before anything is started, and its number is said."""
    for why, lines in BAD:
        for line in lines:
            path = bench.write("booths", BEFORE + line + b"\n127.0.0.1 1 behind it\n")
            said = started(bench, path)
            assert said[0].startswith("branch: %s, line 7: %s" % (path, why)), (line, said)
            assert not any("listening" in one for one in said), said


def good_lines(bench):
    for line in GOOD:
        for end in (b"", b"\n", b"\n\n# the end"):
            path = bench.write("booths", BEFORE + line + end)
            count = 3 if line.strip() == b"" or line.startswith(b"#") else 4
            assert started(bench, path)[0] == "branch: %d booths listed in %s" % (count, path), line


def numbers_of_lines(bench):
    lines = [b"10.0.%d.%d %d Booth %d" % (i // 256, i % 256, i, i) for i in range(257)]
    assert started(bench, bench.write("booths", b""))[0].startswith("branch: 0 booths listed")
    assert started(bench, bench.write("booths", b"\n".join(lines[:256])))[0].startswith("branch: 256 booths listed")
    path = bench.write("booths", b"\n".join(lines))
    assert started(bench, path)[0] == "branch: %s, line 257: more than 256 booths" % path


def list_is_not_read(bench):
    for path, why in (("/nowhere/booths", "No such file or directory"), (bench.folder, "Is a directory")):
        assert started(bench, path)[0] == "branch: %s is not read: %s" % (path, why)


def listed(bench, lines, *options):
    return bench.up("--booths", bench.write("booths", "\n".join(lines) + "\n"), *options)


def only_the_list_is_served(bench):
    """Whatever others send: they get no association, and nobody hears of it but the log, once."""
    branch, distributor = listed(bench, ["127.0.0.2 3 " + GROUND])
    stranger = Booth(branch.port, host="127.0.0.9")
    for packet in (DTLS, b"\x80\x00", b"\x00", b"\x40", b""):
        stranger.send(packet)
    branch.say("booth %s: packet dropped: not in the list of booths" % stranger.address)
    booth = branch.booth(host="127.0.0.2", name=GROUND)
    assert booth.endpoint == 3
    stranger.send(DTLS)
    booth.send(DTLS + b"2")
    assert messages.dtls_of(distributor.message()[1]) == (booth.identifier, DTLS + b"2")
    assert distributor.quiet(0.1)
    assert branch.child.output().decode().count("packet dropped") == 1


def numbers_as_listed(bench):
    """An endpoint is the number of its line, whoever comes first; every octet of it counts, for keys and packets."""
    numbers = (4294967295, 0, 3, 16909060)
    branch, distributor = listed(bench, ["127.0.0.%d %d Booth %d" % (10 + at, numbers[at], at) for at in range(4)])
    for at in (2, 0, 3, 1):
        booth = branch.booth(host="127.0.0.%d" % (10 + at), name="Booth %d" % at)
        assert booth.endpoint == numbers[at]
        branch.key(booth, KEYS)
        assert branch.compare(numbers[at], KEYS) == "match"
        distributor.send(messages.tunneled_dtls(booth.identifier, DTLS + bytes([at])))
        assert booth.receive() == DTLS + bytes([at])
    assert branch.ask("look 1").startswith("refused, 6: ")


def names_in_the_log(bench):
    branch, distributor = listed(bench, ["# the booths", "127.0.0.2\t7\t " + UMLAUT + " \t"], "--idle", "1500")
    early = Booth(branch.port, host="127.0.0.2", name=UMLAUT)
    for packet, line in ((b"\x40", "packet dropped: TURN channel data"), (b"", "packet refused, 19: ")):
        early.send(packet)
        branch.say("booth %s: %s" % (early.label, line))
    branch.reopen(early)
    branch.key(early, KEYS)
    for packet, line in ((b"\x80\x00", "media with a Short EKT tag"), (DTLS + bytes(4079), "packet refused, 15: "),
                         (b"\x00", "packet dropped: STUN")):
        early.send(packet)
        branch.say("booth %s: %s" % (early.label, line))
    branch.say("booth %s: closed: silent for too long" % early.label)


def another_port(bench):
    """While an association lives, its booth is one port. When it has ended, the next DTLS packet may come from any."""
    branch, distributor = listed(bench, ["127.0.0.2 3 " + GROUND, "127.0.0.3 4 " + FIRST], "--idle", "1500")
    booth, other = branch.booth(host="127.0.0.2", name=GROUND), Booth(branch.port, host="127.0.0.2", name=GROUND)
    for packet in (DTLS, b"\x80\x00", b"", DTLS):
        other.send(packet)
    line = "booth %s: packet from %s dropped: the association is not with that port"
    branch.say(line % (booth.label, other.address))
    second = branch.booth(host="127.0.0.3", name=FIRST)
    assert second.endpoint == 4 and distributor.quiet(0.1)
    assert branch.child.output().decode().count("dropped") == 1
    assert branch.ask("look 3") == "open"
    distributor.send(messages.endpoint_disconnect(booth.identifier))
    branch.say("booth %s: association ended by the key distributor" % booth.label)
    branch.reopen(other)
    assert other.endpoint == 3
    booth.send(DTLS)
    branch.say(line % (other.label, booth.address))
    branch.say("booth %s: closed: silent for too long" % other.label)
    while distributor.message() != (5, other.identifier):
        pass
    branch.reopen(booth)


def one_port_alone(bench):
    """A line with a port: other ports of its address are nobody's, or another line's."""
    first, second, third = (Booth(9, host="127.0.0.2") for _ in range(3))
    branch, distributor = listed(bench, ["127.0.0.2:%d 3 %s" % (first.port, GROUND),
                                         "127.0.0.2:%d 4 %s" % (second.port, FIRST)])
    for booth, name, endpoint in ((second, FIRST, 4), (first, GROUND, 3)):
        booth.socket.connect(("127.0.0.1", branch.port))
        booth.label = "%s (%s)" % (booth.address, name)
        branch.reopen(booth)
        assert booth.endpoint == endpoint
    third.socket.connect(("127.0.0.1", branch.port))
    third.send(DTLS)
    branch.say("booth %s: packet dropped: not in the list of booths" % third.address)
    assert distributor.quiet(0.1)


def over_ipv6(bench):
    """An IPv4 address is the same booth whether it comes to an IPv4 or to an IPv6 socket."""
    try:
        six = Booth(9, host="::1")
    except OSError as problem:
        raise NotRun("no IPv6 here: %s" % problem) from None
    branch, _ = listed(bench, ["127.0.0.2 3 " + GROUND, "[::1]:%d 4 %s" % (six.port, FIRST)], "--listen", "::")
    four = Booth(branch.port, host="127.0.0.2")
    four.label = "[::ffff:127.0.0.2]:%d (%s)" % (four.port, GROUND)
    branch.reopen(four)
    six.socket.connect(("::1", branch.port))
    six.label = "%s (%s)" % (six.address, FIRST)
    branch.reopen(six)
    assert (four.endpoint, six.endpoint) == (3, 4)
    stranger = Booth(branch.port, host="::1")
    stranger.send(DTLS)
    branch.say("booth %s: packet dropped: not in the list of booths" % stranger.address)


def more_booths_than_places(bench):
    """33 booths may be listed: the relay's refusal 10 says when there is no place."""
    branch, distributor = listed(bench, ["127.0.1.%d %d Booth %d" % (i, 100 + i, i) for i in range(1, 34)])
    booths = [branch.booth(host="127.0.1.%d" % i, name="Booth %d" % i) for i in range(1, 33)]
    late = Booth(branch.port, host="127.0.1.33", name="Booth 33")
    late.send(DTLS)
    branch.say("booth %s: opening refused, 10: " % late.label)
    distributor.send(messages.endpoint_disconnect(booths[7].identifier))
    branch.say("booth %s: association ended by the key distributor" % booths[7].label)
    branch.reopen(late)
    assert late.endpoint == 133


def flood_of_strangers(bench):
    """One line for all, and after a while one that says how many there were; and the booths are served all the while."""
    branch, distributor = listed(bench, ["127.0.0.2 3 " + GROUND])
    booth = branch.booth(host="127.0.0.2", name=GROUND)
    strangers = [Booth(branch.port, host="127.0.3.%d" % i) for i in range(1, 6)]
    began = time.monotonic()
    for number in range(100):
        for stranger in strangers:
            stranger.send(DTLS)
        booth.send(DTLS + bytes([number]))
        assert distributor.message()[1].endswith(DTLS + bytes([number]))
    other = Booth(branch.port, host="127.0.0.2")
    for _ in range(100):
        other.send(DTLS)
    assert branch.ask("look 3") == "open" and time.monotonic() - began < 4, "too slow to tell"
    log = branch.child.output().decode()
    assert log.count("packet dropped: not in the list of booths") == 1 and log.count("not with that port") == 1, log
    time.sleep(began + 5.5 - time.monotonic())
    strangers[0].send(DTLS)
    other.send(DTLS)
    branch.say("booth %s: packet dropped: not in the list of booths; 499 like it left out" % strangers[0].address)
    branch.say("packet from %s dropped: the association is not with that port; 99 like it left out" % other.address)
    strangers[1].send(DTLS)
    assert branch.ask("look 3") == "open" and branch.child.output().decode().count("left out") == 2


# For one build alone: it waits for a time limit of the program.
ONLY = {flood_of_strangers: "branch-plain"}
CASES = [bad_lines, good_lines, numbers_of_lines, list_is_not_read, only_the_list_is_served, numbers_as_listed,
         names_in_the_log, another_port, one_port_alone, over_ipv6, more_booths_than_places, flood_of_strangers]
