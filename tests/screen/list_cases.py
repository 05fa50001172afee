"""The list of booths: each kind of bad line, by its number, and what is good."""

import os
import subprocess
import sys

from harness import PATIENCE, ROOT, Screen, booth, text, words

sys.path.insert(0, os.path.join(ROOT, "screen"))
import booths

GOOD = b"192.0.2.11 3 Booth 3\n"

# What a file has, the number of the bad line, and a part of the complaint.
BAD = [
    (b"192.0.2.11\n", 1, "ADDRESS ENDPOINT NAME"),
    (b"192.0.2.11 3\n", 1, "ADDRESS ENDPOINT NAME"),
    (b"192.0.2.11 3 \n", 1, "1 to 63 octets"),
    (b" 192.0.2.11 3 Booth\n", 1, "ADDRESS ENDPOINT NAME"),
    (b"192.0.2.11 3 " + b"x" * 64 + b"\n", 1, "1 to 63 octets"),
    (b"192.0.2.11 3 " + "é".encode() * 32 + b"\n", 1, "1 to 63 octets"),
    (b"192.0.2.11 3 \xff\xfe\n", 1, "not UTF-8"),
    (b"192.0.2.11 3 \xc0\xaf\n", 1, "not UTF-8"),
    (b"192.0.2.11 3 \xed\xa0\x80\n", 1, "not UTF-8"),
    (b"192.0.2.11 3 Booth\x1b[2J\n", 1, "control character"),
    (b"192.0.2.11 3 Booth\r\n", 1, "control character"),
    (b"192.0.2.11 3 Booth\x7f\n", 1, "control character"),
    (b"192.0.2.11 3 Booth\x003\n", 1, "control character"),
    (b"192.0.2.11 3 Booth\ttab\n", 1, "control character"),
    (b"192.0.2.11 3 Booth\xc2\x85\n", 1, "control character"),
    (b"192.0.2.11 x Booth\n", 1, "no endpoint"),
    (b"192.0.2.11 -1 Booth\n", 1, "no endpoint"),
    (b"192.0.2.11 +1 Booth\n", 1, "no endpoint"),
    (b"192.0.2.11 1_0 Booth\n", 1, "no endpoint"),
    (b"192.0.2.11 4294967296 Booth\n", 1, "no endpoint"),
    (b"192.0.2.11 99999999999999999999 Booth\n", 1, "no endpoint"),
    (b"192.0.2.11 0x3 Booth\n", 1, "no endpoint"),
    ("192.0.2.11 \u0663 Booth\n".encode(), 1, "no endpoint"),
    (b"192.0.2 3 Booth\n", 1, "no numeral"),
    (b"192.0.2.256 3 Booth\n", 1, "no numeral"),
    (b"booth.example 3 Booth\n", 1, "no numeral"),
    (b"2001:db8::g 3 Booth\n", 1, "no numeral"),
    (b"[192.0.2.11] 3 Booth\n", 1, "no numeral"),
    (b"[2001:db8::1]x 3 Booth\n", 1, "no numeral"),
    (b"192.0.2.11\x00 3 Booth\n", 1, "no numeral"),
    (b"\xef\xbb\xbf192.0.2.11 3 Booth\n", 1, "no numeral"),
    (b"192.0.2.11: 3 Booth\n", 1, "no port"),
    (b"192.0.2.11:0 3 Booth\n", 1, "no port"),
    (b"192.0.2.11:65536 3 Booth\n", 1, "no port"),
    (b"192.0.2.11:+5 3 Booth\n", 1, "no port"),
    (b"[2001:db8::1]: 3 Booth\n", 1, "no port"),
    (b"# booths\n\n" + GOOD + b"192.0.2.12 3 Booth\n", 4, "endpoint 3 is in the list already"),
    (GOOD + b"\n#\n192.0.2.12 003 Booth\n", 4, "endpoint 3 is in the list already"),
    (GOOD + b"192.0.2.11 4 Booth\n", 2, "the address '192.0.2.11' is in the list already"),
    (GOOD + b"192.0.2.11:5004 4 Booth\n", 2, "'192.0.2.11:5004' is in the list already"),
    (b"192.0.2.11:5004 3 Booth\n192.0.2.11 4 Booth\n", 2, "is in the list already"),
    (b"192.0.2.11:5004 3 Booth\n192.0.2.11:05004 4 Booth\n", 2, "is in the list already"),
    (b"2001:db8::1 3 Booth\n2001:DB8:0::1 4 Booth\n", 2, "is in the list already"),
    (b"2001:db8::1 3 Booth\n[2001:db8::1]:9 4 Booth\n", 2, "is in the list already"),
    (GOOD + b"::ffff:192.0.2.11 4 Booth\n", 2, "is in the list already"),
    (GOOD + b"192.0.2.12 4" + b" " * 600 + b"Booth\n", 2, "at most 511 octets"),
    (GOOD + b" " * 512 + b"\n", 2, "at most 511 octets"),
    (b"".join(b"192.0.2.1:%d %d Booth\n" % (i + 1, i) for i in range(257)), 257, "at most 256 booths"),
    (GOOD * 3 + b"x", 2, "is in the list already"),
    (GOOD + b"x", 2, "ADDRESS ENDPOINT NAME"),
]


def complaint_of(path):
    try:
        booths.read(path)
    except booths.Bad as problem:
        return str(problem)
    return ""


def bad_lines(files):
    """Each by the reader of lists, and each eighth by the program, which does not start."""
    files.page()
    for at, (octets, number, part) in enumerate(BAD):
        files.put(files.booths, octets)
        complaint = complaint_of(files.booths)
        assert complaint.startswith("%s, line %d: " % (files.booths, number)), (octets, complaint)
        assert part in complaint and complaint.isprintable(), (octets, complaint)
        if at % 8 == 0:
            assert text(files) == (1, [], "screen: " + complaint + "\n"), octets
            done = subprocess.run(words(files, "--port", "0"), capture_output=True, timeout=PATIENCE)
            assert (done.returncode, done.stdout, done.stderr.decode()) == (1, b"", "screen: " + complaint + "\n"), done


def no_file(files):
    files.page()
    for name in (files.folder + "/none", files.folder):
        status, lines, complaint = text(files, "--booths", name)
        assert (status, lines) == (1, []) and complaint.startswith("screen: ") and name in complaint, complaint


def good_lines(files):
    """In their order, with every form of an address, and the least and the greatest of each number."""
    name = "n" * 63
    files.list("# the list" + "." * 600, "", "  \t ", "192.0.2.11\t 4294967295 \t Booth  3, ground floor \t",
               "192.0.2.12:1 0 " + name, "192.0.2.12:65535 7 " + "é" * 31, "2001:db8::1 8 b", "[2001:db8::2] 9 \u4e00\u756a", "[::1]:5004 0010 10",
               "[::1]:5005 11 # no remark", "::ffff:192.0.2.13 12 \u202eright to left")
    files.page()
    files.word(b"up\n")
    with Screen(files) as screen:
        wanted = [(4294967295, "Booth  3, ground floor"), (0, name), (7, "é" * 31), (8, "b"), (9, "\u4e00\u756a"),
                  (10, "10"), (11, "# no remark"), (12, "\u202eright to left")]
        said = screen.status()
        assert said["booths"] == [booth(*one, "free") for one in wanted], said
    with open(files.booths, "wb") as file:
        file.write(b"192.0.2.11 3 without an end of line")
    assert text(files)[1] == ["Booths: 1 free", "  [ ] free         without an end of line"]
    files.put(files.booths, b"")
    assert text(files)[1] == ["Booths: no booth is connected"]


def most_booths(files):
    files.list(*("192.0.2.1:%d %d Booth %d" % (i + 1, i, i) for i in range(256)))
    files.word(b"up\n")
    files.page(*((place, True, 3 * place) for place in range(32)))
    with Screen(files) as screen:
        said = screen.status()
        assert said["summary"] == "32 in a call, 224 free" and len(said["booths"]) == 256, said["summary"]
        assert screen.get("/").status == 200


CASES = [bad_lines, no_file, good_lines, most_booths]
