"""What can stand in a file's place, how old it can be, and the words on the tunnel; as the server and the text form say it."""

import os
import shutil
import socket
import time

from harness import Screen, booth, text, until

LINES = ["192.0.2.11 3 Booth 3, ground floor", "192.0.2.12 4 Booth 4, ground floor", "192.0.2.13:5004 5 Booth 5"]
PAGE = [(0, True, 3), (4, False, 4)]
SUMMARY = "1 in a call, 1 connecting, 1 free"
TILES = ["  [#] in a call    Booth 3, ground floor", "  [~] connecting   Booth 4, ground floor", "  [ ] free         Booth 5"]
NOT_KNOWN = ["  [?] not known    " + line.split(" ", 2)[2] for line in LINES]


def ready(files):
    files.list(*LINES)
    files.page(*PAGE)
    files.word(b"up\n")


def kinds(said):
    return [notice["kind"] for notice in said["notices"]]


def good_page(files):
    ready(files)
    assert text(files) == (0, ["Booths: " + SUMMARY] + TILES, "")
    with Screen(files) as screen:
        said = screen.status()
        assert 0 <= said.pop("age") < 25 and len(said.pop("time")) == 8
        assert said == {"state": "ok", "tunnel": "up", "live": 2, "summary": SUMMARY, "notices": [], "booths": [
            booth(3, "Booth 3, ground floor", "in a call", 0), booth(4, "Booth 4, ground floor", "connecting", 4),
            booth(5, "Booth 5", "free")]}, said


def nothing_known(files, screen, state, why):
    """Both forms say that nothing is known, why, and show every booth of the list as not known."""
    said = screen.status()
    sentence = "Nothing is known of the booths: " + why
    assert (said["state"], said["live"], said["summary"]) == (state, 0, "3 not known"), said
    assert {"kind": state, "text": sentence} in said["notices"], said
    assert [one["state"] for one in said["booths"]] == ["not known"] * 3 and len(said["booths"]) == 3, said
    status, lines, _ = text(files)
    assert (status, lines[0], lines[-4:]) == (1, "! " + sentence, ["Booths: 3 not known"] + NOT_KNOWN), lines


def make_socket(path):
    here = os.getcwd()
    os.chdir(os.path.dirname(path))      # the path of a socket may not be long
    with socket.socket(socket.AF_UNIX) as listener:
        listener.bind(os.path.basename(path))
    os.chdir(here)


def huge(path):
    with open(path, "wb") as file:
        file.truncate(1 << 30)


NO_PAGE = "what stands in the status file's place is not a status page"
IN_ITS_PLACE = [
    ("missing", "there is no status file.", lambda path: None),
    ("missing", "there is no status file.", lambda path: os.symlink("nowhere", path)),
    ("unreadable", "the status file may not be read.", lambda path: os.symlink(os.path.basename(path), path)),
    ("not-a-page", NO_PAGE + " (refusal 29).", lambda path: open(path, "wb").close()),
    ("not-a-page", NO_PAGE + " (refusal 29).", huge),
    ("not-a-page", NO_PAGE + ".", os.mkdir),
    ("not-a-page", NO_PAGE + ".", os.mkfifo),
    ("not-a-page", NO_PAGE + ".", make_socket),
    ("not-a-page", NO_PAGE + ".", lambda path: os.symlink("/dev/zero", path)),
]


def something_else_in_its_place(files):
    """One server sees them all come and go; none is waited for, and the great one is not read whole."""
    ready(files)
    with Screen(files) as screen:
        for state, why, make in IN_ITS_PLACE:
            files.clear(files.status)
            make(files.status)
            began = time.monotonic()
            nothing_known(files, screen, state, why)
            assert time.monotonic() - began < 5
            files.clear(files.status)
            files.page(*PAGE)
            assert screen.status()["summary"] == SUMMARY
        assert screen.most_memory() < 1 << 27, screen.most_memory()


def no_right_to_read(files):
    """The user who runs all may read everything, so that right is taken from the server first."""
    without = ["setpriv", "--bounding-set=-dac_override,-dac_read_search"] if os.geteuid() == 0 else []
    assert not without or shutil.which("setpriv"), "as root, this wants setpriv of util-linux"
    ready(files)
    os.chmod(files.status, 0)
    status, lines, _ = text(files, before=without)
    assert (status, lines[0]) == (1, "! Nothing is known of the booths: the status file may not be read."), lines
    with Screen(files, before=without) as screen:
        assert screen.status()["state"] == "unreadable"
        files.page(*PAGE)
        assert screen.status()["state"] == "ok"


def dated(files, seconds):
    files.page(*PAGE)
    moment = time.time() + seconds
    os.utime(files.status, (moment, moment))
    return moment


def old_pages(files):
    """The last that was known, with its time."""
    ready(files)
    with Screen(files) as screen:
        for seconds, state in ((-15, "ok"), (-31, "stale"), (29, "ok"), (45, "stale"), (-400 * 86400, "stale")):
            moment = dated(files, seconds)
            said = screen.status()
            assert (said["state"], kinds(said)) == (state, ["stale"] if state == "stale" else []), (seconds, said)
            assert abs(said["age"] + seconds) <= 14 and said["summary"] == SUMMARY, said
            notice = said["notices"][0]["text"] if said["notices"] else ""
            clock = time.strftime("%H:%M:%S", time.localtime(moment))
            assert (clock in notice) == (state == "stale"), (clock, notice)
            assert ("ahead of this machine's clock" in notice) == (seconds == 45)
            assert ("400 days ago" in notice) == (seconds < -86400), notice
            status, lines, _ = text(files)
            assert status == 0 and lines[-4:] == ["Booths: " + SUMMARY] + TILES, lines
    with Screen(files, "--stale", "3.5") as screen:
        dated(files, 0)
        assert screen.status()["state"] == "ok"
        until(lambda: screen.status()["state"] == "stale", 9)
        dated(files, 0)
        assert screen.status()["state"] == "ok"


def tunnel_words(files):
    ready(files)
    with Screen(files) as screen:
        for octets, word in ((b"up\n", "up"), (b"down\n", "down"), (b"", "unknown"), (b"UP\n", "unknown"),
                             (b"up\nup\n", "unknown"), (b"down\n\n", "unknown"), (b"up", "unknown"), (b"\xff" * 9, "unknown"),
                             (b"down", "unknown"), (b" up\n", "unknown"), (b"up\r\n", "unknown")):
            files.word(octets)
            said = screen.status()
            wanted = {"up": [], "down": ["tunnel-down"], "unknown": ["tunnel-unknown"]}[word]
            assert (said["tunnel"], kinds(said)) == (word, wanted), (octets, said)
        for make in (lambda path: None, os.mkdir, os.mkfifo, huge, lambda path: os.symlink("/dev/zero", path)):
            files.clear(files.tunnel)
            make(files.tunnel)
            assert screen.status()["tunnel"] == "unknown"


def tunnel_down(files):
    """No booth is called free that cannot call; what the page says of a live one stays said."""
    ready(files)
    files.word(b"down\n")
    sentence = "The tunnel to the key distributor is down. No booth can begin a call."
    files.page()
    assert text(files) == (0, ["! " + sentence, "Booths: 3 cannot call"] +
                           ["  [x] cannot call  " + line.split(" ", 2)[2] for line in LINES], "")
    with Screen(files) as screen:
        said = screen.status()
        assert [one["state"] for one in said["booths"]] == ["cannot call"] * 3, said
        assert said["notices"] == [{"kind": "tunnel-down", "text": sentence}], said
        files.page((7, True, 5))
        assert [one["state"] for one in screen.status()["booths"]] == ["cannot call", "cannot call", "in a call"]
        files.clear(files.status)
        assert kinds(screen.status()) == ["missing", "tunnel-down"]


def not_in_the_list(files):
    ready(files)
    files.page((0, True, 9), (1, False, 3), (2, False, 0))
    wanted = "Connected, and in no line of the list of booths: endpoints 0, 9."
    assert text(files)[1] == ["! " + wanted, "Booths: 1 in a call, 2 connecting, 2 free",
                              "  [~] connecting   Booth 3, ground floor", "  [ ] free         Booth 4, ground floor",
                              "  [ ] free         Booth 5", "  [~] connecting   Endpoint 0, not in the list",
                              "  [#] in a call    Endpoint 9, not in the list"]
    with Screen(files) as screen:
        said = screen.status()
        assert said["notices"] == [{"kind": "not-in-the-list", "text": wanted}] and said["live"] == 3, said
        assert said["booths"][3:] == [booth(0, "Endpoint 0, not in the list", "connecting", 2, False),
                                      booth(9, "Endpoint 9, not in the list", "in a call", 0, False)], said


def without_a_list(files):
    files.word(b"up\n")
    files.page(*PAGE)
    assert text(files) == (0, ["Booths: 1 in a call, 1 connecting", "  [#] in a call    Endpoint 3",
                               "  [~] connecting   Endpoint 4"], "")
    files.page()
    assert text(files) == (0, ["Booths: no booth is connected"], "")
    files.clear(files.status)
    assert text(files)[:2] == (1, ["! Nothing is known of the booths: there is no status file.", "Booths: not known"])


def nothing_is_written(files):
    ready(files)
    before = {name: os.stat(os.path.join(files.folder, name)).st_mtime_ns for name in os.listdir(files.folder)}
    with Screen(files) as screen:
        assert screen.get("/").status == screen.get("/status").status == 200
        assert before == {name: os.stat(os.path.join(files.folder, name)).st_mtime_ns for name in os.listdir(files.folder)}


CASES = [good_page, something_else_in_its_place, no_right_to_read, old_pages, tunnel_words, tunnel_down, not_in_the_list,
         without_a_list, nothing_is_written]
