"""The files for the screen: how page and word are written, whatever stands in their way."""

import os
import stat
import threading
import time

import messages
import pages
from harness import DTLS, KEYS, Booth
from pages import UP


def kept_up(bench):
    """Nothing happens, and yet page and word are new ones within 10 seconds."""
    branch, distributor, path = bench.shown()
    branch.booth()
    pages.wait_for(path, UP, [(0, "open", 1)])
    files, began = (path, path + ".tunnel"), time.monotonic()
    before = [os.stat(file).st_ino for file in files]
    for file in files:
        os.link(file, file + ".kept")     # so that its number is not used again
    while any(os.stat(file).st_ino == number for file, number in zip(files, before)):
        assert time.monotonic() - began < 10, "10 seconds, and still the old file"
        time.sleep(0.05)
    assert time.monotonic() - began > 1, "written too often"
    pages.wait_for(path, UP, [(0, "open", 1)])


def cannot_be_written(bench):
    """One line for all failures in a row, and one when they have ended. The booths are served all the while."""
    folder = bench.path("folder")
    path = os.path.join(folder, "status")
    branch, distributor = bench.up("--status", path)
    branch.say("status: %s is not written: No such file or directory" % path, anywhere=True)
    booths = [branch.booth() for _ in range(3)]
    os.mkdir(folder)
    branch.key(booths[1], KEYS)
    branch.say("status: %s is written again" % path)
    pages.wait_for(path, UP, [(0, "open", 1), (1, "keyed", 2), (2, "open", 3)])
    for name in ("status", "status.tunnel"):
        os.unlink(os.path.join(folder, name))
    os.rename(folder, folder + ".away")
    branch.key(booths[0], KEYS)
    branch.say("status: %s is not written: No such file or directory" % path)
    branch.key(booths[2], KEYS)
    os.rename(folder + ".away", folder)
    distributor.send(messages.endpoint_disconnect(booths[1].identifier))
    branch.say("status: %s is written again" % path)
    pages.wait_for(path, UP, [(0, "keyed", 1), (2, "keyed", 3)])
    assert branch.child.output().decode().count("is not written") == 2


def written_again_by_the_clock(bench):
    """What could not be written is, without anything that changes it."""
    path = os.path.join(bench.path("folder"), "status")
    branch, _ = bench.up("--status", path)
    branch.say("status: %s is not written: " % path, anywhere=True)
    os.mkdir(bench.path("folder"))
    pages.wait_for(path, UP, [], seconds=10)


def folders_in_the_way(bench):
    """A folder in the place of the page, of the word, or of the new file: a failure, and nothing of it is left."""
    for name in ("status", "status.tunnel", "status.new"):
        os.mkdir(bench.path(name))
        branch, distributor, path = bench.shown()
        branch.say("status: %s is not written: Is a directory" % path, anywhere=True)
        branch.booth()
        assert branch.end() == 0
        assert os.path.isdir(bench.path(name)) and sorted(os.listdir(bench.folder)) == sorted(
            {"branch.log", name} | ({"status.tunnel"} if name != "status.tunnel" else set()))
        os.rmdir(bench.path(name))
        if name != "status.tunnel":
            os.unlink(path + ".tunnel")
        bench.close()


def what_a_killed_run_left(bench):
    """Half a page under the new file's name, or a link that somebody has put there: it goes, and is not written to."""
    victim = bench.write("victim", "as it was")
    os.chmod(bench.write("status.new", b"\x0a\x00"), 0o400)
    os.symlink(victim, bench.path("status.tunnel.new"))
    branch, _, path = bench.shown()
    pages.wait_for(path, UP, [])
    assert pages.read(victim) == b"as it was"
    os.symlink(victim, path + ".new")
    branch.booth()
    pages.wait_for(path, UP, [(0, "open", 1)])
    assert pages.read(victim) == b"as it was"
    assert sorted(os.listdir(bench.folder)) == ["branch.log", "status", "status.tunnel", "victim"]


def links_are_replaced(bench):
    """A link in the place of page and word is not followed: the file that it names stays as it is."""
    victim = bench.write("victim", "as it was")
    for behind in ("", ".tunnel"):
        os.symlink(victim, bench.path("status" + behind))
    before = os.umask(0o026)     # so that it is seen to be respected
    try:
        branch, _, path = bench.shown()
    finally:
        os.umask(before)
    pages.wait_for(path, UP, [])
    for behind in ("", ".tunnel"):
        about = os.lstat(path + behind)
        assert stat.S_ISREG(about.st_mode) and about.st_nlink == 1
        assert stat.S_IMODE(about.st_mode) == 0o644 & ~0o026, oct(about.st_mode)
    assert pages.read(victim) == b"as it was"


def read_often(path, found, wrong, ended):
    """10,000 times at least, and until 200 different pages were seen, for a while."""
    reads, limit = 0, time.monotonic() + 20
    while not wrong and (reads < 10000 or len(found) < 200) and time.monotonic() < limit:
        try:
            octets, word = pages.read(path), pages.read(path + ".tunnel")
            pages.entries(octets)
            if word != UP.encode():
                wrong.append("the word is %s" % word)
            found.add(octets)
        except (pages.NotAPage, OSError) as problem:
            wrong.append(problem)
        reads += 1
    ended.set()


def whole_in_10000_reads(bench):
    """Booths come, get keys and go as fast as they can, and whoever reads the files finds a page and a word."""
    branch, distributor, path = bench.shown()
    pages.wait_for(path, UP, [])
    found, wrong, ended = set(), [], threading.Event()
    reader = threading.Thread(target=read_often, args=(path, found, wrong, ended))
    reader.start()
    booths = [Booth(branch.port) for _ in range(12)]
    while not ended.is_set():
        for booth in booths:
            booth.send(DTLS)
            booth.identifier, _ = messages.dtls_of(distributor.message()[1])
            distributor.send(messages.media_keys(booth.identifier, 0x0009, *KEYS))
        for booth in booths:
            distributor.send(messages.endpoint_disconnect(booth.identifier))
        branch.say("booth %s: association ended by the key distributor" % booths[-1].label)
    reader.join()
    assert wrong == [], wrong
    assert len(found) >= 200, "only %d different pages were seen" % len(found)


# For one build alone: they wait for time limits of the program.
ONLY = {kept_up: "branch-plain", written_again_by_the_clock: "branch-plain"}
CASES = [kept_up, cannot_be_written, written_again_by_the_clock, folders_in_the_way, what_a_killed_run_left,
         links_are_replaced, whole_in_10000_reads]
