"""The program itself: its relay, its options, its signals, its end."""

import os
import signal
import socket
import subprocess
import time

import messages
from harness import DTLS, KEYS, OTHER_KEYS, Booth, Distributor


def told_to_end(bench):
    """Every association is closed, the key distributor is told, and the exit status is 0."""
    branch, distributor = bench.up()
    booths = [branch.booth() for _ in range(3)]
    branch.child.process.send_signal(signal.SIGTERM)
    told = {distributor.message() for _ in booths}
    assert told == {(5, booth.identifier) for booth in booths}
    assert distributor.message() is None
    assert branch.child.process.wait(10) == 0
    branch.say("branch: ended")


def runs(process):
    """True for a process that is there and has not ended."""
    try:
        with open("/proc/%d/stat" % process) as stat:
            return stat.read().rsplit(")", 1)[1].split()[0] != "Z"
    except FileNotFoundError:
        return False


def no_child_stays(bench):
    branch, _ = bench.up()
    relay = branch.relay_process()
    assert runs(relay)
    assert branch.end() == 0
    assert not os.path.exists("/proc/%d" % relay)


def killed_itself(bench):
    """Not even a branch that is killed leaves its relay behind."""
    branch, _ = bench.up()
    relay = branch.relay_process()
    branch.child.process.kill()
    bench.expected = -signal.SIGKILL
    limit = time.monotonic() + 5
    while runs(relay):
        assert time.monotonic() < limit
        time.sleep(0.01)


def stopped_and_continued(bench):
    branch, distributor = bench.up()
    booth = branch.booth()
    for _ in range(10):
        branch.child.process.send_signal(signal.SIGSTOP)
        booth.send(DTLS)
        distributor.send(messages.tunneled_dtls(booth.identifier, DTLS))
        branch.child.process.send_signal(signal.SIGCONT)
        assert booth.receive() == DTLS
        assert distributor.message()[0] == messages.TUNNELED_DTLS


def relay_is_killed(bench):
    branch, _ = bench.up()
    branch.key(branch.booth(), KEYS)
    os.kill(branch.relay_process(), signal.SIGKILL)
    bench.expected = 1
    branch.say("branch: the relay has ended: its table is lost")
    assert branch.child.process.wait(10) == 1
    branch.say("branch: the relay was ended by signal 9")


def bad_relay(bench, relay, line, limit=10):
    branch, distributor = bench.start(relay=relay)
    bench.expected = 1
    branch.say(line, seconds=limit)
    assert branch.child.process.wait(limit) == 1
    return branch


def script(bench, text):
    path = os.path.join(bench.folder, "relay")
    with open(path, "w") as file:
        file.write("#!/bin/sh\n" + text)
    os.chmod(path, 0o755)
    return path


def relay_is_not_there(bench):
    bad_relay(bench, "/nowhere/relay", "branch: the relay /nowhere/relay does not start: No such file or directory")


def relay_ends_at_once(bench):
    bad_relay(bench, script(bench, "exit 0\n"), "its table is lost")


def relay_says_nothing(bench):
    branch = bad_relay(bench, script(bench, "exec sleep 60\n"), "no answer from the relay: Connection timed out", 15)
    branch.say("branch: the relay does not end and is killed", seconds=5)


def relay_answers_wrongly(bench):
    """An answer of another call, of no kind, of a wrong length, empty, above the limit, and half of one before its end."""
    another, length = "gave an answer that does not belong to the request", "an answer of a wrong length from the relay"
    for answer, then, line in (("000 003 003 000 000", "cat", another), ("000 001 310", "cat", another),
                               ("000 002 004 000", "cat", another), ("000 000", "cat", length),
                               ("377 377 002", "cat", length), ("000 012 002", "true", "half an answer from the relay")):
        octets = "".join("\\" + octet for octet in answer.split())
        bad_relay(bench, script(bench, "dd bs=1 count=7 2> /dev/null > /dev/null\nprintf '%s'\nexec 3>&1 %s > /dev/null\n"
                                % (octets, then)), line)
        bench.close()


def numbers_that_are_in_no_list(bench):
    """A refusal that nobody knows has its number in the log, and no meaning."""
    none = "a number that is not in the list"
    for number, meaning in ((0, none), (20, "identifier not of 16 octets"), (21, none), (28, none),
                            (29, "no status page, or none with that entry"), (30, none), (255, none)):
        answer = "\\000\\004\\001\\%03o\\000\\000" % number
        bad_relay(bench, script(bench, "dd bs=1 count=7 2> /dev/null > /dev/null\nprintf '%s'\n" % answer),
                  "tunnel: start refused, %d: %s" % (number, meaning))
        bench.close()


# A stand-in's answer to Start.
STARTED = "dd bs=1 count=7 2> /dev/null > /dev/null\n%sprintf '" + "".join(
    "\\" + octet for octet in "000 013 002 001 000 007 000 000 004 000 011 000 012".split()) + "'\n"


def relay_stops_reading(bench):
    """Its answer to Start, and then a closed input: the next request is an error and no signal."""
    branch, distributor = bench.start(relay=script(bench, STARTED % "exec 0< /dev/null\n" + "sleep 1\n"))
    branch.up()
    bench.expected = 1
    Booth(branch.port).send(DTLS)
    branch.say("branch: no request to the relay: Broken pipe")
    assert branch.child.process.wait(10) == 1


def relay_gets_what_it_needs(bench):
    """Three descriptors and no other; and SIGPIPE as usual. That is told by a stand-in: a Rattle program ignores SIGPIPE
    by itself."""
    branch, _ = bench.up()
    assert sorted(os.listdir("/proc/%d/fd" % branch.relay_process())) == ["0", "1", "2"]
    bench.close()
    branch, _ = bench.up(relay=script(bench, STARTED % "" + "exec 3>&1 cat > /dev/null\n"))
    with open("/proc/%d/status" % branch.relay_process()) as status:
        ignored = [int(line.split()[1], 16) for line in status if line.startswith("SigIgn")]
    assert ignored and not ignored[0] & 1 << (signal.SIGPIPE - 1)


def writable_memory(process):
    """All octets that a process can write."""
    found = b""
    with open("/proc/%d/maps" % process) as maps, open("/proc/%d/mem" % process, "rb", 0) as memory:
        for line in maps:
            (first, last), access = (int(end, 16) for end in line.split()[0].split("-")), line.split()[1]
            if access.startswith("rw"):
                memory.seek(first)
                found += memory.read(last - first)
    return found


def no_key_stays(bench):
    """When keys are stored, they are in the relay, and the branch has nothing left of them, nor of keys that were refused.
    The identifiers are looked for too: what is there has to be found."""
    branch, distributor = bench.up()
    booths = [branch.booth() for _ in range(3)]
    refused = [bytes(octet ^ 0xFF for octet in field) for field in KEYS]
    for booth in booths:
        branch.key(booth, KEYS)
        branch.key(booth, OTHER_KEYS)
    distributor.send(messages.media_keys(bytes(16), 0x0009, *refused))
    branch.say("tunnel: message refused, 6: ")
    octets = writable_memory(branch.child.process.pid)
    assert all(booth.identifier in octets for booth in booths)
    for field in KEYS + OTHER_KEYS + refused:
        assert field[:8] not in octets and field[-8:] not in octets


def port_is_taken(bench):
    taken = socket.socket(socket.AF_INET, socket.SOCK_DGRAM)
    taken.bind(("127.0.0.1", 0))
    branch, _ = bench.start("--port", str(taken.getsockname()[1]))
    bench.expected = 1
    branch.say("branch: no listening on 127.0.0.1:%d: Address already in use" % taken.getsockname()[1])


def wrong_options(bench):
    distributor = Distributor()
    good = ["--relay", "/nowhere", "--distributor-port", str(distributor.port)]
    for words, line in (([], "use: "), (["--relay"], "use: "), (good[:2], "use: "), (good + ["--idle", "0"], "use: "),
                        (good + ["--idle", "1x"], "use: "), (good + ["--retry", ""], "use: "),
                        (good + ["--what", "1"], "use: "), (good + ["--status", ""], "use: "),
                        (good + ["--booths"], "use: "), (good + ["--status", "/" + "a" * 1011], "use: "),
                        (good + ["--control", "77"], "control: Bad file descriptor"),
                        (good + ["--listen", "localhost"], "branch: localhost port 0 is no address"),
                        (good + ["--distributor-port", "x"], "branch: 127.0.0.1 port x is no address")):
        done = subprocess.run([bench.program] + words, stdin=subprocess.DEVNULL, capture_output=True, timeout=10)
        assert done.returncode == 1 and done.stderr.decode().startswith(line), (words, done)
    distributor.close()


def without_standard_descriptors(bench):
    """Started with all three closed, it has none of its own in their place."""
    distributor = Distributor()
    control, theirs = socket.socketpair(socket.AF_UNIX, socket.SOCK_SEQPACKET)
    control.settimeout(10)
    words = [bench.program, "--relay", os.environ.get("SHAWM_RELAY", "target/bin/relay"), "--distributor-port",
             str(distributor.port), "--control", str(theirs.fileno())]
    child = subprocess.Popen(["sh", "-c", 'exec "$@" 0<&- 1>&- 2>&-', "sh"] + words, pass_fds=[theirs.fileno()])
    theirs.close()
    distributor.accept()
    assert distributor.message()[0] == messages.SUPPORTED_PROFILES
    assert all(os.readlink("/proc/%d/fd/%d" % (child.pid, fd)) == "/dev/null" for fd in range(3))
    control.send(b"look 1")
    assert control.recv(4096).startswith(b"refused, 6: ")
    control.close()
    assert child.wait(10) == 0
    distributor.close()


def nonsense_at_the_control(bench):
    branch, _ = bench.up()
    booth = branch.booth()
    for words in ("look", "x", "dump %d" % booth.endpoint, "compare %d" % booth.endpoint, "look 1 2 3 4 5 6 7"):
        assert branch.ask(words) == "no such request", words
    assert branch.ask("compare %d zz 00 00 00" % booth.endpoint) == "differs"
    assert branch.ask("compare %d 0 00 00 00" % booth.endpoint) == "differs"
    assert branch.ask("compare %d %s 00 00 00" % (booth.endpoint, "00" * 33)) == "differs"
    assert branch.ask("same %d" % booth.endpoint) == "none kept"


# For one build alone: this waits for a time limit of the program, and this would find what a sanitizer keeps.
ONLY = {relay_says_nothing: "branch-checked", no_key_stays: "branch-plain"}
CASES = [told_to_end, no_child_stays, killed_itself, stopped_and_continued, relay_is_killed, relay_is_not_there,
         relay_ends_at_once, relay_says_nothing, relay_answers_wrongly, numbers_that_are_in_no_list, relay_stops_reading,
         relay_gets_what_it_needs, no_key_stays, port_is_taken, wrong_options, without_standard_descriptors,
         nonsense_at_the_control]
