"""Odd requests and odd peers: each gets a clear answer, and the others are served as before."""

import concurrent.futures
import signal
import socket
import subprocess
import time

from harness import PATIENCE, Answer, Screen, to_the_end, until, words

HEAD = b"Host: 127.0.0.1\r\n\r\n"
SOON = 3     # seconds in which a good request is answered, whatever others do


def ready(files, booths=3):
    files.list(*("192.0.2.1:%d %d Booth %d" % (i + 1, i, i) for i in range(booths)))
    files.word(b"up\n")
    files.page((0, True, 1))


def served(screen):
    """Soon, and rightly."""
    began = time.monotonic()
    assert screen.status()["live"] == 1
    took = time.monotonic() - began
    assert took < SOON, took


ODD = [
    (b"GET / HTTP/1.1\r\n" + HEAD, 200), (b"GET / HTTP/1.0\r\n" + HEAD, 200), (b"GET /status HTTP/1.1\r\n" + HEAD, 200),
    (b"GET /?x=1 HTTP/1.1\r\n" + HEAD, 200), (b"GET /status?../../etc HTTP/1.1\r\n" + HEAD, 200),
    *((method + b" / HTTP/1.1\r\n" + HEAD, 405) for method in
      (b"POST", b"PUT", b"DELETE", b"OPTIONS", b"TRACE", b"PATCH", b"get", b"BREW", b"GETX")),
    (b"POST /nowhere HTTP/1.1\r\n" + HEAD, 405),
    (b"POST /status HTTP/1.1\r\nContent-Length: 1000000\r\n" + HEAD + b"x" * 1000000, 405),
    *((b"GET " + path + b" HTTP/1.1\r\n" + HEAD, 404) for path in
      (b"/../../etc/passwd", b"/..%2f..%2fetc/passwd", b"/%00", b"/status%00", b"/status/", b"//", b"//status", b"/Status",
       b"/%73tatus", b"/./status", b"/favicon.ico", b"/desk.js", b"/status#x", b"/\\..\\")),
    (b"GET /\x00 HTTP/1.1\r\n" + HEAD, 400), (b"GET /\xe9 HTTP/1.1\r\n" + HEAD, 400), (b"GET  / HTTP/1.1\r\n" + HEAD, 400),
    (b"GET / HTTP/1.1 \r\n" + HEAD, 400), (b"GET / http/1.1\r\n" + HEAD, 400), (b" GET / HTTP/1.1\r\n" + HEAD, 400),
    (b"GET status HTTP/1.1\r\n" + HEAD, 400), (b"GET * HTTP/1.1\r\n" + HEAD, 400), (b"\r\n", 400), (b"\x00\n", 400),
    (b"GET http://127.0.0.1/ HTTP/1.1\r\n" + HEAD, 400), (b"CONNECT 127.0.0.1:80 HTTP/1.1\r\n" + HEAD, 400),
    (b"G\x01T / HTTP/1.1\r\n" + HEAD, 400), (b"GET / HTTP/1.1\n" + HEAD, 400), (b"GET / HTTP/1.1\r\nHost: 127.0.0.1\n\n", 400),
    (b"GET /\r\n", 400), (b"GET / HTTP/11\r\n", 400), (b"\x16\x03\x01\x02\x00\x01\x00\x01\xfc\x03\x03\n", 400),
    (b"PRI * HTTP/2.0\r\n\r\nSM\r\n\r\n", 505), (b"GET / HTTP/2.0\r\n" + HEAD, 505), (b"GET / HTTP/0.9\r\n" + HEAD, 505),
    (b"GET / HTTP/1.2\r\n" + HEAD, 505),
    (b"GET / HTTP/1.1\r\nX : y\r\n" + HEAD, 400), (b"GET / HTTP/1.1\r\nX: y\r\n z\r\n" + HEAD, 400),
    (b"GET / HTTP/1.1\r\nX: y\n" + HEAD, 400), (b"GET / HTTP/1.1\r\n: y\r\n" + HEAD, 400),
    (b"GET / HTTP/1.1\r\nX: \x00\r\n" + HEAD, 400),
    (b"GET / HTTP/1.1\r\nno field\r\n" + HEAD, 400),
    (b"GET / HTTP/1.1\r\nX: " + b"y" * 9000 + b"\r\n" + HEAD, 431), (b"GET / HTTP/1.1\r\nX: " + b"y" * 5000000, 431),
    (b"GET / HTTP/1.1\r\n" + b"X: y\r\n" * 2000 + HEAD, 431), (b"GET / HTTP/1.1\r\nX: " + b"y" * 8153 + b"\r\n" + HEAD, 431),
    (b"GET / HTTP/1.1\r\nX: " + b"y" * 8152 + b"\r\n" + HEAD, 200),
    (b"GET /" + b"x" * 3000 + b" HTTP/1.1\r\n" + HEAD, 414), (b"GET /" + b"x" * 5000000, 414),
    (b"GET /?" + b"x" * 2000 + b" HTTP/1.1\r\n" + HEAD, 200),
]

HOSTS = [
    ("127.0.0.1", 200), ("127.0.0.1:8185", 200), ("127.0.0.1:", 200), ("localhost", 200), ("LocalHost:1", 200),
    ("evil.example", 421), ("evil.example:8185", 421), ("127.0.0.1.evil.example", 421), ("localhost.evil.example", 421),
    ("127.0.0.2", 421), ("127.1", 421), ("2130706433", 421), ("0.0.0.0", 421), ("[::1]", 421), ("[::ffff:127.0.0.1]", 421),
    ("localhost.", 421), ("", 400), ("a b", 400), ("127.0.0.1, evil.example", 400), ("user@127.0.0.1", 400),
    ("127.0.0.1:x", 400), ("127.0.0.1/", 400), ("[::1", 400), ("\xe9", 400),
]


def odd_requests(files):
    ready(files)
    with Screen(files) as screen:
        for octets, status in ODD:
            answer = screen.ask(octets)
            assert answer.status == status, (octets[:80], answer.status, status)
            assert status == 200 or answer.body.startswith(b"%d " % status) and answer.body.count(b"\n") == 1, answer.body
        served(screen)


def body_with_a_refusal(files):
    """What comes behind a request is taken and thrown away, so that the answer is not lost to a reset."""
    ready(files)
    with Screen(files) as screen:
        for _ in range(3):
            with screen.connect() as peer:
                peer.sendall(b"POST / HTTP/1.1\r\nHost: 127.0.0.1\r\nContent-Length: 8000000\r\n\r\n" + bytes(8000000))
                peer.shutdown(socket.SHUT_WR)
                assert Answer(to_the_end(peer)).status == 405
        served(screen)


def hosts(files):
    """A page elsewhere whose name leads to this address comes with its own name, and is not answered."""
    ready(files)
    with Screen(files) as screen:
        for host, status in HOSTS:
            found = screen.ask(b"GET /status HTTP/1.1\r\nHost: %s\r\n\r\n" % host.encode("latin-1"))
            assert found.status == status and (b"booths" in found.body) == (status == 200), (host, found.status)
        for fields in (b"", b"Hostx: 127.0.0.1\r\n", b"Host: 127.0.0.1\r\nHost: 127.0.0.1\r\n"):
            assert screen.ask(b"GET / HTTP/1.1\r\n" + fields + b"\r\n").status == 400
        assert screen.ask(b"GET / HTTP/1.0\r\n\r\n").status == 400


def other_addresses(files):
    """Every address of the machine is listened on: the one that a request came to is the one that it may name."""
    ready(files)
    with Screen(files, address="0.0.0.0") as screen:
        screen.address = "127.0.0.2"
        assert [screen.get("/", host=host).status for host in ("127.0.0.2", "127.0.0.1", "localhost", "a.example")] == \
            [200, 421, 200, 421]
    if not socket.has_ipv6:
        return
    try:
        socket.create_server(("::1", 0), family=socket.AF_INET6).close()
    except OSError:
        return
    with Screen(files, address="::1") as screen:
        assert [screen.get("/", host=host).status for host in ("[::1]:8185", "[0:0::1]", "127.0.0.1", "localhost")] == \
            [200, 200, 421, 200]


def head(files):
    """The fields of GET, and no body."""
    ready(files)
    with Screen(files) as screen:
        for path, status in (("/", 200), ("/status", 200), ("/nowhere", 404)):
            one, other = screen.get(path, "HEAD"), screen.get(path)
            assert one.status == other.status == status
            one.fields.pop("date"), other.fields.pop("date")
            assert one.fields == other.fields and one.body == b"" and other.body != b""


def drip(screen, octets, every):
    """Octet by octet, until the server has had enough; its answer, and after how long."""
    began = time.monotonic()
    with screen.connect() as peer:
        try:
            for octet in octets:
                peer.sendall(bytes([octet]))
                time.sleep(every)
                if time.monotonic() - began > 7:
                    break
        except OSError:
            pass
        return to_the_end(peer), time.monotonic() - began


def silent(screen, octets):
    with screen.connect() as peer:
        peer.sendall(octets)
        return to_the_end(peer), None


def silence(files):
    """Nothing, half a request, or one that never ends: told after five seconds, and nobody else waits."""
    ready(files)
    with Screen(files) as screen, concurrent.futures.ThreadPoolExecutor(8) as pool:
        began = time.monotonic()
        waiting = [pool.submit(silent, screen, octets) for octets in
                   (b"", b"GET / HT", b"GET / HTTP/1.1\r\n", b"GET / HTTP/1.1\r\nHost: 127.0.0.1\r\n")]
        waiting += [pool.submit(drip, screen, b"GET / HTTP/1.1\r\nX: " + b"y" * 99, 0.25)]
        while not all(one.done() for one in waiting):
            served(screen)
            time.sleep(0.1)
        assert 4.5 < time.monotonic() - began < 12, time.monotonic() - began
        for one in waiting:
            assert Answer(one.result()[0]).status == 408


def given_up(files):
    """Peers that go away in the middle leave nothing behind."""
    ready(files)
    with Screen(files) as screen:
        served(screen)
        before = screen.descriptors()
        for octets in (b"", b"G", b"GET / HTTP/1.1\r\nHo") * 20:
            peer = screen.connect()
            peer.sendall(octets)
            peer.close()
        with screen.connect() as peer:
            peer.sendall(b"GET / HTTP/1.1\r\n")
            peer.shutdown(socket.SHUT_WR)
            assert to_the_end(peer) == b""
        with screen.connect() as peer:
            peer.sendall(b"GET / HT")
            peer.shutdown(socket.SHUT_WR)
            assert Answer(to_the_end(peer)).status == 400
        until(lambda: screen.descriptors() <= before)
        served(screen)


def slow_readers(files):
    """Who asks for the longest page and does not read it keeps nobody waiting."""
    ready(files, booths=256)
    with Screen(files) as screen:
        served(screen)
        before = screen.descriptors()
        peers = [screen.connect(receive=1024) for _ in range(40)]
        for peer in peers:
            peer.sendall(b"GET / HTTP/1.1\r\n" + HEAD)
        for _ in range(10):
            served(screen)
        until(lambda: screen.descriptors() <= before, 9)
        for peer in peers:
            peer.close()
        assert screen.most_memory() < 1 << 27


def many_at_once(files):
    """200 requests at once are all answered; 200 silent peers beside, and 400, keep nobody out."""
    ready(files)
    with Screen(files) as screen:
        served(screen)
        before = screen.descriptors()
        peers = [screen.connect() for _ in range(200)]
        for peer in peers:
            peer.sendall(b"GET /status HTTP/1.1\r\n" + HEAD)
        for peer in peers:
            assert Answer(to_the_end(peer)).json()["live"] == 1
            peer.close()
        idle = []
        for _ in range(400):
            idle.append(screen.connect())
            if len(idle) % 40 == 0:
                served(screen)
        assert Answer(to_the_end(idle[0])).status == 503
        assert screen.descriptors() < before + 270, screen.descriptors()
        for peer in idle:
            peer.close()
        until(lambda: screen.descriptors() <= before)
        served(screen)


def ends_in_order(files):
    """By either signal, also with peers that have not asked, or do not read."""
    ready(files)
    for number in (signal.SIGTERM, signal.SIGINT):
        with Screen(files) as screen:
            served(screen)
            peers = [screen.connect() for _ in range(3)]
            peers[0].sendall(b"GET / HT")
            peers[1].sendall(b"GET / HTTP/1.1\r\n" + HEAD)
            began = time.monotonic()
            assert screen.end(number) == (0, "screen: ended\n")
            assert time.monotonic() - began < 4
            for peer in peers:
                peer.close()


def does_not_start(files):
    """A port that is taken, a library without a reader, options that are none: an exit status and a line."""
    ready(files)
    with Screen(files) as screen:
        for options, status, part in (
                (("--port", str(screen.port)), 1, b"screen: "), (("--library", "/nowhere.so"), 1, b"screen: /nowhere.so"),
                (("--library", "libc.so.6"), 1, b"screen: libc.so.6 has no reader of status pages\n"),
                (("--listen", "desk.example"), 2, b"--listen"), (("--port", "65536"), 2, b"--port"),
                (("--stale", "0"), 2, b"--stale"), (("--stale", "nan"), 2, b"--stale"), (("--stat", "x"), 2, b"--stat"),
                (("--listen", "192.0.2.1"), 1, b"screen: ")):
            done = subprocess.run(words(files, *options), capture_output=True, timeout=PATIENCE)
            assert done.returncode == status and part in done.stderr and b"Traceback" not in done.stderr, done
        served(screen)
    done = subprocess.run(words(files)[:2], capture_output=True, timeout=PATIENCE)
    assert done.returncode == 2 and b"--status" in done.stderr


CASES = [odd_requests, body_with_a_refusal, hosts, other_addresses, head, silence, given_up, slow_readers, many_at_once,
         ends_in_order, does_not_start]
