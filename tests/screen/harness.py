"""A screen under test, the files that it reads, and peers that send it exactly what a case tells them."""

import json
import os
import shutil
import signal
import socket
import subprocess
import sys
import time

import paper

ROOT = os.path.dirname(os.path.dirname(os.path.dirname(os.path.abspath(__file__))))
SCREEN = os.path.join(ROOT, "screen", "screen")
LIBRARY = os.environ.get("SHAWM_LIBRARY", os.path.join(ROOT, "build", "libshawm.so"))
PATIENCE = 10          # seconds for anything that has to come

# What every answer has to say, by field: a text that its value has to have in it.
FIELDS = {"content-security-policy": "default-src 'none'", "x-content-type-options": "nosniff", "x-frame-options": "DENY",
          "referrer-policy": "no-referrer", "cache-control": "no-store", "cross-origin-opener-policy": "same-origin",
          "cross-origin-embedder-policy": "require-corp", "cross-origin-resource-policy": "same-origin",
          "connection": "close", "content-type": "", "content-length": "", "date": "GMT"}


class Answer:
    """An HTTP answer, held to what every answer has to be."""

    def __init__(self, octets, head_only=False):
        head, gap, self.body = octets.partition(b"\r\n\r\n")
        assert gap, "no whole answer: %r" % octets[:200]
        first, *fields = head.decode("ascii").split("\r\n")
        assert first.startswith("HTTP/1.1 "), first
        self.status = int(first.split(" ")[1])
        self.fields = dict((name.lower(), value) for name, value in (field.split(": ", 1) for field in fields))
        assert len(self.fields) == len(fields), "a field twice"
        for name, part in FIELDS.items():
            assert part in self.fields[name], (name, self.fields[name])
        policy = self.fields["content-security-policy"]
        assert "unsafe" not in policy and "*" not in policy and "frame-ancestors 'none'" in policy, policy
        assert "server" not in self.fields and "python" not in head.decode().lower(), head
        assert (self.fields.get("allow") == "GET, HEAD") == (self.status == 405), self.fields
        assert len(self.body) == (0 if head_only else int(self.fields["content-length"])), len(self.body)

    def json(self):
        assert self.fields["content-type"] == "application/json"
        assert all(octet < 128 and octet not in b"<>&" for octet in self.body)
        return json.loads(self.body)


class Files:
    """The status file, the word beside it and the list of booths, in a folder of their own."""

    def __init__(self, folder):
        self.folder = folder
        self.status = os.path.join(folder, "status")
        self.tunnel = self.status + ".tunnel"
        self.booths = os.path.join(folder, "booths")

    @staticmethod
    def put(path, octets):
        """As the branch does it: a new file, renamed over the old one."""
        with open(path + ".new", "wb") as file:
            file.write(octets)
        os.rename(path + ".new", path)

    def page(self, *entries):
        self.put(self.status, paper.write(entries))

    def word(self, octets):
        self.put(self.tunnel, octets)

    def list(self, *lines):
        self.put(self.booths, "".join(line + "\n" for line in lines).encode())

    def clear(self, path):
        """Whatever stands there is gone."""
        if os.path.isdir(path) and not os.path.islink(path):
            shutil.rmtree(path)
        elif os.path.lexists(path):
            os.remove(path)


def words(files, *options, with_list=True, before=()):
    listed = ["--booths", files.booths] if with_list and os.path.exists(files.booths) else []
    return [*before, sys.executable, SCREEN, "--library", LIBRARY, "--status", files.status, *listed, *options]


def text(files, *options, **more):
    """Exit status, lines and complaints of the text form."""
    done = subprocess.run(words(files, "--text", *options, **more), capture_output=True, timeout=PATIENCE)
    return done.returncode, done.stdout.decode().split("\n")[:-1], done.stderr.decode()


class Screen:
    """A server, from its start to its end."""

    def __init__(self, files, *options, address="127.0.0.1", **more):
        self.address, self.ended = address, None
        self.process = subprocess.Popen(words(files, "--listen", address, "--port", "0", *options, **more),
                                        stderr=subprocess.PIPE, stdout=subprocess.PIPE, cwd=files.folder)
        line = self.process.stderr.readline().decode()
        assert line.startswith("screen: listening on http://"), line + self.process.stderr.read().decode()
        self.port = int(line.rstrip("/\n").rsplit(":", 1)[1])

    def connect(self, receive=None):
        peer = socket.socket(socket.AF_INET6 if ":" in self.address else socket.AF_INET)
        if receive is not None:
            peer.setsockopt(socket.SOL_SOCKET, socket.SO_RCVBUF, receive)
        peer.settimeout(PATIENCE)
        peer.connect((self.address, self.port))
        return peer

    def send(self, octets):
        """What comes back for these octets, to the end."""
        with self.connect() as peer:
            try:
                peer.sendall(octets)
            except (BrokenPipeError, ConnectionResetError):
                pass
            return to_the_end(peer)

    def ask(self, octets, head_only=False):
        return Answer(self.send(octets), head_only)

    def get(self, path, method="GET", host="127.0.0.1"):
        return self.ask(("%s %s HTTP/1.1\r\nHost: %s\r\n\r\n" % (method, path, host)).encode(), method == "HEAD")

    def status(self):
        answer = self.get("/status")
        assert answer.status == 200, answer.status
        return answer.json()

    def descriptors(self):
        return len(os.listdir("/proc/%d/fd" % self.process.pid))

    def most_memory(self):
        """The most that it has had in memory, in octets."""
        with open("/proc/%d/status" % self.process.pid) as file:
            return next(int(line.split()[1]) * 1024 for line in file if line.startswith("VmHWM"))

    def end(self, number=signal.SIGTERM):
        """Exit status, and what it said behind its first line."""
        assert self.process.poll() is None, "the server ended by itself: %d" % self.process.returncode
        self.process.send_signal(number)
        try:
            output, errors = self.process.communicate(timeout=PATIENCE)
        except subprocess.TimeoutExpired:
            self.process.kill()
            raise
        assert output == b"", output
        self.ended = self.process.returncode, errors.decode()
        return self.ended

    def __enter__(self):
        return self

    def __exit__(self, kind, *_):
        """In order, and with nothing said of what was asked."""
        if kind is None:
            ended = self.ended or self.end()
            assert ended == (0, "screen: ended\n"), ended
        elif self.process.poll() is None:
            self.process.kill()
            self.process.wait()


def to_the_end(peer):
    octets = b""
    while True:
        try:
            piece = peer.recv(65536)
        except ConnectionResetError:
            piece = b""
        if not piece:
            return octets
        octets += piece


def until(condition, seconds=PATIENCE):
    limit = time.monotonic() + seconds
    while not condition():
        assert time.monotonic() < limit, "it did not come to be so"
        time.sleep(0.02)


def booth(endpoint, name, state, place=None, listed=True):
    return {"endpoint": endpoint, "name": name, "state": state, "place": place, "listed": listed}
