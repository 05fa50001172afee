"""A branch under test, with a key distributor and booths that do exactly what a case tells them."""

import os
import select
import socket
import struct
import sys
import time

import builds

sys.path.insert(0, os.path.join(builds.ROOT, "examples", "parts"))
import messages
from children import Child

DTLS = b"\x16\xfe\xfd"     # how a DTLS handshake packet begins
KEYS = [bytes(range(0x51, 0x61)), bytes(range(0x61, 0x71)), bytes(range(0x71, 0x7D)), bytes(range(0xA1, 0xAD))]
OTHER_KEYS = [bytes(reversed(field)) for field in KEYS]


class NotRun(Exception):
    """This machine has not what the case is about."""


class Distributor:
    """Listens for the tunnel; sends octets as it is told and reads messages."""

    def __init__(self, listens=True):
        self.listener = socket.socket()
        self.listener.bind(("127.0.0.1", 0))
        if listens:
            self.listener.listen()
        self.listener.settimeout(10)
        self.port = self.listener.getsockname()[1]
        self.tunnel = None
        self.octets = b""

    def accept(self):
        self.tunnel, _ = self.listener.accept()
        self.tunnel.setsockopt(socket.IPPROTO_TCP, socket.TCP_NODELAY, 1)
        self.tunnel.settimeout(10)
        self.octets = b""

    def send(self, octets, cut=0):
        step = cut or len(octets)
        for at in range(0, len(octets), step):
            self.tunnel.sendall(octets[at:at + step])
            if cut:
                time.sleep(0.0005)

    def message(self):
        """Type and body of the next message; None if the branch has closed, which is a reset if it left octets unread."""
        while (found := messages.first(self.octets)) is None:
            try:
                octets = self.tunnel.recv(65536)
            except ConnectionResetError:
                octets = b""
            if octets == b"":
                return None
            self.octets += octets
        kind, body, self.octets = found
        return kind, body

    def quiet(self, seconds):
        """True if nothing comes for so long."""
        return self.octets == b"" and not select.select([self.tunnel], [], [], seconds)[0]

    def close(self):
        self.listener.close()
        if self.tunnel is not None:
            self.tunnel.close()

    def reset(self):
        """Ends the connection by a reset."""
        self.tunnel.setsockopt(socket.SOL_SOCKET, socket.SO_LINGER, struct.pack("ii", 1, 0))
        self.tunnel.close()


class Booth:
    """Sends from an address of this machine; with a name if it is in the list of booths."""

    def __init__(self, port, host="127.0.0.1", name=None, own_port=0):
        six = ":" in host
        self.socket = socket.socket(socket.AF_INET6 if six else socket.AF_INET, socket.SOCK_DGRAM)
        self.socket.bind((host, own_port))
        self.socket.connect(("::1" if six else "127.0.0.1", port))
        self.socket.settimeout(10)
        self.port = self.socket.getsockname()[1]
        self.address = ("[%s]:%d" if six else "%s:%d") % (host, self.port)
        self.label = self.address if name is None else "%s (%s)" % (self.address, name)   # in the log
        self.identifier = self.endpoint = None

    def send(self, packet):
        self.socket.send(packet)

    def receive(self):
        return self.socket.recv(65536)


class Branch:
    """One run of the program. `options` are behind the usual ones, so the later of two counts."""

    def __init__(self, program, folder, distributor, *options, relay=builds.RELAY):
        self.distributor = distributor
        self.control, theirs = socket.socketpair(socket.AF_UNIX, socket.SOCK_SEQPACKET)
        self.control.settimeout(10)
        words = [program, "--relay", relay, "--distributor-port", str(distributor.port), "--retry", "300",
                 "--control", str(theirs.fileno())] + list(options)
        self.child = Child("branch", folder, words, pass_fds=[theirs.fileno()])
        theirs.close()
        self.port = None

    def say(self, text, **options):
        return self.child.wait_for(text, **options)

    def up(self):
        """Waits until the tunnel stands."""
        self.port = int(self.say("listening for booths on").rsplit(":", 1)[1])
        self.distributor.accept()
        self.say("tunnel: up")
        assert self.distributor.message() == (1, bytes.fromhex("0000040009000a"))

    def ask(self, words):
        self.control.send(words.encode())
        return self.control.recv(4096).decode()

    def compare(self, endpoint, keys):
        return self.ask("compare %d %s" % (endpoint, " ".join(field.hex() for field in keys)))

    def booth(self, packet=DTLS, **options):
        """A new booth whose first packet has opened an association and come through the tunnel."""
        booth = Booth(self.port, **options)
        self.reopen(booth, packet)
        return booth

    def reopen(self, booth, packet=DTLS):
        booth.send(packet)
        line = self.say("booth %s: endpoint" % booth.label)
        booth.endpoint = int(line.split("endpoint ")[1].split(",")[0])
        kind, body = self.distributor.message()
        assert kind == messages.TUNNELED_DTLS, kind
        booth.identifier, dtls = messages.dtls_of(body)
        assert dtls == packet

    def key(self, booth, keys, profile=0x0009):
        self.distributor.send(messages.media_keys(booth.identifier, profile, *keys))
        self.say("booth %s: keys stored for endpoint %d: profile 0x%04x" % (booth.label, booth.endpoint, profile))

    def relay_process(self):
        """The process number of the relay, its only child."""
        with open("/proc/%d/task/%d/children" % (2 * (self.child.process.pid,))) as children:
            return int(children.read())

    def end(self):
        """Asks it to end, and answers its exit status; None if it had to be killed."""
        self.control.close()
        return self.child.end(10)


class Bench:
    """What one case works at. Everything that it started is ended with it."""

    def __init__(self, program, folder):
        self.program, self.folder = program, folder
        self.branch = self.distributor = None
        self.expected = 0     # the exit status that the branch has to end with
        self.wrong = []       # how it ended and what it said, where that is wrong

    def start(self, *options, distributor=None, relay=builds.RELAY):
        """A branch that has been started; its tunnel is not waited for."""
        self.distributor = distributor or Distributor()
        self.branch = Branch(self.program, self.folder, self.distributor, *options, relay=relay)
        return self.branch, self.distributor

    def up(self, *options, **others):
        """A branch with its tunnel."""
        branch, distributor = self.start(*options, **others)
        branch.up()
        return branch, distributor

    def shown(self, *options, **others):
        """A branch that writes its status page, its tunnel, and the file."""
        path = self.path("status")
        return (*self.up("--status", path, *options, **others), path)

    def path(self, name):
        """A file of this case."""
        return os.path.join(self.folder, name)

    def write(self, name, text):
        """Writes such a file, and answers its path."""
        with open(self.path(name), "wb") as file:
            file.write(text if isinstance(text, bytes) else text.encode())
        return self.path(name)

    def close(self):
        """Ends the branch, if one runs, and notes what is wrong."""
        if self.branch is None:
            return
        status = self.branch.end()
        self.distributor.close()
        log = self.branch.child.output().decode("utf-8", "replace")
        self.branch = None
        wrong = builds.unclean(log)
        if status != self.expected:
            wrong.append("exit status %s, and it had to be %s" % (status, self.expected))
        wrong += ["a key is in the log" for field in KEYS + OTHER_KEYS if field[:8].hex() in log.lower()]
        if wrong:
            self.wrong += wrong + ["the log:\n" + log[-3000:]]
