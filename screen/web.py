"""The server: one request to a connection, each with a time limit, and a bounded number of them at once.

One thread: a peer that is slow to write or to read keeps its own connection waiting and no other."""

import asyncio
import socket
import sys

import answer
import data
import markup
import request

MOST_CONNECTIONS = 256
PATIENCE = 5          # seconds for a request to come, and again for the answer to be taken
MOST_SENT = 16384     # octets that the system keeps for a peer that does not read
LINGER = 1            # seconds in which what still comes is thrown away, so that the answer is not lost to a reset

PATHS = {b"/": (answer.HTML, markup.octets), b"/status": (answer.JSON, data.octets)}


class Connection:
    """One peer, from its first octet to the end of the answer."""

    def __init__(self, source, reader, writer):
        self.source, self.reader, self.writer = source, reader, writer
        self.answered = False

    async def line(self, most, status):
        """The next line with its end, which has at most so many octets."""
        try:
            line = await self.reader.readuntil(b"\n")
        except asyncio.LimitOverrunError:
            raise request.Refused(status) from None
        except asyncio.IncompleteReadError as cut:
            if not cut.partial:
                raise ConnectionError from None
            raise request.Refused(400) from None
        if len(line) > most:
            raise request.Refused(status)
        return line

    async def request(self):
        line = await self.line(request.MOST_LINE, 414)
        asked, left = request.Request(line), request.MOST_HEAD - len(line)
        while (line := await self.line(left, 431)) != b"\r\n":
            left -= len(line)
            asked.field(line)
        return asked

    async def asked(self):
        """What is to be answered."""
        try:
            return self.reply(await asyncio.wait_for(self.request(), PATIENCE))
        except request.Refused as refused:
            return answer.refusal(refused.status)
        except asyncio.TimeoutError:
            return answer.refusal(408)

    def reply(self, asked):
        with_body = asked.method != b"HEAD"
        try:
            asked.check(self.writer.get_extra_info("sockname")[0])
            if asked.path not in PATHS:
                raise request.Refused(404)
            kind, form = PATHS[asked.path]
            return answer.octets(200, kind, form(self.source.picture()), with_body)
        except request.Refused as refused:
            return answer.refusal(refused.status, with_body)
        except Exception as problem:    # a fault of this program: said, but nothing of what was asked
            print("screen: no answer: %s" % type(problem).__name__, file=sys.stderr, flush=True)
            return answer.refusal(500, with_body)

    async def send(self, octets):
        self.answered = True
        self.writer.transport.set_write_buffer_limits(0)
        self.writer.write(octets)
        await self.writer.drain()
        self.writer.write_eof()

    async def drop_the_rest(self):
        while await self.reader.read(65536):
            pass

    async def run(self):
        try:
            await asyncio.wait_for(self.send(await self.asked()), PATIENCE)
            await asyncio.wait_for(self.drop_the_rest(), LINGER)
        except (OSError, asyncio.TimeoutError):
            pass

    def give_way(self):
        """Ends it for another. Who has not been answered yet is told."""
        if not self.answered:
            self.writer.write(answer.refusal(503))
            self.writer.close()
        else:
            self.writer.transport.abort()


class Server:
    def __init__(self, source):
        self.source = source
        self.running = {}      # task: connection, the oldest first

    async def serve(self, reader, writer):
        """The oldest gives way to one too many: whoever holds many connections open keeps nobody out for long."""
        if len(self.running) == MOST_CONNECTIONS:
            oldest = next(iter(self.running))
            self.running.pop(oldest).give_way()
            oldest.cancel()
        task, connection = asyncio.current_task(), Connection(self.source, reader, writer)
        self.running[task] = connection
        try:
            await connection.run()
            writer.transport.abort()
        except asyncio.CancelledError:
            pass
        finally:
            self.running.pop(task, None)

    async def run(self, address, port, stopped, started):
        """Serves until stopped is set; started is told the port that it has."""
        family = socket.AF_INET6 if ":" in address else socket.AF_INET
        listener = socket.create_server((address, port), family=family, backlog=MOST_CONNECTIONS)
        listener.setsockopt(socket.SOL_SOCKET, socket.SO_SNDBUF, MOST_SENT)
        server = await asyncio.start_server(self.serve, sock=listener, limit=request.MOST_HEAD, backlog=MOST_CONNECTIONS)
        started(listener.getsockname()[1])
        await stopped.wait()
        server.close()
        for connection in list(self.running.values()):
            connection.writer.transport.abort()
