"""The server's start and its end."""

import asyncio
import signal

import web


async def serve(pictures, address, port, say):
    stopped, loop = asyncio.Event(), asyncio.get_running_loop()
    for number in (signal.SIGTERM, signal.SIGINT):
        loop.add_signal_handler(number, stopped.set)
    name = "[%s]" % address if ":" in address else address
    await web.Server(pictures).run(address, port, stopped, lambda its: say("listening on http://%s:%d/" % (name, its)))
    say("ended")


def run(pictures, address, port, say):
    """Until a signal comes. Raises OSError where the port cannot be had."""
    asyncio.run(serve(pictures, address, port, say))
