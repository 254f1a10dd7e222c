"""A relay between clients and `grace serve`. It can cut connections between a request and its reply, hold waits, delay
messages, answer handshakes in place of the server, and speak TLS to clients. `what_to_do` decides about each message of
a client, by its text."""

import asyncio
import contextlib
import json
import re
import threading
from collections import deque

from lib.websocket_client import TEXT, frame, take_frame

PASS = "pass"
# The relay cuts the connection; the message does not reach the server.
CUT_BEFORE = "cut before"
# The message reaches the server, but its reply does not reach the client.
CUT_AFTER = "cut after"

# What the relay does with waits: it leaves them to the server, has them answered at once, or holds them itself.
LEFT = "left"
AT_ONCE = "at once"
HELD = "held"

# How long it waits for the reply after which it cuts: the server may hold it. How long it holds a wait itself.
CUT_SECONDS = 0.1
HOLD_SECONDS = 25
ADDED = re.compile(rb'\["(?:joined|made|taken)",(\d+)')


async def frames_from(reader):
    """Yields the opcode and the payload of each frame of a client. The library sends no fragments. Raises
    IncompleteReadError at the end of the connection."""
    received = bytearray()
    while data := await reader.read(65536):
        received += data
        while (found := take_frame(received)) is not None:
            yield found.first & 15, found.payload
    raise asyncio.IncompleteReadError(bytes(received), None)


class Relay:
    """A relay on its own port, in its own thread. New connections go to the server at `port`."""

    def __init__(self, port, context=None):
        self.port = port
        self.context = context
        self.what_to_do = lambda text: PASS
        self.waits = LEFT
        # How long a message and its reply are on the line.
        self.round_trip_seconds = 0
        # The heads of clients, and the answers to the next of them in place of the server's.
        self.heads = []
        self.answers = deque()
        # The messages of clients, and the number of connections cut at one.
        self.texts = []
        self.cuts = 0
        self.writers = set()
        # The held waits, by the writer to the server. How many entries the record has, if all clients are behind this
        # relay.
        self.held = {}
        self.length = 0

    def __enter__(self):
        self.loop = asyncio.new_event_loop()
        self.thread = threading.Thread(target=self.loop.run_forever, daemon=True)
        self.thread.start()
        self.listener = self.await_in_loop(asyncio.start_server(self.serve, "127.0.0.1", 0, ssl=self.context))
        self.name = "127.0.0.1:{}".format(self.listener.sockets[0].getsockname()[1])
        return self

    def __exit__(self, *_):
        self.await_in_loop(self.end())
        self.loop.call_soon_threadsafe(self.loop.stop)
        self.thread.join()
        self.loop.close()

    def await_in_loop(self, what):
        """Runs a coroutine in the relay's thread and returns its result."""
        return asyncio.run_coroutine_threadsafe(what, self.loop).result(10)

    async def end(self):
        """Closes the listener and cuts all connections."""
        self.listener.close()
        self.abort(*self.writers)
        await asyncio.gather(*asyncio.all_tasks() - {asyncio.current_task()}, return_exceptions=True)

    async def serve(self, reader, writer):
        """Serves one client. This task forwards the client's frames; another returns the server's bytes."""
        self.writers.add(writer)
        cut = asyncio.Event()
        with contextlib.suppress(OSError, asyncio.IncompleteReadError):
            head = await reader.readuntil(b"\r\n\r\n")
            self.heads.append(head.decode())
            if self.answers:
                return await self.answer(writer, self.answers.popleft())
            try:
                answers, server = await asyncio.open_connection("127.0.0.1", self.port)
            except OSError:
                return self.abort(writer)
            self.writers.add(server)
            beside = asyncio.ensure_future(self.hand_back(answers, writer, cut))
            self.send(server, head)
            try:
                await self.hand_on(reader, server, cut)
                # After a cut the other task meets the reply and disconnects.
                await asyncio.wait([beside], timeout=CUT_SECONDS)
            finally:
                self.abort(writer, server)
                await asyncio.wait([beside])

    async def answer(self, writer, lines):
        """Answers a handshake by these lines and a short page, and ends the connection."""
        writer.write("\r\n".join((*lines, "Content-Length: 4", "", "page")).encode())
        await writer.drain()
        writer.close()
        self.writers.discard(writer)

    async def hand_on(self, reader, server, cut):
        """Forwards the frames of a client, up to a cut."""
        async for opcode, payload in frames_from(reader):
            text = payload.decode(errors="replace")
            self.texts.append(text)
            what = self.what_to_do(text)
            self.cuts += what != PASS
            if what == CUT_BEFORE:
                raise ConnectionAbortedError
            if what == CUT_AFTER:
                cut.set()
            self.pass_on(frame(opcode, payload), text, server)
            if cut.is_set():
                return

    def pass_on(self, data, text, server):
        """Passes a message on, as `waits` says."""
        self.release(server)
        if self.waits == LEFT or not text.startswith('["wait"'):
            self.send(server, data)
        elif self.waits == AT_ONCE:
            self.send(server, frame(TEXT, text.replace("wait", "pull", 1).encode()))
        elif json.loads(text)[1] < self.length:
            self.send(server, data)
        else:
            self.held[server] = data
            self.loop.call_later(HOLD_SECONDS, self.release, server, data)

    def send(self, writer, data):
        """Sends bytes on, after half a round trip."""
        if self.round_trip_seconds:
            self.loop.call_later(self.round_trip_seconds / 2, writer.write, data)
        else:
            writer.write(data)

    def release(self, server, data=None):
        """Passes the held wait on, if it is this one."""
        if server in self.held and data in (None, self.held[server]):
            self.send(server, self.held.pop(server))

    async def hand_back(self, answers, writer, cut):
        """Forwards the server's bytes to the client, up to a cut."""
        with contextlib.suppress(OSError):
            while (data := await answers.read(65536)) and not cut.is_set():
                self.send(writer, data)
                self.hear(data)
        self.abort(writer)

    def hear(self, data):
        """Hears what the server sends: a new entry ends all held waits."""
        added = [int(at) + 1 for at in ADDED.findall(data)]
        self.length = max(self.length, *added, 0)
        if added:
            for server in tuple(self.held):
                self.release(server)

    def abort(self, *writers):
        """Aborts connections in any state."""
        for writer in tuple(writers):
            writer.transport.abort()
            self.writers.discard(writer)
            self.held.pop(writer, None)

    def cut(self):
        """Cuts all connections."""
        self.loop.call_soon_threadsafe(lambda: self.abort(*tuple(self.writers)))

    def cut_once(self, start, what):
        """Cuts once, in this way, at the first message that begins with `start`."""

        def decide(text):
            if not text.startswith(start):
                return PASS
            self.what_to_do = lambda text: PASS
            return what

        self.what_to_do = decide
