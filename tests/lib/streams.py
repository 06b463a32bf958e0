"""A client of HTTP/2, by TLS, of many requests at one time on each connection: so much of RFC 9113 as nginx's replies take."""

import asyncio
import contextlib
import logging
import ssl
import weakref

from .http2 import DATA, END_HEADERS, END_STREAM, HEADERS, PIECE, RESET, frame, text

TRUSTING = ssl.create_default_context()
TRUSTING.check_hostname, TRUSTING.verify_mode = False, ssl.CERT_NONE
TRUSTING.set_alpn_protocols(["h2"])
# A line for each byte that a connection doesn't take any more would say nothing: what isn't answered has no status.
logging.getLogger("asyncio").setLevel(logging.ERROR)
SETTINGS, PING, WINDOW, ACK = 4, 6, 8, 1
MOST_STREAMS, FIRST_WINDOW, ROOM = 3, 4, 2**31 - 1
# The statuses that have a byte of their own, from this one on (RFC 7541, appendix A).
FIRST_STATUS, STATUSES = 0x88, (200, 204, 206, 304, 400, 404, 500)
CANCELLED = (8).to_bytes(4, "big")
# So many seconds who has lost a connection waits before it asks on another.
PAUSE = 0.05
# What listens to connections, which a loop alone wouldn't keep. And of each loop the places for those that are opened at one
# time: nginx drops one whose first request isn't there in five seconds, and a slow loop has many to open.
LISTENING, OPENING = set(), weakref.WeakKeyDictionary()
AT_ONCE = 20


def setting(name, value):
    return name.to_bytes(2, "big") + value.to_bytes(4, "big")


def head(fields):
    return b"".join(b"\0" + text(name.encode()) + text(value.encode()) for name, value in fields)


def status_of(block):
    """The status that a reply's head begins with."""
    while block[0] & 0xE0 == 0x20:
        block = block[1:]
    place = block[0] - FIRST_STATUS
    return STATUSES[place] if 0 <= place < len(STATUSES) else int(block[2:5])


class Http2:
    """One connection to a port, with the fields that each of its requests has. It opens as many streams at one time as the
    other side lets it, or more if it is told to."""

    def __init__(self, port, fields=(), is_greedy=False):
        self.port, self.fields, self.is_greedy = port, list(fields), is_greedy
        self.writer, self.opening = None, asyncio.Lock()

    async def open(self):
        async with OPENING.setdefault(asyncio.get_running_loop(), asyncio.Semaphore(AT_ONCE)):
            await self.greet()

    async def greet(self):
        """Opens a connection, and waits until the other side has told its settings."""
        reader, self.writer = await asyncio.open_connection("127.0.0.1", self.port, ssl=TRUSTING)
        self.next, self.streams, self.places = 1, {}, asyncio.Semaphore(10_000 if self.is_greedy else 100)
        self.is_told = asyncio.Event()
        first = frame(SETTINGS, 0, 0, setting(2, 0) + setting(FIRST_WINDOW, ROOM))
        window = frame(WINDOW, 0, 0, (ROOM - 65_535).to_bytes(4, "big"))
        self.writer.write(b"PRI * HTTP/2.0\r\n\r\nSM\r\n\r\n" + first + window)
        task = asyncio.create_task(self.listen(reader, self.writer, self.streams))
        LISTENING.add(task)
        task.add_done_callback(LISTENING.discard)
        await self.is_told.wait()

    def is_open(self):
        return self.writer is not None and not self.writer.is_closing()

    def send(self, data):
        """Sends bytes, unless the connection has ended."""
        if self.is_open():
            self.writer.write(data)

    async def listen(self, reader, writer, streams):
        """Takes frames until the connection ends; what isn't answered by then has no reply."""
        with contextlib.suppress(OSError, asyncio.IncompleteReadError):
            while True:
                start = await reader.readexactly(9)
                data = await reader.readexactly(int.from_bytes(start[:3], "big"))
                self.take(streams, start[3], start[4], int.from_bytes(start[5:], "big"), data)
        writer.close()
        self.is_told.set()
        for reply in streams.values():
            reply["done"].done() or reply["done"].set_result((None, b""))

    def take(self, streams, kind, flags, stream, data):
        """Takes one frame."""
        reply = streams.get(stream)
        if kind == SETTINGS and not flags & ACK:
            found = {data[at : at + 2]: int.from_bytes(data[at + 2 : at + 6], "big") for at in range(0, len(data), 6)}
            if not self.is_greedy and MOST_STREAMS.to_bytes(2, "big") in found:
                self.places = asyncio.Semaphore(found[MOST_STREAMS.to_bytes(2, "big")])
            self.send(frame(SETTINGS, ACK, 0))
            self.is_told.set()
        elif kind == PING and not flags & ACK:
            self.send(frame(PING, ACK, 0, data))
        elif reply is not None and kind == HEADERS and reply["status"] is None:
            reply["status"] = status_of(data)
        elif reply is not None and kind == DATA:
            reply["body"] += data
        if reply is not None and (kind == RESET or kind in (DATA, HEADERS) and flags & END_STREAM):
            del streams[stream]
            reply["done"].done() or reply["done"].set_result((None if kind == RESET else reply["status"], bytes(reply["body"])))

    def begin(self, method, path, body, fields):
        """Sends a request; its stream, and what its reply comes to."""
        stream, self.next = self.next, self.next + 2
        reply = {"status": None, "body": bytearray(), "done": asyncio.get_running_loop().create_future()}
        self.streams[stream] = reply
        named = [(":method", method), (":scheme", "https"), (":path", path), (":authority", "desk.example")]
        named += [*self.fields, *fields] + ([] if body is None else [("content-length", str(len(body)))])
        sent = frame(HEADERS, END_HEADERS | (END_STREAM if body is None else 0), stream, head(named))
        for at in range(0, len(body or b""), PIECE):
            piece = body[at : at + PIECE]
            sent += frame(DATA, END_STREAM if at + PIECE >= len(body) else 0, stream, piece)
        self.send(sent)
        return stream, reply

    async def ask(self, method, path, body=None, fields=()):
        """The status and the body of a reply; no status if the connection or the stream was closed. Who gives up takes the
        request back."""
        async with self.opening:
            if not self.is_open():
                await self.open()
        async with self.places:
            if not self.is_open():
                await asyncio.sleep(PAUSE)
                return None, b""
            streams, (stream, reply) = self.streams, self.begin(method, path, body, fields)
            try:
                return await reply["done"]
            except asyncio.CancelledError:
                if streams.pop(stream, None) is not None and streams is self.streams:
                    self.send(frame(RESET, 0, stream, CANCELLED))
                raise

    def close(self):
        if self.writer is not None:
            self.writer.transport.abort()
