"""What clients connect to: it passes their bytes to gRPC, and gRPC's to them, and cuts off who floods it.

gRPC's library for Python takes what comes: thousands of calls that are begun and given up, or headers without end, keep it busy
for seconds. So gRPC listens on a socket of a folder that only this process's user may enter. The front looks at the heads of
HTTP/2's frames, and closes a connection that breaks a bound of `frames.py`.
"""

from __future__ import annotations

import asyncio
import collections
import contextlib
import select
import socket
import ssl
from asyncio import sslproto

import grpc.aio

from bridge.frames import PREFACE, Budget, Flood, Heads, Streams

sslproto.SSLProtocol.max_size = 16_384  # the buffer of a connection of TLS; else it has 262,144 bytes

MOST_CONNECTIONS = 1_000
MOST_CALLS = 1_100  # open at once on all connections
PREFACE_SECONDS = 10  # until a client has said that it speaks HTTP/2, with TLS before that
CLOSE_SECONDS = 10  # that a client may take to read the rest, where gRPC ends its connection
PIECE = 131_072  # bytes that are read at once
ROOM = 1_048_576  # that the system keeps between a client's end and gRPC
MOST_GIVEN_UP, GIVEN_UP_A_SECOND = 400, 200  # calls of all clients; where there are more, new connections wait
FREE_TO_GIVE_UP = 10  # calls of a client, whatever others do
TURN_SECONDS = 0.05  # that the calls of one who waited have, until they reach gRPC


class Front:
    """The listener, and what all connections have together."""

    def __init__(self, inner: str):
        self.inner, self.loop, self.room = inner, asyncio.get_running_loop(), memoryview(bytearray(PIECE))
        self.connections = self.calls = 0
        self.given_up, self.waiting = Budget(MOST_GIVEN_UP, GIVEN_UP_A_SECOND), collections.deque()
        self.turns: asyncio.Task | None = None
        self.turn = grpc.aio.insecure_channel(f"unix:{inner}").unary_unary("/flightscan/turn")  # which gRPC refuses in its turn

    async def listen(self, address: str, port: int, context: ssl.SSLContext | None) -> int:
        """Listens, and tells the port."""
        server = await self.loop.create_server(lambda: Door(self, context), address, port, backlog=256)
        return server.sockets[0].getsockname()[1]

    def admit(self, client: Client) -> None:
        """Lets a new connection in: at once, or in its turn where clients gave up too many calls."""
        if self.turns is None and self.given_up.debt() == 0:
            client.enter()
            return
        self.loop.call_soon(client.transport.pause_reading)  # not at once: in Python 3.11.2 it begins to read only after this
        self.waiting.append(client)
        if self.turns is None:
            self.turns = self.loop.create_task(self.give_turns())

    async def give_turns(self) -> None:
        """Lets in who waits, one after the other, each after gRPC has begun the calls that came before."""
        while self.waiting:
            await asyncio.sleep(self.given_up.debt())
            with contextlib.suppress(grpc.aio.AioRpcError):
                await self.turn(b"")
            self.next_waiting()
            await asyncio.sleep(TURN_SECONDS)
        self.turns = None

    def next_waiting(self) -> None:
        """Lets one in that is still there."""
        while self.waiting:
            client = self.waiting.popleft()
            if not client.is_gone():
                client.enter()
                return
            client.transport.abort()

    def gave_up(self, client: Client) -> None:
        """Counts a call that was given up. Where all gave up too many, who gave up several is cut off."""
        client.given_up += 1
        if not self.given_up.take() and client.given_up > FREE_TO_GIVE_UP:
            raise Flood("calls that all clients give up")


class Door(asyncio.Protocol):
    """What a new connection meets: it is counted, and becomes one of TLS where there is a certificate."""

    def __init__(self, front: Front, context: ssl.SSLContext | None):
        self.front, self.context = front, context
        self.beginning: asyncio.Task | None = None

    def connection_made(self, transport: asyncio.Transport) -> None:
        if self.front.connections >= MOST_CONNECTIONS:
            transport.abort()
            return
        self.front.connections += 1
        client = Client(self.front)
        if self.context is None:
            transport.set_protocol(client)
            client.connection_made(transport)
        else:
            self.beginning = self.front.loop.create_task(self.begin_tls(transport, client))

    async def begin_tls(self, transport: asyncio.Transport, client: Client) -> None:
        try:
            inside = await self.front.loop.start_tls(transport, client, self.context, server_side=True,
                                                     ssl_handshake_timeout=PREFACE_SECONDS)
        except Exception:  # whatever a client can make of TLS
            inside = None
        if inside is None or inside.is_closing():
            transport.abort()
            self.front.connections -= 1
        else:
            client.connection_made(inside)


class End(asyncio.BufferedProtocol):
    """One end of what passes: its bytes go to the other end, as fast as that one takes them."""

    def __init__(self, front: Front):
        self.front, self.heads = front, Heads()
        self.transport: asyncio.Transport | None = None
        self.other: End | None = None

    def get_buffer(self, hint: int) -> memoryview:
        return self.front.room  # one for all: what is read is passed on before anything else is read

    def pause_writing(self) -> None:
        if self.other is not None and self.other.transport is not None:
            self.other.transport.pause_reading()

    def resume_writing(self) -> None:
        if self.other is not None and self.other.transport is not None:
            self.other.transport.resume_reading()

    def eof_received(self) -> bool:
        return False  # so that it is closed

    def connection_lost(self, why: Exception | None) -> None:
        if self.other is not None and self.other.transport is not None:
            self.other.transport.close()


class Grpc(End):
    """The end at gRPC's library."""

    def __init__(self, client: Client):
        super().__init__(client.front)
        self.other, self.streams = client, client.streams

    def connection_made(self, transport: asyncio.Transport) -> None:
        self.transport = transport
        transport.get_extra_info("socket").setsockopt(socket.SOL_SOCKET, socket.SO_SNDBUF, ROOM)

    def buffer_updated(self, count: int) -> None:
        data = self.front.room[:count]
        for frame in self.heads.of(data):
            self.streams.look_at_server(frame)
        self.front.calls += self.streams.news()
        self.other.transport.write(bytes(data))

    def connection_lost(self, why: Exception | None) -> None:
        super().connection_lost(why)
        if self.other.transport.get_write_buffer_size() > 0:  # of what is left
            self.front.loop.call_later(CLOSE_SECONDS, self.other.transport.abort)


class Client(End):
    """The end at a client."""

    def __init__(self, front: Front):
        super().__init__(front)
        self.streams, self.early, self.held, self.is_http = Streams(), bytearray(), bytearray(), False
        self.given_up = 0
        self.reaching: asyncio.Task | None = None
        self.late: asyncio.TimerHandle | None = None

    def connection_made(self, transport: asyncio.Transport) -> None:
        self.transport = transport
        self.front.admit(self)

    def is_gone(self) -> bool:
        """Whether the client has left, also where nothing is read of it."""
        if self.transport.is_closing():
            return True
        look = select.poll()
        look.register(self.transport.get_extra_info("socket"), select.POLLRDHUP)
        return bool(look.poll(0))

    def enter(self) -> None:
        """Reads what the client sends, from now on."""
        self.late = self.front.loop.call_later(PREFACE_SECONDS, self.transport.abort)
        self.transport.resume_reading()
        if self.early:
            self.take(bytes(self.early))
            self.early.clear()

    def buffer_updated(self, count: int) -> None:
        data = bytes(self.front.room[:count])
        if self.late is None:  # TLS gives what came with its own last message before it says that it has begun
            self.early += data
        else:
            self.take(data)

    def take(self, data: bytes) -> None:
        try:
            self.look_at(memoryview(data))
        except Flood:
            self.transport.abort()
            return
        if self.other is not None and self.other.transport is not None:
            self.other.transport.write(data)
        else:
            self.held += data

    def look_at(self, data: memoryview) -> None:
        """Looks at the frames of these bytes, after the preface. Then gRPC's end is made, and nothing is read meanwhile."""
        if not self.is_http:
            begun = bytes(self.held) + bytes(data)
            if begun[: len(PREFACE)] != PREFACE[: len(begun)]:
                raise Flood("it is not HTTP/2")
            if len(begun) < len(PREFACE):
                return
            self.is_http, data = True, data[len(PREFACE) - len(self.held) :]
            self.late.cancel()
            self.transport.pause_reading()
            self.reaching = self.front.loop.create_task(self.reach_grpc())
        for frame in self.heads.of(data):
            if self.streams.is_given_up_by(frame):
                self.front.gave_up(self)
            self.streams.look_at_client(frame)
        self.front.calls += self.streams.news()
        if self.front.calls > MOST_CALLS:
            raise Flood("calls of all clients at once")

    async def reach_grpc(self) -> None:
        self.other = Grpc(self)
        try:
            await self.front.loop.create_unix_connection(lambda: self.other, self.front.inner)
        except OSError:
            self.transport.abort()
            return
        if self.transport.is_closing():
            self.other.transport.close()
            return
        self.other.transport.write(bytes(self.held))
        self.held.clear()
        self.transport.resume_reading()

    def connection_lost(self, why: Exception | None) -> None:
        if self.late is not None:
            self.late.cancel()
        if self.transport is not None:  # else TLS did not begin
            self.front.connections -= 1
            self.front.given_up.take(len(self.streams.open))
            self.streams.open.clear()
            self.front.calls += self.streams.news()
        super().connection_lost(why)
