"""The records of section 2 of docs/PROTOCOL.md, and a connection to the server that carries them."""

from __future__ import annotations

import asyncio
import contextlib
import socket
import struct
from collections.abc import AsyncIterator, Callable, Iterator
from dataclasses import dataclass

import grpc

from bridge.refusals import ServerRefusal, Refused, ServerGone, other_server

HOST = "127.0.0.1"
SERVICE = "/arrow.flight.protocol.FlightService/"
OPEN, MESSAGE, END, STATUS = 1, 2, 3, 4  # the kinds of records
LONGEST_MESSAGE = 16_777_216
LONGEST_JOINED = 65_536  # a message of more bytes is sent as it lies, and not joined with what stands before it
CODES = {code.value[0]: code for code in grpc.StatusCode}


@dataclass
class Status:
    """A Status record."""

    code: int
    text: str

    def refusal(self, kind: type[Refused]) -> Refused:
        return kind(CODES.get(self.code, grpc.StatusCode.UNKNOWN), self.text)


class Connection:
    """A connection to the server. It carries one call after another, and keeps a seat while it is open."""

    def __init__(self, stream: socket.socket):
        self.loop, self.socket, self.unsent = asyncio.get_running_loop(), stream, bytearray()
        self.closing: asyncio.TimerHandle | None = None

    @classmethod
    async def connect(cls, port: int) -> Connection:
        """A connection that has a seat. The server answers nothing before it has one, so it is asked what costs nothing."""
        connection = cls(socket.socket())
        try:
            connection.socket.setblocking(False)
            connection.socket.setsockopt(socket.IPPROTO_TCP, socket.TCP_NODELAY, 1)
            await connection.loop.sock_connect(connection.socket, (HOST, port))
            connection.open_call("/seat")
            await connection.end_call()
            if await connection.record() != Status(12, "F3 UnknownMethod"):
                raise other_server()
        except BaseException as failed:
            connection.close()
            if isinstance(failed, (OSError, ServerGone)):
                raise Refused(grpc.StatusCode.UNAVAILABLE, f"no server on {HOST}:{port}") from None
            raise
        return connection

    def close(self) -> None:
        self.socket.close()

    def is_whole(self) -> bool:
        """Whether the server still has this connection, and has said nothing after the last answer."""
        try:
            self.socket.recv(1, socket.MSG_PEEK)
        except BlockingIOError:
            return True
        except OSError:
            return False
        return False

    # ---- sent

    def open_call(self, path: str) -> None:
        name = path.encode()
        self.unsent += struct.pack(">BH", OPEN, len(name)) + name

    async def send_message(self, message: bytes) -> None:
        """A Message. Small ones wait for the next one, or for the End: the server does nothing before that."""
        self.unsent += struct.pack(">BBI", MESSAGE, 0, len(message))
        if len(self.unsent) + len(message) <= LONGEST_JOINED:
            self.unsent += message
        else:
            await self.flush()
            await self.loop.sock_sendall(self.socket, message)

    async def end_call(self) -> None:
        self.unsent.append(END)
        await self.flush()

    async def flush(self) -> None:
        sent, self.unsent = self.unsent, bytearray()
        await self.loop.sock_sendall(self.socket, sent)

    @contextlib.contextmanager
    def watched(self, early: Callable[[], None]) -> Iterator[None]:
        """Calls a function where the server speaks, or ends the connection, before it is asked."""

        def spoke() -> None:
            self.loop.remove_reader(self.socket)
            early()

        self.loop.add_reader(self.socket, spoke)
        try:
            yield
        finally:
            self.loop.remove_reader(self.socket)

    # ---- read

    async def take(self, count: int) -> bytes:
        """So many bytes."""
        data, place = bytearray(count), 0
        view = memoryview(data)
        while place < count:
            try:
                more = await self.loop.sock_recv_into(self.socket, view[place:])
            except OSError:
                more = 0
            if more == 0:
                raise ServerGone
            place += more
        return bytes(data)

    async def record(self) -> bytes | Status:
        """The next record of an answer: a Message, or the Status at its end."""
        (kind,) = await self.take(1)
        if kind == MESSAGE:
            flag, length = struct.unpack(">BI", await self.take(5))
            if flag == 0 and length <= LONGEST_MESSAGE:
                return await self.take(length)
        elif kind == STATUS:
            code, length = struct.unpack(">BH", await self.take(3))
            with contextlib.suppress(UnicodeDecodeError):
                return Status(code, (await self.take(length)).decode())
        raise other_server()

    async def last_word(self) -> Refused:
        """Why the server ended the connection inside a call, where it said so."""
        said = await self.record()
        if isinstance(said, Status) and said.code != 0:
            return said.refusal(Refused)
        return other_server()

    # ---- whole calls

    async def messages(self) -> AsyncIterator[bytes]:
        """The Messages of an answer. A Status other than 0 at its end is raised."""
        while isinstance(said := await self.record(), bytes):
            yield said
        if said.code != 0:
            raise said.refusal(ServerRefusal)

    async def ask(self, method: str, message: bytes) -> list[bytes]:
        """The whole answer to a call of one message, which the gateway makes by itself."""
        self.open_call(SERVICE + method)
        await self.send_message(message)
        await self.end_call()
        return [said async for said in self.messages()]
