"""Calls over records: sockets to a `flightscan serve` (docs/PROTOCOL.md, section 2)."""

from __future__ import annotations

import select
import socket
import struct
import threading
from collections import deque
from collections.abc import Iterable, Iterator, Sequence
from contextlib import contextmanager, suppress
from typing import Any

import numpy as np

from .errors import Error, InterfaceError, OperationalError, fault, in_doubt, refusal
from .messages import SERVICE

OPEN, MESSAGE, END, STATUS = 1, 2, 3, 4  # the kinds of records
LONGEST_MESSAGE = 16_777_216
ALIGNMENT = 64
MOST_PIECES = 512  # of one system call
MOST_IDLE = 2  # sockets that a connection keeps; each takes a seat of the server
Piece = Any  # bytes, a memoryview, or an array of bytes
Pieces = Sequence[Piece]


def room_for(length: int) -> memoryview:
    """Memory for a message that ends at a multiple of 64 bytes.

    The body comes last in a message and its length is a multiple of 8, so the body begins at such a multiple, and so do
    its buffers: columns that are views of it are aligned.
    """
    room = np.empty(length + ALIGNMENT, np.uint8)
    begin = -(room.__array_interface__["data"][0] + length) % ALIGNMENT
    return room.data[begin : begin + length]


class Link:
    """A socket to the server. It carries one call after another, and keeps a seat while it is open."""

    def __init__(self, host: str, port: int, timeout: float | None):
        self.server, self.timeout, self.seen = f"{host}:{port}", timeout, 0
        self.is_between = True  # calls: the last one was sent and answered to its end
        self.is_broken_off = False
        try:
            self.socket = socket.create_connection((host, port), timeout)
        except (OSError, UnicodeError) as failed:  # (the latter by a name that can't be one of a host)
            raise fault(22, f"no server: {failed}", self.server) from None
        with suppress(OSError):
            self.socket.setsockopt(socket.IPPROTO_TCP, socket.TCP_NODELAY, 1)

    def close(self) -> None:
        self.socket.close()

    def break_off(self) -> None:
        """Ends the call that another thread makes; that thread closes the socket."""
        self.is_broken_off = True
        with suppress(OSError):
            self.socket.shutdown(socket.SHUT_RDWR)

    def is_whole(self) -> bool:
        """Whether the server still has this connection, and has said nothing after the last answer."""
        looked = select.poll()
        looked.register(self.socket, select.POLLIN)
        return not looked.poll(0)

    # ---- sent

    def send_call(self, method: str, messages: Iterable[Pieces]) -> None:
        """Sends a call's records, each message as it is made. The server answers after the last."""
        self.is_between = False
        path = (SERVICE + method).encode()
        held: list[Piece] = [struct.pack(">BH", OPEN, len(path)) + path]
        for pieces in messages:
            length = sum(map(len, pieces))
            if length > LONGEST_MESSAGE:
                raise fault(2, f"a message of {length} bytes", self.server)
            self.send([*held, struct.pack(">BBI", MESSAGE, 0, length), *pieces])
            held = []
        self.send([*held, bytes([END])])

    def send(self, pieces: Pieces) -> None:
        """Sends pieces from where they lie, without joining them."""
        views = [memoryview(piece) for piece in pieces if len(piece)]
        first = 0
        try:
            while first < len(views):
                sent = self.socket.sendmsg(views[first : first + MOST_PIECES])
                while first < len(views) and sent >= len(views[first]):
                    sent -= len(views[first])
                    first += 1
                if sent:
                    views[first] = views[first][sent:]
        except OSError as failed:
            raise self.last_word(failed) from None

    def last_word(self, failed: OSError) -> Error:
        """Why the server ended the connection inside a call, where it said so."""
        if isinstance(failed, TimeoutError):
            return self.lost(failed)
        try:
            for _ in self.answer():
                pass
        except Error as said:
            if said.code is not None:
                return said
        return self.lost(failed)

    def lost(self, failed: OSError | None = None) -> OperationalError:
        if self.is_broken_off:
            said = "the connection was closed"
        elif isinstance(failed, TimeoutError) and failed.errno is None and self.timeout is not None:
            said = f"no byte in {self.timeout:g} seconds; perhaps all seats of the server are taken"
        else:
            said = f"the connection broke: {failed}" if failed else "the server ended the connection"
        return OperationalError(str(fault(22, said)), None, self.server)

    # ---- read

    def fill(self, view: memoryview) -> memoryview:
        """Reads as many bytes as there is room for, right to their place."""
        place, length = 0, len(view)
        while place < length:
            try:
                more = self.socket.recv_into(view[place:] if place else view)
            except OSError as failed:
                raise self.lost(failed) from None
            if more == 0:
                raise self.lost()
            place += more
        return view

    def take(self, count: int) -> memoryview:
        return self.fill(memoryview(bytearray(count)))

    def answer(self) -> Iterator[memoryview]:
        """The messages of an answer, as they come. A Status other than 0 is raised."""
        while (kind := self.take(1)[0]) == MESSAGE:
            flag, length = struct.unpack(">BI", self.take(5))
            if flag != 0 or length > LONGEST_MESSAGE:
                raise fault(1, "the server's answer breaks the rules of records", self.server)
            yield self.fill(room_for(length))
        if kind != STATUS:
            raise fault(1, "the server's answer breaks the rules of records", self.server)
        code, length = struct.unpack(">BH", self.take(3))
        said = bytes(self.take(length)).decode(errors="replace")
        self.is_between = True
        if code != 0:
            raise refusal(said, code, self.server)


class Records:
    """The sockets of one connection of the user.

    The server promises that a call sees the puts that its own socket made before, and those made before the socket was
    accepted. So a call that asks about tables takes a socket that has seen all puts of this connection, or a new one.
    A fetch may take any, since its ticket names a version.

    Python may end a call that was left at any moment, also in a thread that has the lock. So an end never waits for it:
    `ended` holds the ends until whoever has the lock, or takes it next, has done them.
    """

    def __init__(self, host: str, port: int, timeout: float | None):
        self.host, self.port, self.timeout, self.server = host, port, timeout, f"{host}:{port}"
        self.lock, self.puts, self.is_closed = threading.Lock(), 0, False
        self.idle: list[Link] = []
        self.used: set[Link] = set()
        self.ended: deque[tuple[Link, str]] = deque()

    def close(self) -> None:
        """Closes the sockets that no call has, and breaks the calls off that go on."""
        with self.locked():
            self.is_closed, idle, self.idle = True, self.idle, []
            for link in self.used:
                link.break_off()
        for link in idle:
            link.close()

    def call(self, method: str, messages: Iterable[Pieces]) -> Iterator[memoryview]:
        """The messages that answer a call. What refuses it is raised, and a call that is left early closes its socket.

        No call is sent again: a put whose answer is lost may have been made.
        """
        link, is_sent = self.take(method), False
        try:
            link.send_call(method, messages)
            is_sent = True
            yield from link.answer()
        except Error as failed:
            if method == "DoPut" and is_sent and failed.code is None:
                raise in_doubt(failed) from None
            raise
        finally:
            self.end(link, method)

    def take(self, method: str) -> Link:
        """A socket for a call, which `end` takes back."""
        with self.locked():
            if self.is_closed:
                raise InterfaceError("the connection is closed")
            puts, idle = self.puts, self.idle
            wanted = [link for link in idle if method == "DoGet" or link.seen == puts]
            wanted.sort(key=lambda link: link.seen, reverse=True)
            while wanted:
                link = wanted.pop()
                idle.remove(link)
                if link.is_whole():
                    self.used.add(link)
                    return link
                link.close()
        link = Link(self.host, self.port, self.timeout)
        link.seen = puts
        with self.locked():
            self.used.add(link)
            if self.is_closed:
                link.break_off()
        return link

    def end(self, link: Link, method: str) -> None:
        """Gives a socket back whose call has ended."""
        self.ended.append((link, method))
        self.do_ends()

    @contextmanager
    def locked(self) -> Iterator[None]:
        """Holds the lock, with all ends so far done."""
        try:
            with self.lock:
                self.do_ends_inside()
                yield
        finally:
            self.do_ends()

    def do_ends(self) -> None:
        """Does the ends. If another one has the lock, that one does them."""
        while self.ended and self.lock.acquire(blocking=False):
            try:
                self.do_ends_inside()
            finally:
                self.lock.release()

    def do_ends_inside(self) -> None:
        """Keeps each socket for the next call where its call went to its end, and else closes it."""
        while self.ended:
            link, method = self.ended.popleft()
            self.used.discard(link)
            if method == "DoPut":
                link.seen += link.seen == self.puts
                self.puts += 1
            if not link.is_between or self.is_closed:
                link.close()
                continue
            self.idle.append(link)
            if len(self.idle) > MOST_IDLE:
                oldest = min(self.idle, key=lambda one: one.seen)
                self.idle.remove(oldest)
                oldest.close()
