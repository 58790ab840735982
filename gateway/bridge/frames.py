"""The frames of HTTP/2 that pass between a client and gRPC, looked at by their heads, and what a client may send of them."""

from __future__ import annotations

import struct
import time
from collections.abc import Iterator
from typing import NamedTuple

PREFACE = b"PRI * HTTP/2.0\r\n\r\nSM\r\n\r\n"
HEAD, HEAD_FORM = 9, struct.Struct(">IBI")  # before what a frame carries: length and kind, flags, stream
DATA, HEADERS, RST_STREAM, SETTINGS, PING, CONTINUATION = 0, 1, 3, 4, 6, 9  # the kinds of frames that are looked at
NOT_LOOKED_AT = {2, 5, 7, 8}  # PRIORITY, PUSH_PROMISE, GOAWAY, WINDOW_UPDATE
END_STREAM = 1  # a flag
MOST_HEADER_BYTES = 16_384  # of one call's header, as it is sent
MOST_HEADER_FRAMES = 16
MOST_STREAMS = 100  # open at once on one connection
MOST_GIVEN_UP, GIVEN_UP_A_SECOND = 100, 50  # calls that a client may reset at once, and goes on to
MOST_EMPTY, EMPTY_A_SECOND = 1_000, 1_000  # frames of data with no byte, and headers that begin no call
MOST_PINGS, PINGS_A_SECOND = 2_000, 2_000  # some clients send one for each piece of an answer
MOST_SETTINGS, SETTINGS_A_SECOND = 100, 10


class Flood(Exception):
    """A client sent what no client needs to send."""


class Budget:
    """So much at once, and so much more each second."""

    def __init__(self, most: float, a_second: float):
        self.most, self.a_second, self.left, self.at = most, a_second, most, time.monotonic()

    def take(self, count: int = 1) -> bool:
        """Whether there was so much left. It is taken in any case."""
        now = time.monotonic()
        self.left = min(self.most, self.left + (now - self.at) * self.a_second) - count
        self.at = now
        return self.left >= 0

    def debt(self) -> float:
        """The seconds until there is something left again."""
        self.take(0)
        return max(0.0, -self.left / self.a_second)


class Frame(NamedTuple):
    """The head of a frame."""

    length: int
    kind: int
    flags: int
    stream: int


class Heads:
    """Finds the heads of frames in bytes, however these are cut. Those of data in the middle of a call are passed over."""

    def __init__(self):
        self.head, self.rest = bytearray(), 0

    def of(self, data: memoryview) -> Iterator[Frame]:
        place, size = self.rest, len(data)
        while place < size:
            if self.head or size - place < HEAD:
                more = data[place : place + HEAD - len(self.head)]
                self.head += more
                place += len(more)
                if len(self.head) < HEAD:
                    break
                word, flags, stream = HEAD_FORM.unpack(self.head)
                self.head.clear()
            else:
                word, flags, stream = HEAD_FORM.unpack_from(data, place)
                place += HEAD
            length, kind = word >> 8, word & 255
            place += length
            if kind == DATA and length and not flags & END_STREAM or kind in NOT_LOOKED_AT:
                continue
            yield Frame(length, kind, flags, stream & 0x7FFFFFFF)
        self.rest = place - size


class Streams:
    """The calls that are open on a connection, and what its client may still send."""

    def __init__(self):
        self.open: set[int] = set()
        self.told = self.last = self.header_bytes = self.header_frames = 0
        self.given_up, self.empty = Budget(MOST_GIVEN_UP, GIVEN_UP_A_SECOND), Budget(MOST_EMPTY, EMPTY_A_SECOND)
        self.pings, self.settings = Budget(MOST_PINGS, PINGS_A_SECOND), Budget(MOST_SETTINGS, SETTINGS_A_SECOND)

    def news(self) -> int:
        """How many more calls are open than when this was asked last."""
        more, self.told = len(self.open) - self.told, len(self.open)
        return more

    def is_given_up_by(self, frame: Frame) -> bool:
        return frame.kind == RST_STREAM and frame.stream in self.open

    def look_at_client(self, frame: Frame) -> None:
        """Looks at a frame of the client's."""
        if frame.kind in (HEADERS, CONTINUATION):
            self.look_at_header(frame)
        elif frame.kind == DATA:
            if frame.length == 0 and not frame.flags & END_STREAM:
                spend(self.empty, "frames without data")
        elif frame.kind == RST_STREAM:
            if frame.stream in self.open:
                self.open.remove(frame.stream)
                spend(self.given_up, "calls that are given up")
        elif frame.kind == PING:
            spend(self.pings, "pings")
        else:
            spend(self.settings, "settings, or frames of no kind")

    def look_at_header(self, frame: Frame) -> None:
        if frame.kind == HEADERS:
            self.header_bytes = self.header_frames = 0
            if frame.stream > self.last:
                self.last = frame.stream
                self.open.add(frame.stream)
            else:
                spend(self.empty, "headers of no new call")
        self.header_bytes, self.header_frames = self.header_bytes + frame.length, self.header_frames + 1
        if self.header_bytes > MOST_HEADER_BYTES or self.header_frames > MOST_HEADER_FRAMES:
            raise Flood("a header that is too long")
        if len(self.open) > MOST_STREAMS:
            raise Flood("calls at once")

    def look_at_server(self, frame: Frame) -> None:
        """Looks at a frame of gRPC's, which may end a call."""
        if frame.kind == RST_STREAM or frame.kind in (DATA, HEADERS) and frame.flags & END_STREAM:
            self.open.discard(frame.stream)


def spend(budget: Budget, what: str) -> None:
    if not budget.take():
        raise Flood(what)
