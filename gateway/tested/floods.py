"""Cases of clients that flood: by frames of HTTP/2 that are made here, while another client goes on calling."""

from __future__ import annotations

import contextlib
import itertools
import resource
import socket
import struct
import threading
import time
from collections.abc import Callable, Iterator
from random import Random

import wire
from bridge.frames import Heads
from random_calls.answers import same
from served.cases import MEGABYTE

from tested.cases import case
from tested.client import SERVICE, Client
from tested.running import Run, StubServer

PREFACE = b"PRI * HTTP/2.0\r\n\r\nSM\r\n\r\n"
DATA, HEADERS, RST_STREAM, SETTINGS, PING, WINDOW_UPDATE, CONTINUATION = 0, 1, 3, 4, 6, 8, 9  # kinds of frames: RFC 9113, 6
END_HEADERS = 4  # a flag
CANCEL = 8  # an error code
DONE = b"\x04\0\0\0"
CONNECTIONS = 1_000  # that the gateway takes
SECONDS = 2.0  # that another client waits at most while one floods


def frame(kind: int, flags: int, stream: int, content: bytes = b"") -> bytes:
    """RFC 9113, 4.1: a length of 24 bits, a kind, flags, a stream, and what it carries."""
    return struct.pack(">I", len(content))[1:] + struct.pack(">BBI", kind, flags, stream) + content


def text(value: bytes) -> bytes:
    """RFC 7541, 5.2: a string that is not compressed."""
    return bytes([len(value)]) + value


def header_block(method: str) -> bytes:
    """RFC 7541, 6.2.2: what begins a call of gRPC, each field as a literal without indexing, under a new name."""
    fields = [(":method", "POST"), (":scheme", "http"), (":path", SERVICE + method), (":authority", "x"), ("te", "trailers"),
              ("content-type", "application/grpc")]
    return b"".join(b"\0" + text(name.encode()) + text(value.encode()) for name, value in fields)


BLOCK = header_block("DoGet")


def begun(stream: int) -> bytes:
    """A call of which nothing but its header comes."""
    return frame(HEADERS, END_HEADERS, stream, BLOCK)


def streams(count: int) -> range:
    return range(1, 2 * count, 2)


@contextlib.contextmanager
def raw(port: int) -> Iterator[socket.socket]:
    """A connection that has said that it speaks HTTP/2."""
    with socket.create_connection(("127.0.0.1", port), 20) as found:
        found.sendall(PREFACE + frame(SETTINGS, 0, 0))
        yield found


def poured(port: int, parts: Iterator[bytes]) -> bool:
    """Sends what it is given, and reads what comes. Tells whether it was cut off."""
    with raw(port) as stream:
        stream.setblocking(True)
        stop = threading.Event()

        def drain() -> None:
            with contextlib.suppress(OSError):
                while stream.recv(65_536):
                    pass
            stop.set()

        threading.Thread(target=drain, daemon=True).start()
        try:
            for part in parts:
                stream.sendall(part)
            return stop.wait(1)
        except OSError:
            return True


class Others:
    """A client that goes on calling, each time also as a new one, and the longest times that it waited."""

    def __init__(self, port: int):
        self.port, self.longest, self.newest, self.calls, self.stop = port, 0.0, 0.0, 0, threading.Event()
        self.failed: list[str] = []
        self.thread = threading.Thread(target=self.run, daemon=True)

    def __enter__(self) -> Others:
        self.thread.start()
        time.sleep(0.3)
        return self

    def __exit__(self, *_: object) -> None:
        self.stop.set()
        self.thread.join(60)

    def run(self) -> None:
        with Client(self.port) as client:
            while not self.stop.is_set():
                self.longest = max(self.longest, self.timed(client))
                with Client(self.port) as other:
                    self.newest = max(self.newest, self.timed(other))
                time.sleep(0.02)

    def timed(self, client: Client) -> float:
        began = time.monotonic()
        answer = client.answer("DoGet", [b"x"], 60)
        self.calls += 1
        if answer != wire.Answer([b"x"], 0, ""):
            self.failed.append(repr(answer))
        return time.monotonic() - began

    def said(self) -> str:
        return f"{self.longest:.2f} s, as a new client {self.newest:.2f} s"


def echo(path: bytes, messages: list[bytes]) -> bytes:
    return b"".join(map(wire.record_message, messages)) + DONE


WINDOWS = "100,000 openings of a window"  # which cost little, and pass
FLOODS: dict[str, Callable[[], Iterator[bytes]]] = {
    "20,000 calls that are begun and given up":
        lambda: (begun(one) + frame(RST_STREAM, 0, one, struct.pack(">I", CANCEL)) for one in streams(20_000)),
    "10,000 calls that are only begun": lambda: map(begun, streams(10_000)),
    "a header of 20,000 parts of 10,000 bytes":
        lambda: itertools.chain([frame(HEADERS, 0, 1, BLOCK)],
                                itertools.repeat(frame(CONTINUATION, 0, 1, bytes(10_000)), 20_000)),
    "a header of 20,000 empty parts":
        lambda: itertools.chain([frame(HEADERS, 0, 1, BLOCK)], itertools.repeat(frame(CONTINUATION, 0, 1), 20_000)),
    "20,000 frames of data without a byte":
        lambda: itertools.chain([begun(1)], itertools.repeat(frame(DATA, 0, 1), 20_000)),
    "20,000 headers of one call": lambda: itertools.repeat(begun(1), 20_000),
    "100,000 pings": lambda: itertools.repeat(frame(PING, 0, 0, bytes(8)), 100_000),
    "100,000 settings": lambda: itertools.repeat(frame(SETTINGS, 0, 0), 100_000),
    WINDOWS: lambda: itertools.chain([begun(1)],
                                     itertools.repeat(frame(WINDOW_UPDATE, 0, 1, struct.pack(">I", 1)), 100_000)),
    "20 MB that are not HTTP/2": lambda: itertools.repeat(bytes(65_536), 320),
}


@case("frames at random, in pieces at random: the heads of all but data in the middle of a call and what is not looked at")
def heads(run: Run) -> str:
    count = 0
    for seed in range(300):
        random, heads, found, place = Random(seed), Heads(), [], 0
        made = [(random.choice([0, 1, 2, 3, 50, 300]), random.choice([DATA, HEADERS, 2, RST_STREAM, SETTINGS, PING, WINDOW_UPDATE,
                                                                      CONTINUATION, 11]),
                 random.choice([0, 1, 4, 5]), random.randrange(1 << 31)) for _ in range(random.randrange(1, 12))]
        data = b"".join(frame(kind, flags, stream, bytes(length)) for length, kind, flags, stream in made)
        while place < len(data):
            size = random.choice([1, 2, 5, 9, 10, 40, 1_000])
            found += [tuple(one) for one in heads.of(memoryview(data)[place : place + size])]
            place += size
        wanted = [one for one in made if one[1] not in (2, WINDOW_UPDATE) and not (one[1] == DATA and one[0] and not one[2] & 1)]
        same(f"the heads of seed {seed}", wanted, found)
        count += len(made)
    return f"{count:,} frames"


@case("clients that flood one after the other: each is cut off, and another client, also a new one, waits two seconds at most")
def floods(run: Run) -> str:
    longest = newest = held = 0.0
    with StubServer(echo) as stub, run.behind(stub.port) as gateway:
        for name, parts in FLOODS.items():
            with Others(gateway.port) as others:
                is_cut = poured(gateway.port, parts())
                time.sleep(0.5)
            same(f"{name}: it was cut off", name != WINDOWS, is_cut)
            same(f"{name}: others were refused", [], others.failed)
            same(f"{name}: others waited {others.said()}", True, max(others.longest, others.newest) < SECONDS)
            longest, newest = max(longest, others.longest), max(newest, others.newest)
        held = gateway.most_held() / MEGABYTE
        same(f"it held {held:.0f} MB, less than 100", True, held < 100)
    return f"{len(FLOODS)} floods, others waited {longest:.2f} s, as new clients {newest:.2f} s; {held:.0f} MB held"


@case("clients that begin 100 calls, leave and come again: who is there already goes on, and new ones wait in turn")
def again(run: Run) -> str:
    calls, stop, count = b"".join(map(begun, streams(100))), threading.Event(), 0

    def come_again() -> None:
        while not stop.is_set():
            with contextlib.suppress(OSError), raw(gateway.port) as stream:
                stream.sendall(calls)
                stop.wait(0.2)

    with StubServer(echo) as stub, run.behind(stub.port) as gateway, Client(gateway.port) as client:
        same("before", wire.Answer([b"x"], 0, ""), client.answer("DoGet", [b"x"]))
        threads = [threading.Thread(target=come_again, daemon=True) for _ in range(4)]
        for thread in threads:
            thread.start()
        time.sleep(2)  # until those that began with none before them have gone
        end, longest = time.monotonic() + 5, 0.0
        while time.monotonic() < end:
            began = time.monotonic()
            same("an answer meanwhile", wire.Answer([b"x"], 0, ""), client.answer("DoGet", [b"x"], 60))
            longest, count = max(longest, time.monotonic() - began), count + 1
        stop.set()
        for thread in threads:
            thread.join()
        with Client(gateway.port) as other:
            same("a new client afterwards", wire.Answer([b"x"], 0, ""), other.answer("DoGet", [b"x"], 60))
        held = gateway.most_held() / MEGABYTE
        same(f"it held {held:.0f} MB, less than 100", True, held < 100)
    return f"{count} calls meanwhile, each of {longest:.2f} s at most; {held:.0f} MB held"


@case("1,000 connections, each with a call that waits: less than 100 MB held; one more is closed; all is given back when they go")
def connections(run: Run) -> str:
    resource.setrlimit(resource.RLIMIT_NOFILE, (resource.getrlimit(resource.RLIMIT_NOFILE)[1],) * 2)
    with StubServer(echo) as stub, run.behind(stub.port, "--wait", "600") as gateway, contextlib.ExitStack() as stack:
        before = gateway.open_files()
        with contextlib.ExitStack() as all_of:
            clients = [all_of.enter_context(raw(gateway.port)) for _ in range(CONNECTIONS)]
            for client in clients:
                client.sendall(begun(1) + frame(DATA, 0, 1, b"\0" + struct.pack(">I", 16_000) + bytes(15_000)))
            end = time.monotonic() + 60
            while gateway.open_files() < 3 * CONNECTIONS and time.monotonic() < end:
                time.sleep(0.2)
            time.sleep(2)
            with socket.create_connection(("127.0.0.1", gateway.port), 20) as more:
                same("one connection more", b"", more.recv(1))
            held = gateway.held() / MEGABYTE
        end = time.monotonic() + 60
        while gateway.open_files() > before + 8 and time.monotonic() < end:
            time.sleep(0.2)
        same("files that are left open", True, gateway.open_files() <= before + 8)
        same("a client afterwards", wire.Answer([b"x"], 0, ""),
             stack.enter_context(Client(gateway.port)).answer("DoGet", [b"x"], 120))
        same(f"it held {held:.0f} MB, less than 100", True, held < 100)
    return f"{held:.0f} MB held"
