"""The gateway as a process of its own, and servers behind it: the real one, and one that answers what it is told to."""

from __future__ import annotations

import pathlib
import socket
import subprocess
import sys
import tempfile
import threading
from collections.abc import Callable, Iterator
from contextlib import contextmanager, suppress
from dataclasses import dataclass

import wire
from loopback import Server
from random_calls.answers import same

TOP = pathlib.Path(__file__).resolve().parent.parent
SEATED = b"/seat"  # the path of the call by which the gateway learns that a connection has a seat
NO_METHOD = b"\x04\x0c\x00\x10F3 UnknownMethod"


class Gateway(Server):
    """A gateway that runs as long as the block. It is looked at as a server is."""

    def __init__(self, port: int, *options: str, host: str = "127.0.0.1"):
        self.faults = tempfile.TemporaryFile()
        command = [sys.executable, str(TOP / "flightscan_gateway.py"), "--port", str(port), "--grpc-port", "0", *options]
        self.process = subprocess.Popen(command, stdout=subprocess.PIPE, stderr=self.faults)
        self.line = self.process.stdout.readline()
        before = b"listening grpc%s://%s:" % (b"+tls" if "--tls-key" in options else b"", host.encode())
        if not self.line.startswith(before):
            self.process.wait()
            raise SystemExit(f"no gateway: it printed {self.line!r}, and {self.said()!r} as faults")
        self.port = int(self.line[len(before) :])

    def __exit__(self, *_: object) -> None:
        """Ends it by a signal that it sees, so that it leaves no folder."""
        self.process.terminate()
        self.process.wait()
        super().__exit__()


@dataclass
class Run:
    """How servers and gateways are run."""

    path: str
    seeds: int
    seconds: float

    @contextmanager
    def behind(self, port: int, *options: str) -> Iterator[Gateway]:
        """A gateway to this port, which has to be there at the end and to have printed nothing more."""
        with Gateway(port, *options) as gateway:
            yield gateway
            same("the gateway's exit status", None, gateway.process.poll())
            same("what the gateway printed as faults", b"", gateway.said())

    @contextmanager
    def serving(self, seats: int = 4, parts: int = 1, wait: float = 10) -> Iterator[tuple[Server, Gateway]]:
        """A server, and a gateway that may take all its seats."""
        options = ["--seats", str(seats)]
        with Server(self.path, "--parts", str(parts), *options) as server:
            with self.behind(server.port, *options, "--wait", str(wait)) as gateway:
                yield server, gateway
                same("the server's exit status", None, server.process.poll())


Answer = Callable[[bytes, list[bytes]], bytes | None]


class StubServer:
    """A server that answers each call by the bytes that a function makes of its path and its Messages.

    Where the function makes None, the connection is ended. Each connection is served in a thread of its own.
    """

    def __init__(self, answer: Answer, port: int = 0):
        self.answer, self.listener = answer, socket.create_server(("127.0.0.1", port))
        self.port, self.streams = self.listener.getsockname()[1], []
        threading.Thread(target=self.accept, daemon=True).start()

    def __enter__(self) -> StubServer:
        return self

    def __exit__(self, *_: object) -> None:
        """Ends all connections too."""
        for stream in (self.listener, *self.streams):
            with suppress(OSError):  # those that the other end has closed
                stream.shutdown(socket.SHUT_RDWR)
        self.listener.close()

    def accept(self) -> None:
        while True:
            try:
                stream, _ = self.listener.accept()
            except OSError:
                return
            self.streams.append(stream)
            threading.Thread(target=self.serve, args=(stream,), daemon=True).start()

    def serve(self, stream: socket.socket) -> None:
        with suppress(ConnectionResetError), stream, stream.makefile("rb") as source:
            while (call := read_call(source)) is not None:
                said = NO_METHOD if call[0] == SEATED else self.answer(*call)
                if said is None:
                    return
                stream.sendall(said)


def read_call(source) -> tuple[bytes, list[bytes]] | None:
    """The path and the Messages of the next call of a connection, or None where it ended."""
    if source.read(1) != b"\x01":
        return None
    path, messages = source.read(int.from_bytes(source.read(2), "big")), []
    while (kind := source.read(1)) == b"\x02":
        messages.append(source.read(int.from_bytes(source.read(5)[1:], "big")))
    return (path, messages) if kind == wire.END else None
