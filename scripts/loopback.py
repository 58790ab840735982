"""A `flightscan serve` on loopback and connections to it, for the scripts that talk to a running server."""

from __future__ import annotations

import os
import pathlib
import socket
import struct
import subprocess
import tempfile
import time

import wire

SECONDS = 60  # that one answer may take
LINE = b"listening 127.0.0.1:"


class Server:
    """A server that runs as long as the block. More words may stand in its environment, and words of a command that starts it before it."""

    def __init__(self, path: str, *options: str, more: dict[str, str] | None = None, before: tuple[str, ...] = ()):
        self.faults = tempfile.TemporaryFile()
        command = [*before, path, "serve", "--port", "0", *options]
        self.process = subprocess.Popen(command, stdout=subprocess.PIPE, stderr=self.faults, env=os.environ | (more or {}))
        self.line = self.process.stdout.readline()
        if not self.line.startswith(LINE):
            self.process.wait()
            raise SystemExit(f"no server: it printed {self.line!r}, and {self.said()!r} as faults")
        self.port = int(self.line[len(LINE) :])

    def __enter__(self) -> Server:
        return self

    def __exit__(self, *_: object) -> None:
        self.process.kill()
        self.process.wait()
        self.process.stdout.close()
        self.faults.close()

    def said(self) -> bytes:
        """What it printed as faults so far."""
        self.faults.seek(0)
        return self.faults.read()

    def held(self, which: str = "VmRSS:") -> int:
        """The bytes of memory that it holds now."""
        lines = pathlib.Path(f"/proc/{self.process.pid}/status").read_text().splitlines()
        return next(int(line.split()[1]) * 1024 for line in lines if line.startswith(which))

    def most_held(self) -> int:
        """The most that it held so far."""
        return self.held("VmHWM:")

    def ticks(self) -> int:
        """The processor time that it used so far."""
        fields = pathlib.Path(f"/proc/{self.process.pid}/stat").read_text().rpartition(")")[2].split()
        return int(fields[11]) + int(fields[12])

    def seconds_worked(self) -> float:
        """The same in seconds, by the finer clock that Linux keeps of a process. It lags by a few milliseconds at most."""
        return time.clock_gettime((~self.process.pid << 3) | 2)  # (the number of that clock, as the C library works it out)

    def open_files(self) -> int:
        return len(os.listdir(f"/proc/{self.process.pid}/fd"))


class Connection:
    """A connection whose answers are read as they come."""

    def __init__(self, port: int, room: int | None = None):
        self.socket = socket.socket()
        if room is not None:
            self.socket.setsockopt(socket.SOL_SOCKET, socket.SO_RCVBUF, room)
        self.socket.settimeout(SECONDS)
        self.socket.connect(("127.0.0.1", port))
        self.socket.setsockopt(socket.IPPROTO_TCP, socket.TCP_NODELAY, 1)
        self.source = self.socket.makefile("rb")

    def __enter__(self) -> Connection:
        return self

    def __exit__(self, *_: object) -> None:
        self.close()

    def close(self) -> None:
        self.source.close()
        self.socket.close()

    def break_off(self) -> None:
        """Goes away without an orderly end: what was not read is thrown away at both ends."""
        self.socket.setsockopt(socket.SOL_SOCKET, socket.SO_LINGER, struct.pack("ii", 1, 0))
        self.close()

    def send(self, data: bytes, piece: int | None = None) -> None:
        """Sends bytes, in pieces of so many."""
        for first in range(0, len(data), piece or max(len(data), 1)):
            self.socket.sendall(data[first : first + piece] if piece else data)

    def end_input(self) -> None:
        self.socket.shutdown(socket.SHUT_WR)

    def take(self, count: int) -> bytes:
        data = self.source.read(count)
        wire.demand(len(data) == count, f"{len(data)} bytes, then the connection's end, where {count} had to come")
        return data

    def number(self, size: int) -> int:
        return int.from_bytes(self.take(size), "big")

    def answer(self) -> wire.Answer:
        return wire.answer(self)

    def rest(self) -> bytes:
        """What comes up to the end of the connection."""
        return self.source.read()
