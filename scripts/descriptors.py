#!/usr/bin/env python3
"""Takes all file descriptors of a `serve`, and looks whether it outlives that: nothing may be lost, and no seat.

    python3 scripts/descriptors.py [--seconds N] [--program PATH]

Two servers of 32 seats are tried, each for so long. The first one's limit is lowered until no descriptor is free, as a shell's
`ulimit -n` would. The second one begins with a small limit, so it says so in a line, and clients that wait take what it has. Crowds of
clients call for connections meanwhile. A connection that was there before puts a row now and then, and counts all rows.

Then the clients leave, the limit is raised, and 32 connections are made that are all open at once. Each puts a row and reads all. A
client that was accepted where descriptors lack may be cut with no answer, and no other may. It ends with 1 at the first difference.
Build the program first, as for bench/pipe.py.
"""

from __future__ import annotations

import argparse
import pathlib
import resource
import socket
import sys
import time
from collections.abc import Iterator
from contextlib import ExitStack

sys.dont_write_bytecode = True
ROOT = pathlib.Path(__file__).resolve().parent.parent
sys.path += [str(ROOT / "vectors" / folder) for folder in ("arrow", "flight", "queries", "streams")]

import wire  # noqa: E402
from built import program  # noqa: E402
from loopback import Connection, Server  # noqa: E402
from random_calls.answers import Difference, PutCount, same  # noqa: E402
from random_calls.plain_model import Column  # noqa: E402
from served.cases import A, appended, ask, fetch_of, put_of, rows_of  # noqa: E402

SEATS = 32
SMALL = 64  # descriptors: 39 for a server of 32 seats at rest, and so for 12 connections
PAUSE = 0.1  # seconds between two calls of the connection that was there before
CROWD = 40  # clients that wait at once
COUNTS = (Column("col1", "Int64", False),)


class Table:
    """The table of a server: each row more is a version more."""

    def __init__(self, connection: Connection):
        self.rows = 1
        ask(connection, put_of("t", A, [(0,)]), PutCount(1))

    def grow(self, connection: Connection) -> None:
        """Puts a row, and counts all."""
        ask(connection, appended("t", A, [(self.rows,)]), PutCount(1))
        self.rows += 1
        ask(connection, fetch_of(self.rows, 0, self.rows, "SELECT COUNT(*) FROM t"), rows_of(COUNTS, (self.rows,)))

    def look_at_all(self, connection: Connection) -> None:
        rows = rows_of(A, *[(row,) for row in range(self.rows)])
        ask(connection, fetch_of(self.rows, 0, self.rows, "SELECT a FROM t"), rows)


def set_limit(server: Server, most: int) -> None:
    """Sets how many descriptors the system lets a server have. The hard limit stays, so a later call may raise it again."""
    _, hard = resource.prlimit(server.process.pid, resource.RLIMIT_NOFILE)
    resource.prlimit(server.process.pid, resource.RLIMIT_NOFILE, (most, hard))


def calling(port: int) -> socket.socket:
    """A client that waits to be accepted: the system completes its connection where its queue has room."""
    client = socket.socket()
    client.setblocking(False)
    client.connect_ex(("127.0.0.1", port))
    return client


def crowded(server: Server, seconds: float) -> Iterator[int]:
    """Turns in which clients call, each crowd for a second or so: after each turn another client may call."""
    end = time.monotonic() + seconds
    while time.monotonic() < end:
        with ExitStack() as crowd:
            for _ in range(CROWD):
                crowd.enter_context(calling(server.port))
            for number in range(10):
                time.sleep(PAUSE)
                yield number


def outlives(server: Server, table: Table, there: Connection, seconds: float) -> int:
    """What is there goes on for so long, while no descriptor is free. It gives the most descriptors that the server had."""
    most = 0
    for _ in crowded(server, seconds):
        same("the server's exit status", None, server.process.poll())
        table.grow(there)
        most = max(most, server.open_files())
    return most


def look_at_seats(server: Server, table: Table) -> None:
    """As many connections as there are seats are open at once, and each is answered."""
    with ExitStack() as stack:
        for connection in [stack.enter_context(Connection(server.port)) for _ in range(SEATS)]:
            table.grow(connection)
            table.look_at_all(connection)


def look_at_none_free(path: str, seconds: float) -> str:
    """A server whose limit is lowered to what it has."""
    with Server(path, "--seats", str(SEATS)) as server:
        with Connection(server.port) as there:
            table = Table(there)
            for more in (0, 1):  # no connection is accepted; one is, and there is no further handle for it
                set_limit(server, server.open_files() + more)
                outlives(server, table, there, seconds / 2)
            set_limit(server, 1_024)
        look_at_seats(server, table)
        same("what the server printed as faults", b"", server.said())
    return f"none free: {table.rows} rows, none lost"


def look_at_small_limit(path: str, seconds: float) -> str:
    """A server with a small limit, which its clients take whole."""
    before = ("bash", "-c", f'ulimit -Sn {SMALL}; exec "$@"', "bash")
    with Server(path, "--seats", str(SEATS), before=before) as server:
        line = server.said()
        same("a line of the limit", True, line.count(b"\n") == 1 and f" {SMALL}, and {SEATS} seats ".encode() in line)
        with Connection(server.port) as there:
            table = Table(there)
            most = outlives(server, table, there, seconds)
            same(f"at most {most} descriptors, which is nearly all of {SMALL}", True, SMALL - 2 <= most <= SMALL)
        set_limit(server, 1_024)
        look_at_seats(server, table)
        same("what the server printed as faults", line, server.said())
    return f"a limit of {SMALL}: {table.rows} rows, none lost"


def main() -> int:
    parser = argparse.ArgumentParser(description=__doc__, formatter_class=argparse.RawDescriptionHelpFormatter)
    parser.add_argument("--seconds", type=float, default=60, help="how long each server lacks descriptors (60)")
    parser.add_argument("--program", help="the built program (that of the repository)")
    words = parser.parse_args()
    path = program(words.program)
    for look in (look_at_none_free, look_at_small_limit):
        try:
            print(look(path, words.seconds), flush=True)
        except (Difference, wire.Unreadable, OSError) as found:
            print(f"a difference:\n{found}")
            return 1
    return 0


if __name__ == "__main__":
    sys.exit(main())
