"""What answers the queries of the comparison, each by its own binary form.

Where time is measured, a client reads an answer and throws it away: it takes bytes from a socket in large pieces. So all clients
do alike little. Where answers are compared, each row is a line: numbers in decimal and texts as they are, with tabs between them,
and a null as \\N. ClickHouse and PostgreSQL print such lines themselves; of ours the batches are read. SQLite runs in a process of
its own, sqlite.cpp.
"""

from __future__ import annotations

import re
import struct
import subprocess
import time
from array import array
from collections.abc import Iterable, Iterator
from functools import cache
from http.client import HTTPConnection, HTTPResponse
from itertools import chain, pairwise
from pathlib import Path
from urllib.parse import urlencode

from loopback import Connection, Server
from reader import Table, read_schema
from wire import call, chunk, descriptor, fields, packed

SECONDS = 600  # that one answer may take
contents = cache(Path.read_bytes)  # of a file of the tables, once for all clients
ROOM = memoryview(bytearray(1 << 24))
PIECE = 1 << 20
NULL = rb"\N"
DICTIONARY = 2  # the kind of a message
WORDS = ("", "Utf8", True, None)  # the field of a dictionary's values


class Refused(Exception):
    """A query or a put that was not answered, and why."""


class Peer:
    """A client of a server, whose tables t, u and w are loaded by the first client that it has."""

    version = ""
    has_dictionaries = True  # so table w is there
    process: int | None = None  # that answers this client alone, or as the only one at the time

    def load(self) -> None:
        """Makes the tables."""

    def ask(self, query: str) -> int:
        """Reads the answer of a query and keeps none of it. Tells its bytes."""
        raise NotImplementedError

    def lines(self, query: str) -> Iterable[bytes]:
        """The rows of an answer, each as a line."""
        raise NotImplementedError

    def prepare_put(self) -> None:
        """What comes before a put and is no part of it."""

    def put(self) -> None:
        """Puts all rows of t into the table `copy`."""
        raise NotImplementedError

    def time_of(self, query: str) -> tuple[float, int]:
        """The seconds of an answer, and its bytes."""
        began = time.perf_counter()
        size = self.ask(query)
        return time.perf_counter() - began, size

    def seconds_of_put(self) -> float:
        self.prepare_put()
        began = time.perf_counter()
        self.put()
        return time.perf_counter() - began


# ---- our server


class Ours(Peer):
    """A query is an info, then a fetch of each of its endpoints over the same connection."""

    def __init__(self, server: Server, folder: Path, version: str):
        self.connection, self.folder, self.version = Connection(server.port), folder, version
        self.connection.socket.settimeout(SECONDS)
        self.process = server.process.pid

    def load(self) -> None:
        for name in "tuw":
            self.put_into(name, name)

    def ask(self, query: str) -> int:
        return sum(self.fetch(ticket) for ticket in self.tickets(query))

    def fetch(self, ticket: bytes) -> int:
        self.connection.send(call(b"DoGet", [ticket]))
        return self.pass_over()

    def lines(self, query: str) -> Iterator[bytes]:
        return chain.from_iterable(map(self.lines_of_fetch, self.tickets(query)))

    def lines_of_fetch(self, ticket: bytes) -> Iterator[bytes]:
        """The rows of a fetch, whose first message has the schema. A dictionary is that of the batch behind it."""
        self.connection.send(call(b"DoGet", [ticket]))
        first, *messages = map(dict, map(fields, self.messages()))
        heads, words = read_schema(message_of(first[2]).table(2)), {}
        for one in messages:
            found, body = message_of(one[2]), one.get(1000, b"")
            if found.scalar(1, 1) == DICTIONARY:
                head = found.table(2)
                words[head.scalar(0, 8)] = arrow_columns(head.table(1), body, [WORDS], {})[0]
            else:
                yield from map(b"\t".join, zip(*arrow_columns(found.table(2), body, heads, words)))

    def tickets(self, query: str) -> list[bytes]:
        command = packed(b"CommandStatementQuery", chunk(1, query.encode()))
        self.connection.send(call(b"GetFlightInfo", [descriptor(command)]))
        (info,) = self.messages()
        return [dict(fields(endpoint))[1] for number, endpoint in fields(info) if number == 3]

    def put(self) -> None:
        self.put_into("copy", "t")

    def put_into(self, table: str, rows: str) -> None:
        self.connection.send(contents(self.folder / f"{table}.command"))
        self.connection.send(contents(self.folder / f"{rows}.rows"))
        self.pass_over()

    def messages(self) -> list[bytes]:
        answer = self.connection.answer()
        if answer.code:
            raise Refused(answer.text)
        return answer.messages

    def pass_over(self) -> int:
        """Reads the records of an answer, and keeps none of them. Tells their bytes."""
        source, size = self.connection.source, 4
        while source.read(1) == b"\x02":
            length = int.from_bytes(source.read(5)[1:], "big")
            source.readinto(ROOM[:length])
            size += 6 + length
        code, length = self.connection.number(1), self.connection.number(2)
        said = self.connection.take(length)
        if code:
            raise Refused(said.decode())
        return size


def message_of(head: bytes) -> Table:
    return Table(head, int.from_bytes(head[:4], "little"))


def arrow_columns(found: Table, body: bytes, heads: list[tuple], words: dict[int, list[bytes]]) -> list[list[bytes]]:
    """The columns of a record batch, each value as it is printed. The words are those of its dictionaries, by their ids."""
    nodes, places = found.structs(1), iter(found.structs(2))
    columns = []
    for (_, of, _, id), node in zip(heads, nodes):
        parts = [body[at : at + size] for at, size in (next(places) for _ in range(3 if of == "Utf8" else 2))]
        columns.append(arrow_column(of, node, parts, words.get(id)))
    return columns


def arrow_column(of: str, node: tuple[int, int], parts: list[bytes], words: list[bytes] | None) -> list[bytes]:
    (rows, nulls), data = node, parts[-1]
    if words is not None:
        values = [words[index] if words else NULL for index in array("i", data[: 4 * rows])]
    elif of == "Utf8":
        values = [data[begin:end] for begin, end in pairwise(array("i", parts[1][: 4 * (rows + 1)]))]
    elif of == "Decimal128":
        words = array("q", data[: 16 * rows])
        values = [b"%d" % (low % 2**64 + (high << 64)) for low, high in zip(words[::2], words[1::2])]
    else:
        numbers = array({"Int32": "i", "Int64": "q"}[of])
        numbers.frombytes(data[: numbers.itemsize * rows])
        values = [b"%d" % number for number in numbers]
    if not nulls:
        return values
    flags = reversed(f"{int.from_bytes(parts[0], 'little'):0{8 * len(parts[0])}b}")
    return [value if flag == "1" else NULL for value, flag in zip(values, flags)]


# ---- ClickHouse

COLUMNS = "(a Int64, b Nullable(Int64), k Int32, s String, d Int32, c Int64, j Int32)"


class ClickHouse(Peer):
    """HTTP, and FORMAT Native. Tables lie in memory, or in the database `sorted` on disk in the order of c, so that a query by
    c reads a part of them."""

    def __init__(self, port: int, process: int, folder: Path, threads: int, database: str):
        self.http, self.folder, self.database = HTTPConnection("127.0.0.1", port, timeout=SECONDS), folder, database
        self.process, self.rows_of_t = process, contents(folder / "t.native")
        self.settings = {"max_threads": threads, "allow_experimental_low_cardinality_type": 1}
        self.run(f"CREATE DATABASE IF NOT EXISTS {database}")
        self.settings["database"] = database
        self.version = self.send(b"SELECT version()").read().decode().strip()

    def load(self) -> None:
        self.run(f"CREATE TABLE t {COLUMNS} {self.engine('c')}")
        self.run(f"CREATE TABLE u (key Int32, v Int64) {self.engine('key')}")  # of the type of t.j, which a join wants here
        self.run(f"CREATE TABLE w (k Int32, e LowCardinality(String)) {self.engine('tuple()')}")
        self.insert("t", self.rows_of_t)
        self.insert("u", contents(self.folder / "u.native"))
        self.run("INSERT INTO w SELECT k, s FROM t")

    def ask(self, query: str) -> int:
        answer, size = self.send(f"{query} FORMAT Native".encode()), 0
        while count := answer.readinto(ROOM):
            size += count
        return size

    def lines(self, query: str) -> list[bytes]:
        return self.send(f"{query} FORMAT TabSeparated".encode()).read().splitlines()

    def prepare_put(self) -> None:
        self.run("DROP TABLE IF EXISTS copy")
        self.run(f"CREATE TABLE copy {COLUMNS} {self.engine('c')}")

    def put(self) -> None:
        self.insert("copy", self.rows_of_t)

    def engine(self, order: str) -> str:
        is_sorted = self.database == "sorted"
        return f"ENGINE = MergeTree() PARTITION BY tuple() ORDER BY {order}" if is_sorted else "ENGINE = Memory"

    def run(self, words: str) -> None:
        self.send(words.encode()).read()

    def insert(self, table: str, rows: bytes) -> None:
        self.send(rows, {"query": f"INSERT INTO {table} FORMAT Native"}).read()

    def send(self, body: bytes, more: dict[str, str] | None = None) -> HTTPResponse:
        self.http.request("POST", "/?" + urlencode(self.settings | (more or {})), body)
        answer = self.http.getresponse()
        if answer.status != 200:
            raise Refused(answer.read().decode(errors="replace")[:300])
        return answer


# ---- PostgreSQL

PG_COLUMNS = "(a bigint NOT NULL, b bigint, k int NOT NULL, s text NOT NULL, d int NOT NULL, c bigint NOT NULL, j int NOT NULL)"
ENDED = re.compile(rb"(COPY \d+|\0)\0Z\0\0\0\x05I\Z")  # the end of an answer, also of an error


class Postgres(Peer):
    """PostgreSQL's own protocol, and COPY's binary form both ways. Tables are not logged; t has an index of the least and the
    greatest c of its blocks, and u one by its key. With N threads a query has up to N - 1 helpers."""

    has_dictionaries = False

    def __init__(self, port: int, folder: Path, threads: int):
        self.connection, self.folder, self.rows_of_t = Connection(port), folder, contents(folder / "t.binary")
        self.connection.socket.settimeout(SECONDS)
        words = b"\0\3\0\0user\0bench\0database\0postgres\0\0"
        self.connection.send(struct.pack(">i", len(words) + 4) + words)
        said = self.messages()
        version = next(text for kind, text in said if kind == b"S" and text.startswith(b"server_version\0"))
        self.version = version[len(b"server_version\0") :].split()[0].decode()
        self.process = int.from_bytes(dict(said)[b"K"][:4], "big") if threads == 1 else None
        self.run(f"SET max_parallel_workers_per_gather = {threads - 1}")

    def load(self) -> None:
        self.run(f"CREATE UNLOGGED TABLE t {PG_COLUMNS}")
        self.copy_into("t", self.rows_of_t)
        self.run("CREATE INDEX ON t USING brin (c)")
        self.run("CREATE UNLOGGED TABLE u (key bigint PRIMARY KEY, v bigint NOT NULL)")
        self.copy_into("u", contents(self.folder / "u.binary"))
        self.run("VACUUM (ANALYZE, FREEZE) t")
        self.run("VACUUM (ANALYZE, FREEZE) u")

    def ask(self, query: str) -> int:
        self.send(b"Q", f"COPY ({query}) TO STDOUT (FORMAT binary)\0".encode())
        size, tail = 0, b""
        while not (end := ENDED.search(tail)):
            if not (count := self.connection.socket.recv_into(ROOM)):
                raise Refused("PostgreSQL ended the connection")
            tail = (tail + ROOM[max(count - 64, 0) : count].tobytes())[-64:]
            size += count
        if not end[1].startswith(b"COPY"):
            raise Refused(tail.decode(errors="replace"))
        return size

    def lines(self, query: str) -> list[bytes]:
        self.send(b"Q", f"COPY ({query}) TO STDOUT\0".encode())
        return [text[:-1] for kind, text in self.messages() if kind == b"d"]

    def prepare_put(self) -> None:
        self.run("DROP TABLE IF EXISTS copy")
        self.run(f"CREATE UNLOGGED TABLE copy {PG_COLUMNS}")

    def put(self) -> None:
        self.copy_into("copy", self.rows_of_t)

    def send(self, kind: bytes, content: bytes | memoryview) -> None:
        self.connection.send(kind + struct.pack(">i", len(content) + 4))
        self.connection.send(content)

    def run(self, words: str) -> None:
        self.send(b"Q", words.encode() + b"\0")
        self.messages()

    def copy_into(self, table: str, rows: bytes) -> None:
        self.run(f"COPY {table} FROM STDIN (FORMAT binary)")
        for first in range(0, len(rows), PIECE):
            self.send(b"d", memoryview(rows)[first : first + PIECE])
        self.send(b"c", b"")
        self.messages()

    def messages(self) -> list[tuple[bytes, bytes]]:
        """Reads messages until the server is ready for a query, or for rows that are copied into a table."""
        found = [(b"", b"")]
        while found[-1][0] not in (b"Z", b"G"):
            kind, size = struct.unpack(">ci", self.connection.take(5))
            found.append((kind, self.connection.take(size - 4)))
        if errors := [text.replace(b"\0", b" ") for kind, text in found if kind == b"E"]:
            raise Refused(errors[0].decode(errors="replace"))
        return found


# ---- SQLite


class Sqlite(Peer):
    """The program sqlite.cpp, which tells its own times."""

    has_dictionaries = False

    def __init__(self, child: subprocess.Popen):
        self.child, self.version = child, child.stdout.readline().decode().strip()

    def line_of(self, words: str) -> bytes:
        self.child.stdin.write(words.encode() + b"\n")
        self.child.stdin.flush()
        if not (line := self.child.stdout.readline()):
            raise Refused(f"SQLite ended at {words}")
        return line

    def time_of(self, query: str) -> tuple[float, int]:
        nanoseconds, size = map(int, self.line_of(f"ask {query}").split())
        return nanoseconds / 1e9, size

    def seconds_of_put(self) -> float:
        return int(self.line_of("put").split()[0]) / 1e9

    def lines(self, query: str) -> Iterator[bytes]:
        line = self.line_of(f"look {query}")
        while line != b"\n":
            yield line[:-1]
            line = self.child.stdout.readline()
