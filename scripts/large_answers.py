#!/usr/bin/env python3
"""The largest answers of `flightscan serve`: joins of 8,192 by 8,192 rows of one key, and of 1,048,576 by 64.

    python3 scripts/large_answers.py [--program PATH] [--workers W,..] [--rows N] [CASE..]

Both have 67,108,864 rows, the most that a fetch may give, and have to end with status 0. With one row more on each side, or in
the longer table, there are too many: a beginning of the rows may come, and then F20. In two endpoints both have to be whole, and
together they have every row. The joined column is one of Int8 or of Bool, whose values are all equal, in 24 batches of
unequal sizes. Each case has a server of its own. The longer table has rows enough for 16 workers.

The stream is read as it comes. Rows are counted by the headers of the record batches, and none is kept. Told are the rows,
the time, and the most memory that the server held, which has to stay below 24 MB and 10 MB for each worker: the pairs of an
answer, two numbers of 32 bits each, would take 512 MB. With --workers 1,2,4,16 each case is done for each of these numbers, and
the streams have to be the same bytes. With --rows N the first join has N by N rows, to try the script. It ends with 1 at the
first difference.
"""

from __future__ import annotations

import argparse
import sys
import time
import zlib
from dataclasses import dataclass

sys.dont_write_bytecode = True

from built import ROOT, program, worker_counts  # noqa: E402

sys.path += [str(ROOT / "vectors" / folder) for folder in ("arrow", "flight")]

import trees  # noqa: E402
import wire  # noqa: E402
from layout import written  # noqa: E402
from loopback import Connection, Server  # noqa: E402
from random_calls.plain_model import split  # noqa: E402
from reader import Table  # noqa: E402

ROWS, MOST_ROWS, BATCH_ROWS = 8_192, 67_108_864, 65_536
HELD_MB, HELD_BY_WORKER_MB = 24, 10
QUERY = b"SELECT x.a FROM t AS x JOIN u AS y ON x.a = y.a"
KINDS = {"Int8": trees.integer(8, True), "Bool": trees.BOOL}
BATCHES = [(number / 24) ** 1.3 for number in range(1, 25)]  # where they end, as shares of the rows
HEAD = 4_096  # bytes of a FlightData in which its header lies
TOO_LARGE = (8, "F20 ResultTooLarge")


class Wrong(Exception):
    """An answer that is not what it has to be."""


def demand(truth: bool, said: str) -> None:
    if not truth:
        raise Wrong(said)


@dataclass
class Case:
    """A join of tables of so many rows, of which the left one is cut in parts."""

    kind: str
    left: int
    right: int
    parts: int

    @property
    def name(self) -> str:
        return f"{self.kind}, {self.left} by {self.right} rows, {self.parts} part{'s' * (self.parts > 1)}"

    def whole(self) -> bool:
        """Whether no part has too many rows."""
        return max(end - first for first, end in split(self.left, self.parts)) * self.right <= MOST_ROWS

    def puts(self) -> list[bytes]:
        return [put(b"t", self.kind, self.left), put(b"u", self.kind, self.right)]


def put(table: bytes, kind: str, rows: int) -> bytes:
    """A put of rows of one value."""
    ends = [int(share * rows) for share in BATCHES]
    made = [(trees.schema(trees.field("a", KINDS[kind], False)), b"")]
    for first, end in zip([0, *ends], ends):
        values = b"\x01" * (end - first) if kind == "Int8" else trees.bits([True] * (end - first))
        made.append(trees.batch(end - first, (0, b"", values)))
    command = wire.packed(b"CommandStatementIngest", wire.chunk(1, wire.scalar(1, 1)) + wire.chunk(2, table))
    messages = [wire.chunk(2, written("Message", tree, "spread")) + wire.chunk(1000, body) for tree, body in made]
    return wire.call(b"DoPut", [wire.chunk(1, wire.descriptor(command)) + messages[0], *messages[1:]])


def cases(rows: int) -> list[Case]:
    """Joins of two tables of so many rows, and of one that is 128 times as long with one that is as much shorter."""
    sides = [(rows, rows, 1), (rows + 1, rows + 1, 1), (rows, rows, 2), (rows + 1, rows + 1, 2), (128 * rows, rows // 128, 1),
             (128 * rows + 1, rows // 128, 1)]
    return [Case(kind, *side) for kind in KINDS for side in sides]


@dataclass
class Stream:
    """What came of a fetch: its rows, a sum over its bytes, and its status."""

    rows: int
    sum: int
    status: tuple[int, str]


def rows_of(message: memoryview) -> int | None:
    """The rows of a FlightData's record batch, by its header; none where it is another message."""
    source = wire.Bytes(bytes(message[:HEAD]))
    demand(source.varint() == 2 * 8 + wire.BYTES, "a FlightData that does not begin with its header")
    header = source.take(source.varint())
    found = Table(header, int.from_bytes(header[:4], "little"))
    return found.table(2).scalar(0, 8) if found.scalar(1, 1) == 3 else None


def read_stream(connection: Connection) -> Stream:
    """Reads the answer of a fetch into the same memory, one message over the other."""
    room, total, sum_of, batches = memoryview(bytearray(16_777_216)), 0, 0, []
    while (kind := connection.number(1)) == 2:
        connection.take(1)
        length = connection.number(4)
        demand(connection.source.readinto(room[:length]) == length, "the connection ended inside a message")
        rows, sum_of = rows_of(room[:length]), zlib.crc32(room[:length], sum_of)
        demand((rows is None) == (not batches), "a schema that is not the first message")
        batches = [True]
        demand(rows is None or 0 < rows <= BATCH_ROWS, f"a batch of {rows} rows")
        total += rows or 0
    demand(kind == 4 and bool(batches), "no schema, or another record than a status")
    code = connection.number(1)
    return Stream(total, sum_of, (code, connection.take(connection.number(2)).decode()))


def tickets_of(connection: Connection, case: Case) -> list[bytes]:
    """The tickets of the query's info."""
    command = wire.descriptor(wire.packed(b"CommandStatementQuery", wire.chunk(1, QUERY)))
    connection.send(wire.call(b"GetFlightInfo", [command]))
    parts = wire.fields(connection.answer().messages[0])
    tickets = [wire.one_field(content, 1) for number, content in parts if number == 3]
    wanted = [wire.ticket(wire.query_handle(2, first, end, QUERY)) for first, end in split(case.left, case.parts)]
    demand(tickets == wanted, "other tickets")
    return tickets


def streams_of(path: str, case: Case, workers: int) -> tuple[list[Stream], float]:
    """The streams of all endpoints, and the most megabytes that the server held."""
    with Server(path, "--parts", str(case.parts), "--workers", str(workers)) as server:
        with Connection(server.port) as connection:
            for records in case.puts():
                connection.send(records)
                answer = connection.answer()
                demand(answer.code == 0, f"a put: {answer.text}")
            found = []
            for ticket in tickets_of(connection, case):
                connection.send(wire.call(b"DoGet", [ticket]))
                found.append(read_stream(connection))
        demand(server.process.poll() is None and server.said() == b"", f"the server ended, or said {server.said()!r}")
        return found, server.most_held() / 1e6


def look(case: Case, found: list[Stream]) -> None:
    """The rows and the statuses are those of the case."""
    statuses, total = [stream.status for stream in found], sum(stream.rows for stream in found)
    if case.whole():
        demand(statuses == [(0, "")] * case.parts, f"statuses {statuses}")
        demand(total == case.left * case.right, f"{total:,} rows, where {case.left * case.right:,} had to come")
    else:
        demand(statuses == [TOO_LARGE], f"statuses {statuses}")
        demand(total <= MOST_ROWS, f"{total:,} rows before F20")


def tried(path: str, case: Case, workers: list[int]) -> bool:
    """Does a case with each number of workers, and prints a line for each."""
    first = None
    for count in workers:
        began = time.monotonic()
        try:
            found, held = streams_of(path, case, count)
            look(case, found)
            demand(held < HELD_MB + count * HELD_BY_WORKER_MB, f"{held:.0f} MB held")
            first = first or found
            demand(found == first, f"other streams than with {workers[0]} workers: {found}, {first}")
        except (Wrong, wire.Unreadable, OSError) as wrong:
            print(f"DIFFERENCE in {case.name}, workers {count}: {wrong}", flush=True)
            return False
        rows, ends = sum(stream.rows for stream in found), ", ".join(stream.status[1] or "status 0" for stream in found)
        seconds = time.monotonic() - began
        print(f"{case.name}, workers {count}: {rows:,} rows, {ends}; at most {held:.0f} MB held, {seconds:.1f} s", flush=True)
    return True


def main() -> int:
    parser = argparse.ArgumentParser(description=__doc__, formatter_class=argparse.RawDescriptionHelpFormatter)
    parser.add_argument("--program", help="the built program (that of the repository)")
    parser.add_argument("--workers", type=worker_counts, default=[1], help="the numbers of workers, as 1,2,4,16 (1)")
    parser.add_argument("--rows", type=int, default=ROWS, help="of the first join's tables (8192)")
    parser.add_argument("case", nargs="*", help="cases whose names begin so (all)")
    words = parser.parse_args()
    path = program(words.program)
    wanted = [case for case in cases(words.rows) if not words.case or case.name.startswith(tuple(words.case))]
    done = sum(tried(path, case, words.workers) for case in wanted)
    print(f"{done} large answers of {len(wanted)} as they have to be")
    return 0 if done == len(wanted) else 1


if __name__ == "__main__":
    sys.exit(main())
