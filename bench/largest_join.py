#!/usr/bin/env python3
"""The largest answers that a join may have, and larger ones: their rows, the time and the most memory held.

    python3 bench/largest_join.py [--program PATH] [--keys N] [CASE..]

A table of N rows (8,192), all of one key, is joined with itself. Its answer has N * N rows: of 8,192 rows that is
67,108,864, the most that a fetch may give. Of one row more there are too many, and so there are where each side has one
more row of another key, which adds one row to the answer: both fetches have to end with F20 behind a beginning. Two
fetches of the parts of 8,193 rows have to be whole.

It reads the answers as they come and keeps none. Each row is looked at: the answer has to be that of two nested loops, in
their order; and so is each message: at most 65,536 rows and a body of at most 8,388,608 bytes. It prints how many rows
came, the time and the most memory that the program held, and ends with 1 where an answer is another one or more than
64 MB were held: the pairs of an answer, two numbers of 32 bits each, would take 512 MB. Build the program first, as for
`pipe.py`.
"""

import argparse
import os
import pathlib
import signal
import subprocess
import sys
import tempfile
import time
from array import array
from dataclasses import dataclass

sys.dont_write_bytecode = True
ROOT = pathlib.Path(__file__).resolve().parent.parent
sys.path[:0] = [str(ROOT / "scripts"), str(ROOT / "vectors/arrow")]

from built import program  # noqa: E402
from layout import written  # noqa: E402
from measured import Measured  # noqa: E402
from reader import Table  # noqa: E402
from trees import batch, field, integer, schema  # noqa: E402
from wire import call, chunk, descriptor, fields, packed, query_handle, ticket  # noqa: E402

KEYS = 8_192
MOST_ROWS = 67_108_864
BATCH_ROWS, BODY_BYTES = 65_536, 8_388_608  # of a message, at most
HELD_MB = 64
QUERY = b"SELECT x.v, y.v FROM t x JOIN t y ON x.k = y.k"


class Wrong(Exception):
    """An answer that is not what it has to be."""


def demand(truth, said):
    if not truth:
        raise Wrong(said)


# ---- cases


@dataclass
class Case:
    """A table of so many rows of one key, with or without a row of another key, and the parts that are fetched."""

    name: str
    equal: int
    others: int
    ranges: list
    whole: bool

    def rows(self):
        return self.equal + self.others

    def partners(self, row):
        """The rows that a row is joined with."""
        return range(self.equal) if row < self.equal else range(row, row + 1)


def cases(keys):
    """Of fewer keys than the most, all answers are whole."""
    fits, half = (keys + 1) ** 2 <= MOST_ROWS, (keys + 1) // 2
    return [
        Case("all rows", keys, 0, [(0, keys)], True),
        Case("one row more", keys, 1, [(0, keys + 1)], fits),
        Case("one key more", keys + 1, 0, [(0, keys + 1)], fits),
        Case("one key more, in two parts", keys + 1, 0, [(0, half), (half, keys + 1)], True),
    ]


def put(case):
    """A put of the keys and of the numbers of their rows, in one batch."""
    ingest = chunk(1, b"\x08\x01") + chunk(2, b"t")
    head = schema(field("k", integer(8, True), False), field("v", integer(16, False), False))
    keys = b"\x01" * case.equal + b"\x02" * case.others
    tree, body = batch(case.rows(), (0, b"", keys), (0, b"", numbers(range(case.rows()))))
    front = chunk(1, descriptor(packed(b"CommandStatementIngest", ingest))) + chunk(2, written("Message", head, "spread"))
    return call(b"DoPut", [front, chunk(2, written("Message", tree, "spread")) + chunk(1000, body)])


def numbers(values):
    return array("H", values).tobytes()


def wanted(case, first, end):
    """The columns of the rows of a range of the first place, in pieces of one of its rows: how many, x.v and y.v."""
    equal = numbers(range(case.equal))
    for row in range(first, end):
        partners = case.partners(row)
        yield len(partners), numbers([row]) * len(partners), equal if len(partners) > 1 else numbers(partners)


# ---- answers


class Answer:
    """The rows of a fetch, compared as they come with those that are wanted."""

    def __init__(self, case, first, end):
        self.pieces, self.rows, self.left = wanted(case, first, end), 0, (0, b"", b"")

    def add(self, message):
        """The rows of a FlightData; a schema has none."""
        data = dict(fields(message))
        found = Table(data[2], int.from_bytes(data[2][:4], "little"))
        if found.scalar(1, 1) != 3:
            return
        head, body = found.table(2), data.get(1000, b"")
        rows, places = head.scalar(0, 8), head.structs(2)[1::2]
        demand(0 < rows <= BATCH_ROWS and len(body) <= BODY_BYTES, f"a message of {rows} rows and {len(body)} bytes")
        self.compare(rows, *(body[at : at + 2 * rows] for at, _ in places))

    def compare(self, rows, left, right):
        place = 0
        while place < rows:
            if self.left[0] == 0:
                self.left = next(self.pieces, (0, b"", b""))
            count, x, y = self.left
            taken = min(count, rows - place)
            demand(taken > 0, f"more rows than {self.rows}")
            part = slice(2 * place, 2 * (place + taken))
            same = left[part] == x[: 2 * taken] and right[part] == y[: 2 * taken]
            demand(same, f"other rows behind row {self.rows}")
            self.left = count - taken, x[2 * taken :], y[2 * taken :]
            place, self.rows = place + taken, self.rows + taken


def read_answer(stream, answer):
    """Reads an answer's records. Tells the text of its status."""
    while (kind := stream.read(1)) == b"\x02":
        message = stream.read(int.from_bytes(stream.read(5)[1:], "big"))
        if answer is not None:
            answer.add(message)
    demand(kind == b"\x04", f"a record of kind {kind.hex()}" if kind else "no answer")
    stream.read(1)
    return stream.read(int.from_bytes(stream.read(2), "big")).decode()


def look(case, stream):
    """Reads all answers, and tells how many rows came."""
    said = read_answer(stream, None)
    demand(said == "", f"the put: {said}")
    total = 0
    for first, end in case.ranges:
        answer = Answer(case, first, end)
        said = read_answer(stream, answer)
        if case.whole:
            demand(said == "", said)
            demand(answer.left[0] == 0 and next(answer.pieces, None) is None, f"{answer.rows} rows alone")
        else:
            demand(said == "F20 ResultTooLarge", f"{answer.rows} rows and status 0" if said == "" else said)
            demand(answer.rows <= MOST_ROWS, f"{answer.rows} rows before F20")
        total += answer.rows
    return total, said


def measure(case, path, folder):
    """A line of the table."""
    handles = [query_handle(1, first, end, QUERY) for first, end in case.ranges]
    given = folder / "given"
    given.write_bytes(put(case) + b"".join(call(b"DoGet", [ticket(handle)]) for handle in handles))
    start, why = time.monotonic(), None
    with open(given, "rb") as source, subprocess.Popen([path, "pipe"], stdin=source, stdout=subprocess.PIPE) as child:
        try:
            total, said = look(case, child.stdout)
        except Wrong as wrong:
            why = str(wrong)
            os.kill(child.pid, signal.SIGKILL)
        _, status, usage = os.wait4(child.pid, 0)
        child.returncode = os.waitstatus_to_exitcode(status)
    seconds, held = time.monotonic() - start, usage.ru_maxrss * 1024 / 1e6
    if why is None and held > HELD_MB:
        why = f"{held:.0f} MB held"
    spent = usage.ru_utime + usage.ru_stime
    line = f"{why} | | | |" if why else f"{total:,} | {said or 'whole'} | {seconds:.1f} | {spent:.1f} | {held:.0f} |"
    print(f"| {case.name} | {line}", flush=True)
    return why is None


def main():
    parser = argparse.ArgumentParser(description=__doc__, formatter_class=argparse.RawDescriptionHelpFormatter)
    parser.add_argument("--program", help="the built program (that of the repository)")
    parser.add_argument("--keys", type=int, default=KEYS, help="the rows of one key (8192, the most)")
    parser.add_argument("case", nargs="*", help="cases whose names begin so (all)")
    words = parser.parse_args()
    path, measured = program(words.program), Measured(words.program)
    chosen = [case for case in cases(words.keys) if not words.case or case.name.startswith(tuple(words.case))]
    print("| | rows given | ends | seconds | of the processor | peak MB |\n|---|---:|---|---:|---:|---:|")
    with tempfile.TemporaryDirectory() as name:
        done = [measure(case, path, pathlib.Path(name)) for case in chosen]
    print(f"\n{measured.line()}")
    return 0 if all(done) else 1


if __name__ == "__main__":
    sys.exit(main())
