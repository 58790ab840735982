#!/usr/bin/env python3
"""Whether the answers of joins with texts are cut into the same record batches by any number of workers.

    python3 scripts/cut_alike.py [--program PATH] [--workers W,..]

Several batches of texts, of lengths that differ from batch to batch, are put and joined through `flightscan pipe`: with one row, with
several, with a filter behind the join, and with a third table. A record batch of joined rows has at most 2 MB of text, so how
many rows one has hangs on the lengths. The answers with each number of workers (1, 2, 4 and 16) have to be the same bytes, of as
many rows as are joined. Each case is told with the rows of its record batches. It ends with 1 at the first difference.
"""

from __future__ import annotations

import argparse
import subprocess
import sys
from array import array
from dataclasses import dataclass, field
from itertools import accumulate

sys.dont_write_bytecode = True

from built import ROOT, program, worker_counts  # noqa: E402

sys.path += [str(ROOT / "vectors" / folder) for folder in ("arrow", "flight")]

import trees  # noqa: E402
import wire  # noqa: E402
from large_answers import rows_of  # noqa: E402
from layout import written  # noqa: E402

SECONDS = 120  # that one run may take


@dataclass
class Case:
    """Texts of so many bytes in so many rows, batch by batch, in the table that is joined; the query, and how many rows it gives
    for each row of that table. The other two tables have one text each for each row."""

    name: str
    batches: list[tuple[int, int]]
    query: bytes
    times: int = 1
    others: list[list[bytes]] = field(default_factory=lambda: [[b"r"], [b"v"]])

    def rows(self) -> int:
        return self.times * sum(rows for rows, _ in self.batches)


JOINED = b"SELECT x.s, y.s FROM t AS x JOIN u AS y ON x.k = y.k"
THREE = JOINED.replace(b"y.s FROM", b"y.s, z.s FROM") + b" JOIN v AS z ON x.k = z.k"
FALLING, RISING = [(60_000, 40), (50_000, 20), (60_000, 8)], [(60_000, 8), (50_000, 20), (60_000, 40), (65_536, 0)]
CASES = [
    Case("texts that become shorter", FALLING, JOINED),
    Case("texts that become longer", RISING, JOINED),
    Case("long texts once", [(65_536, 200), *[(65_536, 1)] * 4], JOINED),
    Case("with a filter of joined rows", FALLING, JOINED + b" WHERE x.s <> y.s"),
    Case("two rows for each", FALLING, JOINED, 2, [[b"first", b"second"], [b"v"]]),
    Case("a long text on the right", [(20_000, 1), (30_000, 2), (40_000, 3)], JOINED, 1, [[b"r" * 300], [b"v"]]),
    Case("three places", FALLING, THREE, 4, [[b"first", b"second"], [b"third", b"fourth"]]),
]


def put(table: bytes, batches: list[list[bytes]]) -> bytes:
    """A put of texts, each with the same key."""
    made = [(trees.schema(trees.field("k", trees.integer(8, True), False), trees.field("s", trees.UTF8, False)), b"")]
    for texts in batches:
        offsets = array("i", accumulate(map(len, texts), initial=0)).tobytes()
        made.append(trees.batch(len(texts), (0, b"", b"\x01" * len(texts)), (0, b"", offsets, b"".join(texts))))
    command = wire.packed(b"CommandStatementIngest", wire.chunk(1, wire.scalar(1, 1)) + wire.chunk(2, table))
    messages = [wire.chunk(2, written("Message", tree, "spread")) + wire.chunk(1000, body) for tree, body in made]
    return wire.call(b"DoPut", [wire.chunk(1, wire.descriptor(command)) + messages[0], *messages[1:]])


def session_of(case: Case) -> bytes:
    """The puts of the tables, and the fetch."""
    first = put(b"t", [[b"x" * size] * rows for rows, size in case.batches])
    others = [put(name, [texts]) for name, texts in zip((b"u", b"v"), case.others)]
    handle = wire.query_handle(3, 0, sum(rows for rows, _ in case.batches), case.query)
    return b"".join([first, *others, wire.call(b"DoGet", [wire.ticket(handle)])])


def cut(output: bytes) -> list[int]:
    """The rows of each record batch of the fetch, which has to have status 0."""
    source = wire.Bytes(output)
    answers = [wire.answer(source) for _ in range(4)]
    if refused := [answer.text for answer in answers if answer.code]:
        raise SystemExit(f"refused: {refused}")
    return [rows for message in answers[-1].messages if (rows := rows_of(memoryview(message))) is not None]


def tried(path: str, case: Case, workers: list[int]) -> bool:
    """Does a case with each number of workers, and prints a line."""
    session, outputs = session_of(case), {}
    for count in workers:
        command = [path, "pipe", "--workers", str(count)]
        outputs[count] = subprocess.run(command, input=session, capture_output=True, timeout=SECONDS, check=True).stdout
    found = {count: cut(output) for count, output in outputs.items()}
    for count, rows in found.items():
        if sum(rows) != case.rows() or outputs[count] != outputs[workers[0]]:
            print(f"DIFFERENCE in {case.name}, workers {count}: batches of {rows}, and {found[workers[0]]} with {workers[0]}")
            return False
    print(f"{case.name}: {sum(found[workers[0]]):,} rows in batches of {found[workers[0]][:8]}", flush=True)
    return True


def main() -> int:
    parser = argparse.ArgumentParser(description=__doc__, formatter_class=argparse.RawDescriptionHelpFormatter)
    parser.add_argument("--program", help="the built program (that of the repository)")
    parser.add_argument("--workers", type=worker_counts, default=[1, 2, 4, 16], help="the numbers of workers (1,2,4,16)")
    words = parser.parse_args()
    path = program(words.program)
    done = sum(tried(path, case, words.workers) for case in CASES)
    print(f"{done} joins of {len(CASES)} are cut alike")
    return 0 if done == len(CASES) else 1


if __name__ == "__main__":
    sys.exit(main())
