#!/usr/bin/env python3
"""What a few kilobytes of input may make the program hold: twelve inputs that are small beside the answers that they ask for.

    python3 bench/hostile.py [--program PATH] [--rows N] [--given-back] [CASE..]

Buffers of a put may lie over each other, so that many columns cost the bytes of one; a dictionary has a text once, however
often it is named, while an answer has one for each of its batches; and a group is made of a bit. Each case puts such tables
and fetches one answer of them through `flightscan pipe`. The program is run on the puts alone too, and what it holds at most then is taken from
what it holds with the fetch. It may hold 20 MB beside what docs/ARCHITECTURE.md states for a fetch: that is a list for each group, and a cut of
each column of each batch whose rows are grouped, or joined by a further place. The table says how much it is. Of two cases the seconds tell more: their one long text
stands in a key beside another number in each row, and is not to be looked at for each. Every answer has to end with status 0. It ends with 1
where one does not, or more is held.

With --given-back each case goes to a `serve` of one seat, which is asked for the answer three times. It tells what the server
holds behind the puts, and behind the first and the last answer. At the end it may hold no more than 20 MB above the puts, and no
more than 8 MB above what it held behind the first answer.

`--rows N` makes each table of N rows or fewer, to try the script. Build the program first, as for `pipe.py`.
"""

import argparse
import os
import pathlib
import struct
import subprocess
import sys
import tempfile
import time
from dataclasses import dataclass

sys.dont_write_bytecode = True
ROOT = pathlib.Path(__file__).resolve().parent.parent
sys.path[:0] = [str(ROOT / "scripts"), str(ROOT / "vectors/arrow")]

from built import program  # noqa: E402
from layout import written  # noqa: E402
from loopback import Connection, Server  # noqa: E402
from measured import Measured  # noqa: E402
from trees import BOOL, UTF8, batch, dictionary, encoding, field, integer, placed, schema, texts  # noqa: E402
from wire import call, chunk, descriptor, packed, query_handle, ticket  # noqa: E402

HELD_MB = 20  # beside what is stated
TIMES, GROWN_MB = 3, 8  # of an answer that is asked for again, and what the server may hold more behind the last than behind the first
PIECE = 1_048_576  # so many bytes of an answer are read at once, and dropped
LONG = b"x" * 65_536  # the longest text that a table may have
INT64, INT32, UINT16 = integer(64, True), integer(32, True), integer(16, False)
VALUES, PIECE_ROWS = 16_016, 1_024  # of a dictionary of many values, and of each batch whose rows name one of them
STATUS_OK = b"\x04\x00\x00\x00"

# Of each group: where its first row stands, its hash and its entry, and of one item a count, or a count and a sum. Lists grow by doubling.
GROUP_BYTES, COUNT_BYTES, TALLY_BYTES, GROWN = 40, 8, 32, 2
CUT_BYTES = 200  # of each column of each batch whose rows are grouped, or of a further place: it is a cut of the table's column


@dataclass
class Case:
    """Puts, the query that is asked of them and the rows of its first place, and how many bytes are stated for it."""

    name: str
    puts: list
    query: bytes
    rows: int
    stated: int = 0


# ---- tables


def put(table, messages):
    """A put that makes a table: the messages are trees with their bodies, the schema first."""
    ingest = chunk(1, b"\x08\x01") + chunk(2, table)
    payloads = [chunk(2, written("Message", tree, "spread")) + (chunk(1000, body) if body else b"") for tree, body in messages]
    payloads[0] = chunk(1, descriptor(packed(b"CommandStatementIngest", ingest))) + payloads[0]
    return call(b"DoPut", payloads)


def names(count, place="", letter="t"):
    return [f"{place}{letter}{number}" for number in range(count)]


def keys(table, count):
    """A table of so many rows of one key."""
    head = schema(field("k", INT32, False))
    return put(table, [(head, b""), batch(count, (0, b"", struct.pack("<i", 1) * count))])


def one_wide_row(table, columns):
    """A table of one row: a key, and columns of texts whose buffers are the same bytes."""
    head = schema(field("k", INT32, False), *(field(name, UTF8, False) for name in names(columns)))
    body = struct.pack("<iiii", 1, 0, 0, len(LONG)) + LONG
    buffers = [(0, 0), (0, 4)] + [(0, 0), (8, 8), (16, len(LONG))] * columns
    return put(table, [(head, b""), placed(1, [(1, 0)] * (columns + 1), buffers, body)])


def long_words(table, columns, count):
    """A table of so many rows: their numbers, and columns of dictionaries of one long text each."""
    head = schema(field("k", INT32, False), *(field(name, UTF8, False, dictionary=encoding(id)) for id, name in enumerate(names(columns))))
    words = [dictionary(id, batch(1, (0, b"", *texts([LONG])))) for id in range(columns)]
    numbers = struct.pack(f"<{count}i", *range(count))
    return put(table, [(head, b""), *words, batch(count, (0, b"", numbers), *[(0, b"", bytes(4 * count))] * columns)])


def bit_windows(table, columns, count):
    """A table of so many rows of columns of truth values, which are windows on the same random bytes."""
    size = (count + 7) // 8
    head = schema(*(field(name, BOOL, False) for name in names(columns, letter="b")))
    body = os.urandom(size + 8 * columns)
    buffers = [place for number in range(columns) for place in ((0, 0), (8 * number, size))]
    return put(table, [(head, b""), placed(count, [(count, 0)] * columns, buffers, body)])


def numbers(table, count):
    """A table of so many different numbers, in batches of 65,536 rows."""
    made = [(schema(field("a", INT64, False)), b"")]
    for first in range(0, count, 65_536):
        last = min(count, first + 65_536)
        made.append(batch(last - first, (0, b"", struct.pack(f"<{last - first}q", *range(first, last)))))
    return put(table, made)


def one_word(table, count):
    """A table of so many rows: a dictionary's one long text, and their numbers."""
    head = schema(field("s", UTF8, False, dictionary=encoding(0)), field("k", UINT16, False))
    word = dictionary(0, batch(1, (0, b"", *texts([LONG]))))
    ids = struct.pack(f"<{count}H", *range(count))
    return put(table, [(head, b""), word, batch(count, (0, b"", bytes(4 * count)), (0, b"", ids))])


def one_of_many_words(table, pieces):
    """A table of so many batches, whose rows all name the one long text of a dictionary of 16,016 values: more than 16 for each of
    1,000 rows. Of each row the number in its batch stands beside."""
    head = schema(field("s", UTF8, False, dictionary=encoding(0, UINT16)), field("k", UINT16, False))
    words = dictionary(0, batch(VALUES, (0, b"", *texts([LONG, *(b"%d" % number for number in range(1, VALUES))]))))
    piece = batch(PIECE_ROWS, (0, b"", bytes(2 * PIECE_ROWS)), (0, b"", struct.pack(f"<{PIECE_ROWS}H", *range(PIECE_ROWS))))
    return put(table, [(head, b""), words, *[piece] * pieces])


def words_over_one_buffer(table, columns, count):
    """A table of so many rows of dictionaries of 100 words, whose indices are the same bytes."""
    head = schema(*(field(name, UTF8, False, dictionary=encoding(id, integer(8, True))) for id, name in enumerate(names(columns))))
    words = batch(100, (0, b"", *texts([b"%d" % number for number in range(100)])))
    codes = bytes(row % 100 for row in range(count))
    indices = placed(count, [(count, 0)] * columns, [(0, 0), (0, count)] * columns, codes)
    return put(table, [(head, b""), *(dictionary(id, words) for id in range(columns)), indices])


def single_rows(table, columns, count):
    """A table of so many batches of one row of columns, which are windows on the same eight bytes."""
    head = schema(*(field(name, INT64, False) for name in names(columns)))
    row = placed(1, [(1, 0)] * columns, [(0, 0), (0, 8)] * columns, bytes(8))
    return put(table, [(head, b""), *[row] * count])


def cases(most):
    """The twelve inputs, with tables of so many rows at most."""
    rows = {count: min(count, most) for count in (128, 300, 600, 1_000, 4_000, 65_536, 102_400, 500_000, 2_000_000)}
    pieces = max(1, rows[102_400] // PIECE_ROWS)
    four = ", ".join(names(20, "x.") + names(20, "y.") + names(24, "z."))
    two = ", ".join(names(63, "x."))
    joined = "FROM u AS a JOIN w AS x ON a.k = x.k"
    bits = ", ".join(names(40, letter="b"))
    counts, sums = ", ".join(["COUNT(*)"] * 64), ", ".join(["SUM(a)"] * 64)
    return [
        Case("wide texts, 4 places", [one_wide_row(b"w", 60), keys(b"u", rows[600])],
             f"SELECT {four} {joined} JOIN w AS y ON a.k = y.k JOIN w AS z ON a.k = z.k".encode(), rows[600]),
        Case("wide texts, 2 places", [one_wide_row(b"w", 63), keys(b"u", rows[1_000])], f"SELECT {two} {joined}".encode(), rows[1_000]),
        Case("dictionaries, 2 places", [long_words(b"u", 63, rows[300])],
             f"SELECT {two} FROM u AS a JOIN u AS x ON a.k = x.k".encode(), rows[300]),
        Case("counts of bits", [bit_windows(b"u", 64, rows[500_000])], f"SELECT {counts} FROM u GROUP BY {bits}".encode(), rows[500_000],
             GROWN * rows[500_000] * (GROUP_BYTES + COUNT_BYTES)),
        Case("sums of numbers", [numbers(b"u", rows[2_000_000])], f"SELECT {sums} FROM u GROUP BY a".encode(), rows[2_000_000],
             GROWN * rows[2_000_000] * (GROUP_BYTES + TALLY_BYTES)),
        Case("one word, many times", [one_word(b"u", rows[128])],
             f"SELECT {', '.join(['s'] * 64)} FROM u GROUP BY s, k".encode(), rows[128]),
        Case("a long word beside a number, joined", [one_word(b"u", rows[65_536])],
             b"SELECT a.k FROM u AS a JOIN u AS b ON a.s = b.s AND a.k = b.k", rows[65_536]),
        Case("a long word beside a number, grouped", [one_word(b"u", rows[65_536])], b"SELECT COUNT(*) FROM u GROUP BY s, k", rows[65_536],
             GROWN * rows[65_536] * (GROUP_BYTES + COUNT_BYTES)),
        Case("one word of many, in pieces", [one_of_many_words(b"u", pieces)], b"SELECT s FROM u WHERE k < 1000", pieces * PIECE_ROWS),
        Case("batches of one row, joined", [keys(b"w", 1), single_rows(b"u", 64, rows[4_000])],
             f"SELECT {', '.join(names(64, 'x.'))} FROM w AS a JOIN u AS x ON a.k = x.t0".encode(), 1, 64 * rows[4_000] * CUT_BYTES),
        Case("batches of one row, grouped", [single_rows(b"u", 64, rows[4_000])],
             f"SELECT COUNT(*) FROM u GROUP BY {', '.join(names(64))}".encode(), rows[4_000], 64 * rows[4_000] * CUT_BYTES),
        Case("dictionaries over one buffer", [words_over_one_buffer(b"u", 64, rows[500_000])], b"SELECT * FROM u", rows[500_000]),
    ]


# ---- runs


def most_held(child):
    """The most bytes that a process held, by the last look at it before it ended."""
    held = 0
    while child.poll() is None:
        try:
            lines = pathlib.Path(f"/proc/{child.pid}/status").read_text().splitlines()
        except OSError:
            break
        held = max([held, *(int(line.split()[1]) * 1024 for line in lines if line.startswith("VmHWM:"))])
        time.sleep(0.002)
    return held


def run(command, records):
    """Runs the program on records: seconds, the most bytes held, how the answers end, and the exit status."""
    with tempfile.TemporaryFile() as given:
        given.write(records)
        given.seek(0)
        start = time.monotonic()
        with subprocess.Popen(command, stdin=given, stdout=subprocess.PIPE) as child:
            last = subprocess.Popen(["tail", "-c", str(len(STATUS_OK))], stdin=child.stdout, stdout=subprocess.PIPE)
            child.stdout.close()
            held = most_held(child)
            ends = last.communicate()[0]
    return time.monotonic() - start, held, ends, child.returncode


def tried(command, case):
    """A line on a case, and whether it is as it has to be."""
    puts = b"".join(case.puts)
    _, base, ends, status = run(command, puts)
    if (ends, status) != (STATUS_OK, 0):
        return f"| {case.name} | the puts end with {ends!r}, exit {status} |", False
    seconds, held, ends, status = run(command, puts + fetch_of(case))
    above, whole = (held - base - case.stated) / 1e6, (ends, status) == (STATUS_OK, 0)
    said = "whole" if whole else f"{ends!r}, exit {status}"
    line = (f"| {case.name} | {len(puts) / 1e3:,.0f} | {said} | {seconds:.1f} | {base / 1e6:,.0f} | {(held - base) / 1e6:,.0f} "
            f"| {case.stated / 1e6:,.0f} | {'yes' if above <= HELD_MB else 'NO'} |")
    return line, whole and above <= HELD_MB


# ---- what is given back


def fetch_of(case):
    return call(b"DoGet", [ticket(query_handle(len(case.puts), 0, case.rows, case.query))])


def end_of_answer(connection):
    """Reads an answer to its end, and keeps of it the code of its status alone."""
    while (kind := connection.number(1)) == 2:
        connection.take(1)
        left = connection.number(4)
        while left > 0:
            left -= len(connection.take(min(left, PIECE)))
    code = connection.number(1)
    connection.take(connection.number(2))
    return code if kind == 4 else None


def given_back(path, case):
    """A line on what a server holds behind the puts and behind its answers, and whether it gave back what they took."""
    with Server(path, "--seats", "1") as server, Connection(server.port) as connection:
        connection.send(b"".join(case.puts))
        codes = [end_of_answer(connection) for _ in case.puts]
        held = [server.held()]
        for _ in range(TIMES):
            connection.send(fetch_of(case))
            codes.append(end_of_answer(connection))
            held.append(server.held())
    base, first, *_, last = (size / 1e6 for size in held)
    good = set(codes) == {0} and last - base <= HELD_MB and last - first <= GROWN_MB
    said = "whole" if set(codes) == {0} else f"codes {codes}"
    return f"| {case.name} | {said} | {base:,.0f} | {first - base:,.0f} | {last - base:,.0f} | {'yes' if good else 'NO'} |", good


def main():
    parser = argparse.ArgumentParser(description=__doc__, formatter_class=argparse.RawDescriptionHelpFormatter)
    parser.add_argument("--program", help="the built program (that of the repository)")
    parser.add_argument("--rows", type=int, default=2_000_000, help="how many rows a table has at most")
    parser.add_argument("--given-back", action="store_true", help="look at what a server holds behind the answers")
    parser.add_argument("cases", nargs="*", metavar="CASE", help="words of the names of the cases that are tried (all)")
    words = parser.parse_args()
    path, measured, right = program(words.program), Measured(words.program), True
    if words.given_back:
        print(f"| | ends | MB of the puts | MB more behind an answer | behind {TIMES} | given back |\n|---|---|---:|---:|---:|---|")
    else:
        print(f"| | KB put | ends | seconds | MB of the puts | MB more | MB stated | within {HELD_MB} MB |\n|---|---:|---|---:|---:|---:|---:|---|")
    for case in cases(words.rows):
        if words.cases and not any(word in case.name for word in words.cases):
            continue
        line, good = given_back(path, case) if words.given_back else tried([path, "pipe"], case)
        print(line, flush=True)
        right = right and good
    print(f"\n{measured.line()}")
    return 0 if right else 1


if __name__ == "__main__":
    sys.exit(main())
