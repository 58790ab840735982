#!/usr/bin/env python3
"""What it costs a fetch to judge a batch by its statistics, where WHERE can be true in none.

    python3 bench/judging.py [--program PATH] [--batches N] [--rows N] [--runs N]

It gives `flightscan pipe` one put of 200,000 batches of one row, of three columns of Int64, one of texts, one of a
dictionary's texts, one of nulls alone, one of texts of 36 bytes and one of 43, and behind it 100 fetches of one query. No batch can
hold a row that the query keeps, so a fetch binds its query and judges each batch, and answers a schema. Told are the
processor time of a fetch, that of a put alone taken off; its nanoseconds for each batch; and for each batch and column
that the WHERE looks at in it: of an AND the parts up to the first that cannot be true. The row `no rows` has an empty
range, so no batch is judged. The first bytes of the long texts tell how they stand to one literal. To the other, with
which they share 26 bytes, they do not. Each time is the least of five runs. 200,000 batches take 100 MB of disk and
400 MB of memory. Build the program first, as for `pipe.py`.
"""

import argparse
import os
import pathlib
import struct
import subprocess
import sys
import tempfile

sys.dont_write_bytecode = True
ROOT = pathlib.Path(__file__).resolve().parent.parent
sys.path[:0] = [str(ROOT / "scripts"), str(ROOT / "vectors/arrow")]

from built import program  # noqa: E402
from layout import written  # noqa: E402
from measured import Measured  # noqa: E402
from trees import UTF8, batch, dictionary, encoding, field, integer, schema, texts  # noqa: E402
from wire import END, call, chunk, descriptor, packed, query_handle, record_message, record_open, ticket  # noqa: E402

FETCHES = 100
WHOLE = "a text of the bytes that a page has:"  # 36
LONG = "a text of more bytes than a page has of one"  # 43
QUERIES = [  # a WHERE, and how many columns are looked at in each batch
    ("a = 5", 1),
    ("a < 1", 1),
    ("a BETWEEN 3 AND 9", 1),
    ("a IN (3, 5, 9)", 1),
    ("a < b", 2),
    ("a IS NULL", 1),
    ("n = 5", 1),
    ("s = 'x'", 1),
    ("s BETWEEN 'a' AND 'b'", 1),
    ("s IN ('a', 'b')", 1),
    ("w = 'x'", 1),
    ("u = 'a text of the bytes that another has'", 1),
    ("'a text of the bytes that one has' < u", 1),
    ("l = 'a text of other bytes than these'", 1),
    ("l = 'a text of more bytes than this one'", 1),
    ("'a text of more bytes than a cat' > l", 1),
    ("l BETWEEN 'a text of a' AND 'a text of b'", 1),
    ("l IN ('a text of a', 'a text of b')", 1),
    ("l IS NULL", 1),
    (f"l = '{LONG[:38]}a cat'", 1),
    ("a = 1 AND b = 1 AND c = 5", 3),
    ("a = 5 OR b = 5 OR c = 5", 3),
    ("a = 1 AND s = 'text' AND w = 'x'", 3),
    ("1 = 2", 0),
    (None, 0),
]


def put(batches, rows):
    """The records of a put, in which all batches are alike."""
    i64 = integer(64, True)
    fields = [field(name, i64) for name in "abc"] + [field("s", UTF8), field("w", UTF8, dictionary=encoding(7)), field("n", i64, nullable=True), field("u", UTF8), field("l", UTF8)]
    words = dictionary(7, batch(2, (0, b"", *texts([b"word", b"other"]))))
    ones = 0, b"", struct.pack(f"<{rows}q", *[1] * rows)
    nulls = rows, bytes(-(-rows // 8)), bytes(8 * rows)
    alike = [(0, b"", *texts([text.encode()] * rows)) for text in ("text", WHOLE, LONG)]
    made = batch(rows, ones, ones, ones, alike[0], (0, b"", bytes(4 * rows)), nulls, *alike[1:])
    front = chunk(1, descriptor(packed(b"CommandStatementIngest", b"\x0a\x02\x08\x01\x12\x01t")))
    yield record_open(b"DoPut")
    yield record_message(front + chunk(2, written("Message", schema(*fields), "spread")))
    data = [chunk(2, written("Message", tree, "spread")) + chunk(1000, body) for tree, body in (words, made)]
    yield record_message(data[0])
    for first in range(0, batches, 10_000):
        yield record_message(data[1]) * min(10_000, batches - first)
    yield END


def fetch(where, rows):
    text, end = ("SELECT a FROM t", 0) if where is None else (f"SELECT a FROM t WHERE {where}", rows)
    return call(b"DoGet", [ticket(query_handle(1, 0, end, text.encode()))])


def seconds(path, source, calls):
    """The processor seconds of `pipe` over a file and calls behind it, and the most memory that it held, in MB."""
    feed = subprocess.Popen(["cat", source, "-"], stdin=subprocess.PIPE, stdout=subprocess.PIPE)
    child = subprocess.Popen([path, "pipe"], stdin=feed.stdout, stdout=subprocess.DEVNULL)
    feed.stdout.close()
    feed.communicate(calls)
    _, status, usage = os.wait4(child.pid, 0)
    if os.waitstatus_to_exitcode(status) != 0:
        sys.exit(f"{path} ended with {os.waitstatus_to_exitcode(status)}")
    return usage.ru_utime + usage.ru_stime, usage.ru_maxrss * 1024 / 1e6


def least(path, source, calls, runs):
    return min(seconds(path, source, calls) for _ in range(runs))


def main():
    parser = argparse.ArgumentParser(description=__doc__, formatter_class=argparse.RawDescriptionHelpFormatter)
    parser.add_argument("--program", help="the built program (that of the repository)")
    parser.add_argument("--batches", type=int, default=200_000, help="how many batches (200,000)")
    parser.add_argument("--rows", type=int, default=1, help="rows of a batch (1)")
    parser.add_argument("--runs", type=int, default=5, help="runs, of which the least time counts (5)")
    words = parser.parse_args()
    path, measured = program(words.program), Measured(words.program)
    with tempfile.TemporaryDirectory() as folder:
        source = os.path.join(folder, "put")
        with open(source, "wb") as out:
            out.writelines(put(words.batches, words.rows))
        alone, held = least(path, source, b"", words.runs)
        print(f"a put of {words.batches} batches of {words.rows} rows: {os.path.getsize(source) / 1e6:.0f} MB, "
              f"{alone:.2f} s of processor time, {held:.0f} MB held at most")
        print(f"{'WHERE':56}{'ms a fetch':>12}{'ns a batch':>12}{'ns a column':>12}")
        for where, columns in QUERIES:
            calls = fetch(where, words.batches * words.rows) * FETCHES
            taken = (least(path, source, calls, words.runs)[0] - alone) / FETCHES
            of_batch = taken / words.batches * 1e9
            of_column = f"{of_batch / columns:12.0f}" if columns else ""
            print(f"{where or 'no rows':56}{taken * 1e3:12.2f}{of_batch:12.0f}{of_column}", flush=True)
    print(measured.line())


if __name__ == "__main__":
    main()
