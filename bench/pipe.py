#!/usr/bin/env python3
"""How fast `flightscan pipe` takes a put and gives it back, and how much memory it holds.

    python3 bench/pipe.py [--program PATH]

It makes its own inputs: one put of one column in batches of 65,536 rows, and one fetch of all of them; once of
Int64, once of texts of which some are null, once of a dictionary of texts, and once of Int32, in as many rows as the
dictionary. It runs the built program on each between two pipes, and `cat` on the same bytes between the same pipes, and
prints the figures of both; and at last how many times as long the fetch of the dictionary takes as that of Int32. Build
first: `cd crates/flightscan && rt run -- pipe < stdin > /dev/null`.
"""

import argparse
import os
import pathlib
import struct
import subprocess
import sys
import tempfile
import time

sys.dont_write_bytecode = True
ROOT = pathlib.Path(__file__).resolve().parent.parent
sys.path[:0] = [str(ROOT / "scripts"), str(ROOT / "vectors/arrow")]

from built import program  # noqa: E402
from layout import written  # noqa: E402
from measured import Measured  # noqa: E402
from trees import UTF8, batch, dictionary, encoding, field, integer, schema, texts  # noqa: E402
from wire import END, call, chunk, descriptor, packed, query_handle, record_message, record_open, ticket  # noqa: E402

BATCH_ROWS = 65_536
RUNS = 5


def message(tree, body=b""):
    """A header, laid out as a writer of FlatBuffers would, and a body."""
    return written("Message", tree, "spread"), body


class Longs:
    """8,000,000 rows of Int64, the row's number in each."""

    name, rows, query = "Int64", 8_000_000, b"SELECT * FROM t"

    def first(self):
        yield message(schema(field("a", integer(64, True))))

    def batch(self, first, last):
        return message(*batch(last - first, (0, b"", struct.pack(f"<{last - first}q", *range(first, last)))))


class Texts:
    """2,000,000 rows of texts of 20 bytes, each eighth of them null."""

    name, rows, query = "Utf8", 2_000_000, b"SELECT * FROM t"

    def first(self):
        yield message(schema(field("a", UTF8)))

    def batch(self, first, last):
        count = last - first
        parts = [b"" if row % 8 == 7 else b"text of row %08d" % row for row in range(first, last)]
        validity = b"\x7f" * (count // 8) + (b"\x7f" if count % 8 else b"")
        return message(*batch(count, (count // 8, validity, *texts(parts))))


class Words:
    """8,000,000 rows of a dictionary of 1,000 texts of 20 bytes, by indices of 32 bits."""

    name, rows, query = "dictionary", 8_000_000, b"SELECT e FROM t"
    words = [b"word %015d" % number for number in range(1_000)]

    def first(self):
        yield message(schema(field("e", UTF8, dictionary=encoding(7))))
        yield message(*dictionary(7, batch(len(self.words), (0, b"", *texts(self.words)))))

    def batch(self, first, last):
        indices = [row % len(self.words) for row in range(first, last)]
        return message(*batch(last - first, (0, b"", struct.pack(f"<{last - first}i", *indices))))


class Ints:
    """As many rows of Int32, of 1,000 numbers."""

    name, rows, query = "Int32", 8_000_000, b"SELECT k FROM t"

    def first(self):
        yield message(schema(field("k", integer(32, True))))

    def batch(self, first, last):
        numbers = [row % 1_000 for row in range(first, last)]
        return message(*batch(last - first, (0, b"", struct.pack(f"<{last - first}i", *numbers))))


def messages(column):
    """The messages of a put, piece by piece: header and body."""
    yield from column.first()
    for first in range(0, column.rows, BATCH_ROWS):
        yield column.batch(first, min(column.rows, first + BATCH_ROWS))


def put(column):
    """The records of a put, piece by piece. The command stands in the first message."""
    front = chunk(1, descriptor(packed(b"CommandStatementIngest", b"\x0a\x02\x08\x01\x12\x01t")))
    yield record_open(b"DoPut")
    for header, body in messages(column):
        yield record_message(front + chunk(2, header) + chunk(1000, body))
        front = b""
    yield END


def fetch(column):
    return call(b"DoGet", [ticket(query_handle(1, 0, column.rows, column.query))])


def run(command, source):
    """Runs a command between two pipes: seconds, bytes written, kibibytes at most, exit status."""
    feed = subprocess.Popen(["cat", source], stdout=subprocess.PIPE)
    began = time.perf_counter()
    child = subprocess.Popen(command, stdin=feed.stdout, stdout=subprocess.PIPE)
    feed.stdout.close()
    count = subprocess.Popen(["wc", "-c"], stdin=child.stdout, stdout=subprocess.PIPE, text=True)
    child.stdout.close()
    _, status, usage = os.wait4(child.pid, 0)
    written = int(count.communicate()[0])
    seconds = time.perf_counter() - began
    feed.wait()
    return seconds, written, usage.ru_maxrss, os.waitstatus_to_exitcode(status)


def best(command, source):
    return min(run(command, source) for _ in range(RUNS))


def measure(program, column, folder):
    """Prints the figures of a column, and tells the seconds of its fetch alone."""
    put_only, both = os.path.join(folder, "put"), os.path.join(folder, "both")
    with open(put_only, "wb") as out:
        out.writelines(put(column))
    with open(both, "wb") as out:
        out.writelines(put(column))
        out.write(fetch(column))
    size = os.path.getsize(both)
    print(f"{column.name}: {column.rows} rows, {size} bytes of input; the best of {RUNS} runs")
    print(f"{'':24}{'seconds':>9}{'in MB/s':>9}{'out MB/s':>9}{'peak MB':>9}{'written':>12}  status")
    rows = {}
    for name, command, source in (
        ("cat", ["cat"], both),
        ("put alone", [program, "pipe"], put_only),
        ("put and fetch", [program, "pipe"], both),
    ):
        seconds, written_bytes, peak, status = rows[name] = best(command, source)
        print(f"{name:24}{seconds:9.3f}{size / seconds / 1e6:9.0f}{written_bytes / seconds / 1e6:9.0f}"
              f"{peak * 1024 / 1e6:9.1f}{written_bytes:12}  {status}")
    cat, alone, whole = rows["cat"], rows["put alone"], rows["put and fetch"]
    answer = max(whole[0] - alone[0], 1e-9)
    print(f"put alone: {alone[0] / cat[0]:.2f} times the time of cat")
    print(f"fetch alone (the difference): {answer / cat[0]:.2f} times, {whole[1] / answer / 1e6:.0f} MB/s")
    print(f"put and fetch: {whole[0] / cat[0]:.2f} times the time of cat; peak memory "
          f"{whole[2] * 1024 / size:.2f} times the bytes put\n")
    return answer


def main():
    parser = argparse.ArgumentParser(description=__doc__, formatter_class=argparse.RawDescriptionHelpFormatter)
    parser.add_argument("--program", help="the built program (that of the repository)")
    words = parser.parse_args()
    path, measured = program(words.program), Measured(words.program)
    with tempfile.TemporaryDirectory() as folder:
        seconds = {column.name: measure(path, column, folder) for column in (Longs(), Texts(), Words(), Ints())}
    print(f"the fetch of a dictionary: {seconds['dictionary'] / seconds['Int32']:.2f} times that of Int32")
    print(measured.line())


if __name__ == "__main__":
    main()
