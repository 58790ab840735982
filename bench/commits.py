#!/usr/bin/env python3
"""What a put of one row costs the server: in an empty catalog, in one of 256 tables, into a table of 1,000,000 rows, and
behind 64,000 other puts.

One `flightscan pipe` a case makes what has to be there first, and then takes 1,000 puts, each an append of one row, whose
processor time is the server's own as the system counts it. Each answer is compared with the bytes that it has to be. It tells
the least of some runs, and what the server holds more after the 1,000 puts. Build the program first:
`cd crates/flightscan && rt run -- pipe < stdin > /dev/null`.

    python3 bench/commits.py [--program PATH] [--runs N]        # some ten seconds a run
"""

import argparse
import pathlib
import struct
import subprocess
import sys
import threading

sys.dont_write_bytecode = True
ROOT = pathlib.Path(__file__).resolve().parent.parent
sys.path[:0] = [str(ROOT / "scripts"), str(ROOT / "vectors/arrow")]

from built import program  # noqa: E402
from layout import written  # noqa: E402
from measured import Measured  # noqa: E402
from trees import batch, field, integer, schema  # noqa: E402
from wire import call, chunk, descriptor, packed, record_message, scalar  # noqa: E402

MEASURED = 1_000  # puts
STATUS_OK = b"\x04\x00\x00\x00"
CREATE, APPEND = b"\x0a\x02\x08\x01\x12", b"\x0a\x04\x08\x02\x10\x02\x12"


def messages(rows, batches=1):
    """The header and body of a schema of one Int64 column, and of so many batches of so many rows."""
    yield written("Message", schema(field("a", integer(64, True))), "spread"), b""
    tree, body = batch(rows, (0, b"", struct.pack(f"<{rows}q", *range(rows))))
    one = written("Message", tree, "spread"), body
    for _ in range(batches):
        yield one


def put(how, table, rows, batches=1):
    """A put's records, and those that have to answer it."""
    ingest = how + bytes([len(table)]) + table
    front, sent = chunk(1, descriptor(packed(b"CommandStatementIngest", ingest))), []
    for header, body in messages(rows, batches):
        sent.append(front + chunk(2, header) + chunk(1000, body))
        front = b""
    answer = record_message(chunk(1, scalar(1, rows * batches))) + STATUS_OK
    return call(b"DoPut", sent), answer


def table(number):
    return b"t%03d" % number


def one_row():
    return put(APPEND, table(0), 1)


CASES = (
    ("one table of one row", [put(CREATE, table(0), 1)]),
    ("256 tables", [put(CREATE, table(number), 1) for number in range(256)]),
    ("a table of 1,000,000 rows", [put(CREATE, table(0), 62_500, 16)]),
    ("behind 64,000 puts of one row", [put(CREATE, table(0), 1)] + [one_row()] * 63_999),
)


class Server:
    """A `flightscan pipe`, whose answers are read in a thread of their own."""

    def __init__(self, path):
        self.child = subprocess.Popen([path, "pipe"], stdin=subprocess.PIPE, stdout=subprocess.PIPE)

    def answer(self, calls):
        """Makes the calls, and says whether each was answered as it has to be."""
        wanted = b"".join(answer for _, answer in calls)
        found = []
        reader = threading.Thread(target=lambda: found.append(self.child.stdout.read(len(wanted))))
        reader.start()
        self.child.stdin.write(b"".join(sent for sent, _ in calls))
        self.child.stdin.flush()
        reader.join()
        return found[0] == wanted

    def seconds(self):
        """The processor seconds that it took so far."""
        with open(f"/proc/{self.child.pid}/schedstat") as file:
            return int(file.read().split()[0]) / 1e9

    def held(self):
        """The bytes that it holds."""
        with open(f"/proc/{self.child.pid}/statm") as file:
            return int(file.read().split()[1]) * 4096

    def end(self):
        self.child.stdin.close()
        return self.child.wait()


def measure(path, before):
    """Seconds and bytes for each of the measured puts, behind the others."""
    server = Server(path)
    right = server.answer(before)
    seconds, held = server.seconds(), server.held()
    right = server.answer([one_row()] * MEASURED) and right
    took, more = server.seconds() - seconds, server.held() - held
    if not right or server.end() != 0:
        sys.exit("an answer is not what it has to be")
    return took / MEASURED, more / MEASURED


def main():
    parser = argparse.ArgumentParser(description=__doc__, formatter_class=argparse.RawDescriptionHelpFormatter)
    parser.add_argument("--program", help="the built program (that of the repository)")
    parser.add_argument("--runs", type=int, default=5, help="of how many runs the least is taken (5)")
    words = parser.parse_args()
    path, measured = program(words.program), Measured(words.program)
    print("| An append of one row | microseconds | bytes held |\n|---|---:|---:|")
    for name, before in CASES:
        found = [measure(path, before) for _ in range(words.runs)]
        print(f"| {name} | {min(took for took, _ in found) * 1e6:.1f} | {min(more for _, more in found):,.0f} |")
    print(f"\n{measured.line()}")


if __name__ == "__main__":
    main()
