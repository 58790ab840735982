#!/usr/bin/env python3
"""What `flightscan serve` costs over loopback, beside plain sockets that carry the same bytes.

    python3 bench/serve.py [--program PATH] [--runs N] [--megabytes M] [--fetches N]

It measures 10,000 fetches of two rows, and tells their median, beside a plain echo of as many bytes each way; and a
put of 300 MB (three columns of Int64 in batches of 65,536 rows) and `SELECT *` of it, beside a plain copy of as many bytes
over a socket, which keeps and looks at none of them. bench/sockets.cpp is the client of both, and the plain server; it
is compiled with g++. Server and plain server are run in turns, and the least of N runs (3) is told. It also tells what the
server holds for each byte put, and the most that it held while it answered. bench/README.md has the
table printed. Build the program first, as for pipe.py.
"""

import argparse
import pathlib
import subprocess
import sys
import tempfile
from array import array
from dataclasses import dataclass

sys.dont_write_bytecode = True
ROOT = pathlib.Path(__file__).resolve().parent.parent
sys.path[:0] = [str(ROOT / "scripts"), str(ROOT / "vectors/arrow")]

from built import program  # noqa: E402
from layout import written  # noqa: E402
from loopback import LINE, Connection, Server  # noqa: E402
from measured import Measured  # noqa: E402
from trees import batch, field, integer, schema  # noqa: E402
from wire import END, call, chunk, descriptor, packed, query_handle, record_message, record_open, scalar  # noqa: E402
from wire import ticket  # noqa: E402

BATCH_ROWS, COLUMNS, WIDTH = 65_536, "abc", 8


# ---- the calls


def put(table, rows, step=1, there=0):
    """The records of a put, piece by piece. The command stands in the first message. In each column a row has its number
    times a step, modulo the rows."""
    ingest = chunk(1, scalar(1, 1) + (scalar(2, there) if there else b"")) + chunk(2, table)
    front = chunk(1, descriptor(packed(b"CommandStatementIngest", ingest)))
    head = schema(*(field(name, integer(64, True)) for name in COLUMNS))
    yield record_open(b"DoPut")
    yield record_message(front + chunk(2, written("Message", head, "spread")))
    for first in range(0, rows, BATCH_ROWS):
        values = array("q", (row * step % rows for row in range(first, min(rows, first + BATCH_ROWS))))
        tree, body = batch(len(values), *[(0, b"", values.tobytes())] * len(COLUMNS))
        yield record_message(chunk(2, written("Message", tree, "spread")) + chunk(1000, body))
    yield END


def fetch(version, table, rows, where=b""):
    return call(b"DoGet", [ticket(query_handle(version, 0, rows, b"SELECT * FROM " + table + where))])


@dataclass
class Step:
    """A call that is made so many times: the file of its bytes, and how many its answer has."""

    name: str
    file: pathlib.Path
    count: int
    answer: int = 0

    def size(self):
        return self.file.stat().st_size


def steps_of(folder, rows, fetches):
    """Two rows are put and fetched many times, and then many rows are put and fetched a few times."""
    calls = [("small put", put(b"u", 2), 1), ("small fetch", [fetch(1, b"u", 2)], fetches),
             ("put", put(b"t", rows), 1), ("select", [fetch(2, b"t", rows)], 5)]
    for number, (name, pieces, count) in enumerate(calls):
        file = folder / str(number)
        with open(file, "wb") as out:
            out.writelines(pieces)
        yield Step(name, file, count)


def answer_size(connection):
    """Reads an answer, which has to have status 0, and tells how many bytes it has."""
    size = 0
    while (kind := connection.take(1)) == b"\x02":
        length = int.from_bytes(connection.take(5)[1:], "big")
        connection.take(length)
        size += 6 + length
    status = connection.take(3)
    if kind + status != b"\x04\0\0\0":
        sys.exit(f"a call was refused: {kind + status + connection.take(status[2])}")
    return size + 4


def learn_sizes(path, steps):
    with Server(path) as server, Connection(server.port) as connection:
        for step in steps:
            with open(step.file, "rb") as source:
                connection.socket.sendfile(source)
            step.answer = answer_size(connection)


# ---- measuring


def asked(client, port, steps, look):
    """The median and the least seconds of each step, and what is seen behind it."""
    words = [word for step in steps for word in (str(step.file), str(step.answer), str(step.count))]
    found = {}
    with subprocess.Popen([client, "ask", str(port), *words], stdin=subprocess.PIPE, stdout=subprocess.PIPE) as child:
        for step in steps:
            line = child.stdout.readline()
            if not line:
                sys.exit(f"the client ended at {step.name}")
            found[step.name] = (*(int(word) / 1e9 for word in line.split()), look())
            child.stdin.write(b"\n")
            child.stdin.flush()
    return found


def run_server(path, client, steps):
    with Server(path) as server:
        return asked(client, server.port, steps, lambda: (server.held(), server.most_held()))


def run_plain(client, steps):
    words = [str(word) for step in steps for word in (step.size(), step.answer, step.count)]
    with subprocess.Popen([client, "answer", *words], stdout=subprocess.PIPE) as child:
        return asked(client, int(child.stdout.readline()[len(LINE) :]), steps, lambda: None)


def compiled(folder):
    target, source = folder / "sockets", pathlib.Path(__file__).with_name("sockets.cpp")
    subprocess.run(["g++", "-O2", "-std=c++20", "-o", target, source], check=True)
    return str(target)


def least(runs, name, place):
    return min(run[name][place] for run in runs)


def print_calls(steps, ours, plain):
    """The table of times: of the small fetches the median, of the others the least; of the small put nothing."""
    print("| | bytes sent | bytes answered | ours | plain sockets | times |")
    print("|---|---:|---:|---:|---:|---:|")
    for step in steps[1:]:
        small = step.name.startswith("small")
        own, other = (least(runs, step.name, 0 if small else 1) for runs in (ours, plain))
        times = [f"{1e6 * seconds:.1f} \u00b5s" if small else f"{1e3 * seconds:.0f} ms" for seconds in (own, other)]
        print(f"| {step.name} | {step.size():,} | {step.answer:,} | {times[0]} | {times[1]} | {own / other:.2f} |")


def print_memory(steps, ours):
    """What the server held more behind the large put, and at most while it answered."""
    put_bytes = next(step.size() for step in steps if step.name == "put")
    before, behind = (min(run[name][2][0] for run in ours) for name in ("small fetch", "put"))
    most = max(run["select"][2][1] for run in ours)
    print(f"\nHeld behind the put: {(behind - before) / put_bytes:.3f} bytes for each of its {put_bytes:,}; at most, while "
          f"it was put and fetched, {(most - before) / put_bytes:.3f}. The server began with {before / 1e6:.1f} MB.")


def main():
    parser = argparse.ArgumentParser(description=__doc__, formatter_class=argparse.RawDescriptionHelpFormatter)
    parser.add_argument("--program", help="the built program (that of the repository)")
    parser.add_argument("--runs", type=int, default=3, help="of how many runs the least is taken (3)")
    parser.add_argument("--megabytes", type=int, default=300, help="of the large put (300; at most 400)")
    parser.add_argument("--fetches", type=int, default=10_000, help="small ones (10000)")
    words = parser.parse_args()
    measured = Measured(words.program)
    path, rows = program(words.program), words.megabytes * 1_000_000 // (WIDTH * len(COLUMNS))
    with tempfile.TemporaryDirectory() as name:
        folder = pathlib.Path(name)
        client, steps = compiled(folder), list(steps_of(folder, rows, words.fetches))
        learn_sizes(path, steps)
        runs = [(run_server(path, client, steps), run_plain(client, steps)) for _ in range(words.runs)]
        ours, plain = zip(*runs)
        print_calls(steps, ours, plain)
        print_memory(steps, ours)
    print(f"\n{measured.line()}")


if __name__ == "__main__":
    main()
