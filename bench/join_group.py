#!/usr/bin/env python3
"""What filters, joins and groups cost in `flightscan pipe`, beside a plain C++ program over the same arrays.

    python3 bench/join_group.py [--program PATH] [--runs N] [--rows N] [CASE..]

It makes the inputs once for each case: puts of columns of Int64, and of keys of Bool that are null or FALSE, in batches of
65,536 rows, with and without a fetch
behind them, and the same columns as plain files for bench/join_group.cpp, which it compiles (g++, -O3, for baseline
x86-64). First it reads both answers, which must be the same in every byte of each column, so also in their order. Then
it measures both: processor time, the least of N runs (5) or of those that a minute takes, and the most memory held.
"fetch" is the time with the fetch less that of the puts alone, and "C++" its time with the answer less that of reading
the columns alone; both write to /dev/null. With --rows the tables have fewer rows, to try the script. A case of colliding keys has keys that fall into one bucket of the C++
table. bench/README.md has a part of the table printed. Build the program first, as for `pipe.py`. It ends with
1 where the answers of a case differ or one was refused, and says so in place of its figures.
"""

import argparse
import os
import pathlib
import subprocess
import sys
import tempfile
import zlib
from array import array
from collections.abc import Callable
from dataclasses import dataclass
from random import Random

sys.dont_write_bytecode = True
ROOT = pathlib.Path(__file__).resolve().parent.parent
sys.path[:0] = [str(ROOT / "scripts"), str(ROOT / "vectors/arrow")]

from built import program  # noqa: E402
from layout import written  # noqa: E402
from measured import Measured  # noqa: E402
from reader import Table  # noqa: E402
from trees import BOOL, batch, field, integer, schema  # noqa: E402
from wire import END, call, chunk, descriptor, fields, packed, query_handle, record_message, record_open  # noqa: E402
from wire import ticket  # noqa: E402

BATCH_ROWS = 65_536
ROWS = 1_000_000
EQUAL = 8_192  # whose square is the most rows that an answer may have
COLLIDING = 32_768
NULL_KEY = -(2**63)  # to the C++ program


# ---- cases


@dataclass
class Case:
    """A query, the same in the words of the C++ program, and the widths of the answer's columns."""

    name: str
    query: str
    words: str
    tables: Callable[[], dict]  # gives the columns of each table
    widths: tuple = (8, 8)


def numbered(name, keys, key="k", value="v"):
    """A table of keys, and beside each the number of its row. Keys that are null or FALSE are bytes, of which a null is 0."""
    keys = keys if isinstance(keys, bytes) else array("q", keys)
    return {name: {key: keys, value: array("q", range(len(keys)))}}


def different(seed, count):
    """The numbers below a count, each once, in any order."""
    return Random(seed).sample(range(count), count)


def of_few(seed, keys, count):
    return Random(seed).choices(range(keys), k=count)


def colliding(seed, count):
    return [number << 32 for number in different(seed, count)]


def null_or_false(seed, count, falses):
    """Keys of which so many, anywhere among them, are FALSE and the others null."""
    keys = bytearray(count)
    for place in Random(seed).sample(range(count), falses):
        keys[place] = 1
    return bytes(keys)


FILTER = "SELECT k, v FROM t WHERE k < "
JOIN = "SELECT t.v, u.v FROM t JOIN u ON t.k = u.k"
GROUP = "SELECT k, COUNT(*), SUM(v) FROM t GROUP BY k"
SUMS = "SELECT COUNT(*), SUM(v) FROM t GROUP BY k"
GROUP_WIDTHS, SUMS_WIDTHS = (8, 8, 16), (8, 16)


def of_one(keys):
    return lambda: numbered("t", keys())


def of_both(left, right):
    return lambda: numbered("t", left()) | numbered("u", right())


def cases(rows):
    """The cases, of tables of so many rows, or of fewer where equal or colliding keys would make too much of them."""
    few, root, bucket = max(rows // 10, 1), round(rows**0.5), min(rows, COLLIDING)
    half, equal = rows // 2, EQUAL if rows == ROWS else root
    rising, nulls = of_one(lambda: different(1, rows)), lambda seed: lambda: null_or_false(seed, rows, root)
    return [
        Case("filter, 1 row of 2", f"{FILTER}{half}", f"filter {half}", rising),
        Case("filter, all rows", f"{FILTER}{rows}", f"filter {rows}", rising),
        Case("join, 100,000 keys", JOIN, "join", of_both(lambda: of_few(2, few, rows), lambda: different(3, few))),
        Case("join, all keys different", JOIN, "join", of_both(lambda: different(4, rows), lambda: different(5, rows))),
        Case("join, equal keys", JOIN, "join", of_both(lambda: [7] * equal, lambda: [7] * equal)),
        Case("join, keys of NULL and FALSE", JOIN, "join nullable", of_both(nulls(11), nulls(12))),
        Case("join, colliding keys", JOIN, "join", of_both(lambda: colliding(6, bucket), lambda: colliding(7, bucket))),
        Case("group, 1,000 keys", GROUP, "group", of_one(lambda: of_few(8, root, rows)), GROUP_WIDTHS),
        Case("group, all keys different", GROUP, "group", of_one(lambda: different(9, rows)), GROUP_WIDTHS),
        Case("group, equal keys", GROUP, "group", of_one(lambda: [7] * rows), GROUP_WIDTHS),
        Case("group, keys of NULL and FALSE", SUMS, "group nullable", of_one(lambda: null_or_false(13, rows, half)), SUMS_WIDTHS),
        Case("group, colliding keys", GROUP, "group", of_one(lambda: colliding(10, bucket)), GROUP_WIDTHS),
    ]


# ---- inputs


def put(name, columns):
    """The records of a put, piece by piece. The command stands in the first message."""
    ingest = chunk(1, b"\x08\x01") + chunk(2, name.encode())
    front = chunk(1, descriptor(packed(b"CommandStatementIngest", ingest)))
    yield record_open(b"DoPut")
    head = schema(*(field(column, *kind_of(values)) for column, values in columns.items()))
    yield record_message(front + chunk(2, written("Message", head, "spread")))
    for first in range(0, len(columns["v"]), BATCH_ROWS):
        parts = [values[first : first + BATCH_ROWS] for values in columns.values()]
        tree, body = batch(len(parts[0]), *map(buffers_of, parts))
        yield record_message(chunk(2, written("Message", tree, "spread")) + chunk(1000, body))
    yield END


def kind_of(values):
    """A column's type, and whether it has nulls."""
    return (BOOL, True) if isinstance(values, bytes) else (integer(64, True), False)


def buffers_of(part):
    """The number of nulls, the validity bits and the values of a part of a column."""
    if isinstance(part, bytes):
        size = (len(part) + 7) // 8
        valid = int(bytes(48 + flag for flag in reversed(part)), 2)  # by digits, the last row first
        return part.count(0), valid.to_bytes(size, "little"), bytes(size)
    return 0, b"", part.tobytes()


def plain_column(values):
    """A column as the C++ program reads it."""
    return (array("q", (0 if flag else NULL_KEY for flag in values)) if isinstance(values, bytes) else values).tobytes()


def make(case, folder):
    """The inputs of both programs, as files."""
    tables = case.tables()
    with open(folder / "puts", "wb") as puts, open(folder / "both", "wb") as both:
        for name, columns in tables.items():
            for piece in put(name, columns):
                puts.write(piece)
                both.write(piece)
            for column, values in columns.items():
                (folder / f"{name}.{column}").write_bytes(plain_column(values))
        handle = query_handle(len(tables), 0, len(tables["t"]["v"]), case.query.encode())
        both.write(call(b"DoGet", [ticket(handle)]))
        (folder / "tables").write_text(" ".join(tables))


# ---- the answers, read


class Sums:
    """The rows of an answer, and a sum over the bytes of each column."""

    def __init__(self, widths):
        self.widths, self.rows, self.sums = widths, 0, [0] * len(widths)

    def add(self, rows, parts):
        self.rows += rows
        for number, (width, part) in enumerate(zip(self.widths, parts)):
            self.sums[number] = zlib.crc32(part[: rows * width], self.sums[number])


def read_ours(stream, sums, puts):
    """Reads the answers of the puts and of the fetch behind them. Tells the text of a status that is not 0."""
    answers = 0
    while answers <= puts:
        if stream.read(1) == b"\x04":
            code, said = stream.read(1), stream.read(int.from_bytes(stream.read(2), "big"))
            if code != b"\0":
                return said.decode()
            answers += 1
            continue
        message = stream.read(int.from_bytes(stream.read(5)[1:], "big"))
        if answers == puts:
            add_batch(sums, dict(fields(message)))
    return None


def add_batch(sums, data):
    """The values of a batch's columns, whose buffers stand behind those of their validity. A schema has none."""
    head = data[2]
    message = Table(head, int.from_bytes(head[:4], "little"))
    if message.scalar(1, 1) == 3:
        found, body = message.table(2), data.get(1000, b"")
        places = found.structs(2)[1::2]
        sums.add(found.scalar(0, 8), [body[at : at + size] for at, size in places])


def read_plain(stream, sums):
    """Reads the chunks of the C++ program."""
    while count := stream.read(8):
        rows = int.from_bytes(count, "little")
        sums.add(rows, [stream.read(rows * width) for width in sums.widths])


def compare(case, ours, plain, folder):
    """Writes down how many rows both answers have, or why they are not the same."""
    own, other, said = Sums(case.widths), Sums(case.widths), None
    with open(folder / "both", "rb") as source, subprocess.Popen(ours, stdin=source, stdout=subprocess.PIPE) as child:
        said = read_ours(child.stdout, own, len(case_tables(folder)))
    with subprocess.Popen(plain, stdout=subprocess.PIPE) as child:
        read_plain(child.stdout, other)
    if said is None and (own.rows, own.sums) != (other.rows, other.sums):
        said = f"{own.rows} rows {own.sums} of ours, {other.rows} rows {other.sums} of the C++"
    (folder / "found").write_text(said or str(own.rows))


def case_tables(folder):
    return (folder / "tables").read_text().split()


# ---- measuring


def apart(function, *words):
    """Runs a function in a process of its own: what it holds is no part of what this one is measured to hold."""
    child = os.fork()
    if child == 0:
        status = 1
        try:
            function(*words)
            status = 0
        finally:
            os._exit(status)
    _, status = os.waitpid(child, 0)
    if status != 0:
        sys.exit(f"{function.__name__} did not end well")


def run(command, source):
    """Runs a command: processor seconds, and megabytes at most."""
    with open(source, "rb") as feed, open(os.devnull, "wb") as out:
        child = subprocess.Popen(command, stdin=feed, stdout=out)
        _, status, usage = os.wait4(child.pid, 0)
    if status != 0:
        sys.exit(f"{command} ended with {os.waitstatus_to_exitcode(status)}")
    return usage.ru_utime + usage.ru_stime, usage.ru_maxrss * 1024 / 1e6


def least(runs, command, source=os.devnull):
    """The least time of some runs, or of as many as a minute takes, and the most memory."""
    seconds, peaks = [], []
    while len(seconds) < runs and sum(seconds) < 60:
        spent, peak = run(command, source)
        seconds.append(spent)
        peaks.append(peak)
    return min(seconds) * 1e3, max(peaks)


def measure(case, path, plain, folder, runs):
    """A line of the table."""
    apart(make, case, folder)
    columns = [str(folder / f"{name}.{column}") for name in case_tables(folder) for column in "kv"]
    ours, other, load = [path, "pipe"], [plain, case.words, *columns], [plain, "load", *columns]
    apart(compare, case, ours, other, folder)
    found = (folder / "found").read_text()
    if not found.isdecimal():
        print(f"| {case.name} | {found} |", flush=True)
        return False
    puts, _ = least(runs, ours, folder / "puts")
    both, peak = least(runs, ours, folder / "both")
    loaded, _ = least(runs, load)
    answered, plain_peak = least(runs, other)
    fetch, answer = both - puts, max(answered - loaded, 0.1)
    print(f"| {case.name} | {int(found):,} | {puts:.0f} | {fetch:.0f} | {answer:.1f} | {fetch / answer:.1f} "
          f"| {peak:.0f} | {plain_peak:.0f} |", flush=True)
    return True


def compiled(folder):
    """The C++ program."""
    target, source = folder / "join_group", pathlib.Path(__file__).with_suffix(".cpp")
    subprocess.run(["g++", "-O3", "-std=c++20", "-o", target, source], check=True)
    return str(target)


def main():
    parser = argparse.ArgumentParser(description=__doc__, formatter_class=argparse.RawDescriptionHelpFormatter)
    parser.add_argument("--program", help="the built program (that of the repository)")
    parser.add_argument("--runs", type=int, default=5, help="of how many runs the least is taken (5)")
    parser.add_argument("--rows", type=int, default=ROWS, help="of a table, at most (1000000)")
    parser.add_argument("case", nargs="*", help="cases whose names begin so (all)")
    words = parser.parse_args()
    path, measured = program(words.program), Measured(words.program)
    wanted = [case for case in cases(words.rows) if not words.case or case.name.startswith(tuple(words.case))]
    print("| | rows | puts, ms | fetch, ms | C++, ms | times the C++ | peak MB | C++ peak MB |")
    print("|---|---:|---:|---:|---:|---:|---:|---:|")
    with tempfile.TemporaryDirectory() as name:
        folder = pathlib.Path(name)
        plain = compiled(folder)
        done = [measure(case, path, plain, folder, words.runs) for case in wanted]
    print(f"\n{measured.line()}")
    return 0 if all(done) else 1


if __name__ == "__main__":
    sys.exit(main())
