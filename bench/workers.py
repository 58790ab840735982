#!/usr/bin/env python3
"""What several workers make of a fetch of `flightscan serve`: its time by the clock and that of the processors.

    python3 bench/workers.py [--program PATH] [--before PATH] [--runs N] [--seconds S] [--rows N] [--minutes M] [QUERY..]

A table of 8,000,000 rows in batches of 65,536 (numbers, one with a tenth of nulls, and texts of ten words) and one of 100,000
rows are put to servers with 1, 2, 4 and 16 workers. First each query is fetched once from each server, whose streams have to
be the same bytes. Then a client fetches it over and over for S seconds (0.15), from those of 1, 2 and 4 in an order by chance:
Q2 keeps 1 row in 100, Q3 half of them, Q6 and Q7 make 1,000 groups by a number and ten by a text, Q8 joins a tenth of the rows
with the smaller table. Of each the median time of a fetch is taken, and the processor time of the server for one. Told are the
medians of N such rounds (30). How many times as fast, and at how many times the processor time, is the median of what each
round gave, since the processors change their speed from round to round.

In each round four readers fetch too, each on a connection of its own, from the server of 1 worker. None of them waits for
another. So how many times as often they fetch as one reader is what the machine has for this query. With --before another
program is put beside them, one from before there were workers. Two small queries are measured with 1 worker and with 4: all of a
table of two rows, and one row of 100,000. The client is bench/sockets.cpp, compiled with g++; the kernel throws its answers away.

A round counts only where the machine had all its processors meanwhile. Before it and behind it as many threads as there are
processors (but four at most) have to do as many times as much arithmetic as one, give or take a tenth (bench/processors.cpp).
While it is measured, a host may take 3 in 100 of the processors at most. Other rounds are left out, and how many is told. It
ends behind M minutes (15), also where fewer rounds count.

The goals: 4 workers 3.0 times as fast by the clock as 1 on four cores (2 workers 1.7 times), with at most 1.15 times the
processor time; a small query at most 1.1 times; four readers as fast as before. Which ones are missed is told. It ends with 1
where streams differ. Build the program first, as for pipe.py.
"""

import argparse
import os
import pathlib
import random
import subprocess
import sys
import tempfile
import time
import zlib
from array import array
from contextlib import ExitStack
from dataclasses import dataclass, field as listed
from itertools import accumulate
from random import Random
from statistics import median

import serve
from built import program
from layout import written
from loopback import Connection, Server
from measured import Measured
from readers import counted
from trees import UTF8, batch, field, integer, schema
from wire import END, call, chunk, descriptor, packed, query_handle, record_message, record_open, scalar, ticket

BATCH_ROWS, SMALLER_ROWS = 65_536, 100_000
WORKERS, COMPARED = (1, 2, 4), (1, 2, 4, 16)  # measured, and compared by their streams
FASTER, MORE_TIME, SMALL_MORE, READERS_LEAST = {2: 1.7, 4: 3.0}, 1.15, 1.1, 0.97  # the goals
PROCESSORS, UNEVEN, TAKEN = min(4, os.cpu_count()), 0.1, 0.03  # when a round counts
WORDS = [b"alpha", b"beta", b"gamma", b"delta", b"epsilon", b"zeta", b"eta", b"theta", b"iota", b"kappa"]
BILLION, MILLION = 10**9, 10**6
TABLES = {
    "t": [("a", integer(64, True)), ("b", integer(64, True)), ("k", integer(32, True)), ("s", UTF8), ("j", integer(32, True))],
    "u": [("key", integer(64, True)), ("v", integer(64, True))],
    "w": [("v", integer(64, True))],
}
LARGE = {
    "Q2": "SELECT a, b, k FROM t WHERE a < 10000000",
    "Q3": "SELECT a, b FROM t WHERE (a BETWEEN 100000000 AND 799999999 AND NOT b < -500000) OR (a >= 950000000 AND (b IS NULL OR b > 0))",
    "Q6": "SELECT k, COUNT(*), SUM(b) FROM t GROUP BY k",
    "Q7": "SELECT s, COUNT(*), SUM(b) FROM t GROUP BY s",
    "Q8": "SELECT t.a, t.k, u.v FROM t JOIN u ON t.j = u.key",
}
SMALL = {"two rows": "SELECT * FROM w", "one row of 100,000": "SELECT v FROM u WHERE key = {key}"}


# ---- the tables


def numbers(random, rows, kind):
    """So many numbers of 32 bits at random, as an array of this kind."""
    return array(kind, array("I", random.randbytes(4 * rows)))


def below(random, rows, bound, kind):
    return array(kind, [number * bound >> 32 for number in numbers(random, rows, "Q")])


def columns_of(name, rows, random):
    """The columns of a batch, each a count of nulls and its buffers."""
    if name != "t":
        return [(0, b"", below(random, rows, MILLION, "q").tobytes()) for _ in TABLES[name]]
    flags = array("B", [number >= 26 for number in random.randbytes(rows)])
    valid = int(bytes(48 + flag for flag in reversed(flags)), 2).to_bytes((rows + 7) // 8, "little")
    b = array("q", [number - MILLION for number in below(random, rows, 2 * MILLION, "q")])
    texts = [WORDS[number] for number in below(random, rows, len(WORDS), "B")]
    offsets = array("i", accumulate(map(len, texts), initial=0))
    return [(0, b"", below(random, rows, BILLION, "q").tobytes()), (flags.count(0), valid, b.tobytes()),
            (0, b"", below(random, rows, 1_000, "i").tobytes()), (0, b"", offsets.tobytes(), b"".join(texts)),
            (0, b"", below(random, rows, MILLION, "i").tobytes())]


def put(name, rows, random):
    """The records of a put, piece by piece. The keys of `u` are all different."""
    ingest = chunk(1, scalar(1, 1)) + chunk(2, name.encode())
    front = chunk(1, descriptor(packed(b"CommandStatementIngest", ingest)))
    head = schema(*(field(column, kind, column == "b") for column, kind in TABLES[name]))
    keys = array("q", random.sample(range(MILLION), rows)) if name == "u" else None
    yield record_open(b"DoPut")
    yield record_message(front + chunk(2, written("Message", head, "spread")))
    for first in range(0, rows, BATCH_ROWS):
        count = min(BATCH_ROWS, rows - first)
        columns = columns_of(name, count, random)
        if keys is not None:
            columns[0] = 0, b"", keys[first : first + count].tobytes()
        tree, body = batch(count, *columns)
        yield record_message(chunk(2, written("Message", tree, "spread")) + chunk(1000, body))
    yield END


@dataclass
class Workload:
    """The files of the puts, and of each query its call."""

    puts: list[pathlib.Path]
    steps: dict[str, serve.Step]


def made(folder, rows):
    """The puts and the calls, as files. The tables' versions are 1, 2 and 3."""
    sizes, puts, steps = {"t": rows, "u": SMALLER_ROWS, "w": 2}, [], {}
    for name, count in sizes.items():
        puts.append(folder / f"{name}.put")
        with open(puts[-1], "wb") as out:
            out.writelines(put(name, count, Random(name)))
    key = Random("u").sample(range(MILLION), SMALLER_ROWS)[SMALLER_ROWS // 2]
    for name, text in (LARGE | SMALL).items():
        text, table = text.format(key=key), text.partition(" FROM ")[2].partition(" ")[0]
        file = folder / name.replace(" ", "_")
        file.write_bytes(call(b"DoGet", [ticket(query_handle(len(sizes), 0, sizes[table], text.encode()))]))
        steps[name] = serve.Step(name, file, 1)
    return Workload(puts, steps)


# ---- servers


def answer_of(connection):
    """The size of an answer, which has to have status 0, and a sum over its bytes."""
    size, total = 4, 0
    while (kind := connection.take(1)) == b"\x02":
        message = connection.take(int.from_bytes(connection.take(5)[1:], "big"))
        size, total = size + 6 + len(message), zlib.crc32(message, total)
    code, length = connection.number(1), connection.number(2)
    if kind != b"\x04" or code != 0:
        sys.exit(f"a call was refused: {connection.take(length).decode()}")
    return size, total


def given_the_tables(server, workload):
    with Connection(server.port) as connection:
        for file in workload.puts:
            with open(file, "rb") as source:
                connection.socket.sendfile(source)
            answer_of(connection)


def answers_of(server, workload):
    """The size and the sum of each query's answer."""
    found = {}
    with Connection(server.port) as connection:
        for name, step in workload.steps.items():
            connection.send(step.file.read_bytes())
            found[name] = answer_of(connection)
    return found


# ---- the machine


def compiled_arithmetic(folder):
    target, source = folder / "processors", pathlib.Path(__file__).with_name("processors.cpp")
    subprocess.run(["g++", "-O2", "-std=c++20", "-pthread", "-o", target, source], check=True)
    return str(target)


def processors_held():
    """The time of all processors so far, and how much of it a host took."""
    times = [int(word) for word in pathlib.Path("/proc/stat").read_text().split()[1:9]]
    return sum(times), times[-1]


@dataclass
class Machine:
    """What tells whether all its processors were there, and how many rounds counted and how many didn't."""

    arithmetic: str
    counted: int = 0
    left_out: int = 0
    times: list[float] = listed(default_factory=list)

    def is_whole(self):
        """Whether so many threads do as many times as much as one."""
        times = float(subprocess.run([self.arithmetic, str(PROCESSORS)], check=True, capture_output=True).stdout)
        self.times.append(times)
        return abs(times / PROCESSORS - 1) <= UNEVEN

    def whole_round(self, measure):
        """What is measured, or None where the machine hadn't all its processors meanwhile."""
        found, before = None, processors_held()
        if self.is_whole():
            found = measure()
            all_time, taken = (now - then for now, then in zip(processors_held(), before))
            found = found if taken <= TAKEN * all_time and self.is_whole() else None
        self.counted, self.left_out = self.counted + (found is not None), self.left_out + (found is None)
        return found

    def line(self):
        least, middle_one, most = min(self.times), median(self.times), max(self.times)
        return (f"{self.counted} rounds count, and {self.left_out} are left out. {PROCESSORS} threads did {middle_one:.2f} times "
                f"as much arithmetic as one in the median, {least:.2f} to {most:.2f}.")


# ---- measuring


@dataclass
class Figures:
    """Of a fetch the least and the median seconds, and the server's processor seconds. The fetches a second of all readers."""

    least: float
    median: float
    processor: float
    rate: float


def measured_once(bench, server, step, readers):
    client, seconds = bench
    calls, cores, _, _ = counted(client, server.port, seconds, server, [(step, readers, 0)])
    one = calls[step.name]
    return Figures(one.least, one.median, cores / one.rate, one.rate)


def middle(rounds):
    """The medians of some rounds, but the least time of all."""
    median_time, processor, rate = (median(getattr(one, which) for one in rounds) for which in ("median", "processor", "rate"))
    return Figures(min(one.least for one in rounds), median_time, processor, rate)


def told(seconds):
    return f"{1e3 * seconds:.1f} ms" if seconds >= 1e-3 else f"{1e6 * seconds:.1f} \u00b5s"


def print_large(found, names, missed):
    print("| | workers | median | times as fast as 1 | least time | times as fast as 1 | processor | times that of 1 |")
    print("|---|---:|---:|---:|---:|---:|---:|---:|")
    for name in names:
        one = middle(found[name, 1])
        for workers in WORKERS:
            now = middle(found[name, workers])
            rounds = list(zip(found[name, 1], found[name, workers]))
            faster = median(alone.median / beside.median for alone, beside in rounds)
            more = median(beside.processor / alone.processor for alone, beside in rounds)
            at_best = one.least / now.least
            times = f"{told(now.median)} | {faster:.2f} | {told(now.least)} | {at_best:.2f}"
            print(f"| {name} | {workers} | {times} | {told(now.processor)} | {more:.2f} |")
            if 1 < workers <= PROCESSORS and (faster < FASTER[workers] or more > MORE_TIME):
                missed.append(f"{name} with {workers} workers: {faster:.2f} times as fast, {more:.2f} times the processor time")
    print()


def print_small(found, names, missed):
    print("| | 1 worker | 4 workers | times |")
    print("|---|---:|---:|---:|")
    for name in names:
        one, four = (middle(found[name, workers]).median for workers in (1, 4))
        print(f"| {name} | {told(one)} | {told(four)} | {four / one:.2f} |")
        if four > SMALL_MORE * one:
            missed.append(f"{name}: {four / one:.2f} times with 4 workers")
    print()


def print_readers(found, names, missed):
    """Fetches a second of four readers of 1 worker each, beside those of one reader, and of the program from before."""
    print("| | one reader, fetches a second | four readers | times | before | times |")
    print("|---|---:|---:|---:|---:|---:|")
    for name in names:
        one, now = middle(found[name, 1]).rate, middle(found[name, "readers"]).rate
        times = median(all_four.rate / alone.rate for alone, all_four in zip(found[name, 1], found[name, "readers"]))
        before = middle(found[name, "before"]).rate if (name, "before") in found else None
        row = f"| {name} | {one:.1f} | {now:.1f} | {times:.2f} |"
        print(f"{row} {f'{before:.1f}' if before else ''} | {f'{now / before:.2f}' if before else ''} |")
        if before and now < READERS_LEAST * before:
            missed.append(f"four readers of {name}: {now / before:.2f} times as many fetches as before")
    print()


@dataclass
class Case:
    """A query that is measured with some servers in turn: of each how it is told, the server, and how many readers."""

    name: str
    servers: list[tuple[object, object, int]]


def cases_of(servers, names):
    readers = [("readers", servers[1], 4)] + ([("before", servers["before"], 4)] if "before" in servers else [])
    large = [Case(name, [(workers, servers[workers], 1) for workers in WORKERS] + readers) for name in names if name in LARGE]
    return large + [Case(name, [(workers, servers[workers], 1) for workers in (1, 4)]) for name in names if name in SMALL]


def measured_case(bench, step, servers):
    """The figures with each server, in an order by chance."""
    order = random.sample(servers, len(servers))
    return {which: measured_once(bench, server, step, readers) for which, server, readers in order}


def measured_rounds(bench, machine, steps, cases, words):
    """The figures of each case in so many rounds that count, or in fewer where the minutes are over."""
    found, end = {}, time.monotonic() + 60 * words.minutes
    while time.monotonic() < end and (open_cases := [case for case in cases if len(found.get((case.name, 1), [])) < words.runs]):
        for case in open_cases:
            figures = machine.whole_round(lambda: measured_case(bench, steps[case.name], case.servers))
            for which, one in (figures or {}).items():
                found.setdefault((case.name, which), []).append(one)
    return found


def look_at_answers(servers, workload):
    """All servers have to give the same bytes. The sizes are kept with the calls."""
    found = {which: answers_of(server, workload) for which, server in servers.items() if which != "before"}
    for which, answers in found.items():
        if other := [name for name in answers if answers[name] != found[1][name]]:
            sys.exit(f"other streams with {which} workers than with 1: {', '.join(other)}")
    for name, (size, _) in found[1].items():
        workload.steps[name].answer = size
    if "before" in servers:
        other = [name for name, answer in answers_of(servers["before"], workload).items() if answer[0] != found[1][name][0]]
        if other:
            sys.exit(f"answers of another size before: {', '.join(other)}")


def main():
    parser = argparse.ArgumentParser(description=__doc__, formatter_class=argparse.RawDescriptionHelpFormatter)
    parser.add_argument("--program", help="the built program (that of the repository)")
    parser.add_argument("--before", help="a program from before there were workers")
    parser.add_argument("--runs", type=int, default=30, help="rounds that count, whose medians are told (30)")
    parser.add_argument("--seconds", type=float, default=0.15, help="that a query is fetched over and over (0.15)")
    parser.add_argument("--rows", type=int, default=8_000_000, help="of the table (8000000)")
    parser.add_argument("--minutes", type=float, default=15, help="at most (15)")
    parser.add_argument("query", nargs="*", help=f"queries whose names begin so (all): {', '.join([*LARGE, *SMALL])}")
    words = parser.parse_args()
    path, measured, missed = program(words.program), Measured(words.program), []
    names = [name for name in [*LARGE, *SMALL] if not words.query or name.startswith(tuple(words.query))]
    with tempfile.TemporaryDirectory() as name, ExitStack() as stack:
        folder = pathlib.Path(name)
        bench, workload = (serve.compiled(folder), words.seconds), made(folder, words.rows)
        options = {workers: (path, "--seats", "8", "--workers", str(workers)) for workers in COMPARED}
        if words.before:
            options["before"] = words.before, "--seats", "8"
        servers = {which: stack.enter_context(Server(*option)) for which, option in options.items()}
        for server in servers.values():
            given_the_tables(server, workload)
        look_at_answers(servers, workload)
        machine = Machine(compiled_arithmetic(folder))
        cases = cases_of(servers, names)
        found = measured_rounds(bench, machine, workload.steps, cases, words)
        missed += [f"{case.name}: no round counts" for case in cases if (case.name, 1) not in found]
        counting = [name for name in names if (name, 1) in found]
        print_large(found, [name for name in counting if name in LARGE], missed)
        print_readers(found, [name for name in counting if name in LARGE], missed)
        print_small(found, [name for name in counting if name in SMALL], missed)
    print("\n".join([f"Missed: {one}" for one in missed] or ["All goals are met."]))
    print(f"\n{machine.line()}\n{measured.line()}")


if __name__ == "__main__":
    main()
