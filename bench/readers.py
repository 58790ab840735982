#!/usr/bin/env python3
"""What `flightscan serve` does for several connections at once: readers that fetch, alone and beside one that puts.

    python3 bench/readers.py [--program PATH] [--runs N] [--seconds S] [--rows N]

A table of 8,000,000 rows, three columns of Int64 in batches of 65,536 rows, is fetched over and over by 1, 2 and 4 readers,
each on a connection of its own: whole, and with a filter that keeps 100 of its rows, spread over the table. Each time
this is done with nobody writing, beside a writer that replaces a table of two rows all the time, and beside one that
replaces a table of 1 MB. The client is bench/sockets.cpp, compiled with g++, with a thread for each connection; the kernel
throws its answers away, so readers copy none of them. Each case has a server of its own and lasts S seconds (1.5), or
until 60,000 small puts or 2,000 large ones were made, since a server takes 65,536 and keeps them all. All cases are gone
through N times (5), and of each the run with the most fetches is told, and the least time of a put. It also tells how
much of the processors the server and the clients took, how much others did beside them, and what the server holds at the end.
bench/README.md has a part of the tables printed. Build the program first, as for pipe.py.
"""

import argparse
import itertools
import os
import pathlib
import subprocess
import sys
import tempfile
from dataclasses import dataclass

import serve
from built import program
from loopback import Connection, Server
from measured import Measured

REPLACE = 3
STEP = 2_654_435_761  # so that the rows that the filter keeps lie apart
KEPT = 100
SMALL_ROWS, LARGE_ROWS = 2, 41_667  # of the tables that are replaced: the larger one has 1 MB
MOST_PUTS = {None: 0, "small put": 60_000, "large put": 2_000}
FETCHES, WRITERS, READERS = ("all rows", "filter"), tuple(MOST_PUTS), (1, 2, 4)
TICK = os.sysconf("SC_CLK_TCK")


@dataclass
class Case:
    """Who calls at once: so many readers, and one writer or none."""

    fetch: str | None
    readers: int
    writer: str | None


@dataclass
class Calls:
    """What calls of one kind came to: how many a second, how many in all, and of their times the least, the median and the 99th
    percentile, in seconds."""

    rate: float
    count: int
    least: float
    median: float
    slow: float


@dataclass
class Run:
    """A case once. Processors are told as how many were taken all the time."""

    calls: dict[str, Calls]
    server: float
    clients: float
    others: float
    grown: int  # what the server holds more behind it


def cases():
    """Each writer alone, then each fetch by each number of readers beside each writer and none."""
    yield from (Case(None, 0, writer) for writer in WRITERS[1:])
    yield from itertools.starmap(Case, itertools.product(FETCHES, READERS, WRITERS))


def steps_of(folder, rows):
    """The calls, the first of which makes the table."""
    calls = [("table", serve.put(b"t", rows, STEP)), ("all rows", [serve.fetch(1, b"t", rows)]),
             ("filter", [serve.fetch(1, b"t", rows, b" WHERE b < %d" % KEPT)]),
             ("small put", serve.put(b"u", SMALL_ROWS, there=REPLACE)),
             ("large put", serve.put(b"v", LARGE_ROWS, there=REPLACE))]
    for number, (name, pieces) in enumerate(calls):
        file = folder / str(number)
        with open(file, "wb") as out:
            out.writelines(pieces)
        yield serve.Step(name, file, 1)


# ---- measuring


def busy():
    """The processor time that all processes took so far, and that was taken from this machine, in seconds."""
    user, nice, system, _, _, hard, soft, stolen = map(int, pathlib.Path("/proc/stat").read_text().split()[1:9])
    return (user + nice + system + hard + soft + stolen) / TICK


def counted(client, port, seconds, server, groups):
    """What came of groups of connections: of each its step, how many they are, and the most calls of one."""
    words = [str(word) for step, count, most in groups for word in (step.file, step.answer, count, most)]
    with subprocess.Popen([client, "crowd", str(port), str(seconds), *words], stdout=subprocess.PIPE) as child:
        if not child.stdout.readline():
            sys.exit("the client ended before it began")
        own, all_own = server.seconds_worked(), busy()
        lines = child.stdout.readlines()
        own, all_own = server.seconds_worked() - own, busy() - all_own
    if len(lines) != len(groups) + 1:
        sys.exit("the client ended too early")
    calls = {}
    for (step, _, _), line in zip(groups, lines):
        rate, count, *times = line.split()
        calls[step.name] = Calls(float(rate), int(count), *(int(time) / 1e9 for time in times))
    clients, took = (int(word) / 1e9 for word in lines[-1].split())
    return calls, own / took, clients / took, max(0.0, all_own - own - clients) / took


def run_case(path, client, seconds, steps, case):
    with Server(path, "--seats", "8") as server:
        with Connection(server.port) as connection:
            with open(steps["table"].file, "rb") as source:
                connection.socket.sendfile(source)
            serve.answer_size(connection)
        groups = [(steps[case.fetch], case.readers, 0)] if case.readers else []
        groups += [(steps[case.writer], 1, MOST_PUTS[case.writer])] if case.writer else []
        before = server.held()
        return Run(*counted(client, server.port, seconds, server, groups), server.held() - before)


# ---- the tables


def best(runs, name):
    """The run with the most calls a second."""
    return max(runs, key=lambda run: run.calls[name].rate)


def print_readers(found, steps, fetch):
    """A row for each number of readers. MB are those of the table, which each fetch goes through. A share is what one reader
    is given, of what a reader alone is given with nobody writing."""
    print(f"| {fetch} | readers | fetches a second | MB/s | each reader's share | server, cores | clients, cores | others |")
    print("|---|---:|---:|---:|---:|---:|---:|---:|")
    alone = best(found[fetch, 1, None], fetch).calls[fetch].rate
    for writer, readers in itertools.product(WRITERS, READERS):
        run = best(found[fetch, readers, writer], fetch)
        rate = run.calls[fetch].rate
        beside = f"beside {writer}s" if writer else "nobody writes"
        print(f"| {beside} | {readers} | {rate:.1f} | {rate * steps['table'].size() / 1e6:,.0f} | {rate / readers / alone:.0%} "
              f"| {run.server:.2f} | {run.clients:.2f} | {run.others:.2f} |")
    print()


def print_puts(found):
    """A row for what is scanned beside the puts. Each time is the least of all runs."""
    print("| beside | puts of 2 rows a second | median | 99th percentile | puts of 1 MB a second | median | 99th percentile |")
    print("|---|---:|---:|---:|---:|---:|---:|")
    for fetch, readers in [(None, 0), *itertools.product(FETCHES, READERS)]:
        words = []
        for writer in WRITERS[1:]:
            calls = [run.calls[writer] for run in found[fetch, readers, writer]]
            times = min(one.median for one in calls), min(one.slow for one in calls)
            words.append(f"{max(one.rate for one in calls):,.0f}")
            words += [f"{1e6 * seconds:,.0f} \u00b5s" for seconds in times]
        beside = f"{readers} reader{'s' * (readers > 1)} of {fetch}" if readers else "nobody"
        print(f"| {beside} | {' | '.join(words)} |")
    print()


def print_memory(found, steps):
    """The most that was held more behind a case: with nobody writing, and for each put."""
    quiet = max(run.grown for (_, _, writer), runs in found.items() for run in runs if writer is None)
    said = [f"with nobody writing {quiet / 1e6:.1f} MB more"]
    for writer in WRITERS[1:]:
        all_runs = [run for (_, _, one), runs in found.items() for run in runs if one == writer]
        each = max(run.grown / (run.calls[writer].count + 1) for run in all_runs)
        said.append(f"{each:,.0f} bytes for each {writer} of {steps[writer].size():,} bytes")
    print(f"Held behind a case, at most: {'; '.join(said)}.")


def main():
    parser = argparse.ArgumentParser(description=__doc__, formatter_class=argparse.RawDescriptionHelpFormatter)
    parser.add_argument("--program", help="the built program (that of the repository)")
    parser.add_argument("--runs", type=int, default=5, help="how often all cases are gone through (5)")
    parser.add_argument("--seconds", type=float, default=1.5, help="that a case lasts (1.5)")
    parser.add_argument("--rows", type=int, default=8_000_000, help="of the table (8000000)")
    words = parser.parse_args()
    path, measured, found = program(words.program), Measured(words.program), {}
    with tempfile.TemporaryDirectory() as name:
        folder = pathlib.Path(name)
        client, steps = serve.compiled(folder), {step.name: step for step in steps_of(folder, words.rows)}
        serve.learn_sizes(path, steps.values())
        for case in [case for _ in range(words.runs) for case in cases()]:
            run = run_case(path, client, words.seconds, steps, case)
            found.setdefault((case.fetch, case.readers, case.writer), []).append(run)
        for fetch in FETCHES:
            print_readers(found, steps, fetch)
        print_puts(found)
        print_memory(found, steps)
    print(f"\n{measured.line()}")


if __name__ == "__main__":
    main()
