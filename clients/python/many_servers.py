#!/usr/bin/python3
"""Four servers and a Dask cluster of four workers on one machine, next to one server that holds all rows.

    /usr/bin/python3 clients/python/many_servers.py [--rows N] [--servers S] [--workers W] [--parts P] [--turns T]
                                                    [--least RATIO] [--program PATH]

The rows follow from their numbers by numpy, so each row that comes is looked at by its number, and each must come once. They
are spread over the servers, and the one server has them in as few tables as hold them. Then, in order:

- SELECT of all rows by one worker and by all: the fastest of T turns each, and the processor time of servers and workers
- each row of that SELECT, and each row of the one server
- counts and sums of groups, added over the servers: those of numpy, and those of the one server
- the same while a writer appends named puts to all servers: each server's rows are those of the version that its info named,
  and a query for no later put than a complete one has the rows of the one server, which gets these puts too

It ends with 1 at the first difference. Where there are 4 workers and 4 processors, it also ends with 1 if all workers read
less than 2.5 times as fast as one, or less than `--least` says; 0 asks for nothing. With 32,000,000 rows it takes some minutes
and 3 GB of memory, and its speeds say something only on a machine that does nothing else, and not for few rows.
"""

from __future__ import annotations

import argparse
import logging
import os
import pathlib
import sys
import threading
import time
from contextlib import ExitStack
from dataclasses import dataclass
from typing import Any

sys.dont_write_bytecode = True
HERE = pathlib.Path(__file__).resolve().parent
ROOT = HERE.parent.parent
PATHS = [str(HERE), str(ROOT / "scripts"), *(str(ROOT / "vectors" / folder) for folder in ("arrow", "flight", "queries"))]
sys.path += PATHS

import distributed  # noqa: E402
import flightscan  # noqa: E402
import flightscan.dask as several  # noqa: E402
import numpy as np  # noqa: E402
import pandas  # noqa: E402
from built import program  # noqa: E402
from loopback import Server  # noqa: E402
from random_calls.answers import Difference, same  # noqa: E402

ROWS_OF_A_TABLE = 16_000_000  # the server takes 16,777,216
ROWS_OF_A_PUT = 1_000_000
ROWS_OF_A_NAMED_PUT = 1_000
TOWNS = [f"town {number:02}" for number in range(50)]
ALL = "SELECT id, town, km, put FROM rides"
GROUPS = "SELECT town, COUNT(*) AS rides, COUNT(km) AS measured, SUM(km) AS km FROM {} GROUP BY town"
MOST_TURNS = 10
WORKERS, LEAST = 4, 2.5  # so many workers, each with a processor, read so many times as fast as one


# ---- rows by their numbers


def codes_of(ids: Any) -> Any:
    return (ids * 2_654_435_761 >> 7) % len(TOWNS)


def distances_of(ids: Any) -> Any:
    return (ids * 7_919 % 997).astype(np.int32)


def nulls_of(ids: Any) -> Any:
    return ids % 11 == 0


def rows_of(ids: Any, put: int) -> pandas.DataFrame:
    """The rows of these numbers, in a put of this name."""
    km = pandas.arrays.IntegerArray(distances_of(ids), nulls_of(ids))
    towns = pandas.Categorical.from_codes(codes_of(ids), pandas.Index(TOWNS, dtype=object))
    return pandas.DataFrame({"id": ids, "town": towns, "km": km, "put": np.full(len(ids), put, np.int32)}, copy=False)


def look_at_rows(frame: pandas.DataFrame, step: int) -> tuple[int, int, int]:
    """Looks at each row of a part by its number. The numbers are those from the first one on, each `step` above the one
    before. The first one, the step and the count are given."""
    ids = frame["id"].to_numpy()
    if len(ids) == 0:
        return 0, step, 0
    same("the numbers of a part", True, bool((ids == ids[0] + step * np.arange(len(ids))).all()))
    towns = pandas.Index(frame["town"].cat.categories).get_indexer(TOWNS)
    same("the towns", True, bool((frame["town"].cat.codes.to_numpy() == towns[codes_of(ids)]).all()))
    nulls = frame["km"].isna().to_numpy()
    same("where km is null", True, bool((nulls == nulls_of(ids)).all()))
    same("km", True, bool((frame["km"].to_numpy(np.int32, na_value=0)[~nulls] == distances_of(ids)[~nulls]).all()))
    return int(ids[0]), step, len(ids)


def groups_of(ids: Any) -> dict[str, list[int]]:
    """Of each town the rows, those with a distance, and the sum of distances."""
    codes, kept = codes_of(ids), ~nulls_of(ids)
    counts = np.bincount(codes, minlength=len(TOWNS))
    measured = np.bincount(codes[kept], minlength=len(TOWNS))
    sums = np.zeros(len(TOWNS), np.int64)
    for code in range(len(TOWNS)):
        sums[code] = distances_of(ids[(codes == code) & kept]).sum(dtype=np.int64)
    return {TOWNS[code]: [int(counts[code]), int(measured[code]), int(sums[code])] for code in range(len(TOWNS)) if counts[code]}


def as_dictionary(groups: pandas.DataFrame) -> dict[str, list[int]]:
    numbers = zip(groups["rides"], groups["measured"], groups["km"])
    return {town: [int(one) for one in found] for town, found in zip(groups["town"], numbers)}


# ---- servers


@dataclass
class Drive:
    words: argparse.Namespace
    servers: list[Server]
    whole: Server

    @property
    def addresses(self) -> list[str]:
        return [f"127.0.0.1:{server.port}" for server in self.servers]

    @property
    def tables(self) -> list[str]:
        """The tables of the one server."""
        return [f"rides_{first // ROWS_OF_A_TABLE}" for first in range(0, self.words.rows, ROWS_OF_A_TABLE)]

    def seconds_worked(self) -> float:
        """The processor time of the servers so far."""
        return sum(server.seconds_worked() for server in self.servers)

    def ids(self, place: int) -> Any:
        """The numbers of the rows of one server."""
        return np.arange(place, self.words.rows, len(self.servers), dtype=np.int64)

    def fill(self) -> None:
        """Puts all rows to the servers, and to the one server."""
        for place, server in enumerate(self.servers):
            self.fill_table(server, "rides", self.ids(place))
        for number, table in enumerate(self.tables):
            first = number * ROWS_OF_A_TABLE
            self.fill_table(self.whole, table, np.arange(first, min(first + ROWS_OF_A_TABLE, self.words.rows), dtype=np.int64))

    @staticmethod
    def fill_table(server: Server, table: str, ids: Any) -> None:
        parts = (rows_of(ids[first : first + ROWS_OF_A_PUT], 0) for first in range(0, len(ids), ROWS_OF_A_PUT))
        with flightscan.connect(server.port) as connection:
            same(f"the rows of {table}", len(ids), connection.put(table, parts))

    def named_ids(self, put: int, place: int) -> Any:
        """The numbers of the rows that a named put brings to one server."""
        first = self.words.rows + ((put - 1) * len(self.servers) + place) * ROWS_OF_A_NAMED_PUT
        return np.arange(first, first + ROWS_OF_A_NAMED_PUT, dtype=np.int64)


class Writer(threading.Thread):
    """Appends named puts to each server and to the one server. `complete` is the last that all of them have."""

    def __init__(self, drive: Drive):
        super().__init__(daemon=True)
        self.drive, self.complete, self.is_stopped = drive, 0, False
        self.failed: Exception | None = None

    def run(self) -> None:
        try:
            with ExitStack() as stack:
                every = [stack.enter_context(flightscan.connect(server.port)) for server in self.drive.servers]
                whole = stack.enter_context(flightscan.connect(self.drive.whole.port))
                while not self.is_stopped and self.complete < 5_000:
                    put = self.complete + 1
                    parts = [rows_of(self.drive.named_ids(put, place), put) for place in range(len(every))]
                    for connection, part in zip(every, parts):
                        connection.put("rides", part, mode="append")
                    whole.put("named", parts, mode="append" if put > 1 else "create")
                    self.complete = put
                    time.sleep(0.005)
        except Exception as failed:  # noqa: BLE001 (it is raised in the thread that looks)
            self.failed = failed


# ---- what is looked at


def taken(frame: pandas.DataFrame) -> pandas.DataFrame:
    """What a worker does with a partition in the timed turns: its rows and two sums."""
    return pandas.DataFrame({"rows": [len(frame)], "id": [frame["id"].sum()], "km": [int(frame["km"].sum())]})


def summed(drive: Drive) -> tuple[int, int, int]:
    made = several.ask(ALL, drive.addresses).frame().map_partitions(
        taken, meta={"rows": "int64", "id": "int64", "km": "int64"}).compute().sum()
    return int(made["rows"]), int(made["id"]), int(made["km"])


def processor_seconds(client: distributed.Client) -> float:
    return sum(client.run(time.process_time).values())


def timed(drive: Drive, workers: int) -> float:
    """The fastest turn of a SELECT of all rows by so many workers, in rows a second."""
    ids = np.arange(drive.words.rows, dtype=np.int64)
    wanted = len(ids), int(ids.sum()), int(distances_of(ids)[~nulls_of(ids)].sum(dtype=np.int64))
    with cluster_of(workers) as cluster, distributed.Client(cluster) as client:
        client.run(sys.path.extend, PATHS)
        turns = []
        for _ in range(drive.words.turns):
            at_servers, at_workers, began = drive.seconds_worked(), processor_seconds(client), time.time()
            same("the rows and the sums", wanted, summed(drive))
            seconds = time.time() - began
            turns.append((seconds, drive.seconds_worked() - at_servers, processor_seconds(client) - at_workers))
    seconds, at_servers, at_workers = min(turns)
    rate = len(ids) / seconds
    print(f"SELECT by {workers} workers: {seconds:.2f} s, {rate / 1e6:.1f} million rows a second; processor seconds of the "
          f"servers {at_servers:.2f}, of the workers {at_workers:.2f}", flush=True)
    return rate


def look_at_ratio(rates: list[float], least: float, workers: int, processors: int) -> None:
    """Whether so many workers read fast enough next to one, where there are processors for them."""
    ratio = rates[-1] / rates[0]
    print(f"{workers} workers read {ratio:.2f} times as fast as one", flush=True)
    if least > 0 and min(workers, processors) < WORKERS:
        print(f"{workers} workers on {processors} processors: the ratio is not looked at", flush=True)
    elif ratio < least:
        raise Difference(f"{workers} workers read {ratio:.2f} times as fast as one, and must do so {least:g} times")


def cluster_of(workers: int) -> distributed.LocalCluster:
    return distributed.LocalCluster(n_workers=workers, threads_per_worker=1, processes=True, dashboard_address=None,
                                    memory_limit=0, silence_logs=logging.ERROR)


def look_at_parts(infos: several.Infos, step: int) -> list[tuple[int, int, int]]:
    """Looks at each row of each partition, in the workers."""
    frame = infos.frame()
    parts = [several.dask.delayed(look_at_rows)(part, step) for part in frame.to_delayed()]
    return list(several.dask.compute(*parts))


def joined_runs(parts: list[tuple[int, int, int]]) -> list[tuple[int, int]]:
    """The first number and the count of each run of parts that go on where the one before ended."""
    runs: list[tuple[int, int]] = []
    step = parts[0][1] if parts else 1
    for first, _, count in parts:
        if runs and count and first == runs[-1][0] + step * runs[-1][1]:
            runs[-1] = runs[-1][0], runs[-1][1] + count
        elif count:
            runs.append((first, count))
    return runs


def look_at_all(drive: Drive) -> None:
    """Each row of all servers, each row of the one server, and their groups."""
    runs = joined_runs(look_at_parts(several.ask(ALL, drive.addresses), len(drive.servers)))
    same("the rows of all servers, each once", [(place, len(drive.ids(place))) for place in range(len(drive.servers))], runs)
    whole = [f"127.0.0.1:{drive.whole.port}"]
    runs = []
    for table in drive.tables:
        runs += look_at_parts(several.ask(ALL.replace("rides", table), whole), 1)
    same("the rows of the one server, each once", [(0, drive.words.rows)], joined_runs(runs))
    groups = as_dictionary(several.grouped(GROUPS.format("rides"), drive.addresses))
    same("groups", groups_of(np.arange(drive.words.rows, dtype=np.int64)), groups)
    same("groups of the one server", groups, groups_of_the_one(drive, drive.tables, ""))
    print(f"{drive.words.rows} rows and {len(groups)} groups of {len(drive.servers)} servers are those of one server", flush=True)


def groups_of_the_one(drive: Drive, tables: list[str], where: str) -> dict[str, list[int]]:
    """The groups of some tables of the one server, added by Python."""
    found: dict[str, list[int]] = {}
    with flightscan.connect(drive.whole.port) as connection:
        for table in tables:
            for town, *numbers in connection.query(GROUPS.format(table + where)).rows():
                found[town] = [old + int(new) for old, new in zip(found.get(town, [0, 0, 0]), numbers)]
    return found


def look_meanwhile(drive: Drive) -> None:
    """The same while a writer puts."""
    writer = Writer(drive)
    writer.start()
    turns = 0
    while turns < drive.words.turns or writer.complete < 10:
        if writer.failed or turns == MOST_TURNS:
            raise writer.failed or Difference("the writer made too few puts")
        complete = writer.complete
        infos = several.ask(ALL, drive.addresses)
        look_at_versions(drive, infos)
        where = f" WHERE put <= {complete}"
        tables = [*drive.tables, *(["named"] if complete else [])]
        given = as_dictionary(several.grouped(GROUPS.format("rides" + where), drive.addresses))
        same(f"the groups of puts up to {complete}", groups_of_the_one(drive, tables, where), given)
        turns += 1
    writer.is_stopped = True
    writer.join()
    print(f"meanwhile {writer.complete} puts to each server: {turns} times its rows are those of the versions named, and the "
          f"groups up to a complete put those of one server", flush=True)


def look_at_versions(drive: Drive, infos: several.Infos) -> None:
    """The rows of each server are those of its first puts, as many as its version says."""
    counts = several.dask.compute(*[several.dask.delayed(counted)(part) for part in infos.frame().to_delayed()])
    ends = np.cumsum([len(info.endpoints) for info in infos.infos])[:-1]
    for place, (parts, (server, version)) in enumerate(zip(np.split(np.arange(len(counts)), ends), infos.versions)):
        found: dict[int, int] = {}
        for part in parts:
            for put, count in counts[part].items():
                found[put] = found.get(put, 0) + count
        wanted = {0: len(drive.ids(place)), **{put: ROWS_OF_A_NAMED_PUT for put in range(1, version)}}
        same(f"the puts of version {version} of {server}", wanted, found)


def counted(frame: pandas.DataFrame) -> dict[int, int]:
    """How many rows of each put a part has."""
    names, counts = np.unique(frame["put"].to_numpy(), return_counts=True)
    return dict(zip(names.tolist(), counts.tolist()))


def main() -> int:
    parser = argparse.ArgumentParser(description=__doc__, formatter_class=argparse.RawDescriptionHelpFormatter)
    parser.add_argument("--program", help="the built program (that of the repository)")
    parser.add_argument("--rows", type=int, default=32_000_000, help="how many rows there are in all (32,000,000)")
    parser.add_argument("--servers", type=int, default=4, help="how many servers (4)")
    parser.add_argument("--workers", type=int, default=4, help="how many workers (4)")
    parser.add_argument("--parts", type=int, default=8, help="the endpoints of each server (8)")
    parser.add_argument("--turns", type=int, default=3, help="how often each thing is done (3)")
    parser.add_argument("--least", type=float, default=LEAST, help="how many times as fast as one all workers read (2.5)")
    words = parser.parse_args()
    path, options = program(words.program), ["--parts", str(words.parts), "--seats", "32"]
    try:
        with ExitStack() as stack:
            servers = [stack.enter_context(Server(path, *options)) for _ in range(words.servers)]
            drive = Drive(words, servers, stack.enter_context(Server(path, *options)))
            began = time.time()
            drive.fill()
            print(f"{2 * words.rows} rows put in {time.time() - began:.1f} s", flush=True)
            rates = [timed(drive, count) for count in sorted({1, words.workers})]
            with cluster_of(words.workers) as cluster, distributed.Client(cluster) as client:
                client.run(sys.path.extend, PATHS)
                look_at_all(drive)
                look_meanwhile(drive)
            look_at_ratio(rates, words.least, words.workers, len(os.sched_getaffinity(0)))
    except Difference as found:
        print(f"DIFFERENCE: {found}", flush=True)
        return 1
    print("many_servers: as it has to be")
    return 0


if __name__ == "__main__":
    sys.exit(main())
