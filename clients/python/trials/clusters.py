"""Puts from a Dask cluster whose workers die, and the speed that the drive of many servers asks for."""

from __future__ import annotations

import collections
import logging
import os
import pathlib
import signal
import sys
import tempfile
import time
import unittest.mock
import uuid
from collections.abc import Callable, Iterator
from concurrent.futures import ThreadPoolExecutor
from typing import Any

import flightscan
import numpy as np
from flightscan.records import Link
from random_calls.answers import Difference, same

from trials.cases import Run, case, refused, wanted_package
from trials.several import modules

PARTITIONS, ROWS = 6, 1_000  # few enough that what a server gets fits into a socket that it has not accepted yet


def rows_computed(number: int, folder: str) -> Any:
    """The rows of a partition. A file says how often it was computed, and a column by which computing each row came."""
    import pandas

    with open(os.path.join(folder, str(number)), "a") as file:
        file.write("x")
    ids = np.arange(number * ROWS, (number + 1) * ROWS)
    return pandas.DataFrame({"id": ids, "partition": np.full(ROWS, number), "computing": uuid.uuid4().int >> 65})


def kill_workers(cluster: Any, address: str | None = None) -> None:
    """Kills the worker of this address, or all of a cluster. The nanny of each knows its process, and starts another one."""
    for nanny in cluster.workers.values():
        if nanny.pid is not None and address in (None, nanny.worker_address):
            os.kill(nanny.pid, signal.SIGKILL)


def kill_fullest(cluster: Any, client: Any) -> None:
    """Kills the worker that holds most results. The others compute them again."""
    held = collections.Counter(address for holders in client.who_has().values() for address in holders)
    kill_workers(cluster, held.most_common(1)[0][0])


def interrupted(fetched: Callable[[Any], Iterator[Any]], interrupt: Callable[[], None]) -> Callable[[Any], Iterator[Any]]:
    """The same parts, with something that is done after the first one."""

    def parts(kept: Any) -> Iterator[Any]:
        found = fetched(kept)
        yield next(found)
        interrupt()
        yield from found

    return parts


@case("put_table from a cluster: a worker is killed inside the puts, and all after the first put: each row comes once")
def workers_that_die(run: Run) -> str:
    _, several = modules()
    distributed = wanted_package("distributed")
    with (tempfile.TemporaryDirectory() as folder, run.serving("--parts", "2") as first, run.serving("--seats", "1") as second,
          distributed.LocalCluster(n_workers=2, threads_per_worker=1, processes=True, dashboard_address=None, memory_limit=0,
                                   silence_logs=logging.CRITICAL) as cluster,
          distributed.Client(cluster) as client, ThreadPoolExecutor(1) as pool):
        client.run(sys.path.extend, [path for path in sys.path if path])
        servers = [f"127.0.0.1:{server.port}" for server in (first, second)]
        frame = several.dask.dataframe.from_map(rows_computed, range(PARTITIONS), folder=folder, meta={
            "id": "int64", "partition": "int64", "computing": "int64"})
        killing = interrupted(several.fetched, lambda: kill_fullest(cluster, client))
        seat = Link("127.0.0.1", second.port, 5)
        with unittest.mock.patch.object(several, "fetched", killing), flightscan.connect(servers[0]) as reader:
            put = pool.submit(several.put_table, frame, servers, "id", "t", schema="id:int64, partition:int64, computing:int64")
            while reader.tables() != ["t"] and not put.done():
                time.sleep(0.05)
            same("the second server's put waits", False, put.done())
            kill_workers(cluster)
            seat.close()
            counts = put.result(300)
        rows = []
        for server, count in zip(servers, counts):
            info = several.ask("SELECT * FROM t", [server]).infos[0]
            with flightscan.connect(server) as connection:
                rows += connection.read_all(info).rows()
            same("one put, and its rows", (1, count), (info.version, len(rows) - sum(counts[: servers.index(server)])))
        same("each row once", list(range(PARTITIONS * ROWS)), sorted(row[0] for row in rows))
        same("the rows of a partition are of one computing", PARTITIONS, len({row[1:] for row in rows}))
        times = [len(path.read_text()) for path in pathlib.Path(folder).iterdir()]
        same("partitions that were computed again", True, max(times) > 1)
    return f"{len(rows)} rows, {sum(times)} times a partition was computed"


@case("what a worker has read and died with is read again, of the version named, although there are later puts")
def partitions_read_again(run: Run) -> None:
    pandas, several = modules()
    distributed = wanted_package("distributed")
    frame = pandas.DataFrame({"id": range(2_000)})
    with (run.several(2, "--parts", "3", "--seats", "8") as servers,
          distributed.LocalCluster(n_workers=2, threads_per_worker=1, processes=True, dashboard_address=None, memory_limit=0,
                                   silence_logs=logging.CRITICAL) as cluster,
          distributed.Client(cluster) as client):
        client.run(sys.path.extend, [path for path in sys.path if path])
        several.put_table(frame, servers, "id", "t")
        read = several.read_query("SELECT id FROM t", servers).persist()
        distributed.wait(read, 300)
        for server in servers:
            with flightscan.connect(server) as connection:
                connection.put("t", {"id": [-1]}, mode="append", schema="id:int64")
        kill_fullest(cluster, client)
        same("the rows", frame["id"].tolist(), sorted(read["id"].compute().tolist()))
        later = several.read_query("SELECT id FROM t", servers)["id"].compute()
        same("the rows of a later info", [-1, -1, *frame["id"]], sorted(later.tolist()))


def no_rows(number: int) -> Any:
    """A partition that can't be computed."""
    raise KeyError("a partition")


@case("put_table of rows that can't be had: no server makes its put, and the reason is raised")
def rows_that_fail(run: Run) -> None:
    pandas, several = modules()
    frame = several.dask.dataframe.from_pandas(pandas.DataFrame({"id": range(9)}), npartitions=3)

    def fail() -> None:
        raise KeyError("a part that is lost")

    with run.several(2) as servers:
        bad = several.dask.dataframe.from_map(no_rows, range(3), meta={"id": "int64"})
        for what, source, interrupt in (("a partition", bad, lambda: None), ("a part that is lost", frame, fail)):
            with unittest.mock.patch.object(several, "fetched", interrupted(several.fetched, interrupt)):
                try:
                    several.put_table(source, servers, "id", "t")
                except KeyError as failed:
                    same("the reason", repr(what), str(failed))
                else:
                    raise Difference(f"{what} was put")
            for server in servers:
                with flightscan.connect(server) as connection:
                    same("nothing was put", [], connection.tables())
        for by, text in (("town", "the frame has no column 'town'"), (("town", [1]), "the frame has no column 'town'"),
                         (("id", [1, 2]), "2 bounds for 2 servers"), (5, "rows can't be spread by 5"),
                         (("id",), "rows can't be spread by ('id',)"), (("id", "5"), "rows can't be spread by ('id', '5')"),
                         (("id", 5), "rows can't be spread by ('id', 5)"),
                         (("id", ["x"]), "column id can't be compared with the bounds ['x']")):
            refused(text, flightscan.InterfaceError, text, lambda by=by: several.put_table(frame, servers, by, "t"))
        refused("bounds that fall", flightscan.InterfaceError, "the bounds fall or can't be compared: [5, 2]",
                lambda: several.put_table(frame, [*servers, "127.0.0.1:1"], ("id", [5, 2]), "t"))
        refused("no server", flightscan.InterfaceError, "there is no server", lambda: several.put_table(frame, [], "id", "t"))


@case("a cluster whose workers are threads of this process: rows, groups and puts are the same; sums where Dask has its own")
def workers_that_are_threads(run: Run) -> str | None:
    pandas, several = modules()
    distributed = wanted_package("distributed")
    frame = pandas.DataFrame({"id": range(2_000), "km": [number % 7 for number in range(2_000)]})
    with run.several(2, "--parts", "3", "--seats", "16") as servers, distributed.Client(
            processes=False, n_workers=1, threads_per_worker=2, dashboard_address=None, silence_logs=logging.CRITICAL):
        source = several.dask.dataframe.from_pandas(frame, npartitions=4)
        same("all rows", len(frame), sum(several.put_table(source, servers, "id", "t")))
        read = several.read_query("SELECT id, km FROM t", servers)
        same("the rows", frame["id"].tolist(), sorted(read["id"].compute().tolist()))
        same("two partitions of each server", frame["id"].tolist(), sorted(
            several.read_query("SELECT id FROM t", servers, 2).compute()["id"].tolist()))
        same("what is made of partitions", len(frame), int(sum(read.map_partitions(len).compute())))
        groups = several.grouped("SELECT km, SUM(id) AS s FROM t GROUP BY km", servers)
        same("groups", frame.groupby("km")["id"].sum().to_dict(), dict(zip(groups["km"].tolist(), map(int, groups["s"]))))
        try:
            source["km"].sum().compute()
        except TypeError:
            return "sums of Dask's own frames fail there"
        same("sums by Dask", frame.groupby("km")["id"].sum().to_dict(), read.groupby("km")["id"].sum().compute().to_dict())
    return None


@case("the drive of many servers fails where 4 workers on 4 processors read less than 2.5 times as fast as one")
def ratio_of_the_drive(run: Run) -> None:
    modules()
    wanted_package("distributed")
    import many_servers

    same("the ratio that must be", 2.5, many_servers.LEAST)
    for rates, least, workers, processors, is_enough in (
            ([10.0, 25.0], 2.5, 4, 4, True), ([10.0, 24.9], 2.5, 4, 4, False), ([10.0, 11.0], 2.5, 4, 3, True),
            ([10.0, 11.0], 2.5, 2, 8, True), ([10.0, 11.0], 2.5, 8, 8, False), ([10.0, 5.0], 0, 4, 4, True),
            ([10.0], 2.5, 1, 8, True)):
        with unittest.mock.patch("builtins.print"):
            try:
                many_servers.look_at_ratio(rates, least, workers, processors)
                found = True
            except Difference:
                found = False
        same(f"{rates} by {workers} workers on {processors} processors, where {least} must be", is_enough, found)
