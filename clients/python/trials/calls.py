"""Puts, infos and fetches of a running server, by records."""

from __future__ import annotations

import datetime
import errno
import socket
import threading
import time
from collections.abc import Iterator
from contextlib import contextmanager
from typing import Any

import flightscan
import numpy as np
from flightscan.records import Link
from flightscan.rows import Rows
from flightscan.sources import Put, flight_data
from loopback import Server
from random_calls.answers import same

from trials.bytes_written import SPELLED, plain_columns
from trials.cases import Run, case, meanwhile, refused, same_array, trips


def plain_rows(table: flightscan.Table) -> list[list[Any]]:
    """The rows of an answer with dates, timestamps and decimals as whole numbers."""
    found = []
    for column in table:
        of = column.field.type.name
        if of.startswith(("date", "timestamp", "time", "duration")):
            values = [None if null else one for one, null in zip(column.values.astype(np.int64).tolist(), nulls_of(column))]
        else:
            values = [int(value) if of == "decimal" and value is not None else value for value in column.objects()]
        found.append(values)
    return [list(row) for row in zip(*found)]


def nulls_of(column: flightscan.JoinedColumn) -> list[bool]:
    return [False] * len(column) if column.mask is None else column.mask.tolist()


@case("rows of every type come back as they were put, in one part and in seven, over one socket and over four")
def rows_come_back(run: Run) -> str:
    with run.connected("--parts", "7", "--seats", "8") as connection:
        for count in (0, 1, 5, 40_000):
            columns = trips(count, count + 3)
            same("the number of rows", count, connection.put(f"t{count}", columns, schema=SPELLED))
            info = connection.info(f"SELECT * FROM t{count}")
            same("the columns", SPELLED.replace(", ", ","), ",".join(map(str, info.schema)))
            same("the endpoints", max(1, min(7, count)), len(info.endpoints))
            wanted = plain_columns(columns)
            same(f"{count} rows", wanted, plain_rows(connection.read_all(info)))
            same(f"{count} rows over four sockets", wanted, plain_rows(connection.query(f"SELECT * FROM t{count}", streams=4)))
            parts = [plain_rows(connection.read(endpoint)) for endpoint in reversed(info.endpoints)]
            same("the endpoints in another order", wanted, [row for part in reversed(parts) for row in part])
        same("the tables", ["t0", "t1", "t40000", "t5"], connection.tables())
        same("a schema", str(info.schema), str(connection.schema("SELECT * FROM t5")))
    return "4 tables"


@case("columns are views of what was received, aligned, with their masks; filters and sums are those of numpy")
def columns_of_numpy(run: Run) -> str:
    columns = trips(200_000)
    with run.connected() as connection:
        connection.put("t", columns)
        (endpoint,) = connection.endpoints("SELECT id, km, great, day, town, paid, at FROM t")
        with_memory = 0
        for batch in connection.stream(endpoint):
            for column, part in (("id", "values"), ("km", "values"), ("great", "slots"), ("day", "slots"), ("town", "offsets"),
                                 ("town", "data"), ("paid", "bits"), ("at", "values")):
                array = getattr(batch[column], part)
                body = np.frombuffer(batch[column].buffers[-1].obj, np.uint8)
                same(f"{column}.{part} is a view of the message", True, np.shares_memory(array, body))
                same(f"{column}.{part} is aligned", True, array.flags.aligned)
                with_memory += 1
        table = connection.read(endpoint)
        same_array("id", columns["id"], table["id"].values)
        same_array("great", columns["great"], table["great"].values)
        same_array("day", columns["day"], table["day"].values)
        same("the dtype of at", "datetime64[us]", str(table["at"].values.dtype))
        same("at", columns["at"].tolist(), table["at"].masked().tolist())
        same("km", columns["km"].tolist(), table["km"].masked().tolist())
        same("the mask of km", np.ma.getmaskarray(columns["km"]).tolist(), nulls_of(table["km"]))
        kept = ~np.ma.getmaskarray(columns["km"]) & (columns["km"].data > 400)
        found = connection.query("SELECT id FROM t WHERE km > 400")
        same_array("a filter", columns["id"][kept], found["id"].values)
        noon = datetime.datetime(2030, 5, 1, 12)
        later = connection.cursor().execute("SELECT id FROM t WHERE at >= ?", (noon,)).fetch_table()
        same_array("a filter of times", columns["id"][columns["at"] >= np.datetime64(noon)], later["id"].values)
        sums = connection.query("SELECT COUNT(*) AS n, COUNT(km) AS k, SUM(km) AS s FROM t WHERE km > 400").rows()
        same("a sum", [(int(kept.sum()), int(kept.sum()), int(columns["km"].data[kept].astype(np.int64).sum()))],
             [tuple(map(int, sums[0]))])
    return f"{with_memory} arrays of views"


@case("what was read can be put again, without a copy of its strings; dictionaries stay dictionaries")
def answers_put_again(run: Run) -> None:
    columns = trips(9_000)
    with run.connected("--parts", "3") as connection:
        towns = np.array([None if town is None else town for town in columns["town"]], object)
        connection.put("t", {**columns, "code": towns}, schema=SPELLED + ", code:dictionary?")
        table = connection.query("SELECT * FROM t")
        same("the rows of the copy", 9_000, connection.put("copy", table))
        copy = connection.query("SELECT * FROM copy")
        same("its columns", str(table.schema), str(copy.schema))
        same("its rows", plain_rows(table), plain_rows(copy))
        same("the strings of the dictionary", towns.tolist(), copy["code"].objects())
        connection.put("copy", table.batches[0], mode="append")
        same("a batch more", 9_000 + len(table.batches[0]), len(connection.query("SELECT id FROM copy")))
        connection.put("texts", {"code": towns}, schema="code:utf8?")
        connection.put("texts", connection.query("SELECT code FROM t"), mode="append", schema="code:utf8?")
        same("a dictionary as strings", towns.tolist() * 2, connection.query("SELECT * FROM texts")["code"].objects())


@case("create, append and replace; versions stay, and expire")
def modes_and_versions(run: Run) -> None:
    with run.connected("--parts", "2") as connection:
        connection.put("t", {"a": np.arange(4)})
        first = connection.info("SELECT a FROM t")
        connection.put("t", {"a": np.arange(4, 6)}, mode="append")
        second = connection.info("SELECT a FROM t")
        connection.put("t", {"b": ["x"]}, mode="replace")
        same("the versions", (1, 2), (first.version, second.version))
        same("the ranges", [(0, 2), (2, 4)], [endpoint.range for endpoint in first.endpoints])
        same_array("version 1", np.arange(4), connection.read_all(first)["a"].values)
        same_array("version 2", np.arange(6), connection.read_all(second)["a"].values)
        same("version 3", [("x",)], connection.query("SELECT * FROM t").rows())
        refused("a table that is there", flightscan.IntegrityError, "F10 TableExists", lambda: connection.put("t", {"a": [1]}))
        refused("other columns", flightscan.IntegrityError, "F11 SchemaMismatch",
                lambda: connection.put("t", {"a": [1]}, mode="append"))
        refused("a table that is absent", flightscan.ProgrammingError, "F9 TableMissing",
                lambda: connection.put("u", {"a": [1]}, mode="append"))
        same("a floor", 2, connection.expire(2))
        refused("an expired version", flightscan.OperationalError, "F19 VersionExpired", lambda: connection.read_all(first))
        same("a floor that is there", 2, connection.expire(1))
        refused("a version to come", flightscan.OperationalError, "F18 VersionUnknown", lambda: connection.expire(9))
        same_array("version 2 again", np.arange(6), connection.read_all(second)["a"].values)


@case("each refusal is an exception of DB-API with the server's text, and the connection goes on")
def refusals(run: Run) -> None:
    with run.connected() as connection:
        connection.put("t", {"a": [1], "s": ["x"]})
        for query, kind, text, position in (
                ("SELECT a, FROM t", flightscan.ProgrammingError, "F13 BadSql at byte 10", 10),
                ("SELECT b FROM t", flightscan.ProgrammingError, "F14 UnknownName", None),
                ("SELECT a FROM u", flightscan.ProgrammingError, "F9 TableMissing", None),
                ("SELECT a FROM t WHERE a = 'x'", flightscan.ProgrammingError, "F15 TypeClash", None),
                ("SELECT MAX(a) FROM t", flightscan.NotSupportedError, "F16 NotInSubset", None),
                ("SELECT a FROM t" + " " * 16_384, flightscan.OperationalError, "F12 LimitReached", None)):
            failed = refused(query[:40], kind, text, lambda query=query: connection.info(query))
            same("number, position and server", (int(text[1:].split()[0]), position, connection.server),
                 (failed.number, failed.position, failed.server))
            refused(query[:40], kind, text, lambda query=query: connection.schema(query))
        refused("a long name", flightscan.OperationalError, "F12", lambda: connection.put("n" * 65, {"a": [1]}))
        refused("a long string", flightscan.OperationalError, "F12", lambda: connection.put("u", {"s": ["x" * 65_537]}))
        refused("one name twice", flightscan.IntegrityError, "F11",
                lambda: connection.put("u", flightscan.Table(*twice(connection))))
        ticket = flightscan.Endpoint(b"nothing", connection.server)
        refused("another ticket", flightscan.ProgrammingError, "F17 BadTicket", lambda: connection.read(ticket))
        elsewhere = flightscan.Endpoint(ticket.ticket, "127.0.0.1:1")
        refused("another server's ticket", flightscan.InterfaceError, "an endpoint of", lambda: connection.read(elsewhere))
        same("what is still there", [(1, "x")], connection.query("SELECT * FROM t").rows())
    refused("a closed connection", flightscan.InterfaceError, "the connection is closed", lambda: connection.tables())
    for address in ("here", "://h:1", "127.0.0.1:99999", "http://h:1", ""):
        refused("no address", flightscan.InterfaceError, f"{address!r} is no address",
                lambda address=address: flightscan.connect(address))


def twice(connection: flightscan.Connection) -> tuple[flightscan.Schema, tuple[flightscan.Batch, ...]]:
    table = connection.query("SELECT a, a FROM t")
    refused("names of arrays", flightscan.InterfaceError, "two of the columns a:int64?, a:int64? have one name", table.to_numpy)
    return table.schema, table.batches


@case("a source that fails while it is put puts nothing, and the next call is whole")
def sources_that_fail(run: Run) -> None:
    def parts() -> Any:
        yield {"a": np.arange(100_000)}
        raise KeyError("the source")

    def refused_parts() -> Any:
        yield {"a": np.arange(100_000)}
        yield connection.query("SELEKT")

    with run.connected() as connection:
        connection.put("t", {"a": [7]})
        refused("a source that the server refuses", flightscan.ProgrammingError, "F13 BadSql at byte 0",
                lambda: connection.put("t", refused_parts(), mode="append"))
        same("the next call", ["t"], connection.tables())
        same("and the one after it", ["t"], connection.tables())
        try:
            connection.put("t", parts(), mode="append")
        except KeyError as failed:
            same("what was raised", "'the source'", str(failed))
        refused("a later part", flightscan.DataError, "column a: a null",
                lambda: connection.put("t", [{"a": np.arange(9)}, {"a": [None]}], mode="append", schema="a:int64"))
        same("the rows", [(7,)], connection.query("SELECT * FROM t").rows())


@case("a call sees what its connection has put, whatever other calls are under way")
def own_puts_are_seen(run: Run) -> str:
    with run.connected("--seats", "8") as connection:
        connection.put("t", {"a": np.arange(300_000)})
        (endpoint,) = connection.endpoints("SELECT a FROM t")
        streams, begun = [], []
        for number in range(4):
            streams.append(connection.stream(endpoint))
            begun.append(len(next(streams[-1])))
            connection.put(f"u{number}", {"a": [number]})
            same("the tables", ["t", *(f"u{one}" for one in range(number + 1))], connection.tables())
        for stream, count in zip(streams[:2], begun):
            same("the rows of a stream", 300_000, count + sum(map(len, stream)))
        look_at_sockets(connection)
        for stream in streams[2:]:
            stream.close()
        threads = [threading.Thread(target=puts_and_looks, args=(connection, number, found)) for number in range(4)
                   for found in [FOUND.setdefault(number, [])]]
        for thread in threads:
            thread.start()
        for thread in threads:
            thread.join()
        same("what threads saw of their puts", [[index + 1 for index in range(30)]] * 4, [FOUND[number] for number in range(4)])
        same("sockets that are kept", True, len(connection.calls.idle) <= 2)
    return "124 puts"


def look_at_sockets(connection: flightscan.Connection) -> None:
    """A socket that has not seen each put of the connection is for fetches only. (Today's server tells all sockets at once.)"""
    calls = connection.calls
    same("sockets that have not seen all puts are kept", True, any(link.seen < calls.puts for link in calls.idle))
    for method, wanted in (("GetFlightInfo", True), ("DoPut", True), ("GetSchema", True), ("DoGet", False)):
        link = calls.take(method)
        same(f"the socket of {method} has seen all puts", wanted, link.seen == calls.puts)
        calls.end(link, "GetFlightInfo")


FOUND: dict[int, list[int]] = {}


def puts_and_looks(connection: flightscan.Connection, number: int, found: list[int]) -> None:
    for turn in range(30):
        connection.put(f"thread{number}", {"a": [turn]}, mode="append" if turn else "create")
        found.append(len(connection.query(f"SELECT a FROM thread{number}")))


@case("a fetch that is left gives its seat back; a connection that the server ended is made again; without a server it fails")
def connections_that_end(run: Run) -> None:
    with run.serving("--seats", "1", "--idle", "1") as server, flightscan.connect(server.port, timeout=20) as connection:
        connection.put("t", {"a": np.arange(1_000_000)})
        (endpoint,) = connection.endpoints("SELECT a FROM t")
        stream = connection.stream(endpoint)
        next(stream)
        stream.close()
        same("the next call", ["t"], connection.tables())
        time.sleep(1.5)
        same("after the server ended the connection", ["t"], connection.tables())
        taken = Link("127.0.0.1", server.port, 5)
        connection.close()
        with flightscan.connect(server.port, timeout=0.3) as other:
            refused("without a seat", flightscan.OperationalError, "F22 Transport (no byte in 0.3 seconds", other.tables)
        taken.close()
    refused("without a server", flightscan.OperationalError, "F22 Transport (no server", flightscan.connect(server.port).tables)


@case("a server that breaks off or breaks the rules: the rows so far are no answer")
def servers_that_break_off(run: Run) -> None:
    for said, kind, text in (
            (b"", flightscan.OperationalError, "F22 Transport (the server ended"),
            (b"\x05", flightscan.InternalError, "F1 BadFrame"),
            (b"\x02\x00\x00\x00\x00\x00", flightscan.OperationalError, "F22 Transport (the server ended"),
            (b"\x02\x00\x00\x00\x00\x09abc", flightscan.OperationalError, "F22 Transport (the server ended"),
            (b"\x02\x00\x7f\x00\x00\x00", flightscan.InternalError, "F1 BadFrame"),
            (b"\x04\x00\x00\x00", flightscan.InternalError, "F4 BadProto (0 messages"),
            (b"\x04\x08\x00\x0fF21 OutOfMemory", flightscan.OperationalError, "F21 OutOfMemory"),
            (b"\x04\x0e\x00\x05later", flightscan.OperationalError, "later")):
        with answering(said) as connection:
            refused(f"the answer {said!r}", kind, text, lambda: connection.info("SELECT a FROM t"))
    with answering(ENDED) as connection:
        refused("no schema", flightscan.DataError, "F8 BadBatch (a stream without", lambda: connection.read(
            flightscan.Endpoint(b"", connection.server)))
    schema, batch = (record_of(pieces) for pieces in Put("t", "create", {"a": np.arange(3)}).messages())
    for said, kind, text in ((schema + batch, flightscan.OperationalError, "F22 Transport (the server ended"),
                             (schema + batch + batch[:-1], flightscan.OperationalError, "F22 Transport (the server ended"),
                             (schema + batch + schema, flightscan.DataError, "F8 BadBatch (a second schema"),
                             (schema + batch + b"\x04\x08\x00\x0fF21 OutOfMemory", flightscan.OperationalError, "F21")):
        with answering(said) as connection:
            stream = connection.stream(flightscan.Endpoint(b"", connection.server))
            same("the first batch", [0, 1, 2], next(stream)["a"].values.tolist())
            refused("the others", kind, text, lambda: list(stream))
            refused("the others once more", flightscan.InterfaceError, "the stream is closed", lambda: list(stream))
            same("sockets that are in use", set(), connection.calls.used)
    with Server(run.path) as server, flightscan.connect(server.port) as connection:
        connection.put("t", {"a": np.arange(2_000_000)})
        stream = connection.stream(connection.endpoints("SELECT a FROM t")[0])
        next(stream)
        server.process.kill()
        refused("a server that was killed", flightscan.OperationalError, "F22 Transport", lambda: list(stream))


ENDED = b"\x04\x00\x00\x00"


@contextmanager
def answering(said: bytes) -> Iterator[flightscan.Connection]:
    """A connection to a server that answers its first call by these bytes."""
    with socket.create_server(("127.0.0.1", 0)) as listener:
        thread = threading.Thread(target=answer_once, args=(listener, said))
        thread.start()
        with flightscan.connect(listener.getsockname()[1], timeout=20) as connection:
            yield connection
        thread.join()


def record_of(pieces: Any) -> bytes:
    """A message as its record."""
    whole = b"".join(pieces)
    return b"\x02\x00" + len(whole).to_bytes(4, "big") + whole


@case("batches without rows are batches too, also the first one")
def empty_batches(run: Run) -> None:
    schema, batch = (record_of(pieces) for pieces in Put("t", "create", {"a": np.arange(3)}).messages())
    empty = record_of(flight_data(*Rows(0, [(0, [b"", b""])]).message()))
    for said, wanted in ((empty + batch, [0, 3]), (empty + empty, [0, 0]), (batch + empty + batch, [3, 0, 3]), (b"", [])):
        with answering(schema + said + ENDED) as connection:
            stream = connection.stream(flightscan.Endpoint(b"", connection.server))
            same("the rows of the batches", wanted, list(map(len, stream)))
            same("after the end", [], list(stream))


@case("after close(): calls, streams and calls of other threads say so, and seats are free at once")
def closed_connections(run: Run) -> None:
    with run.serving("--seats", "1") as server:
        connection = flightscan.connect(server.port)
        connection.put("t", {"a": np.arange(2_000_000)})
        (endpoint,) = connection.endpoints("SELECT a FROM t")
        with flightscan.connect(server.port) as other:
            connection.close()
            stream = other.stream(endpoint)
            same("rows before it", True, len(next(stream)) > 0)
        refused("a stream of a connection that was closed", flightscan.OperationalError,
                "F22 Transport (the connection was closed)", lambda: list(stream))
        refused("the same stream", flightscan.InterfaceError, "the stream is closed", lambda: next(stream))
        with flightscan.connect(server.port, timeout=20) as third:
            same("the seat is free", ["t"], third.tables())
            stream = third.stream(endpoint)
            stream.close()
            refused("a stream that was closed", flightscan.InterfaceError, "the stream is closed", lambda: next(stream))
        for name, words in CALLS.items():
            refused(name, flightscan.InterfaceError, "the connection is closed",
                    lambda name=name, words=words: getattr(connection, name)(*words))
        refused("stream", flightscan.InterfaceError, "the connection is closed", lambda: connection.stream(endpoint))
        connection.close()
        look_at_waiting(server.port)


CALLS: dict[str, tuple[Any, ...]] = {
    "info": ("SELECT a FROM t",), "endpoints": ("SELECT a FROM t",), "schema": ("SELECT a FROM t",), "tables": (),
    "query": ("SELECT a FROM t",), "put": ("t", {"a": [1]}), "expire": (1,), "cursor": (), "commit": (), "rollback": ()}


def look_at_waiting(port: int) -> None:
    """A call that waits for a seat ends once another thread closes its connection."""
    taken, waiting, failures = Link("127.0.0.1", port, 5), flightscan.connect(port), []

    def wait() -> None:
        failures.append(refused("a call that waits", flightscan.OperationalError, "F22 Transport (the connection was closed)",
                                waiting.tables))

    thread = threading.Thread(target=wait)
    thread.start()
    while thread.is_alive() and not waiting.calls.used:
        time.sleep(0.01)
    waiting.close()
    thread.join(20)
    same("the call has ended", (1, set()), (len(failures), waiting.calls.used))
    taken.close()


@case("why a connection was lost is said, also without a timeout")
def reasons_of_losses(run: Run) -> None:
    with run.serving("--seats", "2") as server:
        for timeout, failed, text in (
                (None, TimeoutError(errno.ETIMEDOUT, "timed out"), f"the connection broke: [Errno {errno.ETIMEDOUT}] timed out"),
                (7, TimeoutError(errno.ETIMEDOUT, "timed out"), f"the connection broke: [Errno {errno.ETIMEDOUT}] timed out"),
                (None, TimeoutError("timed out"), "the connection broke: timed out"),
                (7, TimeoutError("timed out"), "no byte in 7 seconds; perhaps"),
                (None, ConnectionResetError("reset"), "the connection broke: reset"), (None, None, "the server ended")):
            link = Link("127.0.0.1", server.port, timeout)
            same("the reason", f"F22 Transport ({text}", link.lost(failed).text[: len(text) + 15])
            link.close()
        with flightscan.connect(server.port, timeout=None) as connection:
            same("a call without a timeout", [], connection.tables())
    refused("no name of a host", flightscan.OperationalError, "F22 Transport (no server", flightscan.connect("a..b:1").tables)


def answer_once(listener: socket.socket, said: bytes) -> None:
    """Takes one call of a connection, says these bytes, and ends it once the client has left. Bytes that nobody read would
    break the connection."""
    with listener.accept()[0] as stream:
        stream.recv(65_536)
        stream.sendall(said)
        stream.shutdown(socket.SHUT_WR)
        while stream.recv(65_536):
            pass


@case("a client that puts while others read: each info is of one version, and all its endpoints too")
def puts_meanwhile(run: Run) -> str:
    with run.serving("--parts", "4", "--seats", "6") as server:
        with flightscan.connect(server.port) as writer, flightscan.connect(server.port) as reader:
            writer.put("t", {"put": np.zeros(10, np.int64)})
            seen = []
            with meanwhile(lambda stop: keep_putting(writer, stop)):
                for _ in range(40):
                    info = reader.info("SELECT put FROM t")
                    numbers = reader.read_all(info)["put"].values
                    wanted = np.repeat(np.arange(info.version), 10)
                    same_array(f"version {info.version}", wanted, numbers)
                    seen.append(info.version)
    return f"versions {seen[0]} to {seen[-1]}"


def keep_putting(connection: flightscan.Connection, stop: threading.Event) -> None:
    number = 1
    while not stop.is_set() and number < 2_000:
        connection.put("t", {"put": np.full(10, number, np.int64)}, mode="append")
        number += 1
