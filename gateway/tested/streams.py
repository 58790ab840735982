"""Cases of long streams: what the gateway holds, who waits, many clients at once, and the longest messages."""

from __future__ import annotations

import threading
import time
from collections.abc import Iterator
from concurrent.futures import ThreadPoolExecutor
from random import Random

import grpc

import wire
from layout import written
from random_calls.answers import PutCount, Refusal, same
from random_calls.plain_model import Column, Row
from reader import Table
from served.cases import A, MEGABYTE, appended, fetch_of, info_of, put_of, replaced, rows_of
from trees import UTF8, batch, field, integer, schema, texts

from tested.cases import ask, case, look_at_status, put_messages, rows_in
from tested.client import LONGEST_MESSAGE, Client, TableOptions, flight, ingest, query
from tested.running import Run, StubServer

BATCH_ROWS = 65_536
LARGE_BATCHES = 191  # of three columns of 8 bytes: 300 MB
CLIENTS = 32
WIDE_ROWS, WIDE = 64, "SELECT x.s FROM t AS x JOIN t AS y ON x.k = y.k"


def data_of(tree: dict, body: bytes) -> flight.FlightData:
    return flight.FlightData(data_header=written("Message", tree, "spread"), data_body=body)


# ---- large


def large_put() -> Iterator[flight.FlightData]:
    """A put of 300 MB: of each batch the first value is its number."""
    yield flight.FlightData(flight_descriptor=ingest("t"))
    yield data_of(schema(*(field(name, integer(64, True)) for name in "abc")), b"")
    zeros = bytes(8 * BATCH_ROWS)
    for number in range(LARGE_BATCHES):
        yield data_of(*batch(BATCH_ROWS, (0, b"", number.to_bytes(8, "little") + zeros[8:]), (0, b"", zeros), (0, b"", zeros)))


def length_of(data: flight.FlightData) -> int:
    """The rows of a batch; none of a schema."""
    message = Table(data.data_header, int.from_bytes(data.data_header[:4], "little"))
    return message.table(2).scalar(0, 8) if message.scalar(1, 1) == 3 else 0


@case("a put of 300 MB and a fetch of it: the gateway holds less than 100 MB at any time")
def large_streams(run: Run) -> str:
    rows = LARGE_BATCHES * BATCH_ROWS
    with run.serving() as (_, gateway), Client(gateway.port) as client:
        before = gateway.most_held()
        same("the number of rows put", rows, client.put(large_put()))
        behind_put, found, size, firsts = gateway.most_held(), 0, 0, set()
        for data in client.fetch(client.info(query("SELECT * FROM t")).endpoint[0].ticket):
            found, size = found + length_of(data), size + len(data.data_body)
            firsts.add(int.from_bytes(data.data_body[:8], "little"))
        same("rows and bytes", (rows, 24 * rows), (found, size))
        same("the numbers of the batches", {*range(LARGE_BATCHES)}, firsts)
        held = [round(one / MEGABYTE) for one in (before, behind_put, gateway.most_held())]
        said = f"{held[0]} MB before, {held[1]} MB behind the put, {held[2]} MB behind the fetch"
        same(f"it held {said}", True, held[2] < 100)
    return said


# ---- who waits


def wide_rows() -> Iterator[flight.FlightData]:
    """A put of texts of 65,536 bytes, of one key: 4 MB, whose join with itself has 268 MB."""
    yield flight.FlightData(flight_descriptor=ingest("t"))
    yield data_of(schema(field("s", UTF8), field("k", integer(64, True))), b"")
    yield data_of(*batch(WIDE_ROWS, (0, b"", *texts([b"x" * 65_536] * WIDE_ROWS)), (0, b"", bytes(8 * WIDE_ROWS))))


def wide_fetch(client: Client) -> grpc.Call:
    """A fetch of 268 MB that was begun, of which one message was read."""
    call = client.call("DoGet", [client.info(query(WIDE)).endpoint[0].ticket.SerializeToString()])
    next(call)
    return call


@case("a client that reads nothing of an answer of 268 MB: server and gateway wait, idle, and hold little more")
def nothing_read(run: Run) -> str:
    with run.serving() as (server, gateway), Client(gateway.port) as client:
        same("the number of rows put", WIDE_ROWS, client.put(wide_rows()))
        before, held = (server.held(), gateway.held()), []
        call, ticks, used = wide_fetch(client), [0, 0], [9, 9]
        for _ in range(60):  # seconds, on a busy machine; they soon have no more to do
            for _ in range(20):
                time.sleep(0.05)
                held.append((server.held() - before[0], gateway.held() - before[1]))
            now = [server.ticks(), gateway.ticks()]
            used, ticks = [one - other for one, other in zip(now, ticks)], now
            if max(used) <= 1:
                break
        same(f"they used the processor while they waited, {used}", True, max(used) <= 1)
        most = [max(one) / MEGABYTE for one in zip(*held)]
        said = f"the server {most[0]:.0f} MB more, the gateway {most[1]:.0f}"
        same(f"{said}, each less than 50", True, max(most) < 50)
        call.cancel()
        ask(client, put_of("u", A, [(1,)]), PutCount(1))
    return said


@case("a client that stops in the middle of a put: others are served, and the put then goes to its end")
def put_in_pieces(run: Run) -> None:
    go = threading.Event()

    def messages() -> Iterator[flight.FlightData]:
        made = [*put_messages(ingest("t"), A, [(1,), (2,)])]
        yield from made[:-1]
        go.wait()
        yield made[-1]

    with run.serving(seats=2) as (_, gateway), Client(gateway.port) as client, ThreadPoolExecutor(1) as pool:
        put = pool.submit(client.put, messages())
        with Client(gateway.port) as other:
            for number in range(20):
                ask(other, replaced("u", A, [(number,)]), PutCount(1))
            ask(other, info_of("SELECT * FROM t"), Refusal("F9"))
        go.set()
        same("the number of rows put", 2, put.result())


# ---- many


class Busy:
    """A client of many: it replaces and extends a table of its own, and fetches what it put."""

    def __init__(self, number: int, port: int, end: float):
        self.number, self.port, self.end, self.calls, self.puts = number, port, end, 0, 0

    def run(self) -> None:
        random, name, columns = Random(self.number), f"own{self.number}", (Column("a", "Int64", True), Column("s", "Utf8", True))
        rows: list[Row] = []
        with Client(self.port) as client:
            while time.monotonic() < self.end:
                new = [(random.randrange(1000), random.choice(["x", None, "yy"])) for _ in range(random.randrange(1, 400))]
                replace = not rows or random.random() < 0.3
                there = TableOptions.REPLACE if replace else TableOptions.APPEND
                same("the number of rows put", len(new), client.put(put_messages(ingest(name, there), columns, new)))
                rows = new if replace else rows + new
                info = client.info(query(f"SELECT s, a FROM {name}"))
                found = [row for endpoint in info.endpoint for row in rows_in(client.fetch(endpoint.ticket))]
                same(f"the rows of {name}", [row[::-1] for row in rows], found)
                self.puts, self.calls = self.puts + 1, self.calls + 2 + len(info.endpoint)


@case("32 clients at once on 8 seats: each finds the rows that it put, and no put is lost")
def many_clients(run: Run) -> str:
    with run.serving(seats=8, parts=2, wait=600) as (server, gateway):
        busy = [Busy(number, gateway.port, time.monotonic() + run.seconds) for number in range(CLIENTS)]
        with ThreadPoolExecutor(CLIENTS) as pool:
            for done in [pool.submit(one.run) for one in busy]:
                done.result()
        puts, calls = sum(one.puts for one in busy), sum(one.calls for one in busy)
        with Client(gateway.port) as client:
            ask(client, put_of("last", A, [(1,)]), PutCount(1))
            ask(client, fetch_of(puts + 1, 0, 1, "SELECT * FROM last"), rows_of(A, (1,)))
            ask(client, fetch_of(puts + 2, 0, 1, "SELECT * FROM last"), Refusal("F18"))
        # (six of the standard streams and the null device, a listener and one more for each seat, two of each connection)
        same("seats in use at most", True, server.open_files() <= 6 + 9 + 2 * 8)
        held = gateway.most_held() / MEGABYTE
        same(f"the gateway held {held:.0f} MB, less than 150", True, held < 150)
    return f"{calls:,} calls, {puts:,} puts, the gateway held {held:.0f} MB"


# ---- the longest messages


@case("messages of 16,777,216 bytes both ways; one of a byte more is RESOURCE_EXHAUSTED, and the next call is answered")
def longest_messages(run: Run) -> None:
    whole = bytes(LONGEST_MESSAGE)
    with StubServer(lambda path, messages: b"".join(map(wire.record_message, messages)) + b"\x04\0\0\0") as stub:
        with run.behind(stub.port) as gateway, Client(gateway.port) as client:
            said = "Received message larger than max (16777217 vs. 16777216)"
            for method, more in (("DoGet", ""), ("DoPut", ", and it cannot be cut: F4 BadProto")):
                same("the answer", wire.Answer([whole], 0, ""), client.answer(method, [whole]))
                look_at_status("a longer one", 8, said + more, client.answer(method, [whole + b"x"]))
    with run.serving() as (_, gateway), Client(gateway.port) as client:
        look_at_status("a long ticket", 3, "F4 BadProto", client.answer("DoGet", [whole]))
        ask(client, appended("t", A, [(1,)]), Refusal("F9"))


@case("messages that gRPC compressed are refused: a small one cannot become a large one")
def compressed(run: Run) -> None:
    with run.serving() as (_, gateway):
        with Client(gateway.port, compression=grpc.Compression.Gzip) as client:
            answer = client.answer("DoGet", [bytes(10_000_000)])
            same("the code", grpc.StatusCode.UNIMPLEMENTED.value[0], answer.code)
        same("less than 90 MB held", True, gateway.most_held() < 90 * MEGABYTE)
