#!/usr/bin/python3
"""What the gateway costs: the time of a small call, and MB/s of a long stream, beside the server alone.

    /usr/bin/python3 gateway/figures.py [--program PATH] [--calls N] [--runs N] [--megabytes M]

A small call is a fetch of two rows; the median of N calls (2,000) is told. A long stream is a put of 300 MB (three columns
of Int64 in batches of 65,536 rows) and a fetch of it; the least time of N runs (3) is told. Each is made by records straight to
the server, and by gRPC through the gateway; small calls also by gRPC to a server of gRPC's own library that answers the same
bytes and does nothing else. All clients are Python. The tables printed are those of gateway/README.md. It needs what
test_gateway.py needs.
"""

from __future__ import annotations

import argparse
import asyncio
import os
import pathlib
import statistics
import subprocess
import sys
import tempfile
import time
from collections.abc import Callable, Iterable
from dataclasses import dataclass

sys.dont_write_bytecode = True
ROOT = pathlib.Path(__file__).resolve().parent.parent
sys.path += [str(ROOT / "scripts"), *(str(ROOT / "vectors" / folder) for folder in ("arrow", "flight", "queries", "streams"))]

import grpc  # noqa: E402
import grpc.aio  # noqa: E402
import wire  # noqa: E402
from built import program  # noqa: E402
from layout import written  # noqa: E402
from loopback import Connection, Server  # noqa: E402
from measured import Measured  # noqa: E402
from served.cases import A, put_of  # noqa: E402
from tested.cases import call_of  # noqa: E402
from tested.client import Client  # noqa: E402
from tested.running import Gateway  # noqa: E402
from trees import batch, field, integer, schema  # noqa: E402

BATCH_ROWS, COLUMNS, WIDTH = 65_536, "abc", 8
MEGABYTE = 1_000_000
ALONE = "answer-alone"  # the word by which this script is the server that does nothing
TICKS = os.sysconf("SC_CLK_TCK")


# ---- the calls


def put_messages(table: bytes, batches: int) -> list[bytes]:
    """The Messages of a put of so many batches; all batches are the same bytes."""
    ingest = wire.chunk(1, wire.scalar(1, 1)) + wire.chunk(2, table)
    front = wire.chunk(1, wire.descriptor(wire.packed(b"CommandStatementIngest", ingest)))
    head = schema(*(field(name, integer(64, True)) for name in COLUMNS))
    tree, body = batch(BATCH_ROWS, *[(0, b"", bytes(WIDTH * BATCH_ROWS))] * len(COLUMNS))
    data = wire.chunk(2, written("Message", tree, "spread")) + wire.chunk(1000, body)
    return [front + wire.chunk(2, written("Message", head, "spread")), *[data] * batches]


def fetch_message(version: int, rows: int, table: bytes) -> bytes:
    return wire.ticket(wire.query_handle(version, 0, rows, b"SELECT * FROM " + table))


def by_records(connection: Connection) -> Callable[[str, Iterable[bytes]], int]:
    """What makes a call straight to the server, and tells how many bytes its Messages have."""

    def call(method: str, messages: Iterable[bytes]) -> int:
        connection.send(wire.record_open(method.encode()))
        for message in messages:
            connection.send(wire.record_message(message))
        connection.send(wire.END)
        size = 0
        while (kind := connection.number(1)) == 2:
            connection.take(1)
            size += len(connection.take(connection.number(4)))
        code, text = connection.number(1), connection.take(connection.number(2))
        wire.demand((kind, code) == (4, 0), f"a record of kind {kind}, code {code}: {text}")
        return size

    return call


def by_grpc(client: Client) -> Callable[[str, Iterable[bytes]], int]:
    """The same by gRPC."""
    return lambda method, messages: sum(map(len, client.call(method, messages, 600)))


# ---- a server of gRPC that does nothing


def answer_alone(messages: list[bytes]) -> None:
    """Serves gRPC: each call is answered by these messages."""

    async def answer(requests: object, context: grpc.aio.ServicerContext) -> None:
        async for _ in requests:
            pass
        for message in messages:
            await context.write(message)

    class Handler(grpc.GenericRpcHandler):
        def service(self, details: object) -> grpc.RpcMethodHandler:
            return grpc.stream_stream_rpc_method_handler(answer)

    async def serve() -> None:
        server = grpc.aio.server()
        server.add_generic_rpc_handlers((Handler(),))
        print(server.add_insecure_port("127.0.0.1:0"), flush=True)
        await server.start()
        await server.wait_for_termination()

    asyncio.run(serve())


class Alone(Gateway):
    """Such a server, that runs as long as the block. It is looked at as a gateway is."""

    def __init__(self, messages: list[bytes]):
        self.faults = tempfile.TemporaryFile()
        words = [sys.executable, __file__, ALONE, *(message.hex() for message in messages)]
        self.process = subprocess.Popen(words, stdout=subprocess.PIPE, stderr=self.faults)
        self.port = int(self.process.stdout.readline())


# ---- measuring


@dataclass
class Small:
    """A small call: the median seconds, and the processor seconds of who answers the client, a call."""

    seconds: float
    used: float


def median(call: Callable, messages: list[bytes], count: int, answering: Server) -> Small:
    """Makes a small call many times; the first of them are not counted."""
    for _ in range(count // 10):
        call("DoGet", messages)
    ticks, found = answering.ticks(), []
    for _ in range(count):
        began = time.perf_counter()
        call("DoGet", messages)
        found.append(time.perf_counter() - began)
    return Small(statistics.median(found), (answering.ticks() - ticks) / TICKS / count)


def print_small(path: str, count: int) -> None:
    asked, found = [fetch_message(1, 2, b"u")], {}
    with Server(path) as server, Gateway(server.port) as gateway:
        with Connection(server.port) as connection, Client(gateway.port) as client:
            connection.send(put_of("u", A, [(1,), (2,)]))
            wire.demand(connection.answer().code == 0, "a put")
            found["by records, the server alone"] = median(by_records(connection), asked, count, server)
            answer = client.answer(*call_of(wire.call(b"DoGet", asked)))
            found["by gRPC, through the gateway"] = median(by_grpc(client), asked, count, gateway)
        with Alone(answer.messages) as alone, Client(alone.port) as client:
            found["by gRPC, a server that does nothing"] = median(by_grpc(client), asked, count, alone)
    print("| A fetch of two rows | microseconds | of the processor of who answers |\n|---|---:|---:|")
    for name, one in found.items():
        print(f"| {name} | {one.seconds * 1e6:,.0f} | {one.used * 1e6:,.0f} |")
    print()


@dataclass
class Long:
    """A long stream that was sent: the seconds, and the processor seconds of the gateway."""

    seconds: float
    used: float


def timed(call: Callable, method: str, messages: Iterable[bytes], gateway: Gateway) -> Long:
    ticks, began = gateway.ticks(), time.perf_counter()
    call(method, messages)
    return Long(time.perf_counter() - began, (gateway.ticks() - ticks) / TICKS)


def run_long(path: str, through: bool, batches: int) -> tuple[Long, Long, float]:
    """A put and a fetch of so many batches, straight or through the gateway, and what the gateway held at most."""
    fetch = fetch_message(1, batches * BATCH_ROWS, b"t")
    with Server(path) as server, Gateway(server.port) as gateway:
        with Connection(server.port) as connection, Client(gateway.port) as client:
            call = by_grpc(client) if through else by_records(connection)
            put = timed(call, "DoPut", put_messages(b"t", batches), gateway)
            return put, timed(call, "DoGet", [fetch], gateway), gateway.most_held() / MEGABYTE


def print_long(path: str, runs: int, megabytes: int) -> None:
    batches = max(1, round(megabytes * MEGABYTE / (BATCH_ROWS * WIDTH * len(COLUMNS))))
    size = batches * BATCH_ROWS * WIDTH * len(COLUMNS) / MEGABYTE
    print(f"| {size:.0f} MB | put, MB/s | fetch, MB/s | processor seconds of the gateway for a GB | it held at most |")
    print("|---|---:|---:|---:|---:|")
    for name, through in (("by records, the server alone", False), ("by gRPC, through the gateway", True)):
        puts, fetches, held = zip(*(run_long(path, through, batches) for _ in range(runs)))
        put, fetch = (min(found, key=lambda one: one.seconds) for found in (puts, fetches))
        used = f"{put.used / size * 1000:.2f} put, {fetch.used / size * 1000:.2f} fetch | {max(held):.0f} MB" if through else " | "
        print(f"| {name} | {size / put.seconds:,.0f} | {size / fetch.seconds:,.0f} | {used} |")


def main() -> int:
    if sys.argv[1:2] == [ALONE]:
        answer_alone([bytes.fromhex(word) for word in sys.argv[2:]])
    parser = argparse.ArgumentParser(description=__doc__, formatter_class=argparse.RawDescriptionHelpFormatter)
    parser.add_argument("--program", help="the built program (that of the repository)")
    parser.add_argument("--calls", type=int, default=2_000, help="how many small calls (2,000)")
    parser.add_argument("--runs", type=int, default=3, help="how many runs of long streams (3)")
    parser.add_argument("--megabytes", type=int, default=300, help="of a long stream (300)")
    words = parser.parse_args()
    measured, path = Measured(words.program), program(words.program)
    print_small(path, words.calls)
    print_long(path, words.runs, words.megabytes)
    print(f"\n{measured.line()}")
    return 0


if __name__ == "__main__":
    sys.exit(main())
