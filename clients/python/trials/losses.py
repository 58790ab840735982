"""Puts whose answer is lost, streams that nobody has any more, and tickets that lead elsewhere."""

from __future__ import annotations

import gc
import select
import signal
import socket
import threading
import time
from collections.abc import Iterator
from concurrent.futures import ThreadPoolExecutor
from contextlib import contextmanager
from dataclasses import replace
from typing import Any

import flightscan
import numpy as np
import wire
from flightscan.records import Link
from random_calls.answers import same

from trials.cases import Run, case, refused, wanted_package

IN_DOUBT = "; the put may have been made, or may yet be"


class Taker:
    """A server that takes calls whole, and answers each by the same bytes. `taken` has the bytes of each connection."""

    def __init__(self, said: bytes):
        self.said, self.taken = said, []
        self.listener = socket.create_server(("127.0.0.1", 0))
        self.port = self.listener.getsockname()[1]
        self.thread = threading.Thread(target=self.run, daemon=True)

    def __enter__(self) -> Taker:
        self.thread.start()
        return self

    def __exit__(self, *_: object) -> None:
        self.listener.shutdown(socket.SHUT_RDWR)
        self.thread.join()
        self.listener.close()

    def run(self) -> None:
        while True:
            try:
                stream, _ = self.listener.accept()
            except OSError:
                return
            with stream, stream.makefile("rb") as source:
                self.taken.append(call_taken(source))
                stream.sendall(self.said)

    def look(self, count: int) -> None:
        """As many calls came as must, and no more are on their way."""
        same("a connection that waits", [], select.select([self.listener], [], [], 0.2)[0])
        same("the calls that came whole", [b"DoPut"] * count, self.taken)


def call_taken(source: Any) -> bytes:
    """Reads the records of a call, and gives its method."""
    method = b""
    while (kind := source.read(1)) not in (b"\x03", b""):
        if kind == b"\x01":
            method = source.read(int.from_bytes(source.read(2), "big")).rpartition(b"/")[2]
        else:
            source.read(int.from_bytes(source.read(5)[1:], "big"))
    return method if kind else b"cut"


@case("a put whose answer is lost is not sent again, and the exception says that it may have been made")
def answers_of_puts_lost(run: Run) -> None:
    for said, kind, text in (
            (b"", flightscan.OperationalError, f"F22 Transport (the server ended the connection{IN_DOUBT})"),
            (b"\x04\x00", flightscan.OperationalError, f"F22 Transport (the server ended the connection{IN_DOUBT})"),
            (b"\x05", flightscan.InternalError, f"F1 BadFrame (the server's answer breaks the rules of records{IN_DOUBT})")):
        with Taker(said) as server, flightscan.connect(server.port, timeout=20) as connection:
            failed = refused(f"a put that {said!r} answers", kind, text, lambda: connection.put("t", {"a": [1]}))
            same("its text and its server", (text, connection.server), (failed.text, failed.server))
            server.look(1)
            refused("another one", kind, text, lambda: connection.put("t", {"a": np.arange(200_000)}))
            server.look(2)
    for said in (b"\x04\x08\x00\x0fF21 OutOfMemory", b"\x04\x0e\x00\x0dF22 Transport"):
        with Taker(said) as server, flightscan.connect(server.port, timeout=20) as connection:
            failed = refused("a put that is refused", flightscan.OperationalError, "F2", lambda: connection.put("t", {"a": [1]}))
            same("what the server answered", said[4:].decode(), failed.text)
    failed = refused("no server", flightscan.OperationalError, "F22", lambda: flightscan.connect(server.port).put("t", {"a": [1]}))
    same("a put that was not sent is in doubt", False, IN_DOUBT in failed.text)


@case("a put that a server has not answered in time: it says so, and is made once or not at all")
def puts_that_wait(run: Run) -> str:
    made = []
    with run.serving("--seats", "2") as server, flightscan.connect(server.port) as reader:
        same("the tables", [], reader.tables())
        for what in ("stopped", "crowded"):
            seat = Link("127.0.0.1", server.port, 20) if what == "crowded" else None
            if seat is None:
                server.process.send_signal(signal.SIGSTOP)
            with flightscan.connect(server.port, timeout=0.5) as writer:
                failed = refused("no answer", flightscan.OperationalError, "F22 Transport (no byte in 0.5 seconds",
                                 lambda: writer.put(what, {"a": [7]}))
            same("it is in doubt", True, IN_DOUBT in failed.text)
            if seat is None:
                server.process.send_signal(signal.SIGCONT)
            else:
                seat.close()
            deadline = time.monotonic() + 5
            while what not in reader.tables() and time.monotonic() < deadline:
                time.sleep(0.05)
            if what in reader.tables():
                made.append(what)
                same("the put was made once", [(7,)], reader.query(f"SELECT a FROM {what}").rows())
    return f"made later: {', '.join(made) or 'none'}"


@case("over gRPC: a put whose answer is lost is called once, and says that it may have been made; a refused one does not")
def lost_over_grpc(run: Run) -> None:
    grpc = wanted_package("grpc")
    for name, details, doubt in (("UNAVAILABLE", "no more", IN_DOUBT), ("INTERNAL", "", IN_DOUBT),
                                 ("UNAVAILABLE", "F22 Transport", IN_DOUBT), ("RESOURCE_EXHAUSTED", "no seat", ""),
                                 ("UNAVAILABLE", "F21 OutOfMemory", ""), ("INVALID_ARGUMENT", "F4 BadProto", "")):
        calls: list[int] = []
        server = grpc.server(ThreadPoolExecutor(2), handlers=(taking_handler(grpc, calls, getattr(grpc.StatusCode, name), details),))
        port = server.add_insecure_port("127.0.0.1:0")
        server.start()
        with flightscan.connect(f"grpc://127.0.0.1:{port}", timeout=20) as connection:
            failed = refused("a put", None, "", lambda: connection.put("t", {"a": np.arange(100_000)}))
            same("the text", (details or name) + doubt, failed.text)
            same("the calls, each with all messages", [3], calls)
            failed = refused("an info", None, "", lambda: connection.info("SELECT a FROM t"))
            same("the text of an info", details or name, failed.text)
        server.stop(None)


def taking_handler(grpc: Any, calls: list[int], code: Any, details: str) -> Any:
    """Takes all messages of a call, and ends it with a code. `calls` has the number of messages of each put."""

    def answer(requests: Any, context: Any) -> Any:
        count = len(list(requests))
        if count > 1:
            calls.append(count)
        context.abort(code, details)
        yield b""

    class Handler(grpc.GenericRpcHandler):  # type: ignore[misc]
        def service(self, details: Any) -> Any:
            return grpc.stream_stream_rpc_method_handler(answer)

    return Handler()


class Collecting:
    """A lock; whoever takes it has Python throw away all that nobody has."""

    def __init__(self) -> None:
        self.lock, self.release = threading.Lock(), lambda: self.lock.release()

    def acquire(self, blocking: bool = True, timeout: float = -1) -> bool:
        taken = self.lock.acquire(blocking, timeout)
        if taken:
            gc.collect()
        return taken

    def __enter__(self) -> None:
        self.acquire()

    def __exit__(self, *_: object) -> None:
        self.lock.release()


@contextmanager
def without_collections() -> Iterator[None]:
    """Python throws nothing away by itself."""
    gc.collect()
    gc.disable()
    try:
        yield
    finally:
        gc.enable()


@case("streams that Python throws away while their connection's lock is held: no thread waits for itself, and seats are free")
def streams_thrown_away(run: Run) -> None:
    ways = {
        "tables": lambda connection: connection.tables(),
        "put": lambda connection: connection.put("u", {"a": [1]}, mode="replace"),
        "close": lambda connection: connection.close(),
    }
    with run.serving("--seats", "8") as server, flightscan.connect(server.port) as other:
        other.put("t", {"a": np.arange(200_000)})
        (endpoint,) = other.endpoints("SELECT a FROM t")
        for what, way in ways.items():
            with without_collections():
                connection = flightscan.connect(server.port)
                for _ in range(3):
                    leave_a_stream(connection, endpoint)
                same("streams that nobody has", 3, len(connection.calls.used))
                connection.calls.lock = Collecting()
                thread = threading.Thread(target=way, args=(connection,), daemon=True)
                thread.start()
                thread.join(20)
                same(f"{what} waits for itself", False, thread.is_alive())
                same("sockets that are in use", set(), connection.calls.used)
                connection.close()


def leave_a_stream(connection: flightscan.Connection, endpoint: flightscan.Endpoint) -> None:
    """A stream that was begun, and that only itself leads to."""
    stream = connection.stream(endpoint)
    next(stream)
    stream.itself = stream  # type: ignore[attr-defined]


@case("an endpoint with other columns than its info named is refused: by read_all, by cursors and by Dask")
def tickets_that_lead_elsewhere(run: Run) -> None:
    with run.connected("--parts", "2") as first, run.connected("--parts", "2") as second:
        first.put("t", {"a": [1, 2]})
        second.put("t", {"a": ["x", "y"]})
        info = first.info("SELECT a FROM t")
        moved = replace(info, server=second.server, endpoints=tuple(replace(one, server=second.server) for one in info.endpoints))
        text = "F11 SchemaMismatch (an endpoint with the columns a:utf8?, where a:int64? must be)"
        for streams in (1, 2):
            refused("read_all", flightscan.IntegrityError, text, lambda streams=streams: second.read_all(moved, streams))
        cursor = second.cursor().execute("SELECT a FROM t")
        cursor.coming = cursor.rows(moved)
        refused("a cursor", flightscan.IntegrityError, text, cursor.fetchall)
        refused("the next row", flightscan.ProgrammingError, "no query was asked", cursor.fetchone)
        wanted_package("dask.dataframe")
        import flightscan.dask as several

        infos = several.Infos("SELECT a FROM t", (moved,))
        refused("a partition", flightscan.IntegrityError, text, lambda: infos.frame().compute())
        same("what the tickets lead to", [("x",), ("y",)], second.read_all(moved.endpoints).rows())


@case("numbers that say nothing are refused: no streams, no parts, no seconds")
def numbers_that_say_nothing(run: Run) -> None:
    with run.connected() as connection:
        connection.put("t", {"a": [1]})
        info = connection.info("SELECT a FROM t")
        for streams in (0, -1):
            text = f"{streams} streams fetch nothing"
            for what, call in (("read_all", lambda streams=streams: connection.read_all(info, streams)),
                               ("query", lambda streams=streams: connection.query("SELECT a FROM t", streams=streams)),
                               ("a cursor", lambda streams=streams: connection.cursor().execute(
                                   "SELECT a FROM t").fetch_table(streams))):
                failed = refused(what, flightscan.InterfaceError, text, call)
                same("it is a ValueError", True, isinstance(failed, ValueError))
        refused("no endpoint", flightscan.InterfaceError, "there is no endpoint", lambda: connection.read_all([]))
        for timeout in (0, -1.5, float("nan")):
            refused("a timeout", flightscan.InterfaceError, f"a timeout of {timeout} seconds",
                    lambda timeout=timeout: flightscan.connect(1, timeout))
        wanted_package("dask.dataframe")
        import flightscan.dask as several

        for parts in (0, -1):
            refused("parts", flightscan.InterfaceError, f"{parts} parts hold no rows",
                    lambda parts=parts: several.read_query("SELECT a FROM t", [connection.server], parts))
