"""The same client over gRPC, through the gateway."""

from __future__ import annotations

import os
import pathlib
import shutil
import subprocess
import tempfile
import threading
import time
import unittest.mock
from concurrent.futures import ThreadPoolExecutor
from typing import Any

import flightscan
import numpy as np
from flightscan.protobuf import chunk, content
from flightscan.sources import Put
from loopback import Server
from random_calls.answers import same

from trials.bytes_written import plain_columns
from trials.calls import plain_rows
from trials.cases import PassedOver, Run, case, refused, trips, wanted_package


@case("over gRPC: rows come back, refusals have the server's text, a source that fails puts nothing, a fetch can be left")
def over_grpc(run: Run) -> str:
    grpc = wanted_package("grpc")
    from tested.running import Gateway

    with run.serving("--parts", "4", "--seats", "8") as server, Gateway(server.port, "--seats", "4") as gateway:
        with flightscan.connect(f"grpc://127.0.0.1:{gateway.port}") as connection:
            columns = trips(100_000)
            same("the rows of a put", 100_000, connection.put("t", columns))
            info = connection.info("SELECT * FROM t")
            same("the endpoints", (4, 1), (len(info.endpoints), info.version))
            same("the rows", plain_columns(columns), plain_rows(connection.read_all(info, streams=4)))
            same("the tables", ["t"], connection.tables())
            same("a floor", 1, connection.expire(1))
            for query, kind, text, code in (
                    ("SELECT a, FROM t", flightscan.ProgrammingError, "F13 BadSql at byte 10", 3),
                    ("SELECT id FROM u", flightscan.ProgrammingError, "F9 TableMissing", 5)):
                failed = refused(query, kind, text, lambda query=query: connection.info(query))
                same("the code", code, failed.code)
            refused("a table that is there", flightscan.IntegrityError, "F10 TableExists",
                    lambda: connection.put("t", {"a": [1]}))
            look_at_failing_sources(connection)
            stream = connection.stream(info.endpoints[0])
            next(stream)
            stream.close()
            same("the next call", 100_000, int(connection.query("SELECT COUNT(*) FROM t").rows()[0][0]))
            cursor = connection.cursor().execute("SELECT id FROM t WHERE id < 3")
            same("a cursor", [(0,), (1,), (2,)], cursor.fetchall())
        with flightscan.connect("grpc://127.0.0.1:1", timeout=5) as nobody:
            refused("without a gateway", flightscan.OperationalError, "", nobody.tables)
        same("what the gateway printed", b"", gateway.said())
    return f"grpcio {grpc.__version__}"


@case("over gRPC a stream that breaks off is an error and no short answer: a gateway, a server or a handler that ends, close()")
def streams_that_break_off(run: Run) -> str:
    grpc = wanted_package("grpc")
    from tested.running import Gateway

    ways = {
        "a gateway": lambda server, gateway, connection: gateway.process.kill(),
        "a server": lambda server, gateway, connection: server.process.kill(),
        "close()": lambda server, gateway, connection: connection.close(),
    }
    for what, end in ways.items():
        with (Server(run.path) as server, Gateway(server.port) as gateway,
              flightscan.connect(f"grpc://127.0.0.1:{gateway.port}", timeout=20) as connection):
            connection.put("t", {"a": np.arange(4_000_000)})
            (endpoint,) = connection.endpoints("SELECT a FROM t")
            stream = connection.stream(endpoint)
            same("rows before it", True, len(next(stream)) > 0)
            end(server, gateway, connection)
            text = "F22 Transport (the connection was closed)" if what == "close()" else ""
            refused(f"a stream whose end is {what}", flightscan.OperationalError, text, lambda: list(stream))
            refused("the same stream", flightscan.InterfaceError, "the stream is closed", lambda: next(stream))
            if what != "close()":
                refused("an endpoint", flightscan.OperationalError, "", lambda: connection.read(endpoint))
    whole = [b"".join(pieces) for pieces in Put("t", "create", {"a": np.arange(3)}).messages()]
    server = grpc.server(ThreadPoolExecutor(2), handlers=(broken_handler(grpc, whole),))
    port = server.add_insecure_port("127.0.0.1:0")
    server.start()
    with flightscan.connect(f"grpc://127.0.0.1:{port}", timeout=20) as connection:
        endpoint = flightscan.Endpoint(b"", connection.server)
        refused("a handler that fails after two batches", flightscan.OperationalError, "", lambda: connection.read(endpoint))
        stream = connection.stream(endpoint)
        same("the first batch", [0, 1, 2], next(stream)["a"].values.tolist())
    server.stop(None)
    return f"{len(ways) + 1} ways"


def broken_handler(grpc: Any, whole: list[bytes]) -> Any:
    """Answers each call by a schema and two batches, and fails then."""

    def answer(requests: Any, context: Any) -> Any:
        yield from [*whole, whole[-1]]
        context.abort(grpc.StatusCode.UNAVAILABLE, "no more")

    class Handler(grpc.GenericRpcHandler):  # type: ignore[misc]
        def service(self, details: Any) -> Any:
            return grpc.stream_stream_rpc_method_handler(answer)

    return Handler()


@case("put_table over gRPC: each row once; a put that is refused before all rows are sent is told, and holds nothing up")
def spread_over_grpc(run: Run) -> None:
    pandas = wanted_package("pandas")
    wanted_package("dask.dataframe")
    wanted_package("grpc")
    import flightscan.dask as several
    from tested.running import Gateway

    frame = several.dask.dataframe.from_pandas(pandas.DataFrame({"id": range(400_000)}), npartitions=20)
    with run.serving("--seats", "8") as server, run.serving("--seats", "8") as other, Gateway(server.port) as gateway:
        servers = [f"grpc://127.0.0.1:{gateway.port}", f"127.0.0.1:{other.port}"]
        same("all rows", 400_000, sum(several.put_table(frame, servers, "id", "t")))
        same("each once", list(range(400_000)), sorted(several.read_query("SELECT id FROM t", servers)["id"].compute()))
        threads = threading.active_count()
        with flightscan.connect(other.port) as connection:
            connection.put("u", {"id": [1]})
        for table, failures in (("t", 2), ("u", 1), ("x" * 65, 2)):
            failed = refused(f"a put into {table}", several.PartPut, "not every server made the put",
                             lambda table=table: several.put_table(frame, servers, "id", table))
            same("how many failed", failures, len(failed.failures))
        deadline = time.monotonic() + 20
        while threading.active_count() > threads and time.monotonic() < deadline:
            time.sleep(0.05)
        same("threads that are left", True, threading.active_count() <= threads)


def look_at_failing_sources(connection: flightscan.Connection) -> None:
    def parts() -> Any:
        yield {"a": np.arange(200_000)}
        raise KeyError("the source")

    for _ in range(5):
        try:
            connection.put("failing", parts())
        except KeyError:
            pass
        else:
            same("the source's own exception is raised", True, False)
    refused("a null", flightscan.DataError, "column a: a null",
            lambda: connection.put("failing", [{"a": [None]}], schema="a:int8"))
    same("nothing was put", ["t"], connection.tables())


@case("by TLS with a token: a call shows the token, another certificate or token is refused, and no token goes without TLS")
def over_tls(run: Run) -> None:
    grpc = wanted_package("grpc")
    if shutil.which("openssl") is None:
        raise PassedOver("openssl")
    with tempfile.TemporaryDirectory() as folder:
        mine, other = (made_certificate(pathlib.Path(folder) / name) for name in ("mine", "other"))
        server = grpc.server(ThreadPoolExecutor(2), handlers=(floor_handler(grpc),))
        key, certificate = (pathlib.Path(folder, f"mine.{end}").read_bytes() for end in ("key", "pem"))
        port = server.add_secure_port("127.0.0.1:0", grpc.ssl_server_credentials([(key, certificate)]))
        server.start()
        address = f"grpc+tls://localhost:{port}"
        with flightscan.connect(address, 20, "secret", mine) as connection:
            same("the floor", 7, connection.expire(7))
        with unittest.mock.patch.dict(os.environ, {"FLIGHTSCAN_TOKEN": "secret", "FLIGHTSCAN_CERTIFICATES": mine}):
            with flightscan.connect(address, 20) as connection:
                same("the floor", 8, connection.expire(8))
        with flightscan.connect(address, 20, "guess", mine) as connection:
            refused("another token", flightscan.OperationalError, "no token", lambda: connection.expire(1))
        with flightscan.connect(address, 5, "secret", other) as connection:
            refused("another certificate", flightscan.OperationalError, "", lambda: connection.expire(1))
        server.stop(None)
    with flightscan.connect("grpc://127.0.0.1:1", 5, "two\nlines") as connection:
        refused("a token that can't be sent", flightscan.InterfaceError, "the token can't be sent", connection.tables)
    refused("a token without TLS", flightscan.InterfaceError, "a token to far needs TLS", lambda: flightscan.connect(
        "grpc://far:1", token="secret"))


def made_certificate(path: pathlib.Path) -> str:
    """A key and a certificate of this machine that signs itself; the path of the latter."""
    words = ["openssl", "req", "-x509", "-newkey", "ec", "-pkeyopt", "ec_paramgen_curve:prime256v1", "-nodes", "-days", "2",
             "-subj", "/CN=localhost", "-addext", "subjectAltName=DNS:localhost", "-keyout", f"{path}.key", "-out", f"{path}.pem"]
    subprocess.run(words, check=True, capture_output=True)
    return f"{path}.pem"


def floor_handler(grpc: Any) -> Any:
    """Answers each call with the token by the version that it names, as if that were the floor."""

    def answer(requests: Any, context: Any) -> Any:
        if dict(context.invocation_metadata()).get("authorization") != "Bearer secret":
            context.abort(grpc.StatusCode.UNAUTHENTICATED, "no token")
        for message in requests:
            yield chunk(1, bytes(content(memoryview(message), 2)))

    class Handler(grpc.GenericRpcHandler):  # type: ignore[misc]
        def service(self, details: Any) -> Any:
            return grpc.stream_stream_rpc_method_handler(answer)

    return Handler()
