#!/usr/bin/python3
"""gRPC in, records out: clients of Arrow Flight that speak gRPC reach a `flightscan serve` through this program.

    /usr/bin/python3 gateway/flightscan_gateway.py --port N --grpc-port M [--listen ADDRESS] [--seats S] [--wait SECONDS]
        [--stall SECONDS] [--idle SECONDS] [--longest-put MB] [--tls-certificate FILE --tls-key FILE] [--token-file FILE]

It listens on 127.0.0.1:M for gRPC, or on another address where it has TLS and a token. Each call of
`arrow.flight.protocol.FlightService` becomes one call of records (section 2 of docs/PROTOCOL.md) over a connection of its own to
the server on 127.0.0.1:N. A Status record becomes the gRPC status with its code and text. What drivers ask about the server, and
the server lacks, is answered here.

It takes at most S connections, so it has at most S calls at once. A call beyond these waits, and is RESOURCE_EXHAUSTED after
the seconds of --wait. A client that neither sends nor takes a message for the seconds of --stall loses its call. A connection
that no call used for the seconds of --idle is closed, so that its seat is free for others. The call of a client that goes away is
dropped, and its connection closed: a put that was not sent to its end is not made.

It needs gRPC for Python, of Debian: `apt-get install python3-grpcio`. It goes on until SIGINT or SIGTERM ends it. It ends with 2
where the command line does not parse or asks for what is not safe, and with 3 where it cannot listen. gateway/README.md tells
more.
"""

from __future__ import annotations

import argparse
import asyncio
import contextlib
import logging
import os
import pathlib
import resource
import shutil
import signal
import sys
import tempfile
from collections.abc import Callable, Iterator

sys.dont_write_bytecode = True
os.environ.setdefault("GRPC_VERBOSITY", "NONE")  # what clients do wrong is told to them, and not to the terminal
logging.getLogger("asyncio").setLevel(logging.CRITICAL)

try:
    import grpc.aio
except ImportError:
    print("fault: no gRPC for Python; Debian has it in the package python3-grpcio", file=sys.stderr)
    sys.exit(3)

from bridge.access import Access, Unusable, tls, token_in  # noqa: E402
from bridge.calls import Gateway  # noqa: E402
from bridge.frames import MOST_STREAMS  # noqa: E402
from bridge.front import Front  # noqa: E402
from bridge.records import HOST, LONGEST_MESSAGE  # noqa: E402
from bridge.seats import Patience, Seats  # noqa: E402

MOST_SEATS = 32  # that a server has
MEGABYTE = 1_000_000
MOST_FILES = 4_096  # three of each client, and some


def take_descriptors() -> None:
    """Lets the process open as many files as its clients need, if the system does. No more: who begins TLS has one, too."""
    _, most = resource.getrlimit(resource.RLIMIT_NOFILE)
    resource.setrlimit(resource.RLIMIT_NOFILE, (min(MOST_FILES, most), most))


def grpc_options(longest_put: int) -> list[tuple[str, int]]:
    return [
        ("grpc.max_receive_message_length", max(LONGEST_MESSAGE, longest_put * MEGABYTE)),
        ("grpc.max_send_message_length", LONGEST_MESSAGE),
        ("grpc.max_concurrent_streams", MOST_STREAMS),
        ("grpc.compression_enabled_algorithms_bitset", 1),  # none: a small message cannot become a large one
        ("grpc.http2.bdp_probe", 0),  # what waits of a stream that nobody reads on does not grow
        ("grpc.http2.lookahead_bytes", 1_048_576),
    ]


@contextlib.contextmanager
def private_socket() -> Iterator[str]:
    """Where gRPC listens: in a folder that others may not enter, and that goes where a signal ends the process."""
    folder = tempfile.mkdtemp(prefix="flightscan-")

    def end(number: int, _: object) -> None:
        shutil.rmtree(folder, ignore_errors=True)
        signal.signal(number, signal.SIG_DFL)
        os.kill(os.getpid(), number)  # it ends all at once: gRPC's own end can wait without end

    for number in (signal.SIGINT, signal.SIGTERM):
        signal.signal(number, end)
    try:
        yield str(pathlib.Path(folder, "grpc"))
    finally:
        shutil.rmtree(folder, ignore_errors=True)


async def serve(words: argparse.Namespace, inner: str) -> int:
    """Serves until a signal ends the process."""
    patience = Patience(words.wait, words.stall, words.idle)
    server = grpc.aio.server(options=grpc_options(words.longest_put))
    server.add_generic_rpc_handlers((Gateway(Seats(words.port, words.seats, patience), words.access),))
    try:
        server.add_insecure_port(f"unix:{inner}")
        await server.start()
        port = await Front(inner).listen(words.listen, words.grpc_port, words.tls)
    except (OSError, RuntimeError):
        print(f"fault: cannot listen on {words.listen}:{words.grpc_port}", file=sys.stderr)
        return 3
    host = f"[{words.listen}]" if ":" in words.listen else words.listen
    print(f"listening grpc{'+tls' if words.tls else ''}://{host}:{port}", flush=True)
    await server.wait_for_termination()
    return 0


# ---- the command line


def number(least: float, most: float, kind: type = int) -> Callable[[str], float]:
    """What reads an option's number."""

    def read(word: str) -> float:
        value = kind(word)
        if not least <= value <= most:
            raise argparse.ArgumentTypeError(f"{word} is not from {least} to {most}")
        return value

    return read


def parser() -> argparse.ArgumentParser:
    found = argparse.ArgumentParser(description=__doc__, formatter_class=argparse.RawDescriptionHelpFormatter)
    add = found.add_argument
    add("--port", type=number(1, 65_535), required=True, help="where the server listens")
    add("--grpc-port", type=number(0, 65_535), required=True, help="where gRPC is served; 0: the system chooses")
    add("--listen", default=HOST, help=f"the address where gRPC is served ({HOST}); another one needs TLS and a token")
    add("--tls-certificate", metavar="FILE", help="the certificate, and those between it and its root, as PEM")
    add("--tls-key", metavar="FILE", help="its key")
    add("--token-file", metavar="FILE", help="a file with the token that callers have to show")
    add("--seats", type=number(1, MOST_SEATS), default=4, help="how many connections it may take (4)")
    add("--wait", type=number(0.1, 3_600, float), default=10, help="seconds that a call waits for a seat (10)")
    add("--stall", type=number(0.1, 86_400, float), default=300, help="seconds that a call waits for its client (300)")
    add("--idle", type=number(0, 3_600, float), default=2, help="seconds that an unused connection stays (2)")
    add("--longest-put", metavar="MB", type=number(1, 1_000), default=64, help="the longest message of a put (64)")
    return found


def unsafe(words: argparse.Namespace) -> str | None:
    """Why these options are refused, if they are."""
    if (words.tls_certificate is None) != (words.tls_key is None):
        return "--tls-certificate and --tls-key go together"
    if words.listen == HOST or words.tls_key is not None and words.token_file is not None:
        return None
    return (f"--listen {words.listen} needs --tls-certificate, --tls-key and --token-file: without TLS others read what passes, "
            f"and without a token all may call. Without them it listens only on {HOST}")


def main() -> int:
    words = parser().parse_args()
    why = unsafe(words)
    try:
        if why is not None:
            raise Unusable(why)
        words.access = Access(token_in(words.token_file) if words.token_file else None)
        words.tls = tls(words.tls_certificate, words.tls_key) if words.tls_key else None
    except Unusable as refused:
        print(f"fault: {refused}", file=sys.stderr)
        return 2
    take_descriptors()
    with private_socket() as inner:
        return asyncio.run(serve(words, inner))


if __name__ == "__main__":
    sys.exit(main())
