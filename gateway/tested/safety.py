"""Cases of who may call and from where, and of clients that stall: tokens, TLS, addresses, and seats that are given back."""

from __future__ import annotations

import base64
import contextlib
import pathlib
import resource
import socket
import ssl
import struct
import subprocess
import sys
import tempfile
import threading
import time
from collections.abc import Iterator

import grpc

import wire
from loopback import Server
from random_calls.answers import PutCount, Refusal, same
from served.cases import A, MEGABYTE, fetch_of, put_of

from tested.cases import ask, call_of, case, look_at_status, put_messages
from tested.client import LIMITS, SECONDS, SERVICE, Client, flight, ingest
from tested.floods import CONNECTIONS, DATA, PREFACE, begun, echo, frame
from tested.running import TOP, Gateway, Run, StubServer
from tested.streams import WIDE_ROWS, wide_fetch, wide_rows

TOKEN = "a-token-of-the-test"
UNAUTHENTICATED, DEADLINE, UNAVAILABLE = 16, 4, 14
NEEDED, ANOTHER = "a token is needed: authorization: Bearer TOKEN", "another token is needed"
GONE = "the server ended the connection in the middle of a call"


@contextlib.contextmanager
def folder() -> Iterator[pathlib.Path]:
    """A folder with a token, a certificate of 127.0.0.1 and localhost, and its key."""
    with tempfile.TemporaryDirectory() as name:
        made = pathlib.Path(name)
        (made / "token").write_text(TOKEN + "\n")
        (made / "token").chmod(0o600)
        words = ["openssl", "req", "-x509", "-newkey", "rsa:2048", "-nodes", "-days", "2", "-subj", "/CN=localhost", "-addext",
                 "subjectAltName=DNS:localhost,IP:127.0.0.1", "-keyout", made / "key", "-out", made / "certificate"]
        subprocess.run(words, check=True, capture_output=True)
        yield made


def called(channel: grpc.Channel, *metadata: tuple[str, str | bytes]) -> wire.Answer:
    """The answer to a call that shows this."""
    call, found = channel.stream_stream(SERVICE + "DoGet")(iter([b"x"]), timeout=SECONDS, metadata=metadata), []
    with contextlib.suppress(grpc.RpcError):
        found.extend(call)
    return wire.Answer(found, call.code().value[0], call.details())


def basic(password: str, padding: bool = True) -> tuple[str, str]:
    shown = base64.b64encode(f"user:{password}".encode()).decode()
    return "authorization", "Basic " + (shown if padding else shown.rstrip("="))


def handshake(channel: grpc.Channel, requests: list[bytes], *metadata: tuple[str, str]) -> tuple[dict, list[bytes]]:
    """What a handshake gives: the head of the answer, and its messages. Each message of ours is sent after the head came."""
    go = threading.Event()

    def sent() -> Iterator[bytes]:
        if not requests:
            go.wait(SECONDS)  # drivers in Go end their messages after they have read the head
        yield from requests

    call = channel.stream_stream(SERVICE + "Handshake")(sent(), timeout=SECONDS, metadata=metadata)
    head = dict(call.initial_metadata())
    go.set()
    return head, [*call]


DONE = wire.Answer([b"x"], 0, "")


@case("with --token-file: calls without the token and with another are UNAUTHENTICATED; bearers, passwords, handshakes pass")
def tokens(run: Run) -> None:
    with folder() as made, StubServer(echo) as stub, run.behind(stub.port, "--token-file", str(made / "token")) as gateway:
        with Client(gateway.port) as client:
            same("no token", wire.Answer([], UNAUTHENTICATED, NEEDED), called(client.channel))
            for shown in (("authorization", "Bearer " + TOKEN[:-1]), ("authorization", f"Bearer {TOKEN}x"), basic("no"),
                          ("authorization", "Basic !"), ("auth-token-bin", b"no")):
                same(f"{shown}", wire.Answer([], UNAUTHENTICATED, ANOTHER), called(client.channel, shown))
            bearer = ("authorization", "Bearer " + TOKEN)
            for shown in (bearer, basic(TOKEN), basic(TOKEN, padding=False), ("auth-token-bin", TOKEN.encode())):
                same(f"{shown}", DONE, called(client.channel, shown))
                if shown[0] == "authorization":  # as Go's, Java's and C++'s clients do
                    head, messages = handshake(client.channel, [], shown)
                    same("what a handshake gives", ("Bearer " + TOKEN, []), (head["authorization"], messages))
            long = [client.call("Handshake", [bytes(20_000_000)]) for _ in range(20)]
            same("no long handshake passes", {UNAUTHENTICATED, 3}, {one.code().value[0] for one in long} | {UNAUTHENTICATED})
            held = gateway.most_held() / MEGABYTE
            same(f"it held {held:.0f} MB, less than 200", True, held < 200)
            request = flight.HandshakeRequest(payload=flight.BasicAuth(username="u", password=TOKEN).SerializeToString())
            _, (answer,) = handshake(client.channel, [request.SerializeToString()])
            same("a handshake by a message", TOKEN.encode(), flight.HandshakeResponse.FromString(answer).payload)
            for requests, shown in (([], basic("no")), ([flight.HandshakeRequest().SerializeToString()], None)):
                try:
                    handshake(client.channel, requests, *([shown] if shown else []))
                    said = None
                except grpc.RpcError as failed:
                    said = failed.code(), failed.details()
                same("a wrong handshake", (grpc.StatusCode.UNAUTHENTICATED, ANOTHER), said)


@case("without --token-file: each call passes, and a handshake gives a token that nobody looks at")
def no_tokens(run: Run) -> None:
    with StubServer(echo) as stub, run.behind(stub.port) as gateway, Client(gateway.port) as client:
        for shown in ((), (basic("any"),), (("authorization", "Bearer any"),)):
            same(f"a call with {shown}", DONE, called(client.channel, *shown))
        for shown in (basic("any"), ("authorization", "Bearer any")):
            head, messages = handshake(client.channel, [], shown)
            same("what a handshake gives", ("Bearer none", []), (head["authorization"], messages))


@case("with TLS: clients that trust the certificate are answered, also on all addresses with a token; others are not")
def over_tls(run: Run) -> None:
    with folder() as made, StubServer(echo) as stub:
        trusted = grpc.ssl_channel_credentials((made / "certificate").read_bytes())
        pair = ["--tls-certificate", str(made / "certificate"), "--tls-key", str(made / "key")]
        for more, shown, host in (([], (), "127.0.0.1"),
                                  (["--listen", "0.0.0.0", "--token-file", str(made / "token")], (basic(TOKEN),), "0.0.0.0")):
            with Gateway(stub.port, *pair, *more, host=host) as gateway:
                with grpc.secure_channel(f"localhost:{gateway.port}", trusted, LIMITS) as channel:
                    same("a call", DONE, called(channel, *shown))
                    whole = bytes(10_000_000)
                    call = channel.stream_stream(SERVICE + "DoGet")(iter([whole]), timeout=SECONDS, metadata=shown)
                    same("10 MB both ways", [whole], [*call])
                    if shown:
                        same("without a token", UNAUTHENTICATED, called(channel).code)
                with Client(gateway.port) as plain:
                    same("without TLS", UNAVAILABLE, plain.answer("DoGet", [b"x"]).code)
                same("what the gateway printed as faults", b"", gateway.said())


@case("1,000 connections of TLS, each with a call that waits, and 100 that say nothing: less than 200 MB held, then given back")
def many_over_tls(run: Run) -> str:
    resource.setrlimit(resource.RLIMIT_NOFILE, (resource.getrlimit(resource.RLIMIT_NOFILE)[1],) * 2)
    with folder() as made, StubServer(echo) as stub:
        words = ["--tls-certificate", str(made / "certificate"), "--tls-key", str(made / "key"), "--wait", "600"]
        context = ssl.create_default_context(cafile=made / "certificate")
        context.set_alpn_protocols(["h2"])
        with Gateway(stub.port, *words) as gateway:
            before = gateway.open_files()
            with contextlib.ExitStack() as stack:
                for _ in range(CONNECTIONS):
                    plain = stack.enter_context(socket.create_connection(("127.0.0.1", gateway.port), 60))
                    client = stack.enter_context(context.wrap_socket(plain, server_hostname="localhost"))
                    client.sendall(PREFACE + begun(1) + frame(DATA, 0, 1, b"\0" + struct.pack(">I", 16_000) + bytes(15_000)))
                for _ in range(100):
                    stack.enter_context(socket.create_connection(("127.0.0.1", gateway.port), 60))
                time.sleep(2)
                held = gateway.held() / MEGABYTE
            same(f"it held {held:.0f} MB, less than 200", True, held < 200)
            end = time.monotonic() + 60
            while gateway.open_files() > before + 8 and time.monotonic() < end:
                time.sleep(0.2)
            same("files that are left open", True, gateway.open_files() <= before + 8)
            same("what the gateway printed as faults", b"", gateway.said())
    return f"{held:.0f} MB held"


@case("what is not safe is refused, with the reason and status 2: other addresses, open files, short tokens, half a pair")
def unsafe(run: Run) -> None:
    with folder() as made:
        certificate, key, token = (str(made / name) for name in ("certificate", "key", "token"))
        short, wide = made / "short", made / "wide"
        short.write_text("short")
        short.chmod(0o600)
        wide.write_text(TOKEN)
        wide.chmod(0o644)
        other = "needs --tls-certificate, --tls-key and --token-file"
        pair = ["--tls-certificate", certificate, "--tls-key", key]
        for words, said in ((["--listen", "0.0.0.0"], other), (["--listen", "0.0.0.0", *pair], other),
                            (["--listen", "::", "--token-file", token], other), (["--listen", "127.0.0.2"], other),
                            (["--tls-key", key], "go together"), (["--tls-certificate", certificate], "go together"),
                            (["--token-file", str(wide)], "chmod 600"), (["--token-file", str(short)], "16 to 4096"),
                            (["--token-file", str(made / "none")], "cannot read a token"),
                            (["--tls-certificate", key, "--tls-key", token], "cannot use")):
            command = [sys.executable, str(TOP / "flightscan_gateway.py"), "--port", "1", "--grpc-port", "0", *words]
            ran = subprocess.run(command, capture_output=True, timeout=60, text=True)
            same(f"{words}: status, output, lines", (2, "", 1), (ran.returncode, ran.stdout, ran.stderr.count("\n")))
            same(f"{words}: {ran.stderr!r} has {said!r}", True, ran.stderr.startswith("fault: ") and said in ran.stderr)


# ---- clients that stall


@case("a put and a fetch whose clients stall for --stall: DEADLINE_EXCEEDED, and their seat is free")
def stalls(run: Run) -> None:
    said, go = "the client neither sent nor took a message in 1 seconds", threading.Event()

    def messages() -> Iterator[bytes]:
        yield next(put_messages(ingest("t"), A, [(1,)])).SerializeToString()
        go.wait()

    with Server(run.path) as server, run.behind(server.port, "--seats", "1", "--stall", "1", "--wait", "30") as gateway:
        with Client(gateway.port) as client, Client(gateway.port) as other:
            put = client.call("DoPut", messages())
            ask(other, put_of("u", A, [(1,)]), PutCount(1))  # waits for the end of that second
            same("the code and the text", (DEADLINE, said), (put.code().value[0], put.details()))
            go.set()
            same("the number of rows put", WIDE_ROWS, client.put(wide_rows()))
            fetch = wide_fetch(client)
            ask(other, put_of("v", A, [(1,)]), PutCount(1))
            with contextlib.suppress(grpc.RpcError):
                for _ in fetch:
                    pass
            same("the code and the text", (DEADLINE, said), (fetch.code().value[0], fetch.details()))


@case("a put whose client stalls for the server's --idle: UNAVAILABLE at once, whatever --stall says, and its seat is free")
def ended_by_the_server(run: Run) -> None:
    go = threading.Event()

    def messages() -> Iterator[bytes]:
        yield from (one.SerializeToString() for one in put_messages(ingest("t"), A, [(1,)]))
        yield b"\x12\0" + wire.chunk(1000, bytes(100_000))  # so that what came before is not held back
        go.wait()

    with Server(run.path, "--idle", "1") as server, run.behind(server.port, "--seats", "1", "--wait", "30") as gateway:
        with Client(gateway.port) as client:
            began, put = time.monotonic(), client.call("DoPut", messages())
            look_at_status("the put", UNAVAILABLE, GONE, wire.Answer([], put.code().value[0], put.details()))
            same("it took some seconds", True, 0.9 < time.monotonic() - began < 20)
            go.set()
            answer = client.answer("DoGet", call_of(fetch_of(1, 0, 1, "SELECT * FROM t"))[1])
            Refusal("F18").look(answer)
