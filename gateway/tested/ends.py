"""Cases of ends: clients that cancel or go away, seats that are taken, servers that go away, and the start of both."""

from __future__ import annotations

import contextlib
import os
import signal
import socket
import subprocess
import sys
import threading
import time
from collections.abc import Iterator

import grpc

import wire
from loopback import Connection, Server
from random_calls.answers import PutCount, Refusal, same
from served.cases import A, appended, fetch_of, put_of, rows_of

from tested.cases import ask, call_of, case, look_at_status, put_messages
from tested.client import LONG, Client, ingest
from tested.running import TOP, Gateway, Run, StubServer
from tested.streams import WIDE, WIDE_ROWS, large_put, wide_fetch, wide_rows

UNAVAILABLE, EXHAUSTED, INTERNAL = 14, 8, 13
GONE = "the server ended the connection in the middle of a call"
PUTS_CUT, DONE = 150, b"\x04\0\0\0"


# ---- clients that cancel or go away


@case("a fetch that is cancelled in the middle, or not read on: it frees the only seat")
def cancelled_fetch(run: Run) -> None:
    with run.serving(seats=1, wait=60) as (_, gateway), Client(gateway.port) as client:
        same("the number of rows put", WIDE_ROWS, client.put(wide_rows()))
        for _ in range(5):
            wide_fetch(client).cancel()
            ask(client, put_of("t", A, [(1,)]), Refusal("F10"))
        late = client.call("DoGet", call_of(fetch_of(1, 0, WIDE_ROWS, WIDE))[1], seconds=1)
        next(late)
        ask(client, put_of("t", A, [(1,)]), Refusal("F10"))  # waits for the end of that second


def cut_put(client: Client, pause: float, whole: bool) -> None:
    """Sends a put's messages, and cancels it before the stream's end."""
    go = threading.Event()

    def messages() -> Iterator[bytes]:
        made = [one.SerializeToString() for one in put_messages(ingest("t"), A, [(1,), (2,)])]
        yield from made if whole else made[:-1]
        go.wait()

    call = client.call("DoPut", messages())
    time.sleep(pause)
    call.cancel()
    go.set()


@case("puts that are cancelled before the end of their stream, also behind their last message: none is made")
def cancelled_puts(run: Run) -> str:
    with run.serving(wait=60) as (_, gateway), Client(gateway.port) as client:
        for number in range(PUTS_CUT):
            cut_put(client, 0.002 * (number % 20), number % 3 > 0)
        ask(client, fetch_of(1, 0, 2, "SELECT * FROM t"), Refusal("F18"))
        ask(client, put_of("u", A, [(1,)]), PutCount(1))
        ask(client, fetch_of(1, 0, 1, "SELECT * FROM u"), rows_of(A, (1,)))
    return f"{PUTS_CUT} puts"


@case("puts that are cancelled or refused in the middle of long messages: the gateway keeps none of these")
def long_puts_cut(run: Run) -> str:
    whole, go = bytes(16_000_000), threading.Event()

    def messages() -> Iterator[bytes]:
        yield from [whole] * 3
        go.wait()

    with StubServer(lambda path, messages: DONE) as stub, run.behind(stub.port) as gateway, Client(gateway.port) as client:
        for _ in range(20):
            call = client.call("DoPut", messages())
            time.sleep(0.2)
            call.cancel()
        go.set()
        for _ in range(20):
            same("the code of a message too long", EXHAUSTED, client.answer("DoPut", [whole, bytes(17_000_000)]).code)
        held = gateway.most_held() / 1_000_000
        same(f"it held {held:.0f} MB, less than 200", True, held < 200)
    return f"{held:.0f} MB held"


KILLED = """
import sys, threading
sys.path[:0] = {path!r}
from tested.client import LONG, Client, ingest
from tested.cases import put_messages
from served.cases import A
def messages():
    yield from put_messages(ingest("t"), A, [(1,), (2,)])
    print("sent", flush=True)
    threading.Event().wait()
Client({port}).put(messages())
"""


@case("clients that are killed in the middle of a put, all messages sent: it is not made, and the seat is free")
def killed_clients(run: Run) -> None:
    with run.serving(seats=1) as (_, gateway), Client(gateway.port) as client:
        for _ in range(3):
            words = [sys.executable, "-B", "-c", KILLED.format(path=sys.path, port=gateway.port)]
            with subprocess.Popen(words, stdout=subprocess.PIPE) as child:
                same("what the client printed", b"sent\n", child.stdout.readline())
                time.sleep(0.1)
                child.kill()
            ask(client, fetch_of(1, 0, 2, "SELECT * FROM t"), Refusal("F18"))
        ask(client, put_of("t", A, [(1,)]), PutCount(1))


# ---- seats


@case("calls beyond the seats wait: RESOURCE_EXHAUSTED after --wait, and answered where a seat comes free before")
def beyond_the_seats(run: Run) -> str:
    said = "no seat of the server came free in 1 seconds"
    with run.serving(seats=1, wait=1) as (server, gateway), run.behind(server.port, "--wait", "60") as patient:
        with Client(gateway.port) as client, Client(gateway.port) as other, Client(patient.port) as late:
            same("the number of rows put", WIDE_ROWS, client.put(wide_rows()))
            held, began = wide_fetch(client), time.monotonic()
            look_at_status("a call beyond", EXHAUSTED, said, other.answer("DoGet", call_of(fetch_of(1, 0, 1, "x"))[1]))
            waited = time.monotonic() - began
            same(f"it waited {waited:.1f} seconds", True, 0.9 < waited < 5)
            threading.Timer(0.3, held.cancel).start()
            ask(late, put_of("t", A, [(1,)]), Refusal("F10"))
    return f"it waited {waited:.1f} s"


@case("1,040 calls on one seat that is taken: 1,000 wait, the others are refused at once, and those that waited are answered")
def many_that_wait(run: Run) -> None:
    go, said = threading.Event(), "1000 calls wait for a seat of the server"

    def answer(path: bytes, messages: list[bytes]) -> bytes:
        go.wait(60)
        return b"\x04\0\0\0"

    with StubServer(answer) as stub, run.behind(stub.port, "--seats", "1", "--wait", "300") as gateway:
        with contextlib.ExitStack() as stack:  # of clients, each of which has 80 calls at once
            clients = [stack.enter_context(Client(gateway.port)) for _ in range(13)]
            calls = [client.call("DoGet", [b"x"], 300) for client in clients for _ in range(80)]
            for _ in range(300):
                if sum(call.done() for call in calls) < 39:
                    time.sleep(0.1)
            go.set()
            found = [wire.Answer([], call.code().value[0], call.details()) for call in calls]
            same("the calls that are refused", 39, found.count(wire.Answer([], EXHAUSTED, said)))
            same("the others", 1_001, found.count(wire.Answer([], 0, "")))
            same("less than 100 MB held", True, gateway.most_held() < 100_000_000)


@case("a server whose seats its own clients have: RESOURCE_EXHAUSTED after --wait, and answered once one goes")
def seats_of_others(run: Run) -> None:
    with run.serving(seats=1, wait=1) as (server, gateway), Client(gateway.port) as client:
        with Connection(server.port) as own:
            own.send(wire.call(b"DoGet", []))
            same("the own client is served", 3, own.answer().code)
            answer = client.answer("DoPut", call_of(put_of("t", A, [(1,)]))[1])
            look_at_status("a call", EXHAUSTED, "no seat of the server came free in 1 seconds", answer)
        ask(client, put_of("t", A, [(1,)]), PutCount(1))
        ran = subprocess.run([run.path, "tables", "--port", str(server.port)], capture_output=True, timeout=30)
        same("an own client behind --idle", (0, b"t\n"), (ran.returncode, ran.stdout))


# ---- servers that go away


@case("no server, and one that goes in the middle of a fetch: UNAVAILABLE; a new one on its port is used")
def gone_servers(run: Run) -> None:
    with Server(run.path) as server, run.behind(server.port) as gateway, Client(gateway.port) as client:
        same("the number of rows put", WIDE_ROWS, client.put(wide_rows()))
        fetch = wide_fetch(client)
        server.process.kill()
        try:
            size = sum(map(len, fetch))
            same(f"the fetch ended well, with {size} bytes", True, False)
        except grpc.RpcError:
            look_at_status("the fetch", UNAVAILABLE, GONE, wire.Answer([], fetch.code().value[0], fetch.details()))
        answer = client.answer("DoPut", call_of(put_of("t", A, [(1,)]))[1])
        look_at_status("a call", UNAVAILABLE, f"no server on 127.0.0.1:{server.port}", answer)
        with StubServer(lambda path, messages: b"\x04\0\0\0", server.port):
            same("a new server", wire.Answer([], 0, ""), client.answer("DoPut", [b"x"]))
        with StubServer(lambda path, messages: b"\x04\0\0\0", server.port):
            same("another one", wire.Answer([], 0, ""), client.answer("DoPut", [b"x"]))


@case("a server that is killed while a put of 300 MB is sent: UNAVAILABLE")
def gone_in_a_put(run: Run) -> None:
    with Server(run.path) as server, run.behind(server.port) as gateway, Client(gateway.port) as client:

        def messages() -> Iterator[bytes]:
            for number, data in enumerate(large_put()):
                if number == 6:
                    server.process.kill()
                yield data.SerializeToString()

        look_at_status("the put", UNAVAILABLE, GONE, client.answer("DoPut", messages(), LONG))


@case("servers that answer what is no answer: INTERNAL, or UNAVAILABLE where they end the connection")
def other_servers(run: Run) -> None:
    broken = "the server's answer breaks the rules of records"
    answers = [(b"\x05", INTERNAL, broken), (b"\x01", INTERNAL, broken), (b"\x03", INTERNAL, broken),
               (b"\x02\x01\0\0\0\0", INTERNAL, broken), (b"\x02\0\x01\0\0\x01", INTERNAL, broken),
               (b"\x04\x03\0\x01\xff", INTERNAL, broken), (None, UNAVAILABLE, GONE)]
    with StubServer(lambda path, messages: answers[int(messages[0])][0]) as stub:
        with run.behind(stub.port) as gateway, Client(gateway.port) as client:
            for number, (said, code, text) in enumerate(answers):
                look_at_status(f"the answer {said}", code, text, client.answer("DoGet", [b"%d" % number]))


@case("a server that refuses a put in its middle and ends the connection: its status, and never a count")
def refused_in_the_middle(run: Run) -> None:
    def serve(listener: socket.socket, status: bytes) -> None:
        stream, _ = listener.accept()
        with stream:
            stream.recv(9)
            stream.sendall(b"\x04\x0c\x00\x10F3 UnknownMethod")
            stream.recv(100)
            stream.sendall(status)

    cases = [(b"\x04\x08\x00\x0fF21 OutOfMemory", EXHAUSTED, "F21 OutOfMemory"), (b"", UNAVAILABLE, GONE),
             (b"\x04\0\0\0", INTERNAL, "the server's answer breaks the rules of records")]
    for status, code, text in cases:
        with socket.create_server(("127.0.0.1", 0)) as listener, run.behind(listener.getsockname()[1]) as gateway:
            threading.Thread(target=serve, args=(listener, status), daemon=True).start()
            with Client(gateway.port) as client:
                look_at_status(f"the put that was told {status}", code, text, client.answer("DoPut", [bytes(1_000_000)] * 60))


# ---- starts and ends


@case("serve.sh: both are there, one command ends both, and neither is left where the other ends")
def one_command(run: Run) -> None:
    words = ["bash", str(TOP / "serve.sh"), "--port", "0", "--grpc-port", "0", "--program", run.path, "--stall", "60",
             "--longest-put", "20", "--listen", "127.0.0.1"]
    how = {"stdout": subprocess.PIPE, "stderr": subprocess.DEVNULL, "start_new_session": True,
           "env": {**os.environ, "PYTHON": sys.executable}}
    for turn in range(2):
        with subprocess.Popen(words, **how) as both:
            lines = [both.stdout.readline() for _ in range(2)]
            same("the first line", True, lines[0].startswith(b"listening 127.0.0.1:"))
            same("the second line", True, lines[1].startswith(b"listening grpc://127.0.0.1:"))
            ports = [int(line.rpartition(b":")[2]) for line in lines]
            with Client(ports[1]) as client:
                ask(client, put_of("t", A, [(1,)]), PutCount(1))
            ran = subprocess.run([run.path, "tables", "--port", str(ports[0])], capture_output=True, timeout=30)
            same("the tables", (0, b"t\n"), (ran.returncode, ran.stdout))
            if turn == 0:
                os.killpg(both.pid, signal.SIGINT)
            else:
                children = subprocess.run(["ps", "-o", "pid=", "--ppid", str(both.pid)], capture_output=True, text=True).stdout
                os.kill(min(map(int, children.split())), signal.SIGKILL)
            status = both.wait(20)
            same("the exit status", turn == 0, status == 0)
            same("what is left of them", [], left_in(both.pid))


def left_in(session: int) -> list[str]:
    """The processes of a session."""
    return subprocess.run(["ps", "-o", "pid=,args=", "-s", str(session)], capture_output=True, text=True).stdout.splitlines()


@case("a port that is taken, a number outside its range, an option that is not there: a line, and status 3 or 2")
def command_lines(run: Run) -> None:
    def ended(*words: str) -> tuple[int, bytes, bytes]:
        ran = subprocess.run([sys.executable, str(TOP / "flightscan_gateway.py"), *words], capture_output=True, timeout=60)
        return ran.returncode, ran.stdout, ran.stderr.splitlines()[-1]

    with StubServer(lambda path, messages: None) as stub, Gateway(stub.port) as gateway:
        taken = str(gateway.port)
        wanted = (3, b"", f"fault: cannot listen on 127.0.0.1:{taken}".encode())
        same("a port that is taken", wanted, ended("--port", str(stub.port), "--grpc-port", taken))
    for words in ([], ["--port", "1"], ["--port", "0", "--grpc-port", "0"], ["--port", "1", "--grpc-port", "65536"],
                  ["--port", "1", "--grpc-port", "0", "--seats", "33"], ["--port", "1", "--grpc-port", "0", "--wait", "-1"],
                  ["--port", "1", "--grpc-port", "0", "--other", "1"]):
        status, out, _ = ended(*words)
        same(f"{words}: status and output", (2, b""), (status, out))


@case("a gateway that is told to end while calls run: it ends at once, and they end with a fault")
def told_to_end(run: Run) -> None:
    for number in (signal.SIGTERM, signal.SIGINT):
        with Server(run.path) as server, Gateway(server.port) as gateway, Client(gateway.port) as client:
            same("the number of rows put", WIDE_ROWS, client.put(wide_rows()))
            fetch = wide_fetch(client)
            gateway.process.send_signal(number)
            same("the exit status, and what it printed", (-number, b""), (gateway.process.wait(20), gateway.said()))
            try:
                size = sum(map(len, fetch))
                same(f"the fetch ended well, with {size} bytes", True, False)
            except grpc.RpcError:
                same("the code", UNAVAILABLE, fetch.code().value[0])
            with Connection(server.port) as own:
                own.send(appended("none", A, [(1,)]))
                Refusal("F9").look(own.answer())
