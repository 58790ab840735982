#!/usr/bin/env python3
"""A session of a put, an info and a fetch, cut at each of its bytes: what was whole is answered, and nothing else is done.

    python3 scripts/cut_input.py [--program PATH] [--only pipe|serve]

The session is the first run's put, an info of its query, and the fetch by the info's ticket. Its first k bytes, for each k,
are given to a `pipe`, and to a `serve` over a connection that then ends its input. In both, what is written has to be the
answers of the calls that were whole, so a beginning of what the whole session is answered. `pipe` ends with 0 where k is the
end of a call, and else with 3 and the line of F22. Of `serve` another connection then asks: the table is there exactly where
the put's status came, and a second put of it makes version 1 or is refused. It ends with 1 at the first difference.
"""

from __future__ import annotations

import argparse
import subprocess
import sys
import time

sys.dont_write_bytecode = True

from built import ROOT, program  # noqa: E402

sys.path += [str(ROOT / "vectors" / folder) for folder in ("arrow", "flight", "queries", "streams")]

import wire  # noqa: E402
from loopback import Connection, Server  # noqa: E402
from random_calls.answers import Difference, FlightInfo, PutCount, Refusal, Rows, same  # noqa: E402
from served.cases import A, DONE, FETCH, PUT, ask, descriptor_of, info_of, rows_of  # noqa: E402

TEXT = "SELECT * FROM t"
CALLS = [PUT, info_of(TEXT), FETCH]
SESSION = b"".join(CALLS)
CUT = b"fault: F22 Transport\n"
SECONDS = 20


def ends_of(parts: list[bytes]) -> list[int]:
    """Where each part ends, and the beginning."""
    ends = [0]
    for part in parts:
        ends.append(ends[-1] + len(part))
    return ends


def piped(path: str, given: bytes) -> tuple[int, bytes, bytes]:
    """The exit status of `pipe`, and what it wrote and said."""
    done = subprocess.run([path, "pipe"], input=given, capture_output=True, timeout=SECONDS)
    return done.returncode, done.stdout, done.stderr


def answers_of(path: str) -> list[bytes]:
    """The answers of the whole session, each looked at."""
    status, written, said = piped(path, SESSION)
    same("the whole session's exit status, and what it said", (0, b""), (status, said))
    source, answers = wire.Bytes(written), []
    handle = wire.query_handle(1, 0, 2, TEXT.encode())
    for wanted in (PutCount(2), FlightInfo(list(A), descriptor_of(TEXT), [handle]), Rows(list(A), [(1,), (2,)], [None], 0)):
        first = source.place
        wanted.look(wire.answer(source))
        answers.append(written[first : source.place])
    same("the bytes behind the last answer", b"", written[source.place :])
    same("the last record", DONE, written[-len(DONE) :])
    return answers


def whole_calls(length: int) -> int:
    """How many calls are whole in so many bytes."""
    return sum(end <= length for end in ends_of(CALLS)[1:])


def look_through_pipe(path: str, length: int, answers: list[bytes]) -> None:
    between = length in ends_of(CALLS)
    wanted = (0 if between else 3, b"".join(answers[: whole_calls(length)]), b"" if between else CUT)
    same(f"the exit status of {length} bytes, and what was written and said", wanted, piped(path, SESSION[:length]))


def look_through_serve(path: str, length: int, answers: list[bytes]) -> None:
    calls = whole_calls(length)
    with Server(path, "--accept", "2") as server:
        with Connection(server.port) as connection:
            connection.send(SESSION[:length])
            connection.end_input()
            same(f"the answer of {length} bytes", b"".join(answers[:calls]), connection.rest())
        with Connection(server.port) as connection:
            ask(connection, FETCH, rows_of(A, (1,), (2,)) if calls else Refusal("F18"))
            ask(connection, PUT, Refusal("F10") if calls else PutCount(2))
            ask(connection, FETCH, rows_of(A, (1,), (2,)))
        same("the server's exit status, and what it said", (0, b""), (server.process.wait(SECONDS), server.said()))


LOOKS = {"pipe": look_through_pipe, "serve": look_through_serve}


def main() -> int:
    parser = argparse.ArgumentParser(description=__doc__, formatter_class=argparse.RawDescriptionHelpFormatter)
    parser.add_argument("--program", help="the built program (that of the repository)")
    parser.add_argument("--only", choices=LOOKS, help="the one way in which it is given (both)")
    words = parser.parse_args()
    path = program(words.program)
    try:
        answers = answers_of(path)
        for name in [words.only] if words.only else LOOKS:
            began = time.monotonic()
            for length in range(len(SESSION) + 1):
                LOOKS[name](path, length, answers)
            print(f"{name}: {len(SESSION) + 1} cuts of {len(SESSION)} bytes, {time.monotonic() - began:.1f} s, no difference", flush=True)
    except (Difference, wire.Unreadable, OSError, subprocess.TimeoutExpired) as found:
        print(f"a difference:\n{found}")
        return 1
    return 0


if __name__ == "__main__":
    sys.exit(main())
