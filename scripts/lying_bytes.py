#!/usr/bin/env python3
"""Puts whose headers lie, through `flightscan pipe`: each byte of a header by each of 256 values.

    python3 scripts/lying_bytes.py [--program PATH] [WHAT..]

messages   Each byte of the headers of the first run's schema and batch takes each of its 256 values: 61,440 puts. A second
           reader (vectors/arrow/reader.py) says for each which fault it has, or which rows; so also for an accepted put. One
           `pipe` gets all puts of one byte. Those that are refused come first, and behind each of them a fetch finds that
           version 1 is not there. Then the first run's put has to make version 1, with its two rows. Behind it come those
           that are accepted, each with a fetch of its version.
records    Each byte of a record's header in that put, of its Open, its Messages and its End, takes each of its 256 values:
           4,096 inputs, each for a `pipe` of its own. Behind the put come the first run's put and fetch. A plain reader of
           records says what has to be answered, and how the program ends. After a refused put that lets the connection go
           on, the first run's put is version 1.

cuts       Each header of the first run's put, and of the stored stream of trips (seven rows of five columns, and a dictionary that
           grows), is cut to each length, from none to the whole: 1,743 puts, each through a `pipe` of its own. The second reader
           says what each is answered. Behind one that is refused version 1 is not there, and the first run's put makes it.

trips      As messages, with the stored stream of trips.
every      Each byte of the first run's whole put takes each value, in a `pipe` of its own: 104,192 inputs. What comes has to be
           answers and an exit status of 0 or 3, and after a refused put the first run's put is version 1.

The first three are done where nothing is named. A `pipe` has 16 MB of memory and 20 seconds of a processor, also where a length
claims more. It ends with 1 at the first difference.
"""

from __future__ import annotations

import argparse
import collections
import functools
import resource
import subprocess
import sys
import time
from dataclasses import dataclass, field

sys.dont_write_bytecode = True

from built import ROOT, program  # noqa: E402

sys.path += [str(ROOT / "vectors" / folder) for folder in ("arrow", "flight", "queries", "streams")]

import wire  # noqa: E402
from each_allocation import EXISTS, MADE  # noqa: E402
from first_run import BATCH_HEADER, BODY, SCHEMA_HEADER  # noqa: E402
from framing import stored_messages  # noqa: E402
from random_calls import plain_model as model  # noqa: E402
from random_calls.answers import Difference, PutCount, Refusal, Rows, Wanted, same  # noqa: E402
from random_calls.plain_model import Column, Put, Refused, Row, Table  # noqa: E402
from random_calls.refused import INGEST  # noqa: E402
from reader import Fault, Reader  # noqa: E402
from served.cases import A, FETCH, PUT, fetch_of, status_of  # noqa: E402
from trips import STREAM  # noqa: E402

SECONDS, MEMORY = 20, 16_000_000  # of a processor that one program may take, and bytes of its address space
PATIENCE = 300  # seconds of the clock within which it has to end, also where others keep it from the processor
Message = tuple[bytes, bytes]  # a header and a body
FIRST_RUN, TRIPS = [(SCHEMA_HEADER, b""), (BATCH_HEADER, BODY)], [*stored_messages(STREAM.read_bytes())]
REPLACES = wire.chunk(1, wire.scalar(1, 1) + wire.scalar(2, 3)) + wire.chunk(2, b"t")


def piped(path: str, given: bytes) -> tuple[int, bytes, bytes]:
    """The exit status of `pipe`, and what it wrote and said."""

    def limited() -> None:
        resource.setrlimit(resource.RLIMIT_AS, (MEMORY, MEMORY))
        resource.setrlimit(resource.RLIMIT_CPU, (SECONDS, SECONDS))

    try:
        done = subprocess.run([path, "pipe"], input=given, capture_output=True, timeout=PATIENCE, preexec_fn=limited)
    except subprocess.TimeoutExpired as late:
        raise Difference(f"no end within {PATIENCE} seconds behind {given.hex()}") from late
    return done.returncode, done.stdout, done.stderr


# ---- messages


@dataclass
class Lie:
    """A put with one byte changed, and what it has to be answered."""

    said: str
    call: bytes
    fault: str | None
    columns: list[Column] = field(default_factory=list)
    rows: list[Row] = field(default_factory=list)


def put_of(messages: list[Message]) -> bytes:
    """A put of these messages, which makes its table or replaces it."""
    data = [wire.chunk(2, header) + (wire.chunk(1000, body) if body else b"") for header, body in messages]
    command = wire.chunk(1, wire.descriptor(wire.packed(INGEST, REPLACES)))
    return wire.call(b"DoPut", [command + data[0], *data[1:]])


def meaning(messages: list[Message]) -> tuple[list[Column], list[Row]]:
    """The columns and the rows of a put, by the second reader, or its fault."""
    reader = Reader()
    for header, body in messages:
        if header:  # a Message with an empty header is skipped as data
            reader.message(header, body)
    model.demand(reader.fields is not None, "F8")
    columns = tuple(
        Column(name, f"Int32 into {number}" if id is not None else kind, nullable)
        for number, (name, kind, nullable, id) in enumerate(reader.fields)
    )
    rows = [tuple(row) for row in reader.total]
    model.after({}, Put("t", "CREATE", "REPLACE", Table(columns, rows)))
    return list(columns), rows


def lie_of(messages: list[Message], number: int, header: bytes, said: str) -> Lie:
    """The put in which a message has this header."""
    changed = list(messages)
    changed[number] = header, messages[number][1]
    try:
        return Lie(said, put_of(changed), None, *meaning(changed))
    except (Fault, Refused) as fault:
        return Lie(said, put_of(changed), str(fault))


def calls_of(lies: list[Lie]) -> list[tuple[str, bytes, Wanted]]:
    """Refused puts, each with a look for version 1; the first run's put; and accepted puts, each with its rows."""
    calls: list[tuple[str, bytes, Wanted]] = []
    for lie in lies:
        if lie.fault:
            calls += [(lie.said, lie.call, Refusal(lie.fault)), (f"{lie.said}: version 1", FETCH, Refusal("F18"))]
    calls += [("the first run's put", PUT, PutCount(2)), ("its fetch", FETCH, Rows(list(A), [(1,), (2,)], [None], 0))]
    version = 1
    for lie in lies:
        if lie.fault is None:
            version += 1
            fetch = fetch_of(version, 0, len(lie.rows), "SELECT * FROM t")
            calls += [(lie.said, lie.call, PutCount(len(lie.rows))),
                      (f"{lie.said}: its rows", fetch, Rows(lie.columns, lie.rows, [None], 0))]
    return calls


def look_at_place(path: str, lies: list[Lie]) -> None:
    """Gives all puts of one byte to a `pipe`."""
    calls = calls_of(lies)
    status, written, said = piped(path, b"".join(call for _, call, _ in calls))
    source = wire.Bytes(written)
    for name, _, wanted in calls:
        try:
            wanted.look(wire.answer(source))
        except (Difference, wire.Unreadable, Fault, ValueError, IndexError) as found:
            raise Difference(f"{name}: {found}; the program ended with {status} and said {said!r}") from found
    same(f"the exit status behind {lies[0].said}, what was said, and the bytes behind the last answer", (0, b"", b""),
         (status, said, written[source.place :]))


def look_at_messages(path: str, messages: list[Message], counts: collections.Counter) -> None:
    for number, (header, _) in enumerate(messages):
        for place in range(len(header)):
            given = ((value, header[:place] + bytes([value]) + header[place + 1 :]) for value in range(256))
            lies = [lie_of(messages, number, changed, f"message {number}, byte {place} is {value:02X}") for value, changed in given]
            look_at_place(path, lies)
            counts.update(lie.fault or "accepted" for lie in lies)


def look_at_cuts(path: str, messages: list[Message], counts: collections.Counter) -> None:
    for number, (header, _) in enumerate(messages):
        for length in range(len(header) + 1):
            lie = lie_of(messages, number, header[:length], f"message {number} has {length} bytes of its header")
            look_at_place(path, [lie])
            counts[lie.fault or "accepted"] += 1


# ---- records


@dataclass
class Connection:
    """What a reader of records makes of bytes: the whole calls, and what ends them."""

    calls: list[tuple[bytes, list[bytes]]]  # paths and messages
    end: str  # F1, F2, cut, or between calls


def read_records(data: bytes) -> Connection:
    """Reads records up to the first that is broken or cut."""
    source, read = wire.Bytes(data), Connection([], "between")
    opened: tuple[bytes, list[bytes]] | None = None
    try:
        while not source.ended():
            kind = source.number(1)
            if kind not in (1, 2, 3) or (kind == 1) == (opened is not None):
                return Connection(read.calls, "F1")
            if kind == 1:
                opened = path_of(source), []
            elif kind == 2:
                opened[1].append(message_of(source))
            else:
                read.calls.append(opened)
                opened = None
    except Refused as fault:
        return Connection(read.calls, fault.fault)
    except wire.Unreadable:
        return Connection(read.calls, "cut")
    return Connection(read.calls, "cut" if opened else "between")


def path_of(source: wire.Bytes) -> bytes:
    length = source.number(2)
    model.demand(length <= 256, "F1")
    return source.take(length)


def message_of(source: wire.Bytes) -> bytes:
    model.demand(source.number(1) == 0, "F1")
    length = source.number(4)
    model.demand(length <= 16_777_216, "F2")
    return source.take(length)


ENDS = {"F1": (status_of("F1 BadFrame", 3), b"fault: F1 BadFrame\n", 3), "cut": (b"", b"fault: F22 Transport\n", 3),
        "F2": (status_of("F2 MessageTooLarge", 8), b"fault: F2 MessageTooLarge\n", 3), "between": (b"", b"", 0)}
UNKNOWN, NO_VERSION = status_of("F3 UnknownMethod", 12), status_of("F18 VersionUnknown", 5)
NO_COMMAND, NO_ROW = status_of("F5 UnknownCommand", 12), bytes.fromhex("02 00 00 00 00 00 04 00 00 00")
KNOWN = [wire.SERVICE + method for method in (b"DoPut", b"DoGet", b"GetFlightInfo", b"GetSchema", b"DoAction")]
(DO_PUT, PUT_DATA), FETCH_CALL = (read_records(call).calls[0] for call in (PUT, FETCH))


def answers_to(read: Connection, rows: bytes) -> list[bytes | None]:
    """What each call is answered: the first run's put or a beginning of it, its fetch, or an unknown path. A put whose
    message was cut elsewhere by its length has a fault, which is not known here."""
    answers, made = [], False
    for path, messages in read.calls:
        if path == DO_PUT and messages and messages == PUT_DATA[: len(messages)]:
            answers.append(EXISTS if made else MADE if messages == PUT_DATA else NO_ROW)
            made = True
        elif (path, messages) == FETCH_CALL:
            answers.append(rows if made else NO_VERSION)
        elif path not in KNOWN:
            answers.append(UNKNOWN)
        else:
            answers.append(None if messages else NO_COMMAND)
    return answers


def look_at_answers(said: str, answers: list[bytes | None], written: bytes) -> bytes:
    """Looks at the answers of all calls. What stands behind them is given."""
    source = wire.Bytes(written)
    for number, wanted in enumerate(answers, 1):
        first, answer = source.place, wire.answer(source)
        if wanted is None:
            same(f"{said}: whether call {number} is refused, and its Messages", (True, []), (answer.code != 0, answer.messages))
        else:
            same(f"{said}: the answer of call {number}", wanted, written[first : source.place])
    return written[source.place :]


def headers_of_records() -> list[int]:
    """The places of the put's bytes that belong to headers of its records: all but the path and the messages."""
    source, places = wire.Bytes(PUT), []
    while not source.ended():
        first, kind = source.place, source.number(1)
        content = source.number(2) if kind == 1 else 0
        if kind == 2:
            source.take(1)
            content = source.number(4)
        places += range(first, source.place)
        source.take(content)
    return places


def look_at_records(path: str, counts: collections.Counter) -> None:
    _, whole, _ = piped(path, PUT + FETCH)
    rows = whole[len(MADE) :]
    for place in headers_of_records():
        for value in range(256):
            given, name = PUT[:place] + bytes([value]) + PUT[place + 1 :] + PUT + FETCH, f"byte {place} of the put is {value:02X}"
            read = read_records(given)
            status, written, said = piped(path, given)
            rest = look_at_answers(name, answers_to(read, rows), written)
            same(f"{name}: what stands behind the answers, what was said, and the exit status", ENDS[read.end], (rest, said, status))
            counts[f"records that end as {read.end}"] += 1


# ---- every byte


def look_at_every(path: str, counts: collections.Counter, places: range = range(len(PUT))) -> None:
    """Each byte of the whole put, or of some of its places. Where it is refused and the connection goes on, the first run's put is
    version 1."""
    _, whole, _ = piped(path, PUT + FETCH)
    for place in places:
        for value in range(256):
            given = PUT[:place] + bytes([value]) + PUT[place + 1 :] + PUT + FETCH
            said = f"byte {place} of the put is {value:02X}"
            status, written, _ = piped(path, given)
            same(f"{said}: an exit status of 0 or 3, of {status}", True, status in (0, 3))
            source, answers = wire.Bytes(written), []
            while not source.ended():
                answers.append(wire.answer(source))
            if status == 0 and len(answers) == 3 and answers[0].code != 0:
                same(f"{said}: what the first run is answered behind it", whole, written[-len(whole) :])
            counts["whole" if status == 0 else "connection ended"] += 1


LOOKS = {
    "messages": lambda path, counts: look_at_messages(path, FIRST_RUN, counts),
    "records": look_at_records,
    "cuts": lambda path, counts: [look_at_cuts(path, messages, counts) for messages in (FIRST_RUN, TRIPS)],
    "trips": lambda path, counts: look_at_messages(path, TRIPS, counts),
    "every": look_at_every,
}


def places(text: str) -> range:
    """Places of the put, from the first up to, not with, another: as 0:100."""
    first, behind = map(int, text.split(":"))
    return range(first, behind)


def main() -> int:
    parser = argparse.ArgumentParser(description=__doc__, formatter_class=argparse.RawDescriptionHelpFormatter)
    parser.add_argument("--program", help="the built program (that of the repository)")
    parser.add_argument("--places", type=places, default=range(len(PUT)), help=f"of the bytes that `every` changes, as 0:{len(PUT)} (all)")
    parser.add_argument("what", nargs="*", help=f"of {', '.join(LOOKS)} (the first three)")
    words = parser.parse_args()
    path = program(words.program)
    looks = LOOKS | {"every": functools.partial(look_at_every, places=words.places)}
    for name in words.what or ["messages", "records", "cuts"]:
        began, counts = time.monotonic(), collections.Counter()
        try:
            looks[name](path, counts)
        except (Difference, wire.Unreadable) as found:
            print(f"a difference in {name}:\n{found}")
            return 1
        told = ", ".join(f"{count:,} {what}" for what, count in sorted(counts.items()))
        print(f"{name}: {counts.total():,} lies, {told}; {time.monotonic() - began:.0f} s", flush=True)
    return 0


if __name__ == "__main__":
    sys.exit(main())
