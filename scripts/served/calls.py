"""Cases of calls: those that are refused, tables and their versions, queries, and calls at random."""

from __future__ import annotations

from collections import Counter
from random import Random

import trees
import wire
from framing import stored_messages
from interleavings import Interleaving
from layout import written
from loopback import Connection, Server
from random_calls.answers import Difference, FlightInfo, PutCount, Refusal, SchemaResult
from random_calls.plain_model import TABLE_COLUMNS, Column, Put, Table
from random_calls.puts import Stream, ingest, messages_of, past_the_text
from random_calls.refused import INGEST, TABLES, WITH_INFOS
from reader import INTEGERS, Fault
from served.cases import (A, A_AND_S, FETCH, MEGABYTE, PUT, PUT_MESSAGES, Run, appended, ask, case, descriptor_of,
                          fetch_of, info_of, put_of, replaced, rows_of)
from trips import ROWS as TRIPS
from trips import STREAM

# ---- calls that are refused


@case("calls that are refused whatever the tables are, back to back: each has its fault, and the connection goes on")
def refused_calls(run: Run) -> None:
    with run.serving() as server, Connection(server.port) as connection:
        ask(connection, PUT, PutCount(2))
        for call in WITH_INFOS:
            for piece in (None, 1000):
                ask(connection, wire.call(call.method, call.messages), Refusal(call.fault), piece)
        ask(connection, FETCH, rows_of(A, (1,), (2,)))


NOTS = "SELECT a FROM t WHERE " + "NOT " * 64 + "a = 1"
FAULTY = [
    ("SELECT a FROM t WHERE a =", "F13 BadSql at byte 25"), ("SELECT a,, b FROM t", "F13 BadSql at byte 9"),
    ("SELECT a FROM t WHERE a BETWEEN 1 2", "F13 BadSql at byte 34"),
    ("SELECT a FROM t WHERE 'x", "F13 BadSql at byte 22"),
    ("SELECT a FROM t;;", "F13 BadSql at byte 16"), ("SELECT a FROM t WHERE a = --1", "F13 BadSql at byte 29"),
    ("SELECT a FROM t WHERE a", "F13 BadSql at byte 23"), ("", "F13 BadSql at byte 0"),
    ("SELECT a FROM t WHERE a + 1 = 2", "F16"), ("SELECT a FROM t ORDER BY a", "F16"), ("SELECT * FROM u", "F9"),
    ("SELECT b FROM t", "F14"), ("SELECT a FROM t JOIN t ON t.a = t.a", "F14"), ("SELECT a FROM t WHERE a = 'x'", "F15"),
    ("SELECT SUM(s) FROM t", "F15"), ("SELECT s, COUNT(*) FROM t GROUP BY a", "F16"),
    ("SELECT COUNT(*) FROM t JOIN t AS x ON t.a = x.a", "F16"), (NOTS.replace("NOT", "NOT NOT", 1), "F12"),
    (NOTS.replace("NOT " * 64, "(" * 16_362), "F12"), ("SELECT a FROM t" + " " * 16_370, "F12"),
]


@case("texts that don't parse or bind: their fault as info and as schema, and F17 in a ticket")
def refused_texts(run: Run) -> None:
    with run.serving() as server, Connection(server.port) as connection:
        ask(connection, put_of("t", A_AND_S, [(1, "x"), (2, None)]), PutCount(2))
        for text, fault in FAULTY:
            ask(connection, info_of(text), Refusal(fault))
            ask(connection, wire.call(b"GetSchema", [descriptor_of(text)]), Refusal(fault))
            ask(connection, fetch_of(1, 0, 2, text), Refusal("F17"))
        ask(connection, fetch_of(1, 0, 2, NOTS), rows_of(A, (1,)))


@case("tickets of versions and ranges that are not there: F18 and F17")
def refused_tickets(run: Run) -> None:
    with run.serving() as server, Connection(server.port) as connection:
        for name in ("t", "u", "v"):
            ask(connection, put_of(name, A, [(1,), (2,)]), PutCount(2))
        for version in (4, 9, 2**32 + 1, 2**63, 2**64 - 1):
            ask(connection, fetch_of(version, 0, 2, "SELECT * FROM t"), Refusal("F18"))
        for version, first, end in ((0, 0, 0), (1, 2, 1), (1, 0, 3), (1, 3, 3), (1, 0, 2**32 - 1)):
            ask(connection, fetch_of(version, first, end, "SELECT * FROM t"), Refusal("F17"))
        ask(connection, fetch_of(3, 0, 1, "SELECT COUNT(*) FROM t"), Refusal("F17"))
        ask(connection, fetch_of(1, 0, 2, "SELECT * FROM u"), Refusal("F17"))
        ask(connection, fetch_of(2, 0, 2, "SELECT * FROM u"), rows_of(A, (1,), (2,)))


@case("of a put with two faults the first is told, and its further Messages are dropped")
def first_fault(run: Run) -> None:
    broken, floats = b"\x12\x05a", wire.chunk(2, b"\x10\0\0")
    front = wire.fields(PUT_MESSAGES[0])[0][1]
    with run.serving() as server, Connection(server.port) as connection:
        ask(connection, wire.call(b"DoPut", [b"", broken, floats]), Refusal("F5"))
        ask(connection, wire.call(b"DoPut", [wire.chunk(1, front), floats, broken]), Refusal("F6"))
        ask(connection, wire.call(b"DoPut", [wire.chunk(1, front), broken, floats]), Refusal("F4"))
        ask(connection, wire.call(b"DoPut", [broken] + [bytes(MEGABYTE)] * 20), Refusal("F4"))
        ask(connection, FETCH, Refusal("F18"))
        ask(connection, PUT, PutCount(2))
        ask(connection, FETCH, rows_of(A, (1,), (2,)))


# ---- tables and versions


@case("puts that create, append and replace, and those that may not: what each version then says")
def versions(run: Run) -> None:
    with run.serving() as server, Connection(server.port) as connection:
        ask(connection, appended("t", A, [(0,)]), Refusal("F9"))
        ask(connection, put_of("t", A, [(1,)]), PutCount(1))
        ask(connection, put_of("t", A, [(0,)]), Refusal("F10"))
        ask(connection, appended("t", A, [(2,), (None,)]), PutCount(2))
        ask(connection, appended("t", A_AND_S, [(0, "x")]), Refusal("F11"))
        ask(connection, put_of("n" * 65, A, [(0,)]), Refusal("F12"))
        ask(connection, replaced("t", A_AND_S, [(3, "x")]), PutCount(1))
        ask(connection, replaced("u", A, []), PutCount(0))
        ask(connection, fetch_of(2, 0, 3, "SELECT * FROM t"), rows_of(A, (1,), (2,), (None,)))
        ask(connection, fetch_of(1, 0, 1, "SELECT * FROM t"), rows_of(A, (1,)))
        ask(connection, fetch_of(4, 0, 1, "SELECT * FROM t"), rows_of(A_AND_S, (3, "x")))
        ask(connection, fetch_of(5, 0, 0, "SELECT * FROM u"), Refusal("F18"))


@case("a batch with an offset past its text: F8, the table as before, and the next put has the next number")
def refused_batch(run: Run) -> None:
    columns, random = (Column("s", "Utf8", True),), Random(1)
    stream = Stream(random, columns)
    for text in ("a", "b", "c"):
        stream.add([(text,)])
    assert past_the_text(stream)
    put = Put("t", "CREATE", "APPEND", Table(columns, []))
    with run.serving() as server, Connection(server.port) as connection:
        ask(connection, put_of("t", columns, [("x",)]), PutCount(1))
        ask(connection, wire.call(b"DoPut", messages_of(random, ingest(random, put, b""), stream)), Refusal("F8"))
        ask(connection, fetch_of(2, 0, 1, "SELECT * FROM t"), Refusal("F18"))
        ask(connection, appended("t", columns, [("y",)]), PutCount(1))
        ask(connection, fetch_of(2, 0, 2, "SELECT * FROM t"), rows_of(columns, ("x",), ("y",)))


@case("an info in 2 parts, whose table is then extended and replaced: both fetches, the second first, give its rows")
def tickets_keep_their_version(run: Run) -> None:
    text, ranges = "SELECT a FROM t", [(0, 2), (2, 5)]
    with run.serving("--parts", "2") as server, Connection(server.port) as connection:
        ask(connection, put_of("t", A, [(1,), (2,), (3,), (4,), (5,)]), PutCount(5))
        handles = [wire.query_handle(1, *part, text.encode()) for part in ranges]
        ask(connection, info_of(text), FlightInfo(list(A), descriptor_of(text), handles))
        ask(connection, appended("t", A, [(6,), (7,)]), PutCount(2))
        ask(connection, replaced("t", A_AND_S, [(8, "x")]), PutCount(1))
        ask(connection, wire.call(b"DoGet", [wire.ticket(handles[1])]), rows_of(A, (3,), (4,), (5,)))
        ask(connection, wire.call(b"DoGet", [wire.ticket(handles[0])]), rows_of(A, (1,), (2,)))
        ask(connection, wire.call(b"GetSchema", [descriptor_of(text)]), SchemaResult(list(A)))


@case("the list of tables, by its info and by its ticket, stands in byte order of the names")
def list_of_tables(run: Run) -> None:
    asked = wire.descriptor(wire.packed(TABLES, b""))
    with run.serving() as server, Connection(server.port) as connection:
        for version, name in enumerate(("b", "a", "\u00e9", "Z"), 1):
            ask(connection, put_of(name, A, []), PutCount(0))
            handle = wire.tables_handle(version)
            ask(connection, wire.call(b"GetFlightInfo", [asked]), FlightInfo(list(TABLE_COLUMNS), asked, [handle]))
        rows = [(None, None, name, "TABLE") for name in ("Z", "a", "b", "\u00e9")]
        ask(connection, wire.call(b"DoGet", [wire.ticket(handle)]), rows_of(TABLE_COLUMNS, *rows))
        ask(connection, wire.call(b"DoGet", [wire.ticket(wire.tables_handle(2))]), rows_of(TABLE_COLUMNS, *rows[1:3]))


@case("groups, and a join in 2 parts: their rows in their order")
def groups_and_joins(run: Run) -> None:
    texts, pairs = (Column("s", "Utf8", True),), (Column("a", "Int64", True), Column("i", "Int64", True))
    grouped, joined = "SELECT s, COUNT(*) FROM t GROUP BY s", "SELECT x.i, y.i FROM u AS x JOIN u AS y ON x.a = y.a"
    both = (Column("i", "Int64", True),) * 2
    with run.serving("--parts", "2") as server, Connection(server.port) as connection:
        ask(connection, put_of("t", texts, [("b",), (None,), ("a",), (None,), ("b",)]), PutCount(5))
        ask(connection, put_of("u", pairs, [(1, 10), (1, 20)]), PutCount(2))
        counts = (*texts, Column("col2", "Int64", False))
        whole = [wire.query_handle(2, 0, 5, grouped.encode())]
        ask(connection, info_of(grouped), FlightInfo(list(counts), descriptor_of(grouped), whole))
        ask(connection, fetch_of(2, 0, 5, grouped), rows_of(counts, ("b", 2), (None, 2), ("a", 1)))
        handles = [wire.query_handle(2, place, place + 1, joined.encode()) for place in range(2)]
        ask(connection, info_of(joined), FlightInfo(list(both), descriptor_of(joined), handles))
        ask(connection, fetch_of(2, 1, 2, joined), rows_of(both, (20, 10), (20, 20)))
        ask(connection, fetch_of(2, 0, 1, joined), rows_of(both, (10, 10), (10, 20)))


@case("the stored stream of vectors/streams, with a dictionary and a delta, put as it stands: its rows")
def stored_stream(run: Run) -> None:
    names = [("id", "Int64"), ("town", "Int32 into 1"), ("rider", "Utf8"), ("km", "Int16"), ("paid", "Bool")]
    columns = tuple(Column(name, kind, name != "id") for name, kind in names)
    command = wire.descriptor(wire.packed(INGEST, wire.chunk(1, wire.scalar(1, 1)) + wire.chunk(2, b"trips")))
    messages = [wire.chunk(2, header) + wire.chunk(1000, body) for header, body in stored_messages(STREAM.read_bytes())]
    with run.serving() as server, Connection(server.port) as connection:
        ask(connection, wire.call(b"DoPut", [wire.chunk(1, command), *messages]), PutCount(7))
        ask(connection, fetch_of(1, 0, 7, "SELECT * FROM trips"), rows_of(columns, *TRIPS))
        ask(connection, fetch_of(1, 3, 5, "SELECT * FROM trips"), rows_of(columns, *TRIPS[3:5]))


# A dictionary that is new, a delta, and one in its place: of each its values, whether it is a delta, and the indices of the batch behind it.
DICTIONARIES = [(["x", "x", None], False, [0, 1, 2, None]), (["y", None], True, [3, 0, 4]), (["c"], False, [0, None])]
LED_TO = ["x", "x", None, None, "y", "x", None, "c", None]


def dictionary_put(table: str, bits: int, signed: bool) -> bytes:
    """The records of a put of these: a column of row numbers, and one of a dictionary with indices of this type."""
    coded = trees.field("s", trees.UTF8, dictionary=trees.encoding(7, trees.integer(bits, signed)))
    made = [(trees.schema(trees.field("i", trees.integer(64, True), False), coded), b"")]
    first, width = 0, bits // 8
    for words, is_delta, slots in DICTIONARIES:
        texts = trees.texts([(word or "").encode() for word in words])
        made.append(trees.dictionary(7, trees.batch(len(words), (words.count(None), trees.validity(words), *texts)), is_delta))
        numbers = b"".join(number.to_bytes(8, "little") for number in range(first, first + len(slots)))
        indices = b"".join(b"\xff" * width if slot is None else slot.to_bytes(width, "little") for slot in slots)
        made.append(trees.batch(len(slots), (0, b"", numbers), (slots.count(None), trees.validity(slots), indices)))
        first += len(slots)
    command = wire.descriptor(wire.packed(INGEST, wire.chunk(1, wire.scalar(1, 1)) + wire.chunk(2, table.encode())))
    messages = [wire.chunk(2, written("Message", tree, "spread")) + wire.chunk(1000, body) for tree, body in made]
    return wire.call(b"DoPut", [wire.chunk(1, command), *messages])


@case("dictionaries of every index type, with a delta and replaced: rows, groups and a join, and the dictionaries of each batch")
def every_index_type(run: Run) -> None:
    i, coded = Column("i", "Int64", False), [Column("s", f"Int32 into {id}", True) for id in range(4)]
    rows = list(enumerate(LED_TO))
    groups = list(Counter(LED_TO).items())
    pairs = [(one, other, left, right) for one, left in rows for other, right in rows if left is not None and left == right]
    with run.serving() as server, Connection(server.port) as connection:
        for version, (bits, signed) in enumerate(INTEGERS, 1):
            name = f"t{version}"
            ask(connection, dictionary_put(name, bits, signed), PutCount(len(rows)))
            for first, end in ((0, 9), (2, 6)):
                fetch = fetch_of(version, first, end, f"SELECT * FROM {name}")
                ask(connection, fetch, rows_of((i, coded[1]), *rows[first:end]))
            grouped = fetch_of(version, 0, 9, f"SELECT s, COUNT(*) FROM {name} GROUP BY s")
            ask(connection, grouped, rows_of((coded[0], Column("col2", "Int64", False)), *groups))
            joined = f"SELECT x.i, y.i, x.s, y.s FROM {name} AS x JOIN {name} AS y ON x.s = y.s"
            ask(connection, fetch_of(version, 0, 9, joined), rows_of((i, i, *coded[2:]), *pairs))


# ---- at random


def carry_out(interleaving: Interleaving, server: Server, random: Random) -> None:
    """Makes the calls one after another, whole or in pieces, at times over a new connection."""
    connection = Connection(server.port)
    try:
        for number, call in enumerate(interleaving.calls, 1):
            if random.random() < 0.1:
                connection.close()
                connection = Connection(server.port)
            piece = random.choice([None, None, 1 if len(call.records) < 3000 else 999, 50, 4096])
            try:
                ask(connection, call.records, call.wanted, piece)
            except (Difference, wire.Unreadable, Fault) as found:
                raise Difference(f"seed {interleaving.seed}, call {number}, {call.said}: {found}") from found
        for info in interleaving.infos:
            info.look_at_the_join()
    finally:
        connection.close()


@case("puts, infos in parts, fetches in any order, schemas and refused calls at random: as the plain lists say")
def at_random(run: Run) -> None:
    for seed in range(1, run.seeds + 1):
        interleaving = Interleaving(seed, infos=True)
        with run.serving("--parts", str(interleaving.parts)) as server:
            carry_out(interleaving, server, Random(seed))
