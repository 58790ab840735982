#!/usr/bin/env python3
"""Writes the room "connections" of crates/call_cases: connections, and what each of their calls is answered.

The answers of this file are worked out by hand, and those of joins_and_groups.py by a plain model."""
from lines import (ANSWERS, APPEND, CREATE, DONE, INT64, LINES, REPLACE, UTF8, fetch, info, note, numbers, of_query, pairs, pipe,
                   put, refuse, refused, rows_of, schema, whole_numbers, words)

import joins_and_groups
import rooms
import wire
from first_run import first_run, of_length
from random_calls.refused import SELECT, TABLES, WITH_INFOS
from wire import chunk, descriptor, packed, query_handle, tables_handle, ticket

A = "a Integer(Int64) or null;"
ALL = b"SELECT * FROM t"
COLUMN_A = [("a", INT64)]
FIRST_PUT = "hex", first_run()[:407], DONE + "0a020802;"
ONE_TO_FIVE = put(b"t", CREATE, COLUMN_A, numbers(1, 2, 3), numbers(4, 5), rows=5)

note("the first put, its info, its schema and its rows, byte for byte but for the schemas")
PAYLOAD = of_length(of_query(ALL), 92)
assert PAYLOAD.startswith(bytes.fromhex("08 02 12 58 0A 43")) and PAYLOAD.endswith(b"\x12\x11\x0a\x0f" + ALL)
HANDLE = query_handle(1, 0, 2, ALL)
INFO = info(PAYLOAD, A, [HANDLE])
assert INFO[2].split()[-1] == (b"\x12\x5c" + PAYLOAD + b"\x1a\x6c\x0a\x6a" + of_length(ticket(HANDLE), 106) + b"\x20" + b"\xff" * 9
                               + b"\x01\x28" + b"\xff" * 9 + b"\x01\x30\x01").hex() + ";"
assert wire.call(b"DoGet", [ticket(HANDLE)]) == first_run()[407:]
pipe("", FIRST_PUT, INFO, schema(PAYLOAD, A), fetch(HANDLE, A, *whole_numbers(1, 2)),
     refuse(b"DoGet", [ticket(query_handle(0, 0, 0, ALL))], "F17"))
pipe("--parts 64", FIRST_PUT, info(PAYLOAD, A, [query_handle(1, 0, 1, ALL), query_handle(1, 1, 2, ALL)]))
pipe("--parts=1", FIRST_PUT, INFO)

note("a put of a schema and no batch")
NONE = put(b"t", CREATE, COLUMN_A)
for options in ("", "--parts 2", "--workers 2", "--workers 8"):
    pipe(options, NONE, info(PAYLOAD, A, [query_handle(1, 0, 0, ALL)]), fetch(query_handle(1, 0, 0, ALL), A))

note("an info in two parts, an append and a replacement, and then both fetches, the second first")
FRONT, BACK = query_handle(1, 0, 2, ALL), query_handle(1, 2, 5, ALL)
OTHER = put(b"t", REPLACE, [("b", UTF8)], words("x"), rows=1)
LATER = info(PAYLOAD, "b Utf8 or null;", [query_handle(3, 0, 1, ALL)])
KEPT = (ONE_TO_FIVE, info(PAYLOAD, A, [FRONT, BACK]), put(b"t", APPEND, COLUMN_A, numbers(6, 7), rows=2), OTHER, LATER,
        fetch(BACK, A, *whole_numbers(3, 4, 5)), fetch(FRONT, A, *whole_numbers(1, 2)),
        fetch(query_handle(3, 0, 1, ALL), "b Utf8 or null;", 'Text("x"),'))
for options in ("--parts 2", "--parts 2 --workers 2", "--parts 2 --workers 8"):
    pipe(options, *KEPT)
SOME = b"SELECT a FROM t AS x WHERE x.a > 1"
pipe("--parts 3", ONE_TO_FIVE, schema(of_query(SOME), A),
     info(of_query(SOME), A, [query_handle(1, first, end, SOME) for first, end in ((0, 1), (1, 3), (3, 5))]),
     fetch(query_handle(1, 3, 5, SOME), A, *whole_numbers(4, 5)), fetch(query_handle(1, 0, 1, SOME), A),
     fetch(query_handle(1, 1, 3, SOME), A, *whole_numbers(2, 3)))

note("the same calls in one piece and in single bytes; and behind them a put that ends inside its last message")
CUT = "hex", put(b"t", REPLACE, COLUMN_A, numbers(1), rows=1)[1][:-9], "no answer"
for way in ("pipe", "bytewise"):
    pipe("--parts 2", *KEPT, CUT, status=3, printed="fault: F22 Transport\n", way=way)

note("a version that is not reached, and a name of 65 bytes")
MORE = put(b"t", APPEND, COLUMN_A, numbers(6), rows=1)
pipe("", ONE_TO_FIVE, MORE, MORE, refuse(b"DoGet", [ticket(query_handle(9, 0, 0, ALL))], "F18"),
     put(b"n" * 65, CREATE, COLUMN_A, fault="F12"), info(PAYLOAD, A, [query_handle(3, 0, 7, ALL)]))

note("texts that are refused")
for text, fault in ((b"SELECT a FROM t WHERE a =", "F13 at byte 25"), (b"SELECT a,, b FROM t", "F13 at byte 9"),
                    (b"SELECT a FROM u", "F9"), (b"SELECT c FROM t", "F14"), (b"SELECT a FROM t WHERE a = 'x'", "F15"),
                    (b"SELECT a FROM t ORDER BY a", "F16"), (b" " * 16385, "F12"), (b"", "F13 at byte 0")):
    pipe("", ONE_TO_FIVE, refuse(b"GetFlightInfo", [of_query(text)], fault), refuse(b"GetSchema", [of_query(text)], fault))
assert refused("F13 at byte 25").startswith("3 F13 BadSql at byte 25")

note("the list of tables, as they stand at its version")
OF_TABLES = descriptor(packed(TABLES, b""))
LIST = "catalog_name Utf8 or null;db_schema_name Utf8 or null;table_name Utf8;table_type Utf8;"
LISTED = [f'Null,Null,Text("{name}"),Text("TABLE"),' for name in "ab"]
B, A_TOO = put(b"b", CREATE, COLUMN_A), put(b"a", CREATE, COLUMN_A, numbers(1), rows=1)
pipe("--parts 7", info(OF_TABLES, LIST, [tables_handle(0)]), fetch(tables_handle(0), LIST), B, A_TOO,
     info(OF_TABLES, LIST, [tables_handle(2)]), schema(OF_TABLES, LIST), put(b"c", CREATE, COLUMN_A),
     fetch(tables_handle(2), LIST, *LISTED), fetch(tables_handle(1), LIST, LISTED[1]))

note("a join in two parts; groups in one, of which a part means nothing; and texts of both that are refused")
PAIRS = put(b"t", CREATE, [("a", INT64), ("i", INT64)], pairs((1, 10), (1, 20)), rows=2)
JOIN = b"SELECT x.i, y.i FROM t AS x JOIN t AS y ON x.a = y.a"
GROUPS = b"SELECT a, COUNT(*), SUM(i) FROM t GROUP BY a"
TWO_I, OF_GROUPS = "i Integer(Int64) or null;" * 2, "a Integer(Int64) or null;col2 Integer(Int64);col3 Decimal128 or null;"
ONE, OTHER_ONE = query_handle(1, 0, 1, JOIN), query_handle(1, 1, 2, JOIN)
pipe("--parts 2", PAIRS, info(of_query(JOIN), TWO_I, [ONE, OTHER_ONE]), fetch(OTHER_ONE, TWO_I, *rows_of((20, 10), (20, 20))),
     fetch(ONE, TWO_I, *rows_of((10, 10), (10, 20))), info(of_query(GROUPS), OF_GROUPS, [query_handle(1, 0, 2, GROUPS)]),
     fetch(query_handle(1, 0, 2, GROUPS), OF_GROUPS, *rows_of((1, 2, 30))), refuse(b"DoGet", [ticket(query_handle(1, 0, 1, GROUPS))], "F17"),
     refuse(b"DoGet", [ticket(query_handle(1, 1, 2, GROUPS))], "F17"), refuse(b"DoGet", [ticket(query_handle(1, 0, 3, GROUPS))], "F17"))
for text, fault in ((b"SELECT a FROM t JOIN t u ON t.a = u.a", "F14"), (b"SELECT t.a FROM t JOIN t ON t.a = t.a", "F14"),
                    (b"SELECT t.a FROM t JOIN t u ON t.a = t.a", "F16"), (b"SELECT i, COUNT(*) FROM t GROUP BY a", "F16"),
                    (b"SELECT COUNT(*) FROM t JOIN t u ON t.a = u.a", "F16")):
    pipe("", PAIRS, refuse(b"GetFlightInfo", [of_query(text)], fault), refuse(b"DoGet", [ticket(query_handle(1, 0, 2, text))], "F17"))

joins_and_groups.connections()

note("calls that are refused whatever the tables are, each before a put")
for call in WITH_INFOS:
    pipe("", refuse(call.method, call.messages, call.fault), FIRST_PUT)
pipe("", refuse(b"GetFlightInfo", [bytes(1_048_577), b""], "F4"), refuse(b"DoAction", [b"", b""], "F4"),
     refuse(b"DoAction", [b""], "F5"), refuse(b"DoAction", [chunk(1, b"scan.expire") + chunk(2, bytes(7))], "F4"), FIRST_PUT)
assert SELECT in PAYLOAD


def action(version):
    return chunk(1, b"scan.expire") + chunk(2, version.to_bytes(8, "big"))


def expire(version, floor):
    return "hex", wire.call(b"DoAction", [action(version)]), f"{DONE}0a08{floor:016x};"


def at(version, rows):
    return query_handle(version, 0, rows, ALL)


note("a version is fetched, and expired; the floor, and fetches below it, at it and above it; the next put has the next number")
assert action(2) == b"\x0a\x0bscan.expire\x12\x08" + bytes(7) + b"\x02"
EXPIRED = (ONE_TO_FIVE, MORE, MORE, fetch(at(1, 5), A, *whole_numbers(1, 2, 3, 4, 5)), expire(2, 2), refuse(b"DoAction", [action(5)], "F18"), expire(1, 2), expire(0, 2),
           refuse(b"DoGet", [ticket(at(1, 5))], "F19"), fetch(at(2, 6), A, *whole_numbers(1, 2, 3, 4, 5, 6)),
           refuse(b"DoGet", [ticket(at(4, 8))], "F18"), expire(3, 3), refuse(b"DoGet", [ticket(at(2, 6))], "F19"),
           fetch(at(3, 7), A, *whole_numbers(1, 2, 3, 4, 5, 6, 6)), MORE, info(PAYLOAD, A, [at(4, 8)]),
           fetch(at(4, 8), A, *whole_numbers(1, 2, 3, 4, 5, 6, 6, 6)))
for options in ("", "--workers 2"):
    pipe(options, *EXPIRED)

note("what is wrong with an action comes before its number, and a version that is not reached before one that is expired")
pipe("", refuse(b"DoAction", [chunk(1, b"scan.expire")], "F4"), refuse(b"DoAction", [chunk(1, b"scan.Expire") + chunk(2, bytes(7))], "F5"),
     refuse(b"DoAction", [b"\xff"], "F4"), refuse(b"DoAction", [action(1)], "F18"), expire(0, 0), ONE_TO_FIVE, expire(1, 1),
     refuse(b"DoGet", [ticket(at(2, 5))], "F18"), refuse(b"DoGet", [ticket(query_handle(0, 2, 1, ALL))], "F19"),
     refuse(b"DoGet", [ticket(query_handle(1, 2, 1, ALL))], "F17"), fetch(at(1, 5), A, *whole_numbers(1, 2, 3, 4, 5)))

if __name__ == "__main__":
    rooms.write("connections", LINES, ANSWERS)
