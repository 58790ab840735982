"""Cases of timestamps in the programs `put`, `query` and `describe`: what is read of them, printed and refused. What is wanted is
worked out by Python's `datetime`."""

from __future__ import annotations

import datetime

import framing
import trees
from framing import END
from layout import written
from loopback import Server
from random_calls.answers import same
from random_calls.plain_model import MICROSECONDS, Column

from served.cases import Run, case
from served.programs import CLASSES, answered, marked, printed, put, query, rows_in, stream, typed

COLUMNS = (Column("t", MICROSECONDS, True), Column("n", "Int64", False))
FIRST, LAST = "0001-01-01 00:00:00.000000", "9999-12-31 23:59:59.999999"
TEXTS = ["2024-05-01 12:00:00.250000", "1969-12-31 23:59:59.999999", LAST, None, FIRST, "1970-01-01 00:00:00.000000"]
SELECT = "SELECT n FROM t WHERE t "
RIDES = """\
pickup,dropoff,fare,day
2024-01-01 00:57:55,2024-01-01 01:17:43,17.7,2024-01-01
2024-01-01 00:03:00,2024-01-01 00:09:36.5,10.0,2024-01-01
2024-01-31 23:59:59,,23.3,2024-01-31
"""
RIDE_COLUMNS = "pickup:timestamp,dropoff:timestamp?,fare:utf8,day:date"
AS_TABLE = """\
| t                          | n |
|----------------------------|---|
| 2024-05-01 12:00:00.250000 | 0 |
| 1969-12-31 23:59:59.999999 | 1 |
| 9999-12-31 23:59:59.999999 | 2 |
| NULL                       | 3 |
| 0001-01-01 00:00:00.000000 | 4 |
| 1970-01-01 00:00:00.000000 | 5 |
| -62135596800000001         | 6 |
7 rows
"""


def micros(text: str | None) -> int | None:
    """The microseconds from 1970-01-01 00:00:00 to a timestamp's text."""
    if text is None:
        return None
    return (datetime.datetime.fromisoformat(text) - datetime.datetime(1970, 1, 1)) // datetime.timedelta(microseconds=1)


BEFORE_ALL = micros(FIRST) - 1  # no text says it
ROWS = [(micros(text), number) for number, text in enumerate(TEXTS)] + [(BEFORE_ALL, 6)]


def csv_put(run: Run, server: Server, table: str, text: str, *options: str, mode: str = "create") -> tuple[int, bytes, bytes]:
    words = ("put", "--port", str(server.port), "--table", table, "--mode", mode, "--format", "csv", *options)
    return typed(run, *words, data=text.encode())


def described(run: Run, server: Server, table: str) -> tuple[int, bytes, bytes]:
    return typed(run, "describe", "--port", str(server.port), "--table", table)


@case("timestamps, before 1970, before the year 1, of 9999 and a null, in each format; and put again as an Arrow IPC stream")
def printed_timestamps(run: Run) -> None:
    shown = [f"TIMESTAMP '{text}'" if text else "NULL" for text in TEXTS] + [f"TIMESTAMP({BEFORE_ALL})"]
    lines = printed("t\tn", *(f"{text}\t{number}" for number, text in enumerate(shown)))
    cells = [text or "" for text in TEXTS] + [str(BEFORE_ALL)]
    records = "t,n\r\n" + "".join(f"{cell},{number}\r\n" for number, cell in enumerate(cells))
    with run.serving("--parts", "3") as server:
        same("put", printed("7 rows"), put(run, server, "t", stream(COLUMNS, ROWS)))
        same("describe", printed("t:timestamp?,n:int64"), described(run, server, "t"))
        same("lines", lines, query(run, server, "SELECT * FROM t"))
        same("csv", (0, records.encode(), b""), query(run, server, "SELECT * FROM t", "--format", "csv"))
        same("table", (0, AS_TABLE.encode(), b""), query(run, server, "SELECT * FROM t", "--format", "table"))
        status, data, said = query(run, server, "SELECT * FROM t", "--format", "arrow")
        same("arrow", (0, b""), (status, said))
        same("its rows", [list(row) for row in ROWS], rows_in(data))
        same("put of the copy", printed("7 rows"), put(run, server, "copy", data))
        same("lines of the copy", lines, query(run, server, "SELECT * FROM copy"))
        grouped = "SELECT t, COUNT(*) AS c, COUNT(t) AS d FROM t WHERE n > 2 AND n < 5 GROUP BY t"
        same("groups", printed("t\tc\td", "NULL\t1\t0", f"{shown[4]}\t1\t1"), query(run, server, grouped))


ASKED = [  # the rows that meet a predicate, by their numbers
    ("= TIMESTAMP '2024-05-01 12:00:00.25'", [0]),
    ("> TIMESTAMP '2024-05-01 12:00:00'", [0, 2]),
    ("<= timestamp '1969-12-31 23:59:59.999999000'", [1, 4, 6]),
    ("<= TIMESTAMP '1969-12-31 23:59:59.9999999Z'", [1, 4, 6]),
    ("= TIMESTAMP '2024-05-01 12:00:00.2500000001'", []),
    ("BETWEEN TIMESTAMP '1970-01-01 00:00:00' AND TIMESTAMP '2024-05-01 12:00:00.250001'", [0, 5]),
    (f"IN (TIMESTAMP '{FIRST}', TIMESTAMP '{LAST}')", [2, 4]),
    ("IS NULL", [3]),
]
CLASHES = ["= '2024-05-01 12:00:00'", "= DATE '2024-05-01'", "= 1714564800250000", "= n", "IN (TIMESTAMP '1970-01-01 00:00:00', 0)"]
NO_MOMENTS = ["2024-05-01", "2024-05-01T12:00:00", "2024-05-01 12:00:00." + 22 * "0", "2024-05-01 12:00:00z", "2024-05-01 24:00:00",
              "2024-02-30 00:00:00", "0000-01-01 00:00:00"]


@case("queries of timestamps: literals of 0 to 21 digits, and what is of another class, or no timestamp")
def asked_timestamps(run: Run) -> None:
    with run.serving() as server:
        same("put", printed("7 rows"), put(run, server, "t", stream(COLUMNS, ROWS)))
        for predicate, wanted in ASKED:
            same(predicate, printed("n", *map(str, wanted)), query(run, server, SELECT + predicate))
        for predicate in CLASHES:
            same(predicate, answered("F15 TypeClash", CLASSES), query(run, server, SELECT + predicate))
        same("a sum", answered("F15 TypeClash", CLASSES), query(run, server, "SELECT SUM(t) FROM t"))
        for text in NO_MOMENTS:
            said = f"{SELECT}= TIMESTAMP '{text}'"
            place = said.index("'")
            same(text, answered(f"F13 BadSql at byte {place}", *marked(said, place)), query(run, server, said))
        said = "SELECT TIMESTAMP '2024-05-01 12:00:00' FROM t"
        same("no operand", answered("F13 BadSql at byte 7", *marked(said, 7)), query(run, server, said))
        named = (Column("timestamp", "Int64", False),)
        same("put of names", printed("1 rows"), put(run, server, "timestamp", stream(named, [(7,)])))
        text = "SELECT timestamp, TIMESTAMP.timestamp AS timestamp FROM timestamp TIMESTAMP WHERE timestamp = 7"
        same("a name", printed("timestamp\ttimestamp", "7\t7"), query(run, server, text))


@case("timestamps in CSV: columns that are found, that are given, and records that are wrong; an answer is put again")
def csv_timestamps(run: Run) -> None:
    with run.serving() as server:
        said = (0, b"3 rows\n", f"{RIDE_COLUMNS}\n".encode())
        same("a put", said, csv_put(run, server, "rides", RIDES, "--header"))
        same("describe", printed(RIDE_COLUMNS), described(run, server, "rides"))
        late = "SELECT fare FROM rides WHERE pickup >= TIMESTAMP '2024-01-01 00:57:55' AND dropoff IS NULL"
        same("a query", printed("fare", "'23.3'"), query(run, server, late))
        given = csv_put(run, server, "rides", RIDES, "--header", "--columns", RIDE_COLUMNS, mode="append")
        same("an append", printed("3 rows"), given)
        _, data, _ = query(run, server, "SELECT * FROM rides", "--format", "csv")
        same("put of the answer", (0, b"6 rows\n", said[2]), csv_put(run, server, "copy", data.decode(), "--header"))
        same("its rows", (0, data, b""), query(run, server, "SELECT * FROM copy", "--format", "csv"))
        for number, field in enumerate(["2024-01-01", "2024-01-01T00:00:00", "2024-01-01 00:00:00.0000001", "1704067200000000", ""]):
            given = csv_put(run, server, "wrong", f"{FIRST},1\n{field},2\n", "--columns", "t:timestamp, n:int8")
            same(f"wrong field {number}", (3, b"", b"fault: record 2: no value of column t\n"), given)
            text = csv_put(run, server, f"texts{number}", f"{FIRST}\n{field or 'x'}\n")
            same(f"texts {number}", (0, b"2 rows\n", b"col1:utf8\n"), text)


def column_of(table: tuple[str, dict[str, object]], value: int, width: int) -> bytes:
    """A stream of one row: a column `at` of a type with one value, and a number 0."""
    schema = trees.schema(trees.field("at", table), trees.field("n", trees.integer(64, True)))
    batch = trees.batch(1, (0, b"", value.to_bytes(width, "little", signed=True)), (0, b"", bytes(8)))
    return framing.stream_of((written("Message", tree, "spread"), body) for tree, body in [(schema, b""), batch]) + END


UNITS_TAKEN = [
    (trees.timestamp("Second"), -1, 8, "timestamp_s", "TIMESTAMP '1969-12-31 23:59:59'"),
    (trees.timestamp("Millisecond", "Europe/Vienna"), 250, 8, "timestamptz_ms", "TIMESTAMP '1970-01-01 00:00:00.250Z'"),
    (trees.timestamp("Microsecond", "UTC"), 250, 8, "timestamptz", "TIMESTAMP '1970-01-01 00:00:00.000250Z'"),
    (trees.timestamp("Nanosecond", ""), -1, 8, "timestamp_ns", "TIMESTAMP '1969-12-31 23:59:59.999999999'"),
    (trees.time("Second"), 86399, 4, "time_s", "TIME '23:59:59'"),
    (trees.time("Nanosecond"), 86400 * 10**9, 8, "time_ns", "TIME(86400000000000)"),
    (trees.duration("Millisecond"), -90, 8, "duration_ms", "-90"),
]


@case("times of each unit, with a zone or none: described, printed and put again; another unit or width is F7, with its column")
def units_of_times(run: Run) -> None:
    with run.serving() as server:
        for number, (table, value, width, word, text) in enumerate(UNITS_TAKEN):
            name = f"u{number}"
            same(f"a put of {word}", printed("1 rows"), put(run, server, name, column_of(table, value, width)))
            same(word, printed(f"at:{word}?,n:int64?"), described(run, server, name))
            same(text, printed("at", text), query(run, server, f"SELECT at FROM {name}"))
            _, data, _ = query(run, server, f"SELECT * FROM {name}", "--format", "arrow")
            same(f"{word} again", printed("1 rows"), put(run, server, name, data, "append"))
        for table, line in [(("Timestamp", {"unit": 4}), "timestamp of another unit"), (trees.time("Second", 64), "time of another width"),
                            (("Duration", {"unit": -1}), "duration of another unit")]:
            same(line, answered("F7 UnsupportedArrow", f"column at: {line} is not taken"), put(run, server, "x", column_of(table, 0, 8)))


@case("numbers are not put into a column of timestamps")
def numbers_into_timestamps(run: Run) -> None:
    with run.serving() as server:
        same("a put", printed("7 rows"), put(run, server, "t", stream(COLUMNS, ROWS)))
        whole = stream((Column("t", "Int64", True), Column("n", "Int64", False)), [(0, 1)])
        others = "the table has other columns: names, types and nulls must agree, in their order"
        same("numbers", answered("F11 SchemaMismatch", others), put(run, server, "t", whole, "append"))
