"""DB-API 2.0 over a running server, and random queries next to plain lists."""

from __future__ import annotations

import datetime
from decimal import Decimal
from random import Random

import flightscan
import numpy as np
import wire
from loopback import Connection, Server
from random_calls import plain_model as model
from random_calls.answers import same
from random_calls.puts import ingest, messages_of, put_of, stream_of
from random_calls.queries import Asker, Speller

from trials.calls import plain_rows
from trials.cases import Run, case, refused

LONGEST_QUERY = 16_384


@case("cursors: description, one, many, all, in turn, with parameters; connections and cursors that are closed")
def cursors(run: Run) -> None:
    with run.connected("--parts", "3") as connection:
        days = [datetime.date(2026, 1, 1) + datetime.timedelta(day) for day in range(100)]
        noons = [datetime.datetime(2026, 1, 1, 12, 0, 0, number) for number in range(100)]
        connection.put("t", {"id": np.arange(100), "s": [f"o'{number}" for number in range(100)], "d": days, "at": noons,
                             "large": [10**30 + number for number in range(99)] + [None]})
        cursor = connection.cursor()
        cursor.execute("SELECT id, s, d, at, large FROM t")
        same("the description", [("id", "int64", None, None, None, None, False), ("s", "utf8", None, None, None, None, True),
                                 ("d", "date", None, None, None, None, True), ("at", "timestamp", *[None] * 4, True),
                                 ("large", "decimal", None, None, 38, 0, True)],
             cursor.description)
        rows = [(number, f"o'{number}", days[number], noons[number], Decimal(10**30 + number) if number < 99 else None)
                for number in range(100)]
        same("one", rows[0], cursor.fetchone())
        same("many", rows[1:2], cursor.fetchmany())
        same("ten", rows[2:12], cursor.fetchmany(10))
        cursor.arraysize = 50
        same("fifty", rows[12:62], cursor.fetchmany())
        same("the rest", rows[62:], cursor.fetchall())
        same("after the end", (None, [], []), (cursor.fetchone(), cursor.fetchmany(), cursor.fetchall()))
        same("as columns", rows, cursor.fetch_table().rows())
        same("in turn", rows[:40], list(cursor.execute("SELECT * FROM t WHERE id < ?", (40,))))
        same("parameters", rows[7:8], connection.cursor().execute(
            "SELECT * FROM t WHERE s = ? AND d = ? AND at = ? AND large = ?",
            ("o'7", days[7], noons[7], Decimal(10**30 + 7))).fetchall())
        cursor.execute("SELECT id FROM t")
        cursor.fetchone()
        connection.put("t", {"a": [1]}, mode="replace")
        same("what an earlier query fetches later", [(number,) for number in range(1, 100)], cursor.fetchall())
        refused("a wrong query", flightscan.ProgrammingError, "F13 BadSql at byte 0", lambda: cursor.execute("SELEKT"))
        refused("no query", flightscan.ProgrammingError, "no query", cursor.fetchone)
        refused("several", flightscan.NotSupportedError, "a query gives rows", lambda: cursor.executemany("SELECT", []))
        refused("rollback", flightscan.NotSupportedError, "there are no transactions", connection.rollback)
        connection.commit()
        for name in ("setinputsizes", "setoutputsize"):
            same(name, None, getattr(cursor, name)(1))
        other = connection.cursor().execute("SELECT a FROM t")
        cursor.close()
        look_at_closed(cursor, "the cursor is closed")
        same("the exceptions of a connection", flightscan.DataError, connection.DataError)
    look_at_closed(other, "the connection is closed")


def look_at_closed(cursor: flightscan.Cursor, text: str) -> None:
    """Each call of a cursor says that it, or its connection, is closed; only to close it again is fine."""
    for name, *words in (("execute", "SELECT 1"), ("executemany", "SELECT 1", []), ("fetchone",), ("fetchmany",), ("fetchall",),
                         ("fetch_table",), ("setinputsizes", []), ("setoutputsize", 1)):
        refused(name, flightscan.InterfaceError, text, lambda name=name, words=words: getattr(cursor, name)(*words))
    cursor.close()


@case("a cursor whose server is gone: the rows so far are not all, whatever is fetched next")
def cursors_that_break_off(run: Run) -> None:
    with Server(run.path) as server, flightscan.connect(server.port) as connection:
        connection.put("t", {"a": np.arange(2_000_000)})
        cursor = connection.cursor().execute("SELECT a FROM t")
        same("the first row", (0,), cursor.fetchone())
        server.process.kill()
        refused("the others", flightscan.OperationalError, "F22 Transport", cursor.fetchall)
        refused("the next one", flightscan.ProgrammingError, "no query was asked", cursor.fetchone)


@case("random tables, put by records of other code, and random queries: the rows, or the fault, are those of the plain model")
def random_queries(run: Run) -> str:
    asked = refusals = 0
    for seed in range(run.seeds):
        random, database = Random(seed), {}
        with run.serving("--parts", str(random.randrange(1, 5))) as server:
            with Connection(server.port) as other:
                for _ in range(4):
                    database = put_at_random(other, random, database)
            with flightscan.connect(server.port) as connection:
                same("the tables", sorted(database, key=str.encode), connection.tables())
                for _ in range(8):
                    refusals += look_at_query(connection, random, Asker(random, database).query(), database)
                    asked += 1
    return f"{asked} queries of {run.seeds} databases, {refusals} refused"


def put_at_random(other: Connection, random: Random, database: model.Database) -> model.Database:
    """A put by the records of scripts/, and the tables after it."""
    put = put_of(random, database)
    stream, _ = stream_of(random, put)
    other.send(wire.call(b"DoPut", messages_of(random, ingest(random, put, b""), stream)))
    code = other.answer().code
    try:
        database = model.after(database, put)
    except model.Refused:
        same("a put that the model refuses is refused", True, code != 0)
    return database


def look_at_query(connection: flightscan.Connection, random: Random, query: model.Query, database: model.Database) -> bool:
    """Asks one query, whose rows or whose fault must be those of the model. It is true for a fault."""
    text = Speller(random).query(query)
    try:
        columns = model.answer_columns(query, database)
    except model.Refused as fault:
        wanted = fault.fault
        if len(text.encode()) > LONGEST_QUERY:
            wanted = "F12"
        refused(text, None, f"{wanted} ", lambda: connection.info(text))
        return True
    if len(text.encode()) > LONGEST_QUERY:
        return False
    info = connection.info(text)
    ranges = [endpoint.range or (0, 0) for endpoint in info.endpoints]
    same("the names", [column.name for column in columns], info.schema.names)
    same("which may be null", [column.nullable for column in columns], [field.nullable for field in info.schema])
    for endpoint, (first, end) in zip(info.endpoints, ranges):
        wanted_rows = [list(row) for row in model.answer_rows(query, database, first, end)]
        same(f"rows {first}..{end} of {text}", wanted_rows, plain_rows(connection.read(endpoint)))
    same("the ranges", (0, len(database[query.table].rows)), (ranges[0][0], ranges[-1][1]))
    return False
