#!/usr/bin/env python3
"""Random queries over small and over wide random tables, through `flightscan pipe` and through sqlite3, compared.

    python3 scripts/sqlite_answers.py [--count N] [--wide N] [--large N] [--batched N] [--long] [--workers W,..] [--seed S]
                                      [--program PATH] [--plain] [--without-program]

What it shows: that the answers are those of a program which shares nothing with ours, wherever both define the same.
Each of the small databases (400 if no count is said) has 1 to 4 tables of 1 to 4 columns of any types, with nulls, of 0 to 12 rows, or in one database of ten to 200, that come in puts of one or more batches. Between
the puts stand queries: joins of 2 to 4 places, a table with itself too; WHERE with comparisons, BETWEEN, IN, IS NULL,
IS TRUE and the like, AND, OR and NOT; and groups of one place with COUNT and SUM.

Each of the wide databases (3 if no number is said) has a table of 70,000 rows and one of up to 300 rows with the same six
columns. Of a column nearly all values may be equal, or all different, or null; texts begin alike; numbers lie close
together or anywhere, with those at the ends of their types. The queries keep none of the rows, one in 1,000, one in 100,
half, nearly all or all of them; an IN has up to 256 items; keys of joins and groups go from one for all rows to another
one for each.

Each of the large databases (none if no number is said) is a wide one whose table has 140,000 to 280,000 rows in two to nine
batches of unequal sizes. Its infos have one or two parts.

Each of the batched databases (20 if no number is said) has two tables of up to some hundred batches of 0 to 5 rows. A column
rises from batch to batch, or falls, or is random, or has one value or nulls alone, in each batch or in all. Most queries
keep few rows, by ranges, IN, IS NULL and comparisons of which most batches can meet none, so a fetch passes over these.

`pipe` gets the puts, the infos of all queries, of 1 to 3 parts each, and behind them the fetches of all endpoints in any
order, so also of versions that are no longer the newest. sqlite3 gets the same tables and queries in turn, with an
ORDER BY of the order that docs/SQL.md states. Compared are each put's count, each info's tickets, the schemas of an
info and of its streams, and the rows of each endpoint, one by one, in order. Right before each batch of rows, of which there is
one or more, has to stand a dictionary for each column that is one: of the texts of that batch, by first appearance.

What both define alike, and no more: sqlite3 has its truth values as 1 and 0, and dates as their numbers of days, and
timestamps of microseconds. Names differ by more than their case,
numbers have 64 bits with a sign, and such columns alone are summed whose sums have no more.

With --workers 1,2,4,16 a `pipe` is given the calls for each of these numbers. The answers of the first one are compared with
those of sqlite3, and each other one has to write the same bytes.

With --long there are 2,000 small databases, 40 wide ones, 10 large ones and 200 batched ones. With --plain no query has a join or groups. With
--without-program the answers of sqlite3 are compared with those of the plain model in random_calls, which needs no built
program; a wide database then has no joins, and a large one is answered by the model for many rows. Seeds are S, S + 1, .. of all kinds; of one seed all is always the same.
It ends with 1 at the first difference, and prints the query and both answers. It needs `sqlite3` on the path (tried
with 3.40), and the program is built as for bench/pipe.py.

What it found: no difference. 2,000 small databases with 11,074 queries, of which 6,245 had joins and 3,422 groups, and
16,798 endpoints, on the proved program. 12 wide ones from seed 100 on with 288 queries, of which 56 had joins and 87
groups, 477 endpoints and 5,956,448 rows, on a program that was built without proof.
"""

from __future__ import annotations

import argparse
import collections
import json
import pathlib
import subprocess
import sys
from dataclasses import dataclass, field
from random import Random

sys.dont_write_bytecode = True
ROOT = pathlib.Path(__file__).resolve().parent.parent
sys.path += [str(ROOT / "vectors" / folder) for folder in ("arrow", "flight", "queries")]

import wire  # noqa: E402
from built import program, worker_counts  # noqa: E402
from random_calls import joined, large  # noqa: E402
from random_calls.answers import Difference, PutCount, columns_of, only_message, same, stream_of_fetch  # noqa: E402
from random_calls.batched import Batches, batched_columns, domains_of, stream_in_batches  # noqa: E402
from random_calls.joined import Joiner, JoinSpeller, Query, Values  # noqa: E402
from random_calls.joined_model import query_rows  # noqa: E402
from random_calls.plain_model import Column, Database, Put, Row, Table, after, class_of, split  # noqa: E402
from random_calls.puts import TREES, ingest, messages_of, stream_of  # noqa: E402
from random_calls.wide import ROWS, TOP, Choices, NarrowJoiner, Sorted, WideJoiner, wide_columns  # noqa: E402
from reader import Fault, Reader  # noqa: E402

SECONDS = 300  # that one program may take
TABLES = ["t", "u", "a b", "select", "\u00e9"]
COLUMNS = ["a", "b", "c", "k", "order", "timestamp", "a b", "\u00e9\"", "_1"]
COUNTS = [0, 1, 2, 4, 6, 8, 12]  # of a put's rows; of a large one as many times more
MARK = "="  # the line behind each answer of sqlite3
TOGETHER = 500  # rows of a statement of sqlite3
TOLD = 200  # rows of a table or an answer that are told
LONG, SHORT = (2000, 40, 10, 200), (400, 3, 0, 20)  # small, wide, large and batched databases


@dataclass
class Asked:
    """A query with its text, the database that it is asked of, its tickets' handles, and both answers."""

    query: Query
    text: str
    database: Database
    ranges: list[tuple[int, int]]
    handles: list[bytes]
    wanted: list[list[Row]] = field(default_factory=list)  # of each endpoint
    given: list[list[Row]] = field(default_factory=list)


class Case:
    """A database, its queries, and the calls and the script that say both."""

    again = "--count 1 --wide 0 --large 0 --batched 0"
    rows_of = staticmethod(query_rows)  # the plain model

    def __init__(self, seed: int, plain: bool, modelled: bool):
        self.random, self.seed, self.plain, self.modelled = self.seeded(seed), seed, plain, modelled
        self.parts, self.version, self.database = self.random.randint(1, 3), 0, {}
        self.calls: list[bytes] = []
        self.counts: list[tuple[int | None, Asked | None]] = []  # of each call, its put's rows or its query
        self.script = [".bail on", ".mode json"]
        self.asked: list[Asked] = []
        self.now: Asked | None = None  # the query whose answers are looked at
        self.make()
        self.fetches = [(asked, number) for asked in self.asked for number in range(len(asked.handles))]
        self.random.shuffle(self.fetches)
        for asked, number in self.fetches:
            self.calls.append(wire.call(b"DoGet", [wire.ticket(asked.handles[number])]))

    @staticmethod
    def seeded(seed: int) -> Random:
        return Random(seed)

    def make(self) -> None:
        """Puts of some tables, and queries between further puts."""
        self.most = 200 if self.random.random() < 0.1 else 12  # rows of a table
        self.values = Values(self.random, self.most > 12)
        for name in self.random.sample(TABLES, self.random.randint(1, 4)):
            self.put(name, self.columns())
        for _ in range(self.random.randint(2, 4)):
            for _ in range(self.random.randint(1, 3)):
                self.ask()
            name = self.random.choice(list(self.database))
            self.put(name, self.columns() if self.random.random() < 0.2 else None)

    def columns(self) -> tuple[Column, ...]:
        names = self.random.sample(COLUMNS, self.random.randint(1, 4))
        return tuple(Column(name, self.random.choice(list(TREES)), self.random.random() < 0.7) for name in names)

    def put(self, name: str, columns: tuple[Column, ...] | None) -> None:
        """A put of new columns, in place of a table that is there; without them, of more rows."""
        there = "APPEND" if columns is None else "REPLACE"
        columns, nulls = columns or self.database[name].columns, self.random.choice([0, 0.1, 0.4])
        old = len(self.database[name].rows) if there == "APPEND" else 0
        rows = [tuple(None if column.nullable and self.random.random() < nulls else self.values.value(column.type)
                      for column in columns) for _ in range(self.random.choice(COUNTS) * self.most // 12)][: self.most - old]
        self.put_rows(name, there, columns, rows)

    def put_rows(self, name: str, there: str, columns: tuple[Column, ...], rows: list[Row], ends: list[int] | None = None) -> None:
        """A put of rows, in batches that end there, or anywhere."""
        put = Put(name, "CREATE", there, Table(columns, rows))
        stream = stream_of(self.random, put)[0] if ends is None else stream_in_batches(self.random, put, ends)
        self.calls.append(wire.call(b"DoPut", messages_of(self.random, ingest(self.random, put, b""), stream)))
        self.counts.append((len(rows), None))
        self.tell_sqlite(put)
        self.database, self.version = after(self.database, put), self.version + 1

    def tell_sqlite(self, put: Put) -> None:
        """The put as statements of sqlite3."""
        name = joined.sqlite_name(put.name)
        if put.if_there == "REPLACE":
            kinds = [f"{joined.sqlite_name(column.name)} {'TEXT' if class_of(column.type) == 'text' else 'INTEGER'}"
                     for column in put.table.columns]
            self.script += [f"DROP TABLE IF EXISTS {name};", f"CREATE TABLE {name} ({', '.join(kinds)});"]
        rows = [f"({', '.join(map(joined.sqlite_value, row))})" for row in put.table.rows]
        for first in range(0, len(rows), TOGETHER):
            self.script.append(f"INSERT INTO {name} VALUES {', '.join(rows[first : first + TOGETHER])};")

    def query(self) -> Query | None:
        places = [1] if self.plain else [1, 1, 2] if self.most > 12 else [1, 1, 1, 2, 2, 2, 3, 4]
        return Joiner(self.random, self.database, self.values, places).joined_query()

    def ask(self) -> None:
        """An info of a query, where one was found that binds and is short enough."""
        query = self.query()
        text = JoinSpeller(self.random).joined_query(query) if query else ""
        if query is None or len(text.encode()) > joined.LONGEST_TEXT:
            return
        rows = len(self.database[query.places[0].table].rows)
        ranges = [(0, rows)] if query.grouped else split(rows, self.parts)
        handles = [wire.query_handle(self.version, first, end, text.encode()) for first, end in ranges]
        asked = Asked(query, text, self.database, ranges, handles, [[] for _ in handles], [[] for _ in handles])
        command = wire.descriptor(wire.packed(b"CommandStatementQuery", wire.chunk(1, text.encode())))
        self.calls.append(wire.call(b"GetFlightInfo", [command]))
        self.counts.append((None, asked))
        self.asked.append(asked)
        self.script += [joined.sqlite_query(query), f".print {MARK}"]


class WideCase(Case):
    """A database of a wide table and a small one, of which the wide one comes in two puts."""

    again = "--count 0 --wide 1 --large 0 --batched 0"

    @staticmethod
    def seeded(seed: int) -> Random:
        return Random(f"wide {seed}")

    def make(self) -> None:
        columns, some = wide_columns(self.random), self.random.randrange(ROWS)
        choices = Choices(self.random, columns, ROWS)
        rows = choices.rows(columns, ROWS)
        self.put_rows("t", "REPLACE", columns, rows[:some])
        self.put_rows("t", "APPEND", columns, rows[some:])
        self.put_rows("u", "REPLACE", columns, choices.rows(columns, self.random.choice([0, 1, 20, 100, 300])))
        self.sorted = Sorted(self.database)
        while len(self.asked) < 24:
            self.ask()

    def query(self) -> Query | None:
        tables = [("t",)] * 5 + ([] if self.plain or self.modelled else [("t", "u"), ("u", "t"), ("t", "t"), ("t", "u", "u")])
        return WideJoiner(self.random, self.database, self.sorted, self.random.choice(tables), self.plain).wide_query()


class LargeCase(WideCase):
    """A database of a large table and a small one, of which the large one comes in one put or two."""

    again = "--count 0 --wide 0 --large 1 --batched 0"
    rows_of = staticmethod(large.answer_rows)

    @staticmethod
    def seeded(seed: int) -> Random:
        return Random(f"large {seed}")

    def make(self) -> None:
        self.parts, tables = self.random.choice([1, 2]), large.Tables(self.random)
        rows, ends = tables.rows(large.LARGE)
        self.put_rows(large.LARGE, "REPLACE", tables.columns, rows, ends)
        if self.random.random() < 0.5:
            self.put_rows(large.LARGE, "APPEND", tables.columns, *tables.rows(large.LARGE, appended=True))
        self.put_rows(large.SMALL, "REPLACE", tables.columns, *tables.rows(large.SMALL))
        self.sorted = Sorted(self.database)
        while len(self.asked) < 24:
            self.ask()

    def query(self) -> Query | None:
        return large.LargeJoiner(self.random, self.database, self.sorted, self.plain).wide_query()


class BatchedCase(Case):
    """A database of two tables of many small batches, of which most queries keep few rows."""

    again = "--count 0 --wide 0 --large 0 --batched 1"

    @staticmethod
    def seeded(seed: int) -> Random:
        return Random(f"batched {seed}")

    def make(self) -> None:
        """Puts of both tables, queries, an append, and queries of both versions."""
        columns = batched_columns(self.random, 5)
        domains = domains_of(self.random, columns, TOP)
        tables = {name: Batches(self.random, columns, domains) for name in "tu"}
        for name, batches in tables.items():
            self.put_batches(name, "REPLACE", batches, self.random.choice([20, 100, 300] if name == "t" else [1, 10, 40]))
        self.ask_some()
        name = self.random.choice("tu")
        for _ in range(self.random.choice([1, 3, 10])):
            self.put_batches(name, "APPEND", tables[name], self.random.choice([1, 1, 2, 20]))
        self.ask_some()

    def put_batches(self, name: str, there: str, batches: Batches, count: int) -> None:
        rows, ends = batches.rows(count)
        self.put_rows(name, there, batches.columns, rows, ends)

    def ask_some(self) -> None:
        self.sorted = Sorted(self.database)
        wanted = len(self.asked) + 15
        while len(self.asked) < wanted:
            self.ask()

    def query(self) -> Query | None:
        tables = [("t",)] * 3 + ([] if self.plain else [("t", "u"), ("u", "t"), ("u", "u", "t")])
        return NarrowJoiner(self.random, self.database, self.sorted, self.random.choice(tables), self.plain).narrow_query()


# ---- runs


def run(command: list[str], given: bytes) -> bytes:
    """What a program writes, which has to end with 0 and say nothing else."""
    done = subprocess.run(command, input=given, capture_output=True, timeout=SECONDS)
    same(f"the exit status and standard error of {command[0]}", (0, b""), (done.returncode, done.stderr))
    return done.stdout


def sqlite_answers(case: Case) -> list[list[Row]]:
    """The rows that sqlite3 gives to each query, with their last column. It prints nothing where there are none."""
    answers, lines = [], []
    for line in run(["sqlite3", ":memory:"], "\n".join([*case.script, ""]).encode()).decode().split("\n"):
        if line == MARK:
            rows = json.loads("".join(lines) or "[]")
            answers.append([tuple(row.values()) for row in rows])
            lines = []
        else:
            lines.append(line)
    return answers


def look_at_info(asked: Asked, answer: wire.Answer) -> list[Column]:
    """The tickets of an info, compared, and its schema."""
    parts = wire.fields(only_message(answer))
    tickets = [wire.one_field(content, 1) for number, content in parts if number == 3]
    handles = [wire.handle_parts(wire.handle_of(ticket)) for ticket in tickets]
    same("the handles of the info", [*map(wire.handle_parts, asked.handles)], handles)
    same("the tickets of the info", [*map(wire.ticket, asked.handles)], tickets)
    reader = Reader()
    reader.message(wire.schema_header(parts[0][1]), b"")
    return columns_of(reader)


def pipe_bytes(path: str, case: Case, workers: int) -> bytes:
    return run([path, "pipe", "--parts", str(case.parts), "--workers", str(workers)], b"".join(case.calls))


def look_at_more_workers(path: str, case: Case, workers: list[int], written: bytes) -> None:
    """With each further number of workers the same bytes are written."""
    case.now = None
    for count in workers:
        other = pipe_bytes(path, case, count)
        place = next((place for place, (one, two) in enumerate(zip(written, other)) if one != two), None)
        same(f"the number of bytes with {count} workers, and the first other one", (len(written), None), (len(other), place))


def pipe_answers(path: str, case: Case, workers: list[int]) -> None:
    """Looks at the answers of `pipe`. A query's rows are those of its endpoints, joined in their order."""
    source = wire.Bytes(pipe_bytes(path, case, workers[0]))
    schemas: dict[int, list[Column]] = {}
    for rows, asked in case.counts:
        if asked is None:
            PutCount(rows).look(wire.answer(source))
        else:
            case.now = asked
            schemas[id(asked)] = look_at_info(asked, wire.answer(source))
    for asked, number in case.fetches:
        case.now = asked
        columns, asked.given[number] = stream_of_fetch(wire.answer(source))
        same("the schema of a stream and that of its info", schemas[id(asked)], columns)
    same("the bytes behind the last answer", 0, len(source.data) - source.place)
    look_at_more_workers(path, case, workers[1:], source.data)


def of_endpoints(asked: Asked, rows: list[Row]) -> list[list[Row]]:
    """The rows of sqlite3 for each endpoint, by their last column. Groups have one endpoint."""
    if asked.query.grouped:
        return [[row[:-1] for row in rows]]
    return [[row[:-1] for row in rows if first < row[-1] <= end] for first, end in asked.ranges]


def compare(case: Case, path: str | None, workers: list[int]) -> None:
    """Compares all answers of a case: of `pipe`, or of a model, with those of sqlite3."""
    answers = sqlite_answers(case)
    same("the number of answers of sqlite3", len(case.asked), len(answers))
    for asked, rows in zip(case.asked, answers):
        asked.wanted = of_endpoints(asked, rows)
        same("the rows of all endpoints of sqlite3", len(rows), sum(map(len, asked.wanted)))
    if path:
        pipe_answers(path, case, workers)
    else:
        for asked in case.asked:
            asked.given = [case.rows_of(asked.query, asked.database, first, end) for first, end in asked.ranges]
    for case.now in case.asked:
        for number, (wanted, given) in enumerate(zip(case.now.wanted, case.now.given, strict=True)):
            same(f"the rows of endpoint {number}, wanted as sqlite3 gives them", wanted, given)


def tell(case: Case, difference: str, switches: list[str]) -> None:
    """Prints a difference with the query, the tables and how to run it again."""
    print(f"seed {case.seed}, {case.parts} parts: {difference}")
    asked = case.now
    if asked is not None:
        for name in dict.fromkeys(place.table for place in asked.query.places):
            table = asked.database[name]
            columns = ", ".join(f"{one.name!r} {one.type}{' or null' * one.nullable}" for one in table.columns)
            print(f"table {name!r} of {columns}", *told(table.rows), sep="\n  ")
        print("rows of its endpoints:", asked.ranges)
        print(f"ours:    {asked.text}", *map(told, asked.given), sep="\n  ")
        print(f"sqlite3: {joined.sqlite_query(asked.query)}", *map(told, asked.wanted), sep="\n  ")
    print(" ".join(["again: python3 scripts/sqlite_answers.py", case.again, "--seed", str(case.seed), *switches]))


def told(rows: list[Row]) -> list[Row | str]:
    """The rows, or the first ones and how many more there are."""
    return rows if len(rows) <= TOLD else [*rows[:TOLD], f"and {len(rows) - TOLD} more"]


def count(case: Case, counts: collections.Counter) -> None:
    """Adds a case that went well to the counts."""
    for asked in case.asked:
        kind = "groups" if asked.query.grouped else f"places: {len(asked.query.places)}"
        counts[kind] += 1
        counts[kind, "rows"] += sum(map(len, asked.given))
        counts[kind, "none"] += not any(asked.given)
        counts["endpoints"] += len(asked.handles)


def options() -> argparse.Namespace:
    parser = argparse.ArgumentParser(description=__doc__, formatter_class=argparse.RawDescriptionHelpFormatter)
    parser.add_argument("--count", type=int, help="how many small databases (400)")
    parser.add_argument("--wide", type=int, help="how many wide databases (3)")
    parser.add_argument("--large", type=int, help="how many large databases (none)")
    parser.add_argument("--batched", type=int, help="how many batched databases (20)")
    parser.add_argument("--long", action="store_true", help="2,000 small, 40 wide, 10 large and 200 batched ones, where no number is said")
    parser.add_argument("--workers", type=worker_counts, default=[1], help="the numbers of workers, as 1,2,4,16 (1)")
    parser.add_argument("--seed", type=int, default=1, help="the seed of the first (1)")
    parser.add_argument("--program", help="the built program (that of the repository)")
    parser.add_argument("--plain", action="store_true", help="ask no joins and no groups")
    parser.add_argument("--without-program", action="store_true", help="compare sqlite3 with the plain model")
    words = parser.parse_args()
    for name, usual in zip(["count", "wide", "large", "batched"], LONG if words.long else SHORT):
        if getattr(words, name) is None:
            setattr(words, name, usual)
    return words


def main() -> int:
    words, counts = options(), collections.Counter()
    path, workers = None if words.without_program else program(words.program), ",".join(map(str, words.workers))
    switches = ["--workers", workers] + ["--plain"] * words.plain + ["--without-program"] * words.without_program
    kinds = [(Case, words.count), (WideCase, words.wide), (LargeCase, words.large), (BatchedCase, words.batched)]
    for kind, number in [(kind, number) for kind, most in kinds for number in range(most)]:
        case = kind(words.seed + number, words.plain, words.without_program)
        try:
            compare(case, path, words.workers)
            count(case, counts)
        except (Difference, wire.Unreadable, Fault, ValueError, IndexError, subprocess.TimeoutExpired) as found:
            tell(case, str(found) if isinstance(found, Difference) else repr(found), switches)
            return 1
    print(f"{words.count} small, {words.wide} wide, {words.large} large and {words.batched} batched databases from seed {words.seed} on, "
          f"workers {workers}, and no difference; {counts['endpoints']} endpoints")
    for kind in ["groups", *(f"places: {number}" for number in range(1, 5))]:
        print(f"{counts[kind]:7} queries of {kind}, {counts[kind, 'none']} without rows; {counts[kind, 'rows']} rows")
    return 0


if __name__ == "__main__":
    sys.exit(main())
