"""Tables of many small batches, and predicates that most of the batches can hold no row of.

Of each column the values come in one manner and the nulls in another, each at random:

rising   the values of a batch lie above those of the one before; falling  below them
random   any of some forty values; ends  the least and the greatest of these
one      one value in each batch; same  one value in all of them

A column has no null, or one cell in ten is null, or whole batches are, or all of its batches.
"""

from __future__ import annotations

import itertools
from dataclasses import dataclass
from random import Random

from random_calls.plain_model import (DAY_MICROS, FIRST_DAY, FIRST_MOMENT, LAST_DAY, LAST_MOMENT, SIGNS, And, Between, Column, Comparison,
                                      Database, Day, In, IsNull, Literal, Moment, Name, Not, Or, Predicate, Put, Query, Row, Table, Value,
                                      class_of)
from random_calls.puts import ABSENT, RANGES, TEXTS, TREES, MadePut, Stream, ingest, messages_of
from random_calls.queries import GREATEST, Asker

MANNERS = ["rising", "rising", "falling", "random", "ends", "one", "same"]
NULLS = ["no", "no", "cells", "batches", "all"]
SIZES = [0, 1, 1, 1, 2, 3, 5]  # of a batch
STEPS = 40
ALIKE = [f"abcdefgh{number:02}" for number in range(STEPS)]
SHORT = sorted((first + second for first in "AbZz" for second in ["", " ", "a", "\u00e9", "\U00010000"]), key=str.encode)


def domain_of(random: Random, kind: str, bound: int) -> list[Value]:
    """Values of a type in their order: numbers at equal steps and inside of the bound, at an end of the type or around 0."""
    match class_of(kind):
        case "truth":
            return [False, True]
        case "text":
            return random.choice([ALIKE, SHORT])
        case "date":
            first = random.choice([FIRST_DAY, -STEPS // 2, 8766, LAST_DAY - STEPS])
            return [Day(first + number) for number in range(STEPS + 1)]
        case "timestamp":
            step = random.choice([1, 10**6, DAY_MICROS])
            first = random.choice([FIRST_MOMENT, -STEPS * step // 2, 1_714_564_800_000_000, LAST_MOMENT - STEPS * step])
            return [Moment(first + number * step) for number in range(STEPS + 1)]
    least, above = max(RANGES[kind][0], -bound), min(RANGES[kind][1], bound)
    step = random.choice([1, 1, 2, 5] + [2**15] * (above > 2**31))
    last = above - 1 - STEPS * step
    around = min(max(least, -random.choice([0, 3, 20]) * step), last)
    first = random.choice([around, around, least, last])
    return [first + number * step for number in range(STEPS + 1)]


def domains_of(random: Random, columns: tuple[Column, ...], bound: int) -> list[list[Value]]:
    return [domain_of(random, column.type, bound) for column in columns]


@dataclass
class Manner:
    """How the values and the nulls of a column come, batch by batch."""

    column: Column
    domain: list[Value]
    values: str
    nulls: str

    def cells(self, random: Random, place: float, rows: int) -> list[Value]:
        """The cells of a batch, which stands at this share of the table's batches."""
        share = {"rising": place, "falling": 1 - place}.get(self.values)
        if share is not None:
            first = min(int(share * len(self.domain)), len(self.domain) - 1)
            choices = self.domain[first : first + 2]
        else:
            choices = {"one": [random.choice(self.domain)], "same": self.domain[-1:],
                       "ends": [self.domain[0], self.domain[-1]]}.get(self.values, self.domain)
        nulls = {"no": 0, "cells": 0.1, "batches": random.choice([0, 0, 1]), "all": 1}[self.nulls]
        return [None if random.random() < nulls else random.choice(choices) for _ in range(rows)]


class Batches:
    """The manners of a table's columns, which its appends keep. Two tables of the same values have these as their domains."""

    def __init__(self, random: Random, columns: tuple[Column, ...], domains: list[list[Value]]):
        self.random, self.columns = random, columns
        self.manners = [Manner(column, domain, random.choice(MANNERS), random.choice(NULLS) if column.nullable else "no")
                        for column, domain in zip(columns, domains)]

    def rows(self, count: int) -> tuple[list[Row], list[int]]:
        """The rows of so many batches, and where each batch ends."""
        rows, ends = [], []
        for number in range(count):
            size = self.random.choice(SIZES)
            rows += zip(*(manner.cells(self.random, number / count, size) for manner in self.manners))
            ends.append(len(rows))
        return rows, ends


def stream_in_batches(random: Random, put: Put, ends: list[int]) -> Stream:
    """The messages of a put whose batches end there."""
    stream = Stream(random, put.table.columns)
    for first, end in itertools.pairwise([0, *ends]):
        stream.add(put.table.rows[first:end])
    return stream


def batched_columns(random: Random, most: int) -> tuple[Column, ...]:
    """Columns of any types, by the first letters; the first one is of numbers."""
    kinds = [random.choice([*RANGES]), *random.choices([*TREES], k=random.randint(1, most - 1))]
    return tuple(Column("abcdef"[number], kind, random.random() < 0.7) for number, kind in enumerate(kinds))


# ---- for interleavings: puts, and queries over one table


class BatchedPuts:
    """Puts of few tables, of many small batches each."""

    def __init__(self, random: Random):
        self.random, self.tables = random, {}

    def made_put(self, database: Database) -> MadePut:
        """A put that is mostly accepted: a new table, or an append in the manners of the table that is there."""
        random, name = self.random, self.random.choice(["t", "u"])
        there = random.choice(["APPEND", "APPEND", "APPEND", "REPLACE"])
        if name in database and name not in self.tables:  # a put of another kind made it
            there = "REPLACE"
        if there == "REPLACE" or name not in database:
            columns = batched_columns(random, 4)
            self.tables[name] = Batches(random, columns, domains_of(random, columns, 2**127))
        batches = self.tables[name]
        rows, ends = batches.rows(random.choice([1, 5, 20, 60]))
        put = Put(name, random.choice([*ABSENT]) if name in database else "CREATE", there, Table(batches.columns, rows))
        stream = stream_in_batches(random, put, ends)
        manners = ", ".join(f"{one.column.name} {one.column.type} {one.values}, {one.nulls} nulls" for one in batches.manners)
        said = f"put {name!r} ({there}) of {len(ends)} batches, {len(rows)} rows: {manners}"
        return MadePut(put, messages_of(random, ingest(random, put, b""), stream), None, said)


def narrow(random: Random, name: Name, values: list[Value]) -> Predicate:
    """A test that few of a column's values meet, which are given in their order, each once."""
    if not values or random.random() < 0.15:
        return random.choice([IsNull, lambda one: Not(IsNull(one))])(name)
    place = random.choice([0, len(values) - 1, random.randrange(len(values))])
    low, high, least = values[place], values[min(place + random.choice([0, 0, 1, 3]), len(values) - 1)], values[0]
    if isinstance(low, (Day, Moment)):
        low, high, least = (one.beside(random.choice([0, 0, 0, 1, -1])) for one in (low, high, least))
    elif isinstance(low, int) and not isinstance(low, bool):
        least = max(-GREATEST, min(GREATEST, least))
        low = max(-GREATEST, min(GREATEST, low + random.choice([0, 0, 0, 1, -1])))
        high = max(-GREATEST, min(GREATEST, high + random.choice([0, 0, 0, 1, -1])))
    match random.randrange(6):
        case 0 | 1:
            return Between(name, Literal(low), Literal(high))
        case 2:
            return Comparison("=", *random.choice([(name, Literal(low)), (Literal(low), name)]))
        case 3:
            return In(name, tuple(map(Literal, random.sample([low, high, least], random.randint(1, 3)))))
        case 4:
            return Comparison(random.choice(["<", "<="]), name, Literal(low)) if place * 2 < len(values) else Comparison(
                random.choice([">", ">="]), name, Literal(high))
    return Comparison(random.choice([*SIGNS]), name, Literal(low))


def in_order(values: list[Value]) -> list[Value]:
    """The values that are not null, each once."""
    return sorted({one for one in values if one is not None}, key=lambda one: one.encode() if isinstance(one, str) else one)


def few_of(random: Random, tests: list[Predicate], other: Predicate) -> Predicate:
    """A WHERE of such tests, and now and then of another predicate too."""
    where = tests[0]
    for test in tests[1:]:
        where = And(where, test) if random.random() < 0.7 else Or(where, test)
    if random.random() < 0.3:
        where = random.choice([And, And, Or])(where, other)
    return where if random.random() < 0.9 else Not(where)


class BatchedAsker(Asker):
    """Makes queries over one table, mostly with a WHERE that few of the table's rows meet."""

    def query(self) -> Query:
        query = super().query()
        if not self.columns or self.chance(0.2):
            return query
        tests = []
        for _ in range(self.random.choice([1, 1, 2, 3])):
            number = self.random.randrange(len(self.columns))
            tests.append(narrow(self.random, Name(self.columns[number].name), in_order([row[number] for row in self.rows])))
        return Query(query.items, query.table, query.alias, few_of(self.random, tests, self.predicate(1)))
