"""Tables of many rows, and queries over them that keep none of the rows, one in 1,000, one in 100, half, nearly all or
all of them. Keys of joins and groups go from one for all rows to another one for each.

Literals are taken at a share of a column's sorted values. A join is asked only where it has no more than MOST_JOINED rows;
and where a column stands in several of its equalities, only if each alone leaves no more than MOST_PAIRS, of which
sqlite3 may look at all.
"""

from __future__ import annotations

import collections
from dataclasses import replace
from random import Random

from random_calls.batched import few_of, narrow
from random_calls.joined import Count, Item, Joiner, Place, Query, Sum
from random_calls.plain_model import (FIRST_DAY, FIRST_MOMENT, LAST_DAY, LAST_MOMENT, SIGNS, Between, Column, Comparison, Database, Day, In,
                                      IsNull, Literal, Moment, Name, Operand, Predicate, Row, Value, class_of)
from random_calls.puts import RANGES, TREES
from random_calls.queries import COUNTED

ROWS = 70_000
MOST_JOINED, MOST_PAIRS = 150_000, 1_500_000
SHARES = [0, 0.001, 0.01, 0.5, 0.99, 0.999, 1]
FEWEST = [1, 2, 3, 10, 100, 1000, 10_000]  # of the values of a column, but as many as rows
NULLS = [0, 0, 0, 0.01, 0.3, 0.5, 0.99, 1]  # the shares of them
COUNTS = [1, 2, 3, 7, 20, 100, 256]  # of the items of an IN
MOST_WORDS = 60  # of a dictionary, to which a put may add some that it does not need
WORDS = ["", "a", "Z", "abcdefgh", "abcdefghi", "abcdefghj", "\u00e9", "\U00010000"]
TOP = 2**63  # numbers that sqlite3 knows lie below it
SUM_LIMIT = 2**62
MOST_COUNTS = 16


def wide_columns(random: Random) -> tuple[Column, ...]:
    """Six columns, of numbers, texts and any types."""
    kinds = ["Int64", random.choice([*RANGES]), random.choice(["Utf8", "dictionary"]), *random.choices([*TREES], k=3)]
    return tuple(Column(f"{'abcdef'[number]}", kind, random.random() < 0.7) for number, kind in enumerate(kinds))


def numbers_of(random: Random, kind: str, count: int) -> list[int]:
    """So many numbers of a type, or as many as it has: close together, or anywhere and with those at the ends."""
    least, above = (max(RANGES[kind][0], -TOP), min(RANGES[kind][1], TOP))
    if random.random() < 0.5:
        first = random.choice([least, max(least, -count // 2), max(least, above - count)])
        return list(range(first, min(first + count, above)))
    if above - least <= 2 * count:
        return list(range(least, above))[:count]
    return sorted({least, above - 1, *(random.randrange(least, above) for _ in range(count))})[-count:]


def texts_of(random: Random, count: int) -> list[str]:
    """So many texts: a few short ones and many that begin alike."""
    first = random.choice(["", "abcdefg", "abcdefgh", "abcdefghijkl"])
    return random.sample(WORDS, min(count, 4)) + [f"{first}{number}" for number in range(count - 4)]


def choices_of(random: Random, column: Column, rows: int) -> list[Value]:
    """The values of a column. The first one has many, so that joins by it have not too many rows; a dictionary has no more
    than its indices of 8 bits lead to."""
    kind, few = column.type, random.choice([10_000, rows] if column.name == "a" else [*FEWEST, rows, rows, rows])
    match class_of(kind):
        case "truth":
            return [False, True]
        case "text":
            return texts_of(random, min(few, MOST_WORDS) if kind == "dictionary" else few)
        case "date":
            return [Day(day) for day in random.sample(range(FIRST_DAY, LAST_DAY + 1), few)]
        case "timestamp":
            first, step = random.choice([FIRST_MOMENT, 0, LAST_MOMENT - 10**12]), random.choice([1, 1000, 10**6])
            if random.random() < 0.5:
                return [Moment(first + number * step) for number in range(few)]
            return [Moment(moment) for moment in random.sample(range(FIRST_MOMENT, LAST_MOMENT + 1), few)]
    return numbers_of(random, kind, few)


def column_of(random: Random, column: Column, choices: list[Value], rows: int) -> list[Value]:
    """What stands in the rows: each value as often, or the first one mostly and others one time in 100 and in 1,000."""
    nulls = random.choice(NULLS[:-2] if column.name == "a" else NULLS) if column.nullable else 0
    if len(choices) >= rows:
        found = random.sample(choices, rows)
    elif random.random() < 0.5:
        found = random.choices(choices, k=rows)
    else:
        ranks = random.choices([0, 1, 2], [989, 10, 1], k=rows)
        found = [choices[min(rank, len(choices) - 1)] for rank in ranks]
    return [None if random.random() < nulls else value for value in found]


class Choices:
    """The values that the columns of a database have: its small table has those of the wide one, as far as they fit."""

    def __init__(self, random: Random, columns: tuple[Column, ...], rows: int):
        self.random, self.of = random, {column: choices_of(random, column, rows) for column in columns}

    def rows(self, columns: tuple[Column, ...], count: int) -> list[Row]:
        """Rows of these columns. In a small table a column has a part of its values."""
        found = []
        for column in columns:
            choices = self.of[column]
            if count < len(choices) and self.random.random() < 0.7:
                choices = self.random.sample(choices, self.random.randint(1, max(count, 1)))
            found.append(column_of(self.random, column, choices, count))
        return list(zip(*found))


class Sorted:
    """The values of a database's columns in their order, without nulls, and how often keys of several columns stand there."""

    def __init__(self, database: Database):
        self.of: dict[tuple[str, str], list[Value]] = {}
        self.counts: dict[tuple[str, tuple[int, ...]], collections.Counter] = {}
        self.database = database
        for name, table in database.items():
            for number, column in enumerate(table.columns):
                values = (row[number] for row in table.rows)
                self.of[name, column.name] = sorted((one for one in values if one is not None), key=self.rank)

    @staticmethod
    def rank(value: Value) -> bytes | int | bool:
        return value.encode() if isinstance(value, str) else value

    def at(self, table: str, column: str, share: float) -> Value:
        """The value below which lies this share of them; None where there is none."""
        values = self.of[table, column]
        return values[min(int(share * len(values)), len(values) - 1)] if values else None

    def once(self, table: str, column: str) -> list[Value]:
        """Each of them once."""
        return list(dict.fromkeys(self.of[table, column]))

    def keys(self, table: str, numbers: tuple[int, ...]) -> collections.Counter:
        """How often each key of these columns of a table stands there. One with a null does not count. A few are kept."""
        if (table, numbers) not in self.counts:
            if len(self.counts) == MOST_COUNTS:
                self.counts.pop(next(iter(self.counts)))
            keys = (tuple([row[number] for number in numbers]) for row in self.database[table].rows)
            self.counts[table, numbers] = collections.Counter(key for key in keys if None not in key)
        return self.counts[table, numbers]

    def may_sum(self, table: str, column: str) -> bool:
        """Whether sums of the column have 63 bits, and sqlite3 gives them."""
        values = self.of[table, column]
        return not values or max(abs(values[0]), abs(values[-1])) * len(values) < SUM_LIMIT


class WideJoiner(Joiner):
    """Makes queries over a wide and a small table, which all bind."""

    def __init__(self, random: Random, database: Database, sorted_values: Sorted, tables: tuple[str, ...], plain: bool):
        self.random, self.database, self.sorted, self.plain = random, database, sorted_values, plain
        names = ["p", "q", "r"]
        self.places = tuple(Place(table, name, database[table].columns) for table, name in zip(tables, names))
        self.tables = {place.name: place.table for place in self.places}

    def other_than(self, kind: str) -> Literal:
        """A literal of a class that may stand nowhere."""
        numbers = [0, 1, -1, 127, 255, 2**31, 2**53, TOP - 1, self.random.randrange(-TOP, TOP)]
        values = {"number": numbers, "text": [*WORDS, "abcdefgh5"], "truth": [False, True],
                  "date": [Day(FIRST_DAY), Day(0), Day(8766), Day(LAST_DAY)],
                  "timestamp": [Moment(FIRST_MOMENT), Moment(0), Moment(1), Moment(LAST_MOMENT)]}
        return Literal(self.random.choice(values[kind]))

    def beside(self, name: Name, kind: str, share: float) -> Literal:
        """The value of a column at a share of them, or the number before or behind it."""
        value = self.sorted.at(self.tables[name.place], name.column, share)
        if value is None:
            return self.other_than(kind)
        if kind in COUNTED:
            return Literal(value.beside(self.random.choice([0, 0, 0, 1, -1])))
        moved = value + self.random.choice([0, 0, 0, 1, -1]) if kind == "number" else value
        return Literal(moved if kind != "number" or -TOP < moved < TOP else value)

    def item(self, name: Name, kind: str) -> Operand:
        """An item of an IN: mostly a value of the column."""
        return self.beside(name, kind, self.random.random()) if self.chance(0.8) else self.other_than(kind)

    def test(self) -> Predicate:
        """A predicate without parts. Its column is mostly one of the first place."""
        name = self.name(None, self.places[: 1 if self.chance(0.7) else None])
        kind = next(class_of(one.type) for place in self.places if place.name == name.place
                    for one in place.columns if one.name == name.column)
        share, sign = self.random.choice(SHARES), self.random.choice(list(SIGNS))
        match self.random.randrange(10):
            case 0:
                return IsNull(name)
            case 1 | 2:
                low = self.random.random() * (1 - share)
                return Between(name, self.beside(name, kind, low), self.beside(name, kind, low + share))
            case 3 | 4:
                items = [self.item(name, kind) for _ in range(self.random.choice(COUNTS))]
                return In(name, (*items[:-1], self.name(kind)) if self.chance(0.15) else tuple(items))
            case 5:
                return Comparison(sign, name, self.name(kind))
            case 6:
                return Comparison(sign, self.beside(name, kind, share), name)
        return Comparison(sign, name, self.beside(name, kind, share))

    def equalities(self, number: int) -> tuple[tuple[Name, Name], ...]:
        """The equalities of a place with those before it, mostly of columns of one name, which have the same values."""
        found = []
        for _ in range(self.random.choice([1, 1, 1, 2, 3])):
            columns, before = self.places[number].columns, self.random.choice(self.places[:number])
            column = columns[0] if self.chance(0.3) else self.random.choice(columns)
            other = Name(column.name, before.name) if self.chance(0.8) else self.name(class_of(column.type), (before,))
            pair = (other, Name(column.name, self.places[number].name))
            found.append(pair if self.chance(0.5) else pair[::-1])
        return tuple(found)

    def groups(self) -> tuple[tuple[tuple[Item, str | None], ...], tuple[Name, ...]]:
        """Items and keys of a grouped query of one place."""
        place = self.places[0]
        names = [Name(column.name, place.name) for column in place.columns]
        keys = tuple(self.random.sample(names, min(len(names), self.random.choice([0, 1, 1, 1, 2, 3]))))
        summed = [Name(column.name, place.name) for column in place.columns if class_of(column.type) == "number"
                  and column.type != "Decimal128" and self.sorted.may_sum(place.table, column.name)]
        items = [*keys, Count(None), Count(self.name()), *map(Sum, summed)]
        return tuple((item, self.alias()) for item in items), keys

    def wide_query(self) -> Query | None:
        """A query that binds; none where its join has too many rows, and mostly none where it has no row."""
        ons = tuple(self.equalities(number) for number in range(1, len(self.places)))
        most = self.joined_at_most(ons)
        if most > MOST_JOINED or most == 0 and self.chance(0.95):
            return None
        where = self.predicate(self.random.choice([0, 0, 1, 2])) if self.chance(0.85) else None
        items, keys = tuple((self.name(), self.alias()) for _ in range(self.random.choice([1, 1, 2, 3]))), ()
        if not ons and not self.plain and self.chance(0.4):
            items, keys = self.groups()
        return Query(items, self.places, ons, where, keys)

    def joined_at_most(self, ons: tuple[tuple[tuple[Name, Name], ...], ...]) -> int:
        """A bound for how many rows a join has: exact for two places, and then times the most rows of one key."""
        rows = len(self.database[self.places[0].table].rows)
        for number, equalities in enumerate(ons, 1):
            pairs = [pair if pair[1].place == self.places[number].name else pair[::-1] for pair in equalities]
            if number == 1:
                apart = len({left for left, _ in pairs}) == len({right for _, right in pairs}) == len(pairs)
                rows = self.joined_by(pairs)
                if not apart and max(self.joined_by([pair]) for pair in pairs) > MOST_PAIRS:
                    return MOST_PAIRS
            else:
                rows *= max(self.keys_of([right for _, right in pairs]).values(), default=0)
        return rows

    def joined_by(self, pairs: list[tuple[Name, Name]]) -> int:
        """How many rows two places have, joined by these equalities."""
        left, right = self.keys_of([left for left, _ in pairs]), self.keys_of([right for _, right in pairs])
        return sum(count * right[key] for key, count in left.items())

    def keys_of(self, names: list[Name]) -> collections.Counter:
        """How often each key of these columns of one place stands there."""
        place = next(place for place in self.places if place.name == names[0].place)
        columns = [column.name for column in place.columns]
        return self.sorted.keys(place.table, tuple(columns.index(name.column) for name in names))


class NarrowJoiner(WideJoiner):
    """Makes queries whose WHERE few rows of the tables meet, by tests of one place each and now and then of several."""

    def narrow_query(self) -> Query | None:
        query = self.wide_query()
        if query is None or self.chance(0.1):
            return query
        tests = []
        for _ in range(self.random.choice([1, 1, 2, 3])):
            place = self.random.choice(self.places)
            name = self.name(None, (place,))
            tests.append(narrow(self.random, name, self.sorted.once(place.table, name.column)))
        return replace(query, where=few_of(self.random, tests, self.predicate(1)))
