"""Queries at random with joins and groups, over small tables whose values meet often: their text for the server, and
their text for sqlite3.

For sqlite3 each name has its place, each predicate its parentheses, and the order that docs/SQL.md states is asked for:
joined rows by the numbers of their rows, the first place outermost, and groups by the least number of a row.
"""

from __future__ import annotations

from dataclasses import dataclass
from random import Random

from random_calls.plain_model import (FIRST_DAY, LAST_DAY, LAST_MOMENT, MICROSECONDS, And, Between, Column, Comparison, Database,
                                      Day, In, Is, IsNull, Literal, Moment, Name, Not, Operand, Or, Predicate, Value, class_of)
from random_calls.puts import MOMENTS, RANGES, TEXTS
from random_calls.queries import COUNTED, Asker, Speller

LARGE = 2**55  # of 200 of these no sum has more than 64 bits, which sqlite3 would refuse
NUMBERS = [1, 2, 3, 100, -1, -2, 127, 255, -128, LARGE, -LARGE]
DAYS = [FIRST_DAY, LAST_DAY, 8766, -1, 11016, FIRST_DAY - 1, LAST_DAY + 1, -(2**31), 2**31 - 1]
ALIASES = ["p", "q", "r", "w", "on p", "from"]  # of places; tables have other names
SUMMED = [name for name in RANGES if name != "Decimal128"]
LONGEST_TEXT = 16_384


@dataclass(frozen=True)
class Place:
    """A table of a query, with the alias under which it stands there."""

    table: str
    alias: str | None
    columns: tuple[Column, ...]

    @property
    def name(self) -> str:
        return self.alias or self.table


@dataclass(frozen=True)
class Count:
    """`COUNT(*)`, or `COUNT` of a column."""

    column: Name | None


@dataclass(frozen=True)
class Sum:
    column: Name


Item = Name | Count | Sum


@dataclass(frozen=True)
class Query:
    """A query of one or more places. No items are `*`. Behind each further place stand its equalities, in `ons`."""

    items: tuple[tuple[Item, str | None], ...]
    places: tuple[Place, ...]
    ons: tuple[tuple[tuple[Name, Name], ...], ...]
    where: Predicate | None
    keys: tuple[Name, ...]

    @property
    def grouped(self) -> bool:
        return bool(self.keys) or any(not isinstance(item, Name) for item, _ in self.items)

    def selected(self) -> list[Item]:
        """The items, and for `*` all columns of all places."""
        every = [Name(column.name, place.name) for place in self.places for column in place.columns]
        return [item for item, _ in self.items] or every


class Values:
    """The values that a database has: a few, so that they meet again; where it is large, some hundred."""

    def __init__(self, random: Random, large: bool):
        self.random = random
        self.numbers = [0, *random.sample(NUMBERS, random.randrange(1, 5))]
        self.texts = random.sample(TEXTS[:-1], random.randrange(1, 5))
        self.days = [Day(0), *map(Day, random.sample(DAYS, random.randrange(1, 5)))]
        self.moments = [Moment(0), *map(Moment, random.sample(MOMENTS, random.randrange(1, 5)))]
        if large:
            self.numbers = [*random.sample(range(-100, 100), 80), *random.sample(range(2**40), 20)]
            self.texts += [f"text {number}" for number in random.sample(range(1000), 100)]
            self.days += map(Day, random.sample(range(8000, 12000), 100))
            self.moments += [Moment(LAST_MOMENT - number * 1_000_000) for number in random.sample(range(1000), 100)]

    def value(self, kind: str) -> Value:
        match class_of(kind):
            case "truth":
                return self.random.random() < 0.5
            case "text":
                return self.random.choice(self.texts)
            case "date":
                return self.random.choice(self.days)
            case "timestamp":
                return self.random.choice(self.moments)
        least, above = RANGES[kind]
        few = [number for number in self.numbers if least <= number < above]
        ends = [max(least, -LARGE), min(above - 1, LARGE)]
        return self.random.choice(few if self.random.random() < 0.9 else ends)


# ---- queries at random


class Joiner(Asker):
    """Makes queries of one of these numbers of places, which all bind. Where one place is the only number, no query has groups."""

    def __init__(self, random: Random, database: Database, values: Values, counts: list[int]):
        self.random, self.database, self.values, self.plain = random, database, values, counts == [1]
        count = random.choice(counts)
        self.places: tuple[Place, ...] = ()
        for _ in range(count):
            self.places += (self.place(),)
        self.columns = [column for place in self.places for column in place.columns]
        self.rows = [[value for place in self.places for value in self.row_of(place)] for _ in range(3)]

    def place(self) -> Place:
        """A further place, of a table that may stand there already; its name is a new one."""
        table, taken = self.random.choice(list(self.database)), [place.name for place in self.places]
        alias = self.random.choice([name for name in ALIASES if name not in taken])
        plain = table not in taken and self.chance(0.5)
        return Place(table, None if plain else alias, self.database[table].columns)

    def row_of(self, place: Place) -> list[Value]:
        rows = self.database[place.table].rows
        return list(self.random.choice(rows)) if rows else [None] * len(place.columns)

    def name(self, kind: str | None = None, places: tuple[Place, ...] | None = None) -> Name | None:
        """A column with its place, of a class if one is asked for."""
        names = [Name(column.name, place.name) for place in (self.places if places is None else places)
                 for column in place.columns if kind in (None, class_of(column.type))]
        return self.random.choice(names) if names else None

    def literal(self, kind: str) -> Literal:
        """A literal of a class: one of the few values, or a number beside it."""
        kinds = {"number": "Int64", "text": "Utf8", "truth": "Bool", "date": "Date", "timestamp": MICROSECONDS}
        value, moved = self.values.value(kinds[kind]), self.random.choice([0, 0, 0, 1, -1])
        if kind in COUNTED:
            return Literal(value.beside(moved))
        return Literal(value + moved if kind == "number" else value)

    def operand(self, kind: str, most: float = 0.4) -> Operand:
        name = self.name(kind) if self.chance(most) else None
        return name or self.literal(kind)

    def equalities(self, number: int) -> tuple[tuple[Name, Name], ...]:
        """The equalities of a place with the ones before it; none where no column fits another."""
        found = []
        for _ in range(self.random.choice([1, 1, 1, 2, 3])):
            column = self.random.choice(self.places[number].columns)
            other = self.name(class_of(column.type), self.places[:number])
            if other is not None:
                pair = (other, Name(column.name, self.places[number].name))
                found.append(pair if self.chance(0.5) else pair[::-1])
        return tuple(found)

    def groups(self) -> tuple[tuple[tuple[Item, str | None], ...], tuple[Name, ...]]:
        """Items and keys of a grouped query of one place."""
        place = self.places[0]
        names = [Name(column.name, place.name) for column in place.columns]
        keys = tuple(self.random.choices(names, k=self.random.choice([0, 1, 1, 2])))
        summed = [Name(column.name, place.name) for column in place.columns if column.type in SUMMED]
        choices = [*keys, *keys, Count(None), Count(self.name()), *map(Sum, summed)]
        if not keys:
            choices = [one for one in choices if not isinstance(one, Name)]
        items = self.random.choices(choices, k=self.random.choice([1, 2, 3, 4]))
        return tuple((item, self.alias()) for item in items), keys

    def alias(self) -> str | None:
        return self.random.choice([None, None, "n", "a", "sum"])

    def joined_query(self) -> Query | None:
        """A query that binds; none where two places have no columns that compare."""
        ons = tuple(self.equalities(number) for number in range(1, len(self.places)))
        where = self.predicate(self.random.choice([0, 1, 2, 3])) if self.chance(0.6) else None
        items, keys = (), ()
        if len(self.places) == 1 and not self.plain and self.chance(0.7):
            items, keys = self.groups()
        elif self.chance(0.8):
            items = tuple((self.name(), self.alias()) for _ in range(self.random.choice([1, 2, 3, 5])))
        return Query(items, self.places, ons, where, keys) if all(ons) else None


# ---- the text for the server


class JoinSpeller(Speller):
    """Writes a query in one of the ways that mean it. A name has its place where it needs it, or at times."""

    def __init__(self, random: Random):
        super().__init__(random)
        self.seen: tuple[Place, ...] = ()  # the places that a name may look at

    def operand(self, operand: Operand | Item) -> list[str]:
        match operand:
            case Count(column):
                inner = ["*"] if column is None else self.operand(column)
                return [self.word("COUNT"), "(", *inner, ")"]
            case Sum(column):
                return [self.word("SUM"), "(", *self.operand(column), ")"]
            case Name(column, place):
                found = [one for one in self.seen for other in one.columns if other.name == column]
                if len(found) == 1 and self.random.random() < 0.5:
                    return [self.name(column)]
                return [self.name(place), ".", self.name(column)]
        return super().operand(operand)

    def place(self, place: Place) -> list[str]:
        return [self.name(place.table), *self.named(place.alias)]

    def join(self, places: tuple[Place, ...], equalities: tuple[tuple[Name, Name], ...]) -> list[str]:
        """The last of the places, joined to those before it."""
        self.seen = places
        tokens = [*self.words(*["INNER"] * self.random.randrange(2), "JOIN"), *self.place(places[-1])]
        for number, (left, right) in enumerate(equalities):
            tokens += [self.word("AND" if number else "ON"), *self.operand(left), "=", *self.operand(right)]
        return tokens

    def joined_query(self, query: Query) -> str:
        """The whole text."""
        joins = []
        for number, equalities in enumerate(query.ons, 2):
            joins += self.join(query.places[:number], equalities)
        self.seen = query.places
        items = [[*self.operand(item), *self.named(alias)] for item, alias in query.items] or [["*"]]
        tokens = [token for item in items for token in [",", *item]][1:]
        tokens = [self.word("SELECT"), *tokens, self.word("FROM"), *self.place(query.places[0]), *joins]
        if query.where is not None:
            tokens += [self.word("WHERE"), *self.predicate(query.where)]
        if query.keys:
            tokens += [*self.words("GROUP", "BY"), *self.operands(query.keys)]
        return self.joined(tokens + [";"] * (self.random.random() < 0.2))


# ---- the text for sqlite3


def sqlite_name(name: str) -> str:
    return '"' + name.replace('"', '""') + '"'


def sqlite_value(value: Value) -> str:
    """A literal; a truth value is 1 or 0."""
    if value is None:
        return "NULL"
    return "'" + value.replace("'", "''") + "'" if isinstance(value, str) else str(int(value))


def sqlite_operand(operand: Operand | Item) -> str:
    match operand:
        case Literal(bool(value)):
            return "TRUE" if value else "FALSE"
        case Literal(value):
            return sqlite_value(value)
        case Name(column, place):
            return f"{sqlite_name(place)}.{sqlite_name(column)}"
        case Count(None):
            return "COUNT(*)"
        case Count(column):
            return f"COUNT({sqlite_operand(column)})"
    return f"SUM({sqlite_operand(operand.column)})"


def sqlite_list(operands: tuple[Operand, ...]) -> str:
    return ", ".join(map(sqlite_operand, operands))


def sqlite_predicate(predicate: Predicate) -> str:
    """A predicate in parentheses. To sqlite3 unknown is NULL."""
    match predicate:
        case Comparison(sign, left, right):
            return f"({sqlite_operand(left)} {sign} {sqlite_operand(right)})"
        case Between(operand, low, high):
            return f"({sqlite_operand(operand)} BETWEEN {sqlite_operand(low)} AND {sqlite_operand(high)})"
        case In(operand, items):
            return f"({sqlite_operand(operand)} IN ({sqlite_list(items)}))"
        case IsNull(operand):
            return f"({sqlite_operand(operand)} IS NULL)"
        case Is(part, truth):
            return f"({sqlite_predicate(part)} IS {'NULL' if truth is None else str(truth).upper()})"
        case Not(part):
            return f"(NOT {sqlite_predicate(part)})"
        case And(left, right):
            return f"({sqlite_predicate(left)} AND {sqlite_predicate(right)})"
        case Or(left, right):
            return f"({sqlite_predicate(left)} OR {sqlite_predicate(right)})"


def sqlite_query(query: Query) -> str:
    """The query with its order. The columns of the answer are named 0, 1 and so on, and behind them stands the number of the row
    of the first place, from 1; of groups 1."""
    rows = [f"{sqlite_name(place.name)}.rowid" for place in query.places]
    items = [*map(sqlite_operand, query.selected()), "1" if query.grouped else rows[0]]
    text = "SELECT " + ", ".join(f'{item} AS "{number}"' for number, item in enumerate(items))
    for number, place in enumerate(query.places):
        text += f"{' JOIN ' if number else ' FROM '}{sqlite_name(place.table)} AS {sqlite_name(place.name)}"
        if number:
            pairs = query.ons[number - 1]
            text += " ON " + " AND ".join(f"{sqlite_operand(left)} = {sqlite_operand(right)}" for left, right in pairs)
    if query.where is not None:
        text += " WHERE " + sqlite_predicate(query.where)
    if query.keys:
        text += " GROUP BY " + sqlite_list(query.keys)
    return text + " ORDER BY " + (f"MIN({rows[0]})" if query.grouped else ", ".join(rows)) + ";"
