"""Databases of a large table and a small one, and what queries over them mean, in less than a second each.

The large table has 140,000 rows and more, in two to nine batches of unequal sizes, so several workers share a fetch of it.
What a query means is the same as in joined_model.py, which is too slow here. A WHERE is made into a function of a joined
row, a join looks its partners up by their keys, and of a group the rows are gathered one by one.
"""

from __future__ import annotations

import collections
from collections.abc import Callable
from itertools import pairwise
from operator import itemgetter
from random import Random

from random_calls.joined import Count, Item, Place, Query, Sum
from random_calls.plain_model import (And, Between, Column, Comparison, Database, In, Is, IsNull, Literal, Name, Not,
                                      Operand, Or, Predicate, Row, Truth, Value, both, compared, demand, either, negated)
from random_calls.wide import Choices, Sorted, WideJoiner, wide_columns

FEWEST_ROWS, MOST_ROWS = 140_000, 280_000
BATCHES, MOST_IN_BATCH = range(2, 10), 140_000  # a message has at most 16,777,216 bytes
SMALL_ROWS = [0, 1, 20, 100, 300]
APPENDED_ROWS = [1, 100, 5_000, 70_000]
LARGE, SMALL = "large", "small"  # the names of the tables

Numbers = dict[tuple[str, str], int]  # of a place's column the place in a joined row


def unequal_ends(random: Random, rows: int, batches: int) -> list[int]:
    """Where so many batches end, or more, so that none is too large: each of at least one row, and cut anywhere."""
    ends = [*sorted(random.sample(range(1, rows), batches - 1)), rows]
    if max(end - first for first, end in pairwise([0, *ends])) > MOST_IN_BATCH:
        return unequal_ends(random, rows, batches + 1)
    return ends


class Tables:
    """The rows of both tables, which have the same columns, and where their batches end."""

    def __init__(self, random: Random):
        self.random, self.columns, self.count = random, wide_columns(random), random.randint(FEWEST_ROWS, MOST_ROWS)
        self.choices = Choices(random, self.columns, self.count)

    def rows(self, name: str, appended: bool = False) -> tuple[list[Row], list[int]]:
        """The rows of a table, or some more of the large one."""
        count, batches = self.count, self.random.choice(BATCHES)
        if appended:
            count = self.random.choice(APPENDED_ROWS)
        elif name == SMALL:
            count = self.random.choice(SMALL_ROWS)
        ends = unequal_ends(self.random, count, min(batches, count)) if count else [0]
        return self.choices.rows(self.columns, count), ends


class LargeJoiner(WideJoiner):
    """Makes queries over both tables, which all bind. The large one stands first, mostly."""

    SHAPES = [(LARGE,)] * 6 + [(LARGE, SMALL)] * 3 + [(SMALL, LARGE), (LARGE, LARGE), (LARGE, SMALL, SMALL)]

    def __init__(self, random: Random, database: Database, sorted_values: Sorted, plain: bool = False):
        super().__init__(random, database, sorted_values, (LARGE,) if plain else random.choice(self.SHAPES), plain)


def large_query(random: Random, database: Database, sorted_values: Sorted) -> Query:
    """A query that binds, whose join has not too many rows."""
    while True:
        query = LargeJoiner(random, database, sorted_values).wide_query()
        if query is not None:
            return query


# ---- the columns of an answer


def answer_column(item: Item, alias: str | None, number: int, places: tuple[Place, ...]) -> Column:
    """The column of an item, which stands at this number, from 1."""
    match item:
        case Count():
            return Column(alias or f"col{number}", "Int64", False)
        case Sum():
            return Column(alias or f"col{number}", "Decimal128", True)
    place = next(place for place in places if place.name == item.place)
    column = next(column for column in place.columns if column.name == item.column)
    return Column(alias or column.name, f"Int32 into {number - 1}" if column.type == "dictionary" else column.type, column.nullable)


def answer_columns(query: Query, database: Database) -> list[Column]:
    """The columns of a query's answer, or the fault of a table that is not there."""
    demand(all(place.table in database for place in query.places), "F9")
    items = query.items or [(item, None) for item in query.selected()]
    return [answer_column(item, alias, number, query.places) for number, (item, alias) in enumerate(items, 1)]


# ---- meaning


def numbers_of(places: tuple[Place, ...]) -> Numbers:
    names = [(place.name, column.name) for place in places for column in place.columns]
    return {name: number for number, name in enumerate(names)}


def value_of(operand: Operand, numbers: Numbers) -> Callable[[Row], Value]:
    """An operand as a function of a joined row."""
    if isinstance(operand, Literal):
        return lambda row: operand.value
    return itemgetter(numbers[operand.place, operand.column])


def among(value: Value, known: set[Value], others: list[Value]) -> Truth:
    """IN: true where an item equals the value; else unknown where one of them is null."""
    if value is None:
        return None
    return True if value in known or value in others else None if None in others else False


def in_of(predicate: In, numbers: Numbers) -> Callable[[Row], Truth]:
    one, known = value_of(predicate.operand, numbers), {item.value for item in predicate.items if isinstance(item, Literal)}
    others = [value_of(item, numbers) for item in predicate.items if isinstance(item, Name)]
    return lambda row: among(one(row), known, [other(row) for other in others])


def test_of(predicate: Predicate, numbers: Numbers) -> Callable[[Row], Truth]:
    """A predicate as a function of a joined row."""
    match predicate:
        case Comparison(sign, left, right):
            one, other = value_of(left, numbers), value_of(right, numbers)
            return lambda row: compared(sign, one(row), other(row))
        case Between(operand, low, high):
            return test_of(And(Comparison(">=", operand, low), Comparison("<=", operand, high)), numbers)
        case In():
            return in_of(predicate, numbers)
        case IsNull(operand):
            value = value_of(operand, numbers)
            return lambda row: value(row) is None
        case Is(part, truth):
            test = test_of(part, numbers)
            return lambda row: test(row) is truth
        case Not(part):
            test = test_of(part, numbers)
            return lambda row: negated(test(row))
        case And(left, right):
            first, second = test_of(left, numbers), test_of(right, numbers)
            return lambda row: both(first(row), second(row))
        case Or(left, right):
            first, second = test_of(left, numbers), test_of(right, numbers)
            return lambda row: either(first(row), second(row))


def key_of(row: Row, numbers: list[int]) -> Row:
    return tuple([row[number] for number in numbers])


def joined_with(rows: list[Row], query: Query, number: int, database: Database) -> list[Row]:
    """Joined rows of the places before this one, joined with its own. A key with a null meets none."""
    place, before, own = query.places[number], numbers_of(query.places[:number]), numbers_of(query.places[number : number + 1])
    pairs = [pair if pair[1].place == place.name else pair[::-1] for pair in query.ons[number - 1]]
    left = [before[name.place, name.column] for name, _ in pairs]
    right = [own[name.place, name.column] for _, name in pairs]
    partners = collections.defaultdict(list)
    for row in database[place.table].rows:
        key = key_of(row, right)
        if None not in key:
            partners[key].append(row)
    return [row + other for row in rows for other in partners.get(key_of(row, left), ())]


def kept_rows(query: Query, database: Database, first: int, end: int) -> list[Row]:
    """The joined rows for which WHERE is true, over a range of the first place's rows."""
    rows = database[query.places[0].table].rows[first:end]
    for number in range(1, len(query.places)):
        rows = joined_with(rows, query, number, database)
    if query.where is None:
        return rows
    test = test_of(query.where, numbers_of(query.places))
    return [row for row in rows if test(row) is True]


def item_of(item: Item, numbers: Numbers) -> Callable[[list[Row]], Value]:
    """An item as a function of a group's rows: a key's value is that of the first row."""
    if item == Count(None):
        return len
    value = value_of(item if isinstance(item, Name) else item.column, numbers)
    if isinstance(item, Name):
        return lambda group: value(group[0])
    whole = len if isinstance(item, Count) else lambda values: sum(values) if values else None
    return lambda group: whole([found for found in map(value, group) if found is not None])


def answer_rows(query: Query, database: Database, first: int, end: int) -> list[Row]:
    """The rows of the answer over a range of the first place's rows. Groups stand by first appearance."""
    rows, numbers, items = kept_rows(query, database, first, end), numbers_of(query.places), query.selected()
    if not query.grouped:
        wanted = [numbers[item.place, item.column] for item in items]
        return [key_of(row, wanted) for row in rows]
    groups: dict[Row, list[Row]] = {} if query.keys else {(): []}
    keys = [numbers[key.place, key.column] for key in query.keys]
    for row in rows:
        groups.setdefault(key_of(row, keys), []).append(row)
    values = [item_of(item, numbers) for item in items]
    return [tuple([value(group) for value in values]) for group in groups.values()]
