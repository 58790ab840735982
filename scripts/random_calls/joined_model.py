"""What queries with joins and groups mean, on plain lists: nested loops, and groups by first appearance.

Written from docs/SQL.md alone. A joined row is a dict from a place and a column, as a query names them, to the value.
"""

from __future__ import annotations

from random_calls.joined import Count, Item, Query
from random_calls.plain_model import Database, Literal, Name, Operand, Row, Value, compared, truth_of

Joined = dict[tuple[str, str], Value]


def value_in(joined: Joined, operand: Operand) -> Value:
    return operand.value if isinstance(operand, Literal) else joined[operand.place, operand.column]


def joined_rows(query: Query, database: Database, part: slice) -> list[Joined]:
    """The rows for which all equalities are true, in the order of nested loops. The first place has a part of its rows."""
    found: list[Joined] = [{}]
    parts = [part, *[slice(None)] * len(query.ons)]
    for place, equalities, wanted in zip(query.places, [(), *query.ons], parts):
        names = [(place.name, column.name) for column in place.columns]
        rows = [dict(zip(names, row)) for row in database[place.table].rows[wanted]]
        longer = [before | row for before in found for row in rows]
        found = [row for row in longer if all(
            compared("=", value_in(row, left), value_in(row, right)) is True for left, right in equalities)]
    return found


def kept_rows(query: Query, database: Database, part: slice) -> list[Joined]:
    """The joined rows for which WHERE is true."""
    return [row for row in joined_rows(query, database, part)
            if query.where is None or truth_of(query.where, lambda operand: value_in(row, operand)) is True]


def in_group(item: Item, group: list[Joined]) -> Value:
    """An item's value in a group: a key's is that of the first row."""
    if isinstance(item, Name):
        return value_in(group[0], item)
    if item == Count(None):
        return len(group)
    values = [value for row in group if (value := value_in(row, item.column)) is not None]
    if isinstance(item, Count):
        return len(values)
    return sum(values) if values else None


def query_rows(query: Query, database: Database, first: int = 0, end: int | None = None) -> list[Row]:
    """The rows of the answer, over those of the first place from `first` up to, not with, `end`. A dict has its keys by
    first appearance."""
    rows, items = kept_rows(query, database, slice(first, end)), query.selected()
    if not query.grouped:
        return [tuple(value_in(row, item) for item in items) for row in rows]
    groups: dict[Row, list[Joined]] = {} if query.keys else {(): []}
    for row in rows:
        groups.setdefault(tuple(value_in(row, key) for key in query.keys), []).append(row)
    return [tuple(in_group(item, group) for item in items) for group in groups.values()]
