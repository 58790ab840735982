"""What puts and queries mean, on plain lists.

A database is a dict from names to tables, and a table is columns and a list of rows. A value is None, a bool, an int,
a Day, a Moment or a str. Written from the words of docs/PROTOCOL.md and docs/SQL.md alone: it shares nothing with the crates.
"""

from __future__ import annotations

import operator
from collections.abc import Callable
from dataclasses import dataclass

FIRST_DAY, LAST_DAY = -719_162, 2_932_896  # 0001-01-01 and 9999-12-31: the dates that a query can name
DAY_MICROS = 86_400_000_000
MICROSECONDS = "Timestamp(Microsecond, false)"  # the type of timestamps here, as vectors/arrow names it


# 0001-01-01 00:00:00 and 9999-12-31 23:59:59.999999: the timestamps that a query can name.
FIRST_MOMENT, LAST_MOMENT = FIRST_DAY * DAY_MICROS, (LAST_DAY + 1) * DAY_MICROS - 1


class Day(int):
    """A date, by its number of days since 1970-01-01. It compares as a number does, and is of a class of its own."""

    def beside(self, days: int) -> Day:
        """The date so many days behind, of those that a query can name."""
        return Day(max(FIRST_DAY, min(LAST_DAY, self + days)))


class Moment(int):
    """A timestamp, by its number of microseconds since 1970-01-01 00:00:00. It is of a class of its own, too."""

    def beside(self, micros: int) -> Moment:
        """The timestamp so many microseconds behind, of those that a query can name."""
        return Moment(max(FIRST_MOMENT, min(LAST_MOMENT, self + micros)))


Value = None | bool | int | str | Day | Moment
Row = tuple[Value, ...]
Truth = bool | None  # None is unknown


class Refused(Exception):
    """A fault, by its number: what refuses a put or a query."""

    def __init__(self, fault: str):
        super().__init__(fault)
        self.fault = fault


def demand(truth: bool, fault: str) -> None:
    if not truth:
        raise Refused(fault)


# ---- tables and puts


@dataclass(frozen=True)
class Column:
    """A column. Of a dictionary of texts with any index the type is `dictionary`."""

    name: str
    type: str
    nullable: bool


@dataclass(frozen=True)
class Table:
    columns: tuple[Column, ...]
    rows: list[Row]


Database = dict[str, Table]


@dataclass(frozen=True)
class Put:
    """A put that was read: what it asks where the table is absent and where it is there, and its table."""

    name: str
    if_absent: str  # unspecified, CREATE or FAIL
    if_there: str  # unspecified, FAIL, APPEND or REPLACE
    table: Table


def after(database: Database, put: Put) -> Database:
    """The database after a put; its checks stand in their order."""
    columns, old = put.table.columns, database.get(put.name)
    demand(1 <= len(put.name.encode()) <= 64, "F12")
    demand(old is None or put.if_there in ("APPEND", "REPLACE"), "F10")
    demand(old is not None or put.if_absent == "CREATE", "F9")
    appends = old is not None and put.if_there == "APPEND"
    demand(len({column.name for column in columns}) == len(columns), "F11")
    demand(not appends or old.columns == columns, "F11")
    for row in put.table.rows:
        demand(all(cell is not None or column.nullable for cell, column in zip(row, columns)), "F8")
    rows = old.rows + put.table.rows if appends else put.table.rows
    cells = (cell for row in put.table.rows for cell in row)
    demand(all(len(cell.encode()) <= 65_536 for cell in cells if isinstance(cell, str)), "F12")
    demand(len(rows) <= 16_777_216 and len(database.keys() | {put.name}) <= 256, "F12")
    return database | {put.name: Table(columns, rows)}


TABLE_COLUMNS = (Column("catalog_name", "Utf8", True), Column("db_schema_name", "Utf8", True),
                 Column("table_name", "Utf8", False), Column("table_type", "Utf8", False))


def tables_of(database: Database) -> Table:
    """The answer of CommandGetTables."""
    names = sorted(database, key=str.encode)
    return Table(TABLE_COLUMNS, [(None, None, name, "TABLE") for name in names])


# ---- queries of one table


@dataclass(frozen=True)
class Name:
    """A column in a query, with the name of its place where one is said."""

    column: str
    place: str | None = None


@dataclass(frozen=True)
class Literal:
    value: bool | int | str


Operand = Name | Literal


@dataclass(frozen=True)
class Comparison:
    sign: str
    left: Operand
    right: Operand


@dataclass(frozen=True)
class Between:
    operand: Operand
    low: Operand
    high: Operand


@dataclass(frozen=True)
class In:
    operand: Operand
    items: tuple[Operand, ...]


@dataclass(frozen=True)
class IsNull:
    operand: Operand


@dataclass(frozen=True)
class Is:
    """`part IS TRUE`, and so on."""

    part: Predicate
    truth: Truth


@dataclass(frozen=True)
class Not:
    part: Predicate


@dataclass(frozen=True)
class And:
    left: Predicate
    right: Predicate


@dataclass(frozen=True)
class Or:
    left: Predicate
    right: Predicate


Predicate = Comparison | Between | In | IsNull | Is | Not | And | Or


@dataclass(frozen=True)
class Query:
    """`SELECT items FROM table alias WHERE where`. Each item is a name with an alias or None; no items are `*`."""

    items: tuple[tuple[Name, str | None], ...]
    table: str
    alias: str | None
    where: Predicate | None


# ---- binding: the first fault of a query, and the columns of its answer


def class_of(type_name: str) -> str:
    classes = {"Utf8": "text", "dictionary": "text", "Bool": "truth", "Date": "date", MICROSECONDS: "timestamp"}
    return classes.get(type_name, "number")


class Scope:
    """The one place of a query, whose columns its names mean."""

    def __init__(self, query: Query, database: Database):
        demand(query.table in database, "F9")
        self.place, self.columns = query.alias or query.table, database[query.table].columns

    def number(self, name: Name) -> int:
        """Which column a name means."""
        found = [number for number, column in enumerate(self.columns) if column.name == name.column]
        demand(name.place in (None, self.place) and len(found) == 1, "F14")
        return found[0]

    def value(self, operand: Operand, row: Row) -> Value:
        return row[self.number(operand)] if isinstance(operand, Name) else operand.value

    def class_of(self, operand: Operand) -> str:
        if isinstance(operand, Name):
            return class_of(self.columns[self.number(operand)].type)
        return {bool: "truth", int: "number", str: "text", Day: "date", Moment: "timestamp"}[type(operand.value)]

    def check(self, predicate: Predicate) -> None:
        """The first fault of a predicate, from the left."""
        match predicate:
            case Comparison(_, left, right):
                demand(self.class_of(left) == self.class_of(right), "F15")
            case Between(operand, low, high):
                self.check(In(operand, (low, high)))
            case In(operand, items):
                wanted = self.class_of(operand)
                for item in items:
                    demand(self.class_of(item) == wanted, "F15")
            case IsNull(operand):
                self.class_of(operand)
            case Not(part) | Is(part, _):
                self.check(part)
            case And(left, right) | Or(left, right):
                self.check(left)
                self.check(right)


def answer_columns(query: Query, database: Database) -> tuple[Column, ...]:
    """The columns of a query's answer, or the first fault. A dictionary is answered as one whose id is the column's number."""
    scope = Scope(query, database)
    if query.where is not None:
        scope.check(query.where)
    every = [(Name(column.name), None) for column in scope.columns]
    found = []
    for name, alias in query.items or every:
        column = scope.columns[scope.number(name)]
        kind = f"Int32 into {len(found)}" if column.type == "dictionary" else column.type
        found.append(Column(alias or column.name, kind, column.nullable))
    demand(len(found) <= 64, "F12")
    return tuple(found)


# ---- meaning

SIGNS = {"=": operator.eq, "<>": operator.ne, "!=": operator.ne, "<": operator.lt, "<=": operator.le,
         ">": operator.gt, ">=": operator.ge}


def negated(truth: Truth) -> Truth:
    return None if truth is None else not truth


def both(left: Truth, right: Truth) -> Truth:
    """AND: false where a side is false; else unknown where a side is unknown."""
    if left is False or right is False:
        return False
    return None if left is None or right is None else True


def either(left: Truth, right: Truth) -> Truth:
    """OR: true where a side is true; else unknown where a side is unknown."""
    if left is True or right is True:
        return True
    return None if left is None or right is None else False


def compared(sign: str, left: Value, right: Value) -> Truth:
    """A comparison with a null is unknown. Texts compare by their bytes."""
    if left is None or right is None:
        return None
    if isinstance(left, str) and isinstance(right, str):
        return SIGNS[sign](left.encode(), right.encode())
    return SIGNS[sign](left, right)


def truth_of(predicate: Predicate, value: Callable[[Operand], Value]) -> Truth:
    """The truth of a predicate in a row, where `value` says what each operand is there."""
    match predicate:
        case Comparison(sign, left, right):
            return compared(sign, value(left), value(right))
        case Between(operand, low, high):
            return both(compared(">=", value(operand), value(low)), compared("<=", value(operand), value(high)))
        case In(operand, items):
            found: Truth = False
            for item in items:
                found = either(found, compared("=", value(operand), value(item)))
            return found
        case IsNull(operand):
            return value(operand) is None
        case Is(part, truth):
            return truth_of(part, value) is truth
        case Not(part):
            return negated(truth_of(part, value))
        case And(left, right):
            return both(truth_of(left, value), truth_of(right, value))
        case Or(left, right):
            return either(truth_of(left, value), truth_of(right, value))


def answer_rows(query: Query, database: Database, first: int, end: int) -> list[Row]:
    """The rows of a query that binds, over the rows of its table from `first` up to, not with, `end`."""
    scope, where = Scope(query, database), query.where
    wanted = [scope.number(name) for name, _ in query.items] or range(len(scope.columns))
    rows = database[query.table].rows[first:end]
    kept = [row for row in rows if where is None or truth_of(where, lambda operand: scope.value(operand, row)) is True]
    return [tuple(row[number] for number in wanted) for row in kept]


# ---- endpoints


def split(rows: int, parts: int) -> list[tuple[int, int]]:
    """The ranges of the rows, one for each part, but no more than there are rows, and at least one."""
    count = max(1, min(parts, rows))
    return [(number * rows // count, (number + 1) * rows // count) for number in range(count)]
