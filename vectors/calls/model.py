"""What a query's text is answered: its fault, or its columns and rows, by the rules of docs/SQL.md on plain lists.

The tokens and the faults of parsing are those of queries/recogniser.py; comparisons and truths those of
random_calls/plain_model.py, and joined rows and groups those of random_calls/joined_model.py. Nothing is shared with the
crates."""

from __future__ import annotations

import dataclasses
import re

import recogniser
from random_calls import plain_model
from random_calls.joined import Count, Item, Place, Query, Sum
from random_calls.joined_model import query_rows
from random_calls.plain_model import (And, Between, Column, Comparison, Database, In, Is, IsNull, Literal, Name, Not, Operand,
                                      Or, Predicate, Row, class_of, demand, split)

TRUTHS = {"TRUE": True, "FALSE": False, "UNKNOWN": None}


# ---- a sentence, read


class Sentence:
    """The tokens of a sentence, taken from the left. What is no sentence is not read here."""

    def __init__(self, text: str):
        self.tokens, self.place = recogniser.tokens_of(text), 0

    def next(self) -> str | None:
        return self.tokens[self.place][0] if self.place < len(self.tokens) else None

    def take(self) -> str:
        """The next token: a name's text, a string's, or the digits."""
        called, _, piece, _ = self.tokens[self.place]
        self.place += 1
        is_quoted = called in ("name", "string") and piece[0] in "\"'"
        return piece[1:-1].replace(piece[0] * 2, piece[0]) if is_quoted else piece

    def takes(self, *words: str) -> bool:
        """Takes these tokens if they come next."""
        found = [token[0] for token in self.tokens[self.place : self.place + len(words)]] == list(words)
        self.place += len(words) * found
        return found

    def several(self, part, word: str = ",") -> tuple:
        """A part, and one more behind each of these words."""
        found = [part()]
        while self.takes(word):
            found.append(part())
        return tuple(found)

    def query(self) -> Query:
        self.takes("SELECT")
        items = () if self.takes("*") else self.several(self.item)
        self.takes("FROM")
        places, ons = [self.named_place()], []
        while self.takes("JOIN") or self.takes("INNER", "JOIN"):
            places.append(self.named_place())
            self.takes("ON")
            ons.append(self.several(self.equality, "AND"))
        where = self.predicate() if self.takes("WHERE") else None
        keys = self.several(self.column) if self.takes("GROUP", "BY") else ()
        return Query(items, tuple(places), tuple(ons), where, keys)

    def column(self) -> Name:
        name = self.take()
        return Name(self.take(), name) if self.takes(".") else Name(name)

    def alias(self) -> str | None:
        return self.take() if self.takes("AS") or self.next() == "name" else None

    def item(self) -> tuple[Item, str | None]:
        if self.takes("COUNT", "(", "*", ")"):
            return Count(None), self.alias()
        of = Count if self.takes("COUNT", "(") else Sum if self.takes("SUM", "(") else None
        column = self.column()
        if of is not None:
            self.takes(")")
        return of(column) if of else column, self.alias()

    def named_place(self) -> Place:
        return Place(self.take(), self.alias(), ())

    def equality(self) -> tuple[Name, Name]:
        left = self.column()
        self.takes("=")
        return left, self.column()

    def predicate(self) -> Predicate:
        """NOT binds tighter than AND, and AND tighter than OR."""
        found = self.conjunction()
        while self.takes("OR"):
            found = Or(found, self.conjunction())
        return found

    def conjunction(self) -> Predicate:
        found = self.factor()
        while self.takes("AND"):
            found = And(found, self.factor())
        return found

    def factor(self) -> Predicate:
        if self.takes("NOT"):
            return Not(self.factor())
        found = self.primary()
        if self.takes("IS"):
            negated = self.takes("NOT")
            found = Is(found, TRUTHS[self.take().upper()])
            return Not(found) if negated else found
        return found

    def primary(self) -> Predicate:
        if self.takes("("):
            found = self.predicate()
            self.takes(")")
            return found
        first = self.operand()
        if self.takes("IS", "NULL"):
            return IsNull(first)
        if self.takes("IS", "NOT", "NULL"):
            return Not(IsNull(first))
        negated = self.takes("NOT")
        found = self.listed(first) or Comparison(self.take(), first, self.operand())
        return Not(found) if negated else found

    def listed(self, first: Operand) -> Predicate | None:
        """A BETWEEN or an IN, if one comes next."""
        if self.takes("BETWEEN"):
            low = self.operand()
            self.takes("AND")
            return Between(first, low, self.operand())
        if self.takes("IN", "("):
            items = self.several(self.operand)
            self.takes(")")
            return In(first, items)
        return None

    def operand(self) -> Operand:
        match self.next():
            case "name":
                return self.column()
            case "string":
                return Literal(self.take())
            case "TRUE" | "FALSE":
                return Literal(self.take().upper() == "TRUE")
        sign = -1 if self.takes("-") else 1
        self.takes("+")
        return Literal(sign * int(self.take()))


# ---- binding


class Scope(plain_model.Scope):
    """The places that a name may look at."""

    def __init__(self, places: tuple[Place, ...]):
        self.places = places

    def found(self, name: Name) -> tuple[Place, Column]:
        """What a name means."""
        found = [(place, column) for place in self.places for column in place.columns
                 if name.place in (None, place.name) and column.name == name.column]
        demand(len(found) == 1, "F14")
        return found[0]

    def class_of(self, operand: Operand) -> str:
        return class_of(self.found(operand)[1].type) if isinstance(operand, Name) else super().class_of(operand)

    def resolved(self, part):
        """A part of a query, in which each name says its place."""
        if isinstance(part, Name):
            place, column = self.found(part)
            return Name(column.name, place.name)
        if isinstance(part, tuple):
            return tuple(map(self.resolved, part))
        if dataclasses.is_dataclass(part) and not isinstance(part, Place):
            return type(part)(*(self.resolved(getattr(part, one.name)) for one in dataclasses.fields(part)))
        return part


def placed(query: Query, database: Database) -> Query:
    """The query with its tables, of which each place has a name of its own."""
    places: list[Place] = []
    for place in query.places:
        demand(place.table in database, "F9")
        demand(place.name not in [other.name for other in places], "F14")
        places.append(dataclasses.replace(place, columns=database[place.table].columns))
    return dataclasses.replace(query, places=tuple(places))


def check_on(places: tuple[Place, ...], equality: tuple[Name, Name]) -> None:
    """An equality of the last of these places with one before it."""
    scope = Scope(places)
    scope.check(Comparison("=", *equality))
    at_last = [scope.found(name)[0] is places[-1] for name in equality]
    demand(at_last[0] != at_last[1], "F16")


def answer_column(scope: Scope, query: Query, position: int) -> Column:
    """The column of the item at a position, counted from 1."""
    item, alias = query.items[position - 1]
    if item == Count(None):
        return Column(alias or f"col{position}", "Int64", False)
    _, column = scope.found(item if isinstance(item, Name) else item.column)
    if isinstance(item, Count):
        return Column(alias or f"col{position}", "Int64", False)
    if isinstance(item, Sum):
        demand(column.type.startswith(("Int", "UInt")), "F15")
        return Column(alias or f"col{position}", "Decimal128", True)
    demand(not query.grouped or scope.resolved(item) in scope.resolved(query.keys), "F16")
    return Column(alias or column.name, answered(column, position - 1), column.nullable)


def answered(column: Column, number: int) -> str:
    """The type of a column in an answer: a dictionary is answered as one whose id is the column's number, counted from 0."""
    return f"Dictionary(DictionaryEncoding {{ id: {number}, index: Int32 }})" if column.type == "dictionary" else column.type


def bound(query: Query, database: Database) -> tuple[Query, list[Column]]:
    """The query, in which each name says its place, and the columns of its answer; or its first fault."""
    query = placed(query, database)
    for number, equalities in enumerate(query.ons, 2):
        for equality in equalities:
            check_on(query.places[:number], equality)
    scope = Scope(query.places)
    if query.where is not None:
        scope.check(query.where)
    for key in query.keys:
        scope.found(key)
    columns = [answer_column(scope, query, position) for position in range(1, len(query.items) + 1)]
    if not query.items:
        all_columns = [one for place in query.places for one in place.columns]
        columns = [Column(one.name, answered(one, number), one.nullable) for number, one in enumerate(all_columns)]
    demand(len(columns) <= 64, "F12")
    ons = tuple(Scope(query.places[:number]).resolved(one) for number, one in enumerate(query.ons, 2))
    return dataclasses.replace(scope.resolved(dataclasses.replace(query, ons=())), ons=ons), columns


# ---- answers


class Answer:
    """What a text is answered at a database: a fault, or columns, ranges and rows."""

    def __init__(self, text: str, database: Database):
        self.database, self.columns = database, []
        said = recogniser.answer(text)
        number, *place = re.sub(" [A-Z][A-Za-z]*", "", said).split(" ", 1)
        self.fault = None if said == "sentence" else " ".join([number, *place])
        if self.fault is None:
            try:
                self.query, self.columns = bound(Sentence(text).query(), database)
                self.total = len(database[self.query.places[0].table].rows)
            except plain_model.Refused as refused:
                self.fault = refused.fault

    def ranges(self, parts: int) -> list[tuple[int, int]]:
        """Of which rows of the first place each endpoint is: all rows where there are groups."""
        return [(0, self.total)] if self.query.grouped else split(self.total, parts)

    def is_fetched(self, first: int, end: int) -> bool:
        """Whether a ticket may have this range."""
        if self.fault is not None:
            return False
        return (first, end) == (0, self.total) or not self.query.grouped and first <= end <= self.total

    def rows(self, first: int, end: int) -> list[Row]:
        return query_rows(self.query, self.database, first, end)
