"""Queries at random over one table, and their texts in any spelling; and texts that are no sentences.

The fault of a text that does not parse is that of vectors/queries/recogniser.py, a second reader of the grammar.
"""

from __future__ import annotations

import datetime
import re
from itertools import pairwise
from random import Random

import recogniser
from lexer import GRAMMAR, LEFT_OUT
from random_calls.plain_model import (MICROSECONDS, SIGNS, And, Between, Comparison, Database, Day, In, Is, IsNull, Literal, Moment,
                                      Name, Not, Operand, Or, Predicate, Query, class_of)
from random_calls.puts import COLUMNS, TABLES, value_of

PLAIN_NAME = re.compile("[A-Za-z_][A-Za-z0-9_]*")
TRUTHS = {"TRUE": True, "FALSE": False, "UNKNOWN": None}
TYPES = {"number": ["Int8", "Int64", "UInt64", "Decimal128"], "text": ["Utf8"], "truth": ["Bool"],
         "date": ["Date"], "timestamp": [MICROSECONDS]}
COUNTED = {"date": Day, "timestamp": Moment}  # classes of numbers from 1970 on
EPOCH = datetime.date(1970, 1, 1).toordinal()
GREATEST = 10**38 - 1  # of a number in a text
PIECES = ["SELECT", "FROM", ",", "(", ")", "AND", "NOT", "=", "''", "'", "@", "ORDER", "+", "1", ";", ".", "IS NULL"]


class Asker:
    """Makes queries over one table of a database. Now and then a name means nothing, or two classes are compared."""

    def __init__(self, random: Random, database: Database):
        self.random = random
        self.table = random.choice(list(database)) if database and random.random() < 0.95 else random.choice(TABLES)
        self.columns, self.rows = (), []
        if self.table in database:
            self.columns, self.rows = database[self.table].columns, database[self.table].rows
        self.alias = random.choice([None, None, "x", "t", "a b"])

    def chance(self, probability: float) -> bool:
        return self.random.random() < probability

    def name(self, kind: str | None = None) -> Name | None:
        """A column, of a class if one is asked for."""
        names = [column.name for column in self.columns if kind in (None, class_of(column.type))]
        if self.chance(0.01) or not names and kind is None:
            names = COLUMNS
        place = (self.alias or self.table) if self.chance(0.2) else None
        if self.chance(0.005):
            place = self.random.choice(TABLES)
        return Name(self.random.choice(names), place) if names else None

    def literal(self, kind: str) -> Literal:
        """A literal of a class: often a value of the table, or a number beside it."""
        places = [number for number, column in enumerate(self.columns) if class_of(column.type) == kind]
        if self.rows and places and self.chance(0.6):
            value = self.random.choice(self.rows)[self.random.choice(places)]
        else:
            value = value_of(self.random, self.random.choice(TYPES[kind]))
        if value is None:
            return Literal({"number": 0, "text": "", "truth": False, "date": Day(0), "timestamp": Moment(0)}[kind])
        if kind in COUNTED:
            value = COUNTED[kind](value).beside(self.random.choice([0, 0, 0, 1, -1]))
        if kind == "number":
            value = max(-GREATEST, min(GREATEST, value + self.random.choice([0, 0, 0, 1, -1])))
        return Literal(value)

    def operand(self, kind: str, most: float = 0.4) -> Operand:
        """A column or a literal of a class; rarely of another one."""
        if self.chance(0.005):
            kind = self.random.choice(list(TYPES))
        name = self.name(kind) if self.chance(most) else None
        return name or self.literal(kind)

    def test(self) -> Predicate:
        """A predicate without parts."""
        kinds = [class_of(column.type) for column in self.columns] or list(TYPES)
        kind = self.random.choice(kinds)
        first = self.operand(kind, 0.9)
        match self.random.randrange(8):
            case 0:
                return IsNull(first)
            case 1:
                return Between(first, self.operand(kind), self.operand(kind))
            case 2:
                return In(first, tuple(self.operand(kind, 0.2) for _ in range(self.random.choice([1, 2, 3, 20]))))
        return Comparison(self.random.choice(list(SIGNS)), first, self.operand(kind))

    def predicate(self, depth: int) -> Predicate:
        """A predicate whose parts go at most so deep."""
        if depth == 0 or self.chance(0.3):
            return self.test()
        match self.random.randrange(6):
            case 0 | 1:
                return And(self.predicate(depth - 1), self.predicate(depth - 1))
            case 2 | 3:
                return Or(self.predicate(depth - 1), self.predicate(depth - 1))
            case 4:
                return Not(self.predicate(depth - 1))
        return Is(self.predicate(depth - 1), self.random.choice(list(TRUTHS.values())))

    def query(self) -> Query:
        """A query with or without WHERE, of `*` or of up to 64 items."""
        items = ()
        if self.chance(0.7):
            count = 64 if self.chance(0.02) else self.random.choice([1, 1, 2, 3, 5])
            items = tuple((self.name(), self.random.choice([None, None, "x", "A", "a b"])) for _ in range(count))
        where = self.predicate(self.random.choice([0, 1, 2, 3, 4])) if self.chance(0.8) else None
        return Query(items, self.table, self.alias, where)


# ---- the text of a query


class Speller:
    """Writes the tokens of a query, in one of the ways that mean it."""

    def __init__(self, random: Random):
        self.random = random

    def word(self, word: str) -> str:
        return self.random.choice([word, word, word.lower(), word.capitalize()])

    def words(self, *words: str) -> list[str]:
        return [self.word(word) for word in words]

    def name(self, name: str) -> str:
        """A name, delimited where it has to be, and at times where it need not be."""
        plain = PLAIN_NAME.fullmatch(name) and name.upper() not in [*GRAMMAR, *LEFT_OUT]
        return name if plain and self.random.random() < 0.8 else '"' + name.replace('"', '""') + '"'

    def named(self, alias: str | None) -> list[str]:
        """An alias, with or without its AS."""
        if alias is None:
            return []
        return [*self.words(*["AS"] * self.random.randrange(2)), self.name(alias)]

    def operand(self, operand: Operand) -> list[str]:
        match operand:
            case Name(column, None):
                return [self.name(column)]
            case Name(column, place):
                return [self.name(place), ".", self.name(column)]
            case Literal(bool(value)):
                return self.words("TRUE" if value else "FALSE")
            case Literal(Day() as day):
                return [self.word("DATE"), f"'{datetime.date.fromordinal(day + EPOCH).isoformat()}'"]
            case Literal(Moment() as moment):
                return [self.word("TIMESTAMP"), self.moment(moment)]
            case Literal(str(value)):
                return ["'" + value.replace("'", "''") + "'"]
        digits = self.random.choice(["", "", "00"]) + str(abs(operand.value))
        return ["-", digits] if operand.value < 0 else [*["+"] * (self.random.random() < 0.1), digits]

    def moment(self, moment: Moment) -> str:
        """A timestamp as a string, whose fraction may lack zeros at its end, and may have up to nine digits."""
        text = datetime.datetime(1970, 1, 1) + datetime.timedelta(microseconds=moment)
        seconds, _, digits = text.isoformat(" ", "microseconds").partition(".")
        least = digits.rstrip("0")
        if not least and self.random.random() < 0.5:
            return f"'{seconds}'"
        return f"'{seconds}.{least.ljust(self.random.randint(max(len(least), 1), 9), '0')}'"

    def operands(self, operands: tuple[Operand, ...]) -> list[str]:
        return [token for operand in operands for token in [",", *self.operand(operand)]][1:]

    def predicate(self, predicate: Predicate, least: int = 0) -> list[str]:
        """A predicate, in parentheses where what it stands in binds tighter, and at times where it need not."""
        tokens, level = self.spelled(predicate)
        return ["(", *tokens, ")"] if level < least or self.random.random() < 0.1 else tokens

    def spelled(self, predicate: Predicate, negated: tuple[str, ...] = ()) -> tuple[list[str], int]:
        """The tokens, and how tight they bind: 0 OR, 1 AND, 2 NOT, 3 IS, 4 what has no predicate as its part. Some
        take a NOT inside."""
        match predicate:
            case Or(left, right):
                return [*self.predicate(left, 0), self.word("OR"), *self.predicate(right, 1)], 0
            case And(left, right):
                return [*self.predicate(left, 1), self.word("AND"), *self.predicate(right, 2)], 1
            case Not(Between() | In() | IsNull() | Is() as part) if self.random.random() < 0.7:
                return self.spelled(part, ("NOT",))
            case Not(part):
                return [self.word("NOT"), *self.predicate(part, 2)], 2
            case Is(part, truth):
                word = next(word for word, value in TRUTHS.items() if value is truth)
                return [*self.predicate(part, 4), *self.words("IS", *negated, word)], 3
            case Comparison(sign, left, right):
                return [*self.operand(left), sign, *self.operand(right)], 4
            case IsNull(operand):
                return [*self.operand(operand), *self.words("IS", *negated, "NULL")], 4
            case Between(operand, low, high):
                bounds = [*self.operand(low), self.word("AND"), *self.operand(high)]
                return [*self.operand(operand), *self.words(*negated, "BETWEEN"), *bounds], 4
            case In(operand, items):
                return [*self.operand(operand), *self.words(*negated, "IN"), "(", *self.operands(items), ")"], 4

    def query(self, query: Query) -> str:
        """The whole text."""
        items = [[*self.operand(name), *self.named(alias)] for name, alias in query.items] or [["*"]]
        tokens = [token for item in items for token in [",", *item]][1:]
        tokens = [self.word("SELECT"), *tokens, self.word("FROM"), self.name(query.table), *self.named(query.alias)]
        if query.where is not None:
            tokens += [self.word("WHERE"), *self.predicate(query.where)]
        tokens += [";"] * (self.random.random() < 0.2)
        return self.joined(tokens)

    def joined(self, tokens: list[str]) -> str:
        """The tokens with blanks or comments between, or with nothing at a parenthesis or a comma."""
        text = tokens[0]
        for before, token in pairwise(tokens):
            tight = (before in "(,)" or token in "(,)") and self.random.random() < 0.5
            rare = self.random.choice(["  ", "\t", "\n", "\r\n", " -- 'AND @\n"])
            text += ("" if tight else " " if self.random.random() < 0.95 else rare) + token
        return text + (" -- ;" if self.random.random() < 0.02 else "")


def no_sentence(random: Random, database: Database) -> tuple[str, str]:
    """A text that does not parse, and its fault."""
    while True:
        text = random.choice(recogniser.OTHERS)
        if random.random() < 0.5:
            text = Speller(random).query(Asker(random, database).query())[:200]
            place = random.randrange(len(text) + 1)
            text = f"{text[:place]} {random.choice(PIECES)} {text[place + random.choice([0, 1, 9]) :]}"
        fault = recogniser.answer(text)
        if fault != "sentence":
            return text, fault
