"""A small model of predicates, joins and groups, written straight from docs/SQL.md: the three truths of SQL-92, nested
loops, and groups by first appearance.

A value is None, a truth value, a whole number or a text. A row is a dict from a column's name to its value. A predicate
has its text and says its truth in a row: True, False, or None for unknown. It also says which truths are possible in a batch
of which only the statistics of each column are known. Nothing is shared with the crates.
"""
import functools
import itertools
import operator
from collections.abc import Callable
from dataclasses import dataclass

SIGNS = {"=": operator.eq, "<>": operator.ne, "<": operator.lt, "<=": operator.le, ">": operator.gt, ">=": operator.ge}
RANKS = {False: 0, None: 1, True: 2}  # false is below unknown, and unknown below true


@dataclass(frozen=True)
class Name:
    """A column, as an operand."""

    column: str


@dataclass(frozen=True)
class Statistics:
    """The least and the greatest of some values, or None where all are null, and whether one is null."""

    ends: tuple | None
    nulls: bool


@dataclass(frozen=True)
class Predicate:
    text: str
    truth: Callable[[dict], bool | None]
    possible: Callable[[dict], set]  # the possible truths, of a dict from a column's name to its statistics
    operands: tuple  # the columns and literals, in the order in which `truth` looks at them
    conjuncts: tuple = ()  # of an AND


# ---- operands


def value(operand, row):
    return row[operand.column] if isinstance(operand, Name) else operand


def order(one):
    return one.encode() if isinstance(one, str) else one


def statistics_of(values):
    stand = sorted((one for one in values if one is not None), key=order)
    return Statistics((stand[0], stand[-1]) if stand else None, len(stand) < len(values))


def statistics_in(operand, batch):
    """A literal is as a column of one value."""
    return batch[operand.column] if isinstance(operand, Name) else statistics_of([operand])


def spelled(operand):
    if isinstance(operand, Name):
        return operand.column
    if isinstance(operand, str):
        return "'" + operand.replace("'", "''") + "'"
    return str(operand).upper()


# ---- truths


def negation(truth):
    return None if truth is None else not truth


def lesser(truths):
    """AND: false where one is false, else unknown where one is unknown."""
    return min(truths, key=RANKS.get)


def greater(truths):
    """OR: true where one is true, else unknown where one is unknown."""
    return max(truths, key=RANKS.get)


def compared(left, sign, right):
    """A comparison with a null is unknown. Texts compare by their bytes, FALSE is below TRUE."""
    if left is None or right is None:
        return None
    if isinstance(left, str):
        left, right = left.encode(), right.encode()
    return SIGNS[sign](left, right)


# ---- possible truths


def possible_of(left, sign, right):
    """Those of a comparison of two sides. Two ranges that overlap may meet in one value."""
    if left.ends is None or right.ends is None:
        return {None}
    found = {compared(one, sign, other) for one, other in itertools.product(left.ends, right.ends)}
    if sign in ("=", "<>") and compared(left.ends[0], "<=", right.ends[1]) and compared(right.ends[0], "<=", left.ends[1]):
        found.add(sign == "=")
    return found | ({None} if left.nulls or right.nulls else set())


def over(table, *sets):
    """What a table of two truths gives over each choice of one of each set."""
    return functools.reduce(lambda one, other: {table(pair) for pair in itertools.product(one, other)}, sets)


def may_hold(predicate, batch):
    """Whether a batch may hold a row that is kept: no conjunct is without the possible truth TRUE."""
    if predicate.conjuncts:
        return all(may_hold(part, batch) for part in predicate.conjuncts)
    return True in predicate.possible(batch)


# ---- predicates


def compare(left, sign, right):
    text = f"{spelled(left)} {sign} {spelled(right)}"
    return Predicate(text, lambda row: compared(value(left, row), sign, value(right, row)),
                     lambda batch: possible_of(statistics_in(left, batch), sign, statistics_in(right, batch)), (left, right))


def inverse(inner, text):
    return Predicate(text, lambda row: negation(inner.truth(row)),
                     lambda batch: {negation(one) for one in inner.possible(batch)}, inner.operands)


def between(operand, low, high):
    both = all_of(compare(operand, ">=", low), compare(operand, "<=", high))
    return Predicate(f"{spelled(operand)} BETWEEN {spelled(low)} AND {spelled(high)}", both.truth, both.possible, both.operands)


def among(operand, *items):
    """IN."""
    one = any_of(*(compare(operand, "=", item) for item in items))
    return Predicate(f"{spelled(operand)} IN ({', '.join(map(spelled, items))})", one.truth, one.possible, one.operands)


def not_between(*operands):
    inner = between(*operands)
    return inverse(inner, inner.text.replace(" BETWEEN ", " NOT BETWEEN ", 1))


def not_among(*operands):
    inner = among(*operands)
    return inverse(inner, inner.text.replace(" IN ", " NOT IN ", 1))


def is_null(operand):
    def possible(batch):
        of = statistics_in(operand, batch)
        return ({True} if of.nulls else set()) | ({False} if of.ends else set())

    return Predicate(f"{spelled(operand)} IS NULL", lambda row: value(operand, row) is None, possible, (operand,))


def is_not_null(operand):
    return inverse(is_null(operand), f"{spelled(operand)} IS NOT NULL")


def tested(part, word):
    """`part IS word`, of a word as `TRUE` or `NOT UNKNOWN`."""
    wanted = {"TRUE": True, "FALSE": False, "UNKNOWN": None}[word.removeprefix("NOT ")]

    def test(truth):
        return (truth is wanted) != word.startswith("NOT ")

    return Predicate(f"({part.text}) IS {word}", lambda row: test(part.truth(row)),
                     lambda batch: {test(one) for one in part.possible(batch)}, part.operands)


def negated(part):
    return inverse(part, f"NOT ({part.text})")


def operands_of(parts):
    return tuple(operand for part in parts for operand in part.operands)


def all_of(*parts):
    """AND, of parts in parentheses where they have an AND or OR."""
    text = " AND ".join(f"({part.text})" if {"AND", "OR"} & set(part.text.split()) else part.text for part in parts)
    return Predicate(text, lambda row: lesser([part.truth(row) for part in parts]),
                     lambda batch: over(lesser, *(part.possible(batch) for part in parts)), operands_of(parts), parts)


def any_of(*parts):
    return Predicate(" OR ".join(part.text for part in parts), lambda row: greater([part.truth(row) for part in parts]),
                     lambda batch: over(greater, *(part.possible(batch) for part in parts)), operands_of(parts))


# ---- rows


def kept(rows, predicate):
    """WHERE: what is false or unknown goes."""
    return [row for row in rows if predicate.truth(row) is True]


def joined(lefts, rights, *pairs):
    """The pairs of rows for which each equality of two columns is true, in the order of nested loops."""
    return [(left, right) for left in lefts for right in rights
            if lesser([compared(left[one], "=", right[other]) for one, other in pairs]) is True]


def grouped(rows, *keys):
    """The rows of each group, by first appearance. Two nulls are equal. Without a key there is one group, also of no rows."""
    groups = {} if keys else {(): []}
    for row in rows:
        groups.setdefault(tuple(row[key] for key in keys), []).append(row)
    return list(groups.values())


def number_of(rows, column):
    """COUNT of a column."""
    return sum(row[column] is not None for row in rows)


def sum_of(rows, column):
    """SUM of a column: null where there is no value."""
    values = [row[column] for row in rows if row[column] is not None]
    return sum(values) if values else None
