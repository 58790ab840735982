"""The possible truths of a predicate, by brute force: those that it has over all cells which the statistics allow.

Each time that a predicate looks at a column it finds any cell that the statistics allow: a null where there are nulls, and any
value from the least to the greatest. So what is found here comes of the truth of a predicate in rows, and of no rule about
statistics. `look` compares it with `possible` of truths.py.
"""
import itertools
import sys

sys.dont_write_bytecode = True
from truths import (SIGNS, Name, Statistics, all_of, among, any_of, between, compare, is_null, negated, not_among, not_between,
                    order, statistics_of, tested)

MOST = 2_000  # rows that are tried of one predicate


class Looks:
    """A row in which each look at a column finds the next one of some cells."""

    def __init__(self, cells):
        self.cells = iter(cells)

    def __getitem__(self, name):
        return next(self.cells)


def candidates(predicate, batch):
    """Ends of the columns and literals. Comparisons of a row tell no more values apart than these, of which each stands for itself."""
    for operand in predicate.operands:
        if isinstance(operand, Name):
            yield from batch[operand.column].ends or ()
        elif operand is not None:
            yield operand


def allowed(statistics, values):
    """The cells that statistics allow, of some values."""
    found = [None] if statistics.nulls else []
    if statistics.ends:
        least, greatest = statistics.ends
        alike = [one for one in values if type(one) is type(least)]
        found += sorted({one for one in alike if order(least) <= order(one) <= order(greatest)}, key=order)
    return found


def truths_over(predicate, batch, values):
    """The truths of a predicate over all cells that the statistics allow; None where these are too many."""
    cells = [allowed(batch[operand.column], values) for operand in predicate.operands if isinstance(operand, Name)]
    rows = 1
    for choices in cells:
        rows *= len(choices)
    if rows > MOST:
        return None
    return {predicate.truth(Looks(row)) for row in itertools.product(*cells)}


def look(predicate, batch):
    """Compares the possible truths with those over all cells, where these are not too many."""
    found = truths_over(predicate, batch, list(candidates(predicate, batch)))
    assert found in (None, predicate.possible(batch)), (predicate.text, batch, found)


# ---- all statistics of a small domain

DOMAIN = range(3)
ENDS = [None, *itertools.combinations_with_replacement(DOMAIN, 2)]
STATISTICS = [Statistics(ends, nulls) for ends in ENDS for nulls in (False, True) if ends or nulls]
LITERALS = range(-1, 4)


def small_tests():
    """Every comparison, BETWEEN and IS NULL of columns a and b and of literals, and some IN; each alone, and as a part."""
    a, b = Name("a"), Name("b")
    for sign in SIGNS:
        yield compare(a, sign, b)
        yield from (compare(a, sign, literal) for literal in LITERALS)
        yield from (compare(literal, sign, a) for literal in LITERALS)
    for low, high in itertools.product(LITERALS, LITERALS):
        yield from (between(a, low, high), not_between(a, low, high))
    yield from (between(a, b, 2), between(a, 1, b), not_between(a, b, 2), between(2, a, b), is_null(a), is_null(1))
    yield from (among(a, 1), among(a, 0, 2), among(a, 1, b), not_among(a, 1), not_among(a, 0, 1, 3), not_among(a, 2, b), among(1, a, b))


def small_predicates():
    yield from small_tests()
    a, b = Name("a"), Name("b")
    tests = [compare(a, "<", 1), compare(b, "=", 1), is_null(a), among(b, 0, 2), compare(a, ">=", b)]
    for one, other in itertools.product(tests, tests):
        yield from (all_of(one, other), any_of(one, negated(other)), negated(all_of(one, other)))
        yield all_of(any_of(one, other), tested(one, "NOT FALSE"))
    for one in tests:
        for word in ["TRUE", "FALSE", "UNKNOWN", "NOT TRUE", "NOT FALSE", "NOT UNKNOWN"]:
            yield from (tested(one, word), tested(negated(one), word))


def look_at_small_domains():
    """Of each predicate the possible truths are those over all cells, whatever the statistics of its columns are."""
    for predicate in small_predicates():
        names = {operand.column for operand in predicate.operands if isinstance(operand, Name)}
        for choice in itertools.product(STATISTICS, repeat=len(names)):
            batch = dict(zip(sorted(names), choice))
            assert truths_over(predicate, batch, DOMAIN) in (None, predicate.possible(batch)), (predicate.text, batch)
