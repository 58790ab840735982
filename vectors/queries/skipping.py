"""Cases of batches that are opened: predicates at random over tables of many small batches, and which batches a scan opens.

Of each column of a table the values come in one of these manners, and its nulls in one of those of NULLS:

rising   each batch has values above those of the one before; falling  below them
random   any of some forty values; ends  the least and the greatest of these
one      one value in each batch; same  one value in all of them

Every type comes in every manner. Under a null stands any number or text, so a null that counts as a value is seen. Some
puts have no rows: no batch of theirs is stored. The ranges are the whole table, a part of it, or empty.

Three further tables have dictionaries of 2,560 values, with indices of 16, 32 and 64 bits. Their batches have many rows for so
many values, or few. The values that are used have codes of which two are neighbors, or leave one remainder by 2,048: where such
codes are taken for one, the statistics are others. Each column is also asked at the ends of its values in each batch.

A last table has 530 batches. A server keeps the statistics of each 256 batches in a page, so these have two pages, and 18 batches
behind them. A page holds the first characters of a text, in at most 36 bytes. Texts of 35 to 38 bytes come in each page. Some share
all that a page holds of them, and some have a character of two bytes at the bytes 36 and 37.

Which batches are opened is written here from docs/SQL.md, section 7, over `may_hold` in truths.py. Each case is looked at in
two more ways, which use no statistics or no rule about them: each row that is kept lies in a batch that is opened; and the
possible truths of a conjunct are those that it has over the cells which the statistics allow, by allowed.py.
"""
import sys
from dataclasses import dataclass

sys.dont_write_bytecode = True
import allowed
from selections import TYPES, WIDE, Column, Table, drawn, ends
from table import BOOL, DECIMAL, MOST, UTF8, integer
from truths import (SIGNS, Name, Predicate, all_of, among, any_of, between, compare, compared, is_not_null, is_null, kept,
                    may_hold, negated, not_among, not_between, order, statistics_of, tested)

NAMES = ["i8", "s", "u64", "f", "d", "c", "i16", "u8", "g", "i64", "u16", "u32", "i32"]
MANNERS = ["rising", "random", "one", "same", "ends", "falling"]
NULLS = ["none", "some", "batches", "any"]  # none; of two cells in ten; of whole batches; or now one and now the other
COLUMNS = 5  # of a table
TABLES = 16  # so each name has each manner: 80 columns, of which 78 are different ones
COUNTS = [6, 10, 14, 18]  # of a table's batches
ROWS = [0, 1, 1, 2, 2, 3, 4, 6]  # of a batch
VALUES = 2_560  # of a dictionary of many values
SHARED = [0, 1, 2_048, 2_049]  # of four values with codes that are alike, how far behind the first one's they are
SIZES = [120, 2, 63, 24, 64, 1, 3]  # the rows of the batches with such a dictionary: from 64 on each of its values has a mark
PAGED_BATCHES = 530  # two pages of 256, and 18
PAGED_SIZES = [1, 1, 1, 2, 1, 3]
PARTS = [1, 1, 1, 2, 2, 3]  # of a WHERE
DEPTHS = [0, 0, 1, 1, 2]  # of a part
TEXTS = [[f"abcdefgh{number:02}" for number in range(40)],
         [first + second for first in "aAbéz" for second in ["", " ", "a", "b", "é", "\U00010000"]],
         ["", "a", "a\0", "aa", "abcdefgh", "abcdefgh\0", "abcdefghi", "abcdefghij", "b"]]
ALIKE = "abcdefghijklmnopqrstuvwxyz0123456"  # 33 bytes, with which each text begins
PAGED_TEXTS = sorted([f"{ALIKE}n{number:02}" + "z" * (number % 3) for number in range(24)]  # of 36 to 38 bytes
                     + [f"{ALIKE}{number:02}" + ["é", "éz", "z", ""][number % 4] for number in range(16)])  # some cut at byte 35
CLASSES = {"f": bool, "g": bool, "s": str, "c": str, "c16": str, "c32": str, "c64": str}
WIDTHS = {"c": 8, "c16": 16, "c32": 32, "c64": 64}  # of the indices of dictionaries


class Draws:
    """Choices that depend on a name and on nothing else."""

    def __init__(self, name):
        self.name, self.count = name, 0

    def below(self, most):
        self.count += 1
        return drawn(self.name, self.count, most)

    def chance(self, of_ten):
        return self.below(10) < of_ten

    def choice(self, items):
        return items[self.below(len(items))]


# ---- tables


def class_of(name):
    """That of a column: of truth values, texts or numbers."""
    return CLASSES.get(name, int)


def limits(name):
    """The least and the greatest number of a column; of a decimal those that a query can say."""
    return (-MOST, MOST) if name == "d" else ends(name)


def domain_of(draws, name):
    """The values of a column, in their order: of numbers some at equal steps, at an end of the type or around 0."""
    if class_of(name) is bool:
        return [False, True]
    if class_of(name) is str:
        return sorted(draws.choice(TEXTS), key=order)
    (least, greatest), half = limits(name), 2 ** (TYPES[name][0] // 2)
    step = draws.choice([1, 1, 1, 2, 5] + [half - 1] * (name not in ("i8", "u8")))
    last = greatest - 40 * step
    around = min(max(least, draws.choice([-20, -10, -3, 0]) * step), last)
    first = draws.choice([around, around, around, least, last])
    return [first + number * step for number in range(41)]


def choices_of(draws, manner, domain, number, count):
    """The values that a column may have in a batch of this number, of so many."""
    most = len(domain)
    if manner in ("rising", "falling"):
        place = most * (number if manner == "rising" else count - 1 - number) // count
        return domain[place : place + max(1, most // count)]
    return {"one": [draws.choice(domain)], "same": [domain[most // 3]], "ends": [domain[0], domain[-1]]}.get(manner, domain)


@dataclass(frozen=True)
class Kind:
    """What the batches of a column have in common. A dictionary has entries that nothing uses, and a null."""

    name: str
    domain: list
    manner: str
    nulls: str

    def of(self):
        return {bool: BOOL, str: UTF8}.get(class_of(self.name)) or (DECIMAL if self.name == "d" else integer(*TYPES[self.name]))

    def entries(self):
        """The values of a dictionary. A null is the second of them, and a value of the domain stands behind it."""
        if self.name == "c":
            return ["", None, *self.domain, "zz", *self.domain[:3]]
        found = ["", None, *[""] * (VALUES - 3), "zz"]
        for number, value in enumerate(self.domain):
            found[2 + number // 4 * 38 + SHARED[number % 4]] = value
        return found

    def batch(self, draws, number, count, rows):
        """The column in one batch."""
        choices = choices_of(draws, self.manner, self.domain, number, count)
        values = [draws.choice(choices) for _ in range(rows)]
        how = draws.choice(["none", "some", "batches"]) if self.nulls == "any" else self.nulls
        of_ten = {"none": 0, "some": 2, "batches": 10 * draws.chance(4)}[how]
        nulls = [draws.chance(of_ten) for _ in values]
        stored = [draws.choice(self.domain) if null else value for null, value in zip(nulls, values)]
        entries, width = None, WIDTHS.get(self.name, 8)
        if self.name in WIDTHS:
            entries, nowhere = self.entries(), 2**width - 1
            stored = [draws.choice([1, nowhere]) if null else entries.index(value, 2) for null, value in zip(nulls, stored)]
            nulls = [null and slot == nowhere for null, slot in zip(nulls, stored)]
        column = Column(self.name, self.of(), stored, nulls, entries, width)
        column.nullable = self.nulls != "none" or entries is not None
        return column


class Batched:
    """A table of so many batches, with the rows of each. Those without rows are put, and not stored."""

    def __init__(self, draws, name, kinds, count, sizes):
        self.name, self.kinds, self.sent = name, kinds, []
        for number, rows in enumerate(sizes):
            self.sent.append([kind.batch(draws, number, count, rows) for kind in kinds])
        stored = [columns for columns in self.sent if columns[0].values]
        names = [kind.name for kind in self.kinds]
        self.batches = [[dict(zip(names, row)) for row in zip(*(column.values for column in columns))] for columns in stored]
        self.size = sum(map(len, self.batches))

    def puts(self):
        """A put of each batch."""
        yield from Table(self.name, *self.sent).puts()


def small_batches(number):
    """A table of many small batches, with columns of several types."""
    draws, places = Draws(f"batches {number}"), range(COLUMNS * number, COLUMNS * number + COLUMNS)
    kinds = [Kind(name, domain_of(draws, name), MANNERS[place // len(NAMES) % len(MANNERS)], draws.choice(NULLS))
             for place in places for name in [NAMES[place % len(NAMES)]]]
    count = draws.choice(COUNTS)
    return Batched(draws, f"b{number}", kinds, count, (draws.choice(ROWS) for _ in range(count)))


def many_values(number):
    """A table whose dictionaries have 2,560 values, with indices of three widths. Each of them has each of three manners."""
    draws, manners = Draws(f"values {number}"), ["random", "rising", "falling"]
    kinds = [Kind(name, domain_of(draws, name), manners[(place + number) % 3], draws.choice(NULLS))
             for place, name in enumerate(["c16", "c32", "c64"])]
    return Batched(draws, f"v{number}", kinds, len(SIZES), SIZES)


def many_batches():
    """A table of more batches than two pages of statistics have."""
    draws = Draws("pages")
    kinds = [Kind(name, domain_of(draws, name), manner, nulls)
             for name, manner, nulls in [("i64", "rising", "some"), ("u16", "random", "batches"), ("f", "one", "some")]]
    kinds += [Kind("s", PAGED_TEXTS, "rising", "none"), Kind("c", PAGED_TEXTS, "random", "any")]
    return Batched(draws, "pages", kinds, PAGED_BATCHES, (PAGED_SIZES[number % len(PAGED_SIZES)] for number in range(PAGED_BATCHES)))


# ---- the model


@dataclass(frozen=True)
class Place:
    """A table as a place of a query. Its columns have the place's alias before their names, where it has one."""

    table: Batched
    alias: str = ""

    def spelled(self, name):
        return f"{self.alias}.{name}" if self.alias else name

    def rows(self):
        """The rows of each batch. Each row also says its batch, under the place."""
        return [[{self.spelled(name): one for name, one in row.items()} | {self: number} for row in rows]
                for number, rows in enumerate(self.table.batches)]

    def statistics(self):
        """Those of the columns of each batch."""
        return [{name: statistics_of([row[name] for row in rows]) for name in rows[0] if name != self} for rows in self.rows()]


def conjuncts(predicate):
    """The parts of the outermost ANDs."""
    return [one for part in predicate.conjuncts for one in conjuncts(part)] if predicate.conjuncts else [predicate]


def names_of(predicate):
    return {operand.column for operand in predicate.operands if isinstance(operand, Name)}


def can_hold(statistics, parts):
    """Whether every conjunct that names no other place's column can be true in a batch."""
    return all(may_hold(part, statistics) for part in parts if names_of(part) <= statistics.keys())


def with_a_row(batches, first, end):
    """The numbers of the batches that have one of the rows from `first` up to, not with, `end`."""
    rows = [number for number, rows in enumerate(batches) for _ in rows]
    return sorted(set(rows[first:end]))


def opened(places, parts, first, end):
    """The batches that are opened, in order, each as the number of its place and its own."""
    found = []
    for number, place in [*enumerate(places)][1:] + [(0, places[0])]:
        wanted = with_a_row(place.table.batches, *((first, end) if number == 0 else (0, place.table.size)))
        found += [(number, one) for one, statistics in enumerate(place.statistics()) if one in wanted and can_hold(statistics, parts)]
    return found


def joined_rows(places, ons, first, end):
    """The rows of the places for which the equalities are true."""
    rows = [row for batch in places[0].rows() for row in batch][first:end]
    for place, (left, right) in zip(places[1:], ons):
        others = [row for batch in place.rows() for row in batch]
        rows = [one | other for one in rows for other in others if compared(one[left], "=", other[right]) is True]
    return rows


# ---- predicates at random


class Asker:
    """Predicates over the columns of some places."""

    def __init__(self, draws, places):
        self.draws = draws
        self.kinds = {place.spelled(kind.name): kind for place in places for kind in place.table.kinds}

    def names(self, kind, scope):
        return [name for name in scope if class_of(self.kinds[name].name) is kind]

    def near(self, name):
        """A literal near the values of a column."""
        domain = self.kinds[name].domain
        return self.moved(self.draws.choice(domain), name)

    def moved(self, value, name):
        """A value, or another one beside it, or one outside of the column's type."""
        draws, kind = self.draws, class_of(self.kinds[name].name)
        if kind is str and draws.chance(2):
            return draws.choice(["", "zz", "abcdefgh", value + "a", value[:-1]])
        if kind is int:
            least, greatest = limits(self.kinds[name].name)
            value = draws.choice([least - 1, greatest + 1, 0]) if draws.below(12) == 0 else value + draws.choice([0, 0, 0, 1, -1])
            return max(-MOST, min(MOST, value))
        return value

    def window(self, name):
        """The ends of a part of a column's values, mostly a narrow one."""
        domain = self.kinds[name].domain
        first = self.draws.below(len(domain))
        last = min(first + self.draws.choice([0, 1, 2, 4, 15]), len(domain) - 1)
        low, high = self.moved(domain[first], name), self.moved(domain[last], name)
        return (high, low) if self.draws.below(12) == 0 else (low, high)

    def operand(self, name, scope, of_ten):
        """A column of the same class, so many times in ten, or else a literal."""
        others = self.names(class_of(self.kinds[name].name), scope)
        return Name(self.draws.choice(others)) if self.draws.chance(of_ten) else self.near(name)

    def test(self, scope):
        """A predicate without parts, which names columns of the scope alone."""
        draws, name = self.draws, self.draws.choice(scope)
        column, sign = Name(name), draws.choice([*SIGNS])
        which = draws.below(16)
        if which < 4:
            return compare(column, sign, self.near(name))
        if which < 6:
            return compare(self.near(name), sign, column)
        if which < 8:
            return compare(column, sign, self.operand(name, scope, 10))
        if which < 11:
            low, high = self.window(name)
            return draws.choice([between, between, not_between])(column, low, self.operand(name, scope, 10) if draws.below(5) == 0 else high)
        if which < 14:
            items = [self.operand(name, scope, 1) for _ in range(1 + draws.below(4))]
            return draws.choice([among, among, not_among])(column, *items)
        return draws.choice([is_null, is_not_null])(column)

    def constant(self):
        """A test of literals alone."""
        one, other = self.draws.choice([(1, 2), (2, 2), ("a", "b"), (False, True)])
        return self.draws.choice([compare(one, self.draws.choice([*SIGNS]), other), is_not_null(one)])

    def predicate(self, scope, depth):
        draws = self.draws
        if depth == 0 or draws.chance(3):
            return self.constant() if draws.below(40) == 0 else self.test(scope)
        parts = [self.predicate(scope, depth - 1) for _ in range(2 + (draws.below(4) == 0))]
        which = draws.below(8)
        if which < 3:
            return all_of(*parts)
        if which < 6:
            return any_of(*parts)
        return negated(parts[0]) if which == 6 else tested(parts[0], draws.choice(["TRUE", "FALSE", "UNKNOWN", "NOT TRUE", "NOT UNKNOWN"]))


# ---- cases


def range_of(draws, size):
    """Mostly all rows, and also some of them, or none."""
    if draws.chance(7):
        return 0, size + draws.choice([0, 0, 9])
    first = draws.below(size + 1)
    return first, max(0, first + draws.choice([-1, 0, 1, 2, 5, 12, size]))


def case_of(draws, query, places, ons, where, grouped=False, part=None):
    """A case: how many rows are kept, and which batches are opened. It is looked at in two more ways."""
    first, end = part or range_of(draws, places[0].table.size)
    parts = conjuncts(where) if where else []
    rows = joined_rows(places, ons, first, end)
    rows = kept(rows, where) if where else rows
    found = opened(places, parts, first, end)
    for row in rows:
        assert all((number, row[place]) in found for number, place in enumerate(places)), (query, row)
    for part in parts:
        for place in places:
            if names_of(part) <= place.statistics()[0].keys():
                allowed.look(part, draws.choice(place.statistics()))
    text = f"{query} WHERE {where.text}" if where else query
    said = "".join(f" {place}.{number}" for place, number in found)
    text = text.replace("\0", "\\z")
    return f"opened {first} {end} {text}", f"{1 if grouped else len(rows)} of{said}"


def of_one_place(number, one, turns):
    """Cases of a table alone."""
    for turn in range(turns):
        draws, place = Draws(f"one {number} {turn}"), Place(one)
        asker, scope = Asker(draws, [place]), [kind.name for kind in one.kinds]
        parts = [asker.predicate(scope, draws.choice(DEPTHS)) for _ in range(draws.choice(PARTS))]
        where = None if draws.below(40) == 0 else all_of(*parts) if len(parts) > 1 else parts[0]
        grouped = draws.below(9) == 0
        wanted = "COUNT(*)" if grouped else draws.choice(scope)
        yield case_of(draws, f"SELECT {wanted} FROM {one.name}", [place], [], where, grouped)


def at_the_ends(one):
    """Cases of each column of a table in one batch after another: at its least and its greatest value there, and outside."""
    place, first = Place(one), 0
    for rows, statistics in zip(one.batches, place.statistics()):
        part, first = (first, first + len(rows)), first + len(rows)
        for name, (least, greatest) in ((name, of.ends) for name, of in statistics.items() if of.ends):
            column, draws = Name(name), Draws(f"ends {one.name} {name} {part}")
            outside = any_of(compare(column, "<", least), compare(column, ">", greatest))
            for where in [compare(column, "<=", least), compare(column, ">=", greatest), outside]:
                yield case_of(draws, f"SELECT {name} FROM {one.name}", [place], [], where, part=part)


def values_of(place, name):
    return {row[name] for rows in place.table.batches for row in rows} - {None}


def equality(draws, places):
    """The ON of the last place: a column of it, and one of the same class of a place before. Mostly some of their values meet."""
    last = places[-1]
    pairs = [(place, left.name, right.name) for place in places[:-1] for left in place.table.kinds for right in last.table.kinds
             if class_of(left.name) is class_of(right.name)]
    meeting = [(place, left, right) for place, left, right in pairs if values_of(place, left) & values_of(last, right)]
    place, left, right = draws.choice(meeting if meeting and draws.chance(9) else pairs)
    return place.spelled(left), last.spelled(right)


def of_places(turn):
    """A join of two or three places, with conjuncts of one place, of several and of none."""
    draws = Draws(f"join {turn}")
    places, ons = [Place(draws.choice(SMALL), alias) for alias in "xyz"[: 2 + (draws.below(5) == 0)]], []
    for count in range(2, len(places) + 1):
        ons.append(equality(draws, places[:count]))
    asker, parts = Asker(draws, places), []
    scopes = [[place.spelled(kind.name) for kind in place.table.kinds] for place in places]
    for _ in range(draws.choice(PARTS)):
        scope = sum(scopes, []) if draws.below(4) == 0 else draws.choice(scopes)
        parts.append(asker.constant() if draws.below(20) == 0 else asker.predicate(scope, draws.choice(DEPTHS)))
    where = None if draws.below(20) == 0 else all_of(*parts) if len(parts) > 1 else parts[0]
    names = [f"{place.table.name} {place.alias}" for place in places]
    joins = "".join(f" JOIN {name} ON {left} = {right}" for name, (left, right) in zip(names[1:], ons))
    return case_of(draws, f"SELECT {draws.choice(scopes[-1])} FROM {names[0]}{joins}", places, ons, where)


def of_a_pair(one, first, second):
    """Cases of a table joined with itself, where each place has a conjunct over a column: one keeps its upper values, one its lower."""
    places = [Place(one, "x"), Place(one, "y")]
    query = f"SELECT x.{first} FROM {one.name} x JOIN {one.name} y ON x.{second} = y.{second}"
    for kind in (kind for kind in one.kinds if kind.name == first):
        low, high = kind.domain[len(kind.domain) // 3], kind.domain[2 * len(kind.domain) // 3]
        for signs, ends_ in [("><", (high, low)), ("<>", (low, high)), (">>", (high, low)), ("><", (low, high))]:
            parts = [compare(Name(f"{alias}.{first}"), sign, value) for alias, sign, value in zip("xy", signs, ends_)]
            yield case_of(Draws(f"pair {first} {signs}"), query, places, [(f"x.{second}", f"y.{second}")], all_of(*parts))


# ---- 70,000 rows, and long chains of conjuncts


def over_wide():
    """Chains of conjuncts of one place, of both places of a join and of literals, over `wide`."""
    opened = f"opened 0 {len(WIDE.rows)} SELECT a FROM wide WHERE "
    few = len(kept(WIDE.rows, compare(Name("a"), ">", 97)))
    yield f"{opened}a > 97{{500: AND a > 97}}", f"{few} of 0.0"
    yield f"{opened}1 = 1{{900: AND 2 > 1}} AND a > 97", f"{few} of 0.0"
    for where in ["a > 99", "a IS NULL", "a > 97{500: AND a > 97} AND a < 0", "a > 97 AND 1 = 2", "s > 'abcdefghi'", "NOT (v < 112)"]:
        yield f"{opened}{where}", "0 of"
    join = f"opened 0 {len(WIDE.rows)} SELECT x.a FROM wide x JOIN wide y ON x.u = y.u AND x.v = y.v WHERE x.a > 97{{300: AND x.a > 97}}"
    yield f"{join} AND y.a > 97{{300: AND y.a > 97}} AND x.a = y.a", f"{few} of 1.0 0.0"
    yield f"{join} AND y.a > 99", "0 of 0.0"


BATCHED = [small_batches(number) for number in range(TABLES)]
CODED = [many_values(number) for number in range(3)]
PAGED = many_batches()
SMALL = sorted(BATCHED, key=lambda one: one.size)[: TABLES // 2]
OF_PLACES = 400


def puts():
    for one in [*BATCHED, *CODED, PAGED]:
        yield from one.puts()


def cases():
    allowed.look_at_small_domains()
    yield from over_wide()
    for number, one in enumerate(BATCHED):
        yield from of_one_place(number, one, 110)
    for turn in range(OF_PLACES):
        yield of_places(turn)
    for number, one in enumerate(CODED, TABLES):
        yield from of_one_place(number, one, 40)
        yield from at_the_ends(one)
    yield from of_one_place(TABLES + len(CODED), PAGED, 60)
    for name in ["i64", "s"]:
        yield from of_a_pair(PAGED, name, "u16")
