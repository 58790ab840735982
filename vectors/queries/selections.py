"""Cases of selections: every comparison at many lengths and first bits, over columns of every type, wide tables, and
keys that are hard to tell apart. What is wanted is worked out by the model in truths.py.

Tables, each put as Arrow messages:

each     140 rows in one batch: their number k, a column of every type with nulls here and there, and n (Int64) and
         r (Utf8) without nulls
ramp     130 rows of one Int64 a, which counts from 0
marks    the dictionary ["x", "y", "x"] with the indices 0, 1, 2 and a null
wide     70,000 rows, of which each column repeats its first ones: see PERIODS
keys     three batches, each with a dictionary of its own: numbers near each other, far apart, and at the ends of their
         types; texts that begin alike
equal    300 rows of one key
apart    64 numbers that differ in their upper bits alone, and as many texts that differ in their last letter alone
parts    three batches of two dictionary columns: each batch has dictionaries of its own, in which a text stands under several codes

Under a null of `each` and `keys` stands a value as any other, so a comparison that does not look for nulls is seen; but
under some nulls of the dictionary columns an index that leads nowhere.
"""
import collections
import hashlib
import itertools
import re
import sys

sys.dont_write_bytecode = True
import table
from table import BOOL, DECIMAL, UTF8, batch, bits, dictionary, encoding, field, integer, numbers, schema, texts
from truths import (SIGNS, Name, all_of, among, any_of, between, compare, grouped, is_not_null, is_null, joined, kept,
                    may_hold, negated, not_among, not_between, number_of, statistics_of, sum_of, tested)

LENGTHS = [0, 1, 63, 64, 65, 130]
FIRSTS = range(8)
ALL = [(first, length) for length in LENGTHS for first in FIRSTS]
TURNED = {"=": "=", "<>": "<>", "<": ">", "<=": ">=", ">": "<", ">=": "<="}


def drawn(name, row, below):
    """A number below this, which depends on the name and the row and on nothing else."""
    return int.from_bytes(hashlib.sha256(f"{name} {row}".encode()).digest()[:8], "big") % below


# ---- columns


class Column:
    """A column: its type, what stands in each row, and where nulls hide it. A column that is told where is nullable, also
    where none does, and so is one whose dictionary has a null. A dictionary has entries, and slots of a width in bits."""

    def __init__(self, name, of, stored, nulls=(), entries=None, width=8):
        self.name, self.of, self.stored, self.entries, self.width = name, of, stored, entries, width
        self.nullable = bool(nulls) or None in (entries or [])
        self.nulls = list(nulls) or [False] * len(stored)
        self.values = [None if null else entries[one] if entries else one for null, one in zip(self.nulls, stored)]

    def field(self, number):
        """A dictionary has its number as its id."""
        more = {"dictionary": encoding(number, integer(self.width, False))} if self.entries else {}
        return field(self.name, self.of, self.nullable, **more)

    def buffers(self):
        validity = bits([not null for null in self.nulls]) if any(self.nulls) else b""
        if self.entries:
            data = [numbers(self.width // 8, self.stored)]
        elif self.of is UTF8:
            data = texts([one.encode() for one in self.stored])
        elif self.of is BOOL:
            data = [bits(self.stored)]
        else:
            data = [numbers(self.of[1].get("bitWidth", 128) // 8, self.stored)]
        return self.nulls.count(True), validity, *data


class Table:
    """A table: its name, and the columns of each of its batches. Each batch is a put of its own."""

    def __init__(self, name, *batches, periods=()):
        self.name, self.batches, self.periods = name, batches, periods
        self.rows = []
        for columns in batches:
            names = [column.name for column in columns]
            self.rows += [dict(zip(names, row)) for row in zip(*(column.values for column in columns))]

    def puts(self):
        for columns in self.batches:
            head = schema(*(column.field(number) for number, column in enumerate(columns)))
            messages = [(head, b"")]
            for number, column in enumerate(columns):
                if column.entries:
                    hidden = [one is None for one in column.entries]
                    entries = Column("", UTF8, [one or "" for one in column.entries], hidden)
                    messages.append(dictionary(number, batch(len(hidden), entries.buffers())))
            messages.append(batch(len(columns[0].values), *(column.buffers() for column in columns)))
            said = [(column.name, column.of, column.values) for column in columns]
            yield table.put(self.name, said, messages, self.periods)


# ---- each: a column of every type

ROWS = 140
TYPES = {"i8": (8, True), "i16": (16, True), "i32": (32, True), "i64": (64, True),
         "u8": (8, False), "u16": (16, False), "u32": (32, False), "u64": (64, False), "d": (128, True)}


def ends(name):
    """The least and the greatest number of a column."""
    width, signed = TYPES[name]
    return (-(2 ** (width - 1)), 2 ** (width - 1) - 1) if signed else (0, 2**width - 1)


def values_of(name):
    """The numbers of a column: the ends of its type, small ones, and some that look alike in half as many bits."""
    least, greatest = ends(name)
    width = TYPES[name][0]
    half = 2 ** (width // 2)
    found = [least, greatest, least + 1, greatest - 1, 0, 1, 2, half + 1, greatest // 2 + 1]
    return found + ([-1, -half] if least < 0 else [half])


WORDS = ["", "a", "a ", "aa", "Z", "é", "\U00010000", "abcdefgh", "abcdefghi", "abcdefghj", "abcdefgh\0", "a\0"]
ENTRIES = {"c": ["x", "abcdefghi", None, "", "x", "abcdefgh", "Z", "abcdefghj"], "e": ["x", "Z", "abcdefghi", "x", None]}


def hidden(name):
    """Where a column's nulls are: in five of eight rows; but none in a stretch of rows, and only such in another."""
    full, void = drawn(name, "full", 60), 75 + drawn(name, "void", 40)
    return [not full <= row < full + 9 and (void <= row < void + 11 or drawn(name, row, 8) < 5) for row in range(ROWS)]


def picked(name, values):
    return [values[drawn(name, row + 1000, len(values))] for row in range(ROWS)]


def each_table():
    columns = [Column("k", integer(8, False), list(range(ROWS)))]
    for name, (width, signed) in TYPES.items():
        of = DECIMAL if name == "d" else integer(width, signed)
        columns.append(Column(name, of, picked(name, values_of(name)), hidden(name)))
    columns.append(Column("s", UTF8, picked("s", WORDS), hidden("s")))
    columns.append(Column("f", BOOL, picked("f", [False, True]), hidden("f")))
    columns.append(Column("g", BOOL, picked("g", [False, True]), hidden("g")))
    for name, entries in ENTRIES.items():
        nulls = hidden(name)
        slots = [255 if null and slot % 2 else slot for null, slot in zip(nulls, picked(name, range(len(entries))))]
        columns.append(Column(name, UTF8, slots, nulls, entries))
    columns.append(Column("n", integer(64, True), picked("n", values_of("i64"))))
    columns.append(Column("r", UTF8, picked("r", ["", "a", "Z", "abcdefghi"])))
    return Table("each", columns)


EACH = each_table()
STATISTICS = {name: statistics_of([row[name] for row in EACH.rows]) for name in EACH.rows[0]}
SPREAD = itertools.cycle(ALL[step % 6 * 8 + (step + step // 24) % 8] for step in range(48))
LONG = itertools.cycle(ALL[16 + (step + step // 8) % 8 + 8 * (step % 4)] for step in range(32))


def of_each(predicate, place):
    """A case: the numbers of the rows that a predicate keeps, of a range. The batch is opened where it may hold one."""
    first, length = place
    rows = kept(EACH.rows[first : first + length], predicate)
    batches = f" {min(len(rows), 1)} of {int(length > 0 and may_hold(predicate, STATISTICS))}"
    return f"range {first} {first + length} SELECT k FROM each WHERE {predicate.text}", shown((row["k"],) for row in rows) + batches


def shown(rows):
    return "".join("".join(f"{cell(one)}," for one in row) + ";" for row in rows)


def cell(one):
    return "null" if one is None else f"'{one}'" if isinstance(one, str) else str(one).lower()


def of_numbers(name, turn):
    """Tests of a column of numbers. Its literals change with its turn, and so do those outside its type."""
    column, (least, greatest) = Name(name), ends(name)
    inside = [least, greatest, 1, 0, 2, greatest - 1] if name != "d" else [-1, 2**64 + 1, 1, 0, 2, -(2**64)]
    below, above = (least - 1, greatest + 1) if name != "d" else (1 - 10**38, 10**38 - 1)
    for number, sign in enumerate(SIGNS):
        literal = inside[(number + turn) % len(inside)]
        yield compare(column, sign, literal), LONG
        if number % 2 == turn % 2:
            yield compare(literal, TURNED[sign], column), SPREAD
        if number % 3 == turn % 3:
            yield compare(column, sign, above), LONG
            yield compare(below, sign, column), SPREAD
    yield between(column, 0, 2), LONG
    yield between(column, *[(below, 1), (Name("n"), above)][turn % 2]), SPREAD
    yield not_between(column, 0, greatest - 1 if name != "d" else 2**64), LONG
    yield not_between(column, 1, above), SPREAD
    yield among(column, 1, inside[turn % 2], above, 2), LONG
    yield among(column, below, Name("i16"), 0), SPREAD
    yield not_among(column, inside[turn % 2], 0, 2, above), LONG
    yield not_among(column, 1, Name("u8")), SPREAD


def of_texts(name, turn):
    column = Name(name)
    literals = ["a", "abcdefghi", "", "abcdefgh", "x", "abcdefghj"]
    for number, sign in enumerate(SIGNS):
        yield compare(column, sign, literals[(number + turn) % 6]), LONG
        yield compare(literals[(number + turn + 3) % 6], TURNED[sign], column), SPREAD
    yield between(column, "a", "abcdefgh"), LONG
    yield between(column, "x", "a"), SPREAD
    yield not_between(column, "", "abcdefghi"), LONG
    yield not_between(column, Name("r"), "b"), SPREAD
    yield among(column, "abcdefghj", "Z", "none", "x"), LONG
    yield among(column, Name("r"), "Z"), SPREAD
    yield not_among(column, "", "abcdefgh", "x", "a"), LONG
    yield not_among(column, "abcdefghi", Name("r")), SPREAD


def of_truths(name, turn):
    column = Name(name)
    for number, sign in enumerate(SIGNS):
        yield compare(column, sign, (number + turn) % 2 == 0), LONG
        yield compare((number + turn) % 2 == 1, TURNED[sign], column), SPREAD
    yield between(column, True, True), LONG
    yield not_between(column, False, Name("g")), SPREAD
    yield among(column, True, False), SPREAD
    yield not_among(column, Name("g")), LONG


def of_any(name, literal):
    """Tests of a column of any type."""
    column = Name(name)
    yield is_null(column), SPREAD
    yield is_not_null(column), SPREAD
    yield tested(compare(column, "<", literal), "UNKNOWN"), SPREAD
    yield tested(compare(column, "=", literal), "TRUE"), LONG
    yield negated(compare(column, ">=", literal)), LONG


PAIRS = [("i8", "i64"), ("i8", "u8"), ("u64", "i64"), ("d", "u64"), ("u32", "i16"), ("i64", "n"), ("i32", "u64"), ("u16", "d"),
         ("s", "c"), ("c", "r"), ("r", "s"), ("f", "g")]


def of_columns():
    """Comparisons between two columns, of two widths where they are of numbers."""
    for turn, (left, right) in enumerate(PAIRS):
        for number, sign in enumerate(SIGNS):
            if number % 2 == turn % 2 or number % 3 == turn % 3 and left in "scrf":
                yield compare(Name(left), sign, Name(right)), LONG


# Two columns of texts: each has its own texts, or those of a dictionary.
TEXTS = [("s", "r"), ("s", "e"), ("e", "r"), ("c", "e"), ("e", "c")]


def of_text_columns():
    """Every comparison between two columns of texts, and NOT of each."""
    for left, right in TEXTS:
        for sign in SIGNS:
            yield compare(Name(left), sign, Name(right)), LONG
            yield negated(compare(Name(left), sign, Name(right))), SPREAD


# BETWEEN and IN of three columns and a literal.
THREE = [("s", "r", "e", "a"), ("e", "c", "r", "Z"), ("c", "e", "s", "x"), ("i8", "i64", "u8", 1), ("u32", "i16", "d", 2),
         ("f", "g", "f", True)]


def of_lists():
    """Each column and the literal in each place, and NOT of each."""
    for *names, literal in THREE:
        one, two, three = map(Name, names)
        yield between(one, two, three), LONG
        yield not_between(three, literal, two), LONG
        yield not_between(literal, one, three), LONG
        yield among(one, two, three), LONG
        yield not_among(two, literal, one), LONG
        yield not_among(literal, three, one), LONG


def combined():
    """AND, OR, NOT and the IS tests over what has all three truths."""
    a, b, c, d = (compare(Name("i64"), "<", 1), compare(Name("s"), ">=", "abcdefgh"), compare(Name("f"), "=", True),
                  among(Name("c"), "x", "Z"))
    yield all_of(a, b)
    yield all_of(a, c, d)
    yield all_of(b, negated(a))
    yield any_of(all_of(a, b), all_of(c, d))
    yield all_of(any_of(a, d), any_of(b, c))
    yield negated(any_of(a, b, c))
    yield negated(all_of(any_of(a, b), c))
    yield tested(all_of(a, d), "UNKNOWN")
    yield tested(any_of(b, c), "FALSE")
    yield all_of(tested(any_of(a, c), "NOT UNKNOWN"), d)
    yield all_of(is_null(Name("u64")), any_of(is_null(Name("c")), c))
    yield all_of(compare(Name("n"), ">", 0), between(Name("i8"), Name("u8"), Name("d")), is_not_null(Name("g")))
    yield all_of(compare(1, "=", 1), d)
    yield any_of(compare("a", "=", "b"), negated(tested(c, "NOT TRUE")))


# What is asked at each length and each first bit: of each column a comparison that few rows meet.
AT_ALL = [
    any_of(all_of(compare(Name("i64"), "<", 2), compare(Name("n"), ">", 0)), compare(Name("i8"), "=", 1),
           compare(Name("i16"), "=", 1), compare(Name("u32"), "=", 2), compare(Name("d"), "=", -1)),
    any_of(compare(Name("s"), "=", "abcdefghi"), among(Name("c"), "Z", "abcdefghj"), compare(Name("u8"), "=", 2),
           compare(Name("u16"), "=", 1), compare(Name("i32"), "=", 0), compare(Name("u64"), "=", 1),
           compare(Name("f"), "<", Name("g")), compare(Name("c"), "=", Name("e"))),
]


def over_each():
    tests = []
    for turn, name in enumerate(TYPES):
        tests += [*of_numbers(name, turn), *of_any(name, 1)]
    for turn, name in enumerate(["s", "c"]):
        tests += [*of_texts(name, turn), *of_any(name, "abcdefgh")]
    tests += [*of_truths("f", 0), *of_any("f", True), *of_columns()]
    tests += [(test, places) for test in combined() for places in (LONG, SPREAD)]
    tests += of_text_columns()
    tests += of_lists()
    yield from (of_each(test, next(places)) for test, places in tests)
    yield from (of_each(test, place) for test in AT_ALL for place in ALL)


# ---- wide: 70,000 rows, of which one in 1,000, one in 100, half, all but one in 100, all or none are kept

MANY = 70_000
PERIODS = {  # of each column, what stands in its first rows, and so again and again
    "a": (integer(64, True), [row * 37 % 100 for row in range(100)]),
    "i": (integer(32, True), [row * 13 % 50 - 25 for row in range(50)]),
    "d": (DECIMAL, [0, 10**37, -(10**37), 2**64, 1, -1, 2, 3, 4, 5]),
    "u": (integer(16, False), [row * 93 % 625 for row in range(625)]),  # of no common factor with the next: the pairs differ
    "v": (integer(8, False), [row * 45 % 112 for row in range(112)]),
    "c": (UTF8, [0 if row == 77 else 1 + row * 3 % 2 + row % 5 // 4 * 2 for row in range(100)]),
    "f": (BOOL, [row == 401 for row in range(1000)]),
    "g": (BOOL, [row % 100 != 62 for row in range(1000)]),
    "least": (integer(64, True), [-(2**63)]),
    "most": (integer(64, False), [2**64 - 1]),
}
WIDE_ENTRIES = ["x", "abcdefgh", "abcdefghi", "abcdefghi", None]
WIDE_NULLS = {"i": [row * row % 3 == 1 for row in range(1000)], "g": [row % 7 > 3 for row in range(1000)]}
FEW_TEXTS = [row * 3_331 + row * row for row in range(20)]  # the rows of s that are not ''


def again(values):
    return (values * (MANY // len(values) + 1))[:MANY]


def wide_table():
    columns = []
    for name, (of, values) in PERIODS.items():
        entries = WIDE_ENTRIES if of is UTF8 else None
        nulls = again(WIDE_NULLS[name]) if name in WIDE_NULLS else ()
        columns.append(Column(name, of, again(values), nulls, entries))
    few = set(FEW_TEXTS)
    columns.append(Column("s", UTF8, ["abcdefghi" if row in few else "" for row in range(MANY)]))
    return Table("wide", columns, periods=(100, 112, 125, 160, 200, 800, 1250))


WIDE = wide_table()


def wide_tests():
    a, i, d, u, v, c, s, f, g = map(Name, "aiduvcsfg")
    yield from (compare(a, "=", 7), compare(a, "<", 50), compare(a, "<>", 7), compare(a, ">=", 0), compare(a, "<", 0))
    yield from (between(a, 20, 20), not_between(a, 20, 20), not_between(a, 0, 99), among(a, *range(0, 40, 2)))
    yield from (compare(u, "=", 5), compare(u, "<>", 5), compare(u, ">=", 300), compare(u, "<", 65_536))
    yield among(u, *range(0, 256 * 280, 280))
    yield from (compare(v, "=", 3), compare(v, "<", 56), compare(v, "<>", 3), compare(v, ">", 111), not_among(v, 3, 4, 5, 256))
    yield from (compare(i, "<", -24), compare(i, "<", 0), compare(i, ">", -25), is_null(i), compare(i, "<", 25))
    yield from (compare(d, "=", 2**64), compare(d, ">=", 1), compare(d, "<", 10**38 - 1), compare(d, "<", -(10**37)))
    yield from (compare(c, "=", "x"), compare(c, ">=", "abcdefghi"), compare(c, "<>", "x"), is_null(c), compare(c, "<", ""))
    yield from (among(c, "abcdefgh", "x", "y"), compare(c, "<=", s))
    yield from (compare(s, "=", "abcdefghi"), compare(s, "<", "abcdefgh"), compare(s, ">=", ""))
    yield from (compare(f, "=", True), compare(f, "<", True), compare(g, "=", False), compare(g, "<>", False), is_null(g))
    yield from (compare(i, ">=", a), compare(v, "<", a), compare(u, "=", v), compare(i, "<>", d))
    few, many = compare(i, "<", 0), compare(g, "=", True)
    yield from (all_of(compare(a, "=", 7), compare(v, "<", 12)), all_of(compare(u, "<", 7), compare(c, "=", "abcdefgh")))
    yield from (all_of(compare(a, "<>", 7), compare(c, "<>", "x"), many), any_of(compare(u, "=", 1), compare(f, "=", True)))
    yield from (all_of(few, negated(many)), negated(all_of(few, many)), tested(any_of(few, many), "UNKNOWN"))
    yield all_of(compare(u, "<", 63), compare(v, "<", 11))


def kept_of_wide(test):
    """How many rows are kept. Of rows that are alike in all columns that stand in the text, one is looked at."""
    names = [name for name in WIDE.rows[0] if re.search(rf"\b{name}\b", test.text)]
    alike = collections.Counter(tuple(row[name] for name in names) for row in WIDE.rows)
    return sum(count for cells, count in alike.items() if test.truth(dict(zip(names, cells))) is True)


def over_wide():
    for test in wide_tests():
        yield f"count SELECT a FROM wide WHERE {test.text}", f"{kept_of_wide(test)} rows"
    for first, end in [(1, 65), (65_533, 65_600), (69_999, MANY)]:
        test = compare(Name("c"), ">", "abcdefgh")
        rows = kept(WIDE.rows[first:end], test)
        given = min(len(rows), 1)
        yield f"range {first} {end} SELECT u, v FROM wide WHERE {test.text}", shown((row["u"], row["v"]) for row in rows) + f" {given} of 1"
    for first, end in [(0, MANY), (3, 65_539), (7, 69_998)]:
        rows = kept(WIDE.rows[first:end], compare(Name("v"), "<>", 2))
        cells = [len(rows), number_of(rows, "i"), *(sum_of(rows, name) for name in ("i", "least", "most"))]
        query = "SELECT COUNT(*), COUNT(i), SUM(i), SUM(least), SUM(most) FROM wide WHERE v <> 2"
        yield f"range {first} {end} {query}", shown([cells]) + " 1 of 1"
    # groups of one to all rows, of which no two are in one group
    for keys in ["least", "f", "c", "g", "v", "u", "u, v"]:
        yield f"count SELECT COUNT(*) FROM wide GROUP BY {keys}", f"{len(grouped(WIDE.rows, *keys.split(', ')))} rows"
    for keys in ["c", "c, f", "g", "f, s"]:
        groups = grouped(WIDE.rows, *keys.split(", "))
        cells = [[len(rows), number_of(rows, "g"), *(sum_of(rows, name) for name in ("a", "i", "most"))] for rows in groups]
        yield f"rows SELECT COUNT(*), COUNT(g), SUM(a), SUM(i), SUM(most) FROM wide GROUP BY {keys}", shown(cells)
    # each row has one partner, itself
    yield "count SELECT x.a FROM wide x JOIN wide y ON x.u = y.u AND x.v = y.v", f"{MANY} rows"
    yield "count SELECT x.a FROM wide x JOIN wide y ON x.v = y.v AND y.u = x.u WHERE x.a < y.a", "0 rows"


# ---- worked rows

RAMP = Table("ramp", [Column("a", integer(64, True), list(range(130)))])
MARKS = Table("marks", [Column("k", integer(8, False), [1, 2, 3, 4]),
                        Column("s", UTF8, [0, 1, 2, 0], [False, False, False, True], ["x", "y", "x"])])


def worked_by_hand():
    yield "range 0 130 SELECT COUNT(*) FROM ramp WHERE a < 65", "65,; 1 of 1"
    yield "range 1 130 SELECT COUNT(*) FROM ramp", "129,; 1 of 1"
    yield "range 1 130 SELECT COUNT(*) FROM ramp WHERE a < 65", "64,; 1 of 1"
    yield "range 60 70 SELECT a FROM ramp WHERE a < 65", "60,;61,;62,;63,;64,; 1 of 1"
    yield "rows SELECT k FROM marks WHERE s = 'x'", "1,;3,;"
    for word, kept_rows in [("TRUE", "1,;3,;"), ("FALSE", "2,;"), ("UNKNOWN", "4,;")]:
        yield f"rows SELECT k FROM marks WHERE (s = 'x') IS {word}", kept_rows


# ---- keys that are hard to tell apart

HALF, TOP = 2**32, 2**63
OF_KEYS = {
    "a": (integer(64, True), [3, 4, 5, 6, 4, -1, -TOP, TOP - 1, HALF + 3, 3]),
    "u": (integer(64, False), [3, 4, 5, 0, 2 * TOP - 1, TOP, TOP - 1, HALF + 3, 127]),
    "d": (DECIMAL, [3, 4, 2 * TOP + 3, 2 * TOP - 1, -1, -TOP, TOP, HALF + 3, 2**127 - 1, -(2**127), 5]),
    "b": (integer(8, True), [-128, 127, -1, 3, 4, 5, 6]),
    "f": (BOOL, [False, True]),
    "s": (UTF8, ["abcdefgh", "abcdefghi", "abcdefghj", "abcdefghij", "bbcdefghi", "", "abcdefgh "]),
}
KEY_ENTRIES = [["abcdefghi", "abcdefghi", None, "abcdefgh", ""], ["abcdefgh", "abcdefghj", "abcdefghi", "abcdefghj"]]


def keys_table():
    batches = []
    for number, entries in enumerate(KEY_ENTRIES):
        rows = range(12 * number, 12 * number + 12)
        columns = [Column("i", integer(8, False), list(rows))]
        for name, (of, values) in OF_KEYS.items():
            nulls = [drawn(f"null {name}", row, 6) == 0 for row in rows]
            columns.append(Column(name, of, [values[drawn(name, row, len(values))] for row in rows], nulls))
        slots = [drawn("c", row, len(entries)) for row in rows]
        batches.append([*columns, Column("c", UTF8, slots, [drawn("null c", row, 6) == 0 for row in rows], entries)])
    return Table("keys", *batches)


KEYS = keys_table()
EQUAL = Table("equal", [Column("a", integer(64, True), [7] * 300), Column("c", UTF8, [0] * 300, [], ["abcdefghi"]),
                        Column("n", integer(64, True), [1] * 300, [True] * 300)])
APART = Table("apart", [Column("i", integer(8, False), list(range(32))),
                        Column("a", integer(64, True), [(row - 16 << 59) + 5 for row in range(32)]),
                        Column("e", integer(64, False), [2 * TOP - 1 - row for row in range(32)]),
                        Column("s", UTF8, ["abcdefgh" + chr(64 + row) for row in range(32)])])


# ---- parts: keys of several texts, whose dictionaries change from batch to batch

PART_ROWS = [range(90), range(90, 150), range(150, 190)]
PART_WORDS = ["", "a", "b", "ab", "abcdefgh", "abcdefghi", "abcdefghj", None]
LONG_WORDS = ["", "a", "a" * 127, "a" * 128, "a" * 129, "a" * 128 + "b", "b" * 129, None]  # more than 128 bytes have a number


def parts_table(table, words, texts):
    """The dictionary of p has more codes than a table of numbers has places at first, and that of q few."""
    batches = []
    for number, rows in enumerate(PART_ROWS):
        columns = [Column("i", integer(8, False), list(rows))]
        for name, count in [("p", 80), ("q", 9)]:
            entries = [words[drawn(f"entry {name} {number}", place, 8)] for place in range(count)]
            slots = [drawn(f"part {name}", row, count) for row in rows]
            nulls = [drawn(f"null {name}", row, 7) == 0 for row in rows]
            columns.append(Column(name, UTF8, slots, nulls, entries))
        for name, of, values in [("s", UTF8, texts), ("b", integer(8, True), [-1, 0, 7])]:
            nulls = [drawn(f"null part {name}", row, 7) == 0 for row in rows]
            columns.append(Column(name, of, [values[drawn(f"part {name}", row, 3)] for row in rows], nulls))
        batches.append(columns)
    return Table(table, *batches)


PARTS = parts_table("parts", PART_WORDS, ["a", "b", ""])
LONGS = parts_table("longs", LONG_WORDS, ["a" * 128, "a" * 129, ""])


def of_parts():
    for keys in ["p, q", "q, p", "p, b", "s, p", "q, s, p, b", "q, b, q", "s, b, q"]:
        names = keys.split(", ")
        cells = [[*(rows[0][name] for name in names), len(rows), number_of(rows, "p"), sum_of(rows, "i")]
                 for rows in grouped(PARTS.rows, *names)]
        yield f"rows SELECT {keys}, COUNT(*), COUNT(p), SUM(i) FROM parts GROUP BY {keys}", shown(cells)
    for keys in ["p, q", "q, p", "p, b", "q, s, p, b", "s, b, q"]:
        cells = [[len(rows), number_of(rows, "p"), sum_of(rows, "i")] for rows in grouped(LONGS.rows, *keys.split(", "))]
        yield f"rows SELECT COUNT(*), COUNT(p), SUM(i) FROM longs GROUP BY {keys}", shown(cells)


JOINS = ["a = a", "a = u", "u = a", "d = a", "a = d", "d = u", "b = a", "a = b", "u = b", "s = s", "s = c", "c = s", "c = c",
         "f = f AND a = u", "s = c AND f = f", "b = b AND c = c AND f = f"]


def of_join(left, right, equalities, chosen, part=slice(None)):
    """A join of a part of a table and another one, which selects a column of each side."""
    pairs = [one.split(" = ") for one in equalities.split(" AND ")]
    on = " AND ".join(f"x.{one} = y.{other}" if number % 2 == 0 else f"y.{other} = x.{one}"
                      for number, (one, other) in enumerate(pairs))
    one, other = chosen
    query = f"SELECT x.{one}, y.{other} FROM {left.name} x JOIN {right.name} y ON {on}"
    return query, [(x[one], y[other]) for x, y in joined(left.rows[part], right.rows, *pairs)]


def of_keys():
    for equalities in JOINS:
        query, rows = of_join(KEYS, KEYS, equalities, "ii")
        yield f"rows {query}", shown(rows)
    # of the first place a range alone is joined, and of the other one both batches are opened
    for number, equalities in enumerate(["i8 = a", "u64 = d", "n = u", "d = b", "i16 = i", "f = f AND c = s", "r = c AND k = i"]):
        first, length = ALL[16 + number * 5 % 32]
        query, rows = of_join(EACH, KEYS, equalities, "ki", slice(first, first + length))
        yield f"range {first} {first + length} {query}", shown(rows) + f" {min(len(rows), 1)} of 3"
    for keys in ["a", "u", "d", "b", "s", "c", "f", "c, f", "f, b"]:
        names = keys.split(", ")
        groups = grouped(KEYS.rows, *names)
        cells = [[rows[0][names[0]], len(rows), number_of(rows, "d"), sum_of(rows, "u"), sum_of(rows, "i")] for rows in groups]
        yield f"rows SELECT {names[0]}, COUNT(*), COUNT(d), SUM(u), SUM(i) FROM keys GROUP BY {keys}", shown(cells)
    for number, key in enumerate(["i8", "i64", "u16", "d", "s", "c", "f", "n", "r"]):
        first, length = ALL[16 + number * 5 % 32]
        groups = grouped(EACH.rows[first : first + length], key)
        cells = [[len(rows), sum_of(rows, "i64")] for rows in groups]
        yield f"range {first} {first + length} SELECT COUNT(*), SUM(i64) FROM each GROUP BY {key}", shown(cells) + " 1 of 1"
    # all equal: each row with each one; all nulls: none
    yield "count SELECT x.a FROM equal x JOIN equal y ON x.a = y.a", "90000 rows"
    yield "count SELECT x.a FROM equal x JOIN equal y ON x.c = y.c AND y.a = x.a", "90000 rows"
    yield "count SELECT x.a FROM equal x JOIN equal y ON x.n = y.n", "0 rows"
    yield "count SELECT x.a FROM equal x JOIN equal y ON x.a = y.a AND x.n = y.n", "0 rows"
    yield "rows SELECT a, COUNT(*), SUM(a), COUNT(n), SUM(n) FROM equal GROUP BY a", "7,300,2100,0,null,;"
    yield "rows SELECT n, COUNT(*) FROM equal GROUP BY n, c", "null,300,;"
    # all different
    for equalities in ["a = a", "e = e", "s = s", "a = e"]:
        query, rows = of_join(APART, APART, equalities, "ii")
        yield f"rows {query}", shown(rows)
    for key in ["a", "e", "s"]:
        yield f"rows SELECT SUM(i) FROM apart GROUP BY {key}", "".join(f"{row},;" for row in range(32))


TABLES = [EACH, RAMP, MARKS, WIDE, KEYS, EQUAL, APART, PARTS, LONGS]


def puts():
    for one in TABLES:
        yield from one.puts()


def cases():
    yield from worked_by_hand()
    yield from over_each()
    yield from over_wide()
    yield from of_keys()
    yield from of_parts()
