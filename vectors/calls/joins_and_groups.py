"""Joins, groups and sums as calls: the tables and the texts, of which each answer is that of the plain model. What was worked
out by hand stands beside a text, and has to be what the model says."""

from __future__ import annotations

from collections import Counter

import lines
import trees
from lines import of_query
from model import Answer
from random_calls.plain_model import Column, Database, Put, Table, after
from random_calls.puts import TREES
from table import column as buffers, texts_of
from wire import query_handle, scalar, ticket

HOW = {"CREATE": scalar(1, 1), "APPEND": scalar(2, 2), "REPLACE": scalar(1, 1) + scalar(2, 3)}


# ---- tables


def columns_of(said):
    """Columns of words such as `a Int64?`, with a question mark where a cell may be null."""
    parts = [one.strip().split(" ") for one in said.split(",")]
    return tuple(Column(name, kind.rstrip("?"), kind.endswith("?")) for name, kind in parts)


def fields_of(columns):
    """The fields of a schema. A dictionary's number is its column's."""
    for number, column in enumerate(columns):
        more = {"dictionary": trees.encoding(number, trees.integer(16, False))} if column.type == "dictionary" else {}
        yield trees.field(column.name, TREES[column.type], column.nullable, **more)


def slots_of(values, entries):
    """Of each value the place of one of its entries, of a value that comes again that of the next one; a null is one in its
    slot and one in the dictionary in turn."""
    seen, found = Counter(), []
    for value in values:
        places = [place for place, entry in enumerate(entries) if entry == value]
        places = [None, *places] if value is None else places
        found.append(places[seen[value] % len(places)])
        seen[value] += 1
    return found


def entries_of(values):
    """A dictionary of these values, from the greatest down, in which each stands twice, and a null."""
    words = sorted({value for value in values if value is not None}, reverse=True)
    return [*words, None, *words]


def batches_of(columns, batches):
    """The batches, each of them behind its dictionaries."""
    for rows in batches:
        parts = []
        for number, column in enumerate(columns):
            values = [row[number] for row in rows]
            if column.type != "dictionary":
                parts.append(buffers(TREES[column.type], values, []))
                continue
            entries = entries_of(values)
            words = trees.batch(len(entries), (entries.count(None), trees.validity(entries), *texts_of(entries)))
            yield trees.dictionary(number, words)
            parts.append(buffers(None, values, slots_of(values, entries)))
        yield trees.batch(len(rows), *parts)


# ---- connections


def shown(value):
    if value is None:
        return "Null,"
    if isinstance(value, str):
        return f'Text("{value}"),'
    return f"Bool({str(value).lower()})," if isinstance(value, bool) else f"Int({value}),"


def told(columns):
    """The columns of an answer."""
    types = [f"Integer({one.type})" if one.type.startswith(("Int", "UInt")) else one.type for one in columns]
    return "".join(f"{one.name} {of}{' or null' * one.nullable};" for one, of in zip(columns, types))


class Connection:
    """The calls of a connection with their answers, and the database of each version."""

    def __init__(self, parts=1):
        self.parts, self.calls = parts, []
        self.versions: list[Database] = [{}]

    def put(self, name, said, *batches, how="CREATE"):
        columns = columns_of(said)
        rows = [row for batch in batches for row in batch]
        there = {"CREATE": "FAIL"}.get(how, how)
        self.versions.append(after(self.versions[-1], Put(name, "CREATE", there, Table(columns, rows))))
        made = batches_of(columns, batches)
        self.calls.append(lines.put_of(name.encode(), HOW[how], list(fields_of(columns)), *made, rows=len(rows)))

    def ask(self, text, wanted=None):
        """An info, a schema, and the fetches of all endpoints, the last first. A text that is refused is refused by each."""
        version, answer = len(self.versions) - 1, Answer(text, self.versions[-1])
        payload = of_query(text.encode())
        if answer.fault:
            assert wanted in (None, answer.fault), (text, answer.fault)
            self.refuse(b"GetFlightInfo", payload, answer.fault)
            self.refuse(b"GetSchema", payload, answer.fault)
            return self.fetch(text, 0, 0)
        ranges = answer.ranges(self.parts)
        rows = [row for first, end in ranges for row in answer.rows(first, end)]
        assert wanted in (None, rows), (text, rows)
        handles = [query_handle(version, first, end, text.encode()) for first, end in ranges]
        self.calls.append(lines.info(payload, told(answer.columns), handles))
        self.calls.append(lines.schema(payload, told(answer.columns)))
        for first, end in reversed(ranges):
            self.fetch(text, first, end)

    def ask_all(self, *texts):
        for text in texts:
            self.ask(text)

    def refuse(self, method, message, fault):
        self.calls.append(lines.refuse(method, [message], fault))

    def fetch(self, text, first, end, version=None):
        """A fetch of a range, at the newest version or at another one."""
        version = len(self.versions) - 1 if version is None else version
        handle = query_handle(version, first, end, text.encode())
        if version >= len(self.versions):
            return self.refuse(b"DoGet", ticket(handle), "F18")
        answer = Answer(text, self.versions[version])
        if not answer.is_fetched(first, end):
            return self.refuse(b"DoGet", ticket(handle), "F17")
        rows = ["".join(map(shown, row)) for row in answer.rows(first, end)]
        self.calls.append(lines.fetch(handle, told(answer.columns), *rows))

    def bodies(self, text, *bodies):
        """The bodies of a fetch of all rows."""
        answer = Answer(text, self.versions[-1])
        self.calls.append(lines.bodies(query_handle(len(self.versions) - 1, 0, answer.total, text.encode()), *bodies))

    def bytes_of(self, text, *bodies):
        """The same, of which the bytes stand as digits."""
        self.bodies(text, *map(bytes.fromhex, bodies))

    def end(self, workers=()):
        """The connection with one worker, and the same with each of these numbers of workers."""
        parts = f"--parts {self.parts}" if self.parts > 1 else ""
        for options in (parts, *(f"{parts} --workers {many}".strip() for many in workers)):
            lines.pipe(options, *self.calls)


def one_table(said, *batches, parts=1, name="t"):
    found = Connection(parts)
    found.put(name, said, *batches)
    return found


# ---- the worked rows of the documents


COUNTS = "SELECT COUNT(*), COUNT(a), SUM(a) FROM t"
OF_TEXTS = "SELECT s, COUNT(*) FROM t GROUP BY s"
TEXTS = [("b",), (None,), ("a",), (None,), ("b",)]
GROUPED_TEXTS = [("b", 2), (None, 2), ("a", 1)]


def sums():
    lines.note("counts and sums, of nulls and of no rows, and sums above 64 bits, byte by byte")
    nulls = one_table("a Int64?", [(None,), (None,)], parts=2)
    nulls.ask(COUNTS, [(2, 0, None)])
    nulls.put("t", "a Int64?", how="REPLACE")
    nulls.ask(COUNTS, [(0, 0, None)])
    nulls.ask("SELECT COUNT(*) FROM t GROUP BY a", [])
    nulls.end()
    most = one_table("a UInt64", [(2**64 - 1,), (2**64 - 1,)])
    most.ask("SELECT SUM(a) FROM t", [(36893488147419103230,)])
    most.bodies("SELECT SUM(a) FROM t", bytes.fromhex("FE FF FF FF FF FF FF FF 01") + bytes(7))
    most.end()
    least = one_table("a Int8", [(-128,), (-128,)])
    least.ask("SELECT SUM(a) FROM t", [(-256,)])
    least.bodies("SELECT SUM(a) FROM t", b"\x00" + b"\xff" * 15)
    least.end()
    one = one_table("a Int64", [(1,)])
    one.ask("SELECT COUNT(*), SUM(a) FROM t WHERE a > 100", [(0, None)])
    one.end()


def groups():
    lines.note("groups by first appearance, in one batch and in three; of a dictionary in which one text stands twice")
    for batches in ([TEXTS], [TEXTS[:2], TEXTS[2:4], TEXTS[4:]]):
        words = one_table("s Utf8?", *batches, parts=3)
        words.ask(OF_TEXTS, GROUPED_TEXTS)
        words.end((2, 4, 8))
    twice = one_table("c dictionary", [("x",), ("x",)])
    twice.ask("SELECT c, COUNT(*) FROM t GROUP BY c", [("x", 2)])
    twice.end()
    words = one_table("s dictionary?", TEXTS[:3], TEXTS[3:])
    words.ask(OF_TEXTS, GROUPED_TEXTS)
    words.end((2, 4, 8))


FOUR = [("b",), (None,), ("a",), ("b",)]
B_AND_A = "00000000 01000000 02000000 00000000 6261000000000000"  # their offsets, and the texts
FOUR_SLOTS = "0D00000000000000 00000000 00000000 01000000 00000000"  # their validity, and the indices 0, null, 1, 0


def dictionaries():
    lines.note("dictionaries of the texts that a batch holds, by first appearance, right before the batch, byte by byte")
    four = one_table("s dictionary?", FOUR)
    four.ask("SELECT * FROM t", FOUR)
    four.bytes_of("SELECT * FROM t", B_AND_A, FOUR_SLOTS)
    four.ask("SELECT s, s FROM t", [row * 2 for row in FOUR])
    four.bytes_of("SELECT s, s FROM t", B_AND_A, B_AND_A, FOUR_SLOTS * 2)
    four.ask("SELECT s FROM t WHERE s = 'a'", [("a",)])
    four.bytes_of("SELECT s FROM t WHERE s = 'a'", "00000000 01000000 6100000000000000", "00000000 00000000")
    joined = "SELECT x.s, y.s FROM t x JOIN t y ON x.s = y.s"
    four.ask(joined, [("b", "b"), ("b", "b"), ("a", "a"), ("b", "b"), ("b", "b")])
    four.bytes_of(joined, B_AND_A, B_AND_A, "00000000 00000000 01000000 00000000 00000000 00000000" * 2)
    four.ask(OF_TEXTS, [("b", 2), (None, 1), ("a", 1)])
    four.bytes_of(OF_TEXTS, B_AND_A, "0500000000000000 00000000 00000000 01000000 00000000"
                  "0200000000000000 0100000000000000 0100000000000000")
    four.end()
    two = one_table("s dictionary?", FOUR[:2], FOUR[2:], parts=2)
    two.ask("SELECT * FROM t", FOUR)
    two.bytes_of("SELECT * FROM t", "00000000 01000000 6200000000000000", "0100000000000000 00000000 00000000",
                 "00000000 01000000 02000000 00000000 6162000000000000", "00000000 01000000")
    two.end()
    nulls = one_table("s dictionary?", [(None,), (None,)])
    nulls.ask("SELECT * FROM t", [(None,), (None,)])
    nulls.bytes_of("SELECT * FROM t", "0000000000000000", "0000000000000000 0000000000000000")
    nulls.end()


def joins():
    lines.note("a join of a table with itself in two parts, and one with nulls on both sides")
    pairs = one_table("a Int64, i Int64", [(1, 10), (1, 20)], parts=2)
    text = "SELECT x.i, y.i FROM t AS x JOIN t AS y ON x.a = y.a"
    pairs.ask(text, [(10, 10), (10, 20), (20, 10), (20, 20)])
    pairs.fetch(text, 0, 2)
    pairs.ask("SELECT x.i, y.i FROM t x JOIN t y ON y.a = x.a AND x.i = y.i", [(10, 10), (20, 20)])
    pairs.ask("SELECT x.i, y.i FROM t x JOIN t y ON x.a = y.a WHERE x.i < y.i", [(10, 20)])
    pairs.put("u", "a Int64?", [(1,), (1,), (None,)])
    pairs.ask("SELECT x.a, y.i, z.i FROM u x JOIN t y ON x.a = y.a JOIN t z ON y.i = z.i", [(1, 10, 10), (1, 20, 20)] * 2)
    pairs.end((2,))
    nulls = one_table("a Int64?", [(1,), (None,), (1,)])
    nulls.put("u", "a Int64?", [(1,), (1,), (None,)])
    nulls.ask("SELECT * FROM t JOIN u ON t.a = u.a", [(1, 1)] * 4)
    nulls.put("t", "a Int64?", how="REPLACE")
    nulls.ask("SELECT * FROM t JOIN u ON t.a = u.a", [])
    nulls.ask("SELECT * FROM u JOIN t ON t.a = u.a", [])
    nulls.end((2,))


def refusals():
    lines.note("a version that is not reached, a part of the groups, and a name of 65 bytes; texts that do not bind")
    late = one_table("a Int64", [(1,), (2,)])
    late.put("t", "a Int64", how="APPEND")
    late.put("t", "a Int64", how="APPEND")
    late.fetch(COUNTS, 0, 2, version=9)
    for first, end in ((0, 1), (1, 2), (0, 0), (2, 2), (1, 0), (0, 3), (0, 2)):
        late.fetch(COUNTS, first, end)
    late.calls.append(lines.put(b"n" * 65, HOW["CREATE"], [("a", lines.INT64)], fault="F12"))
    late.fetch(COUNTS, 0, 2, version=3)
    late.end()
    other = one_table("b Int64", [(1,)])
    other.ask("SELECT a FROM t", "F14")
    other.ask("SELECT z FROM u JOIN u ON z = z", "F9")
    other.end()
    bad = one_table("a Int64, s Utf8", [(1, "x")])
    bad.put("u", "a Int64, s Utf8", [(1, "x")])
    bad.ask("SELECT COUNT(*) FROM t JOIN u ON t.a = u.a", "F16")
    bad.ask("SELECT a FROM t JOIN u ON t.a = u.a", "F14")
    bad.ask("SELECT t.a FROM t JOIN t ON t.a = t.a", "F14")
    bad.ask("SELECT t.a FROM t JOIN u ON t.a = t.a", "F16")
    bad.ask("SELECT t.a FROM t JOIN u ON t.a = u.s", "F15")
    bad.ask("SELECT a FROM t WHERE a = 'x'", "F15")
    bad.ask("SELECT a FROM t WHERE a = 'x' GROUP BY z", "F15")
    bad.ask("SELECT s, COUNT(*) FROM t GROUP BY a", "F16")
    bad.ask("SELECT a, COUNT(*) FROM t", "F16")
    bad.ask("SELECT SUM(s) FROM t", "F15")
    bad.end()


# ---- more of each


SHOP = "k Int32?, s Utf8?, b Bool?, d Decimal128?, n Int64"
SHOP_ROWS = [
    [(1, "x", True, 5, 10), (None, "y", False, None, 20), (2, None, None, -5, 30)],
    [(1, "y", None, 10**37, 40)],
    [(3, "x", True, 5, 50), (-1, "", False, 0, 60), (2, "x", True, None, 70), (None, "y", False, -5, 80)],
]
LEFT = "k Int64?, s dictionary?, u UInt64"
LEFT_ROWS = [
    [(2, "x", 0), (1, None, 2**64 - 1), (None, "y", 1)],
    [(1, "y", 2), (2**40, "x", 5)],
]


def shop(parts):
    """Two tables of several batches, and one of no rows."""
    found = one_table(SHOP, *SHOP_ROWS, parts=parts)
    found.put("u", LEFT, *LEFT_ROWS)
    found.put("none", LEFT)
    return found


def more_joins():
    lines.note("joins over several batches: in order, by each class of columns, of two to four places, with WHERE, in parts")
    for parts in (1, 3):
        found = shop(parts)
        found.ask("SELECT n, u FROM t JOIN u ON t.k = u.k", [(10, 2**64 - 1), (10, 2), (30, 0), (40, 2**64 - 1), (40, 2), (70, 0)])
        found.ask_all(
            "SELECT n, u FROM t JOIN u ON u.s = t.s",
            "SELECT * FROM u JOIN t ON u.k = t.k AND t.s = u.s",
            "SELECT x.n, y.n FROM t x INNER JOIN t y ON y.b = x.b",
            "SELECT x.n, y.n FROM t x JOIN t y ON x.d = y.d AND x.k = y.k",
            "SELECT t.n, u.u FROM u JOIN t ON t.d = u.u",
            "SELECT x.n a, y.u b, z.n c FROM t x JOIN u y ON x.k = y.k JOIN t z ON z.s = y.s",
            "SELECT w.n, x.u, y.n, z.u FROM t w JOIN u x ON w.k = x.k JOIN t y ON y.s = x.s JOIN u z ON z.k = w.k AND z.s = y.s",
            "SELECT x.n, y.n FROM t x JOIN t y ON x.k = y.k WHERE x.n < y.n",
            "SELECT x.n, y.n FROM t x JOIN t y ON x.k = y.k WHERE NOT (x.s = y.s) OR y.b IS NULL",
            "SELECT n, u FROM t JOIN u ON t.k = u.k WHERE u.s IN ('y', t.s) IS UNKNOWN",
            "SELECT n, u FROM t JOIN u ON t.k = u.k WHERE n > 100",
            "SELECT t.n, none.u FROM t JOIN none ON t.k = none.k",
            "SELECT t.n, none.u FROM none JOIN t ON t.k = none.k",
            'SELECT "a b".n, y.n FROM t "a b" JOIN t y ON "a b".n = y.n',
        )
        found.fetch("SELECT n, u FROM t JOIN u ON t.k = u.k", 2, 5)
        found.fetch("SELECT n, u FROM t JOIN u ON t.k = u.k", 8, 8)
        found.fetch("SELECT n, u FROM t JOIN u ON t.k = u.k", 8, 9)
        found.end((2, 3, 16))


def more_groups():
    lines.note("groups over several batches: keys of each class, of two columns and with nulls, that are not selected; in one endpoint")
    found = shop(4)
    found.ask("SELECT k, COUNT(*), SUM(n) FROM t GROUP BY k", [(1, 2, 50), (None, 2, 100), (2, 2, 100), (3, 1, 50), (-1, 1, 60)])
    found.ask_all(
        "SELECT b, COUNT(*), COUNT(b), COUNT(d), COUNT(s), SUM(k) FROM t GROUP BY b",
        "SELECT d, COUNT(*) FROM t GROUP BY d",
        "SELECT s, SUM(u), COUNT(k) FROM u GROUP BY s",
        "SELECT COUNT(*) AS n, s x, b FROM t GROUP BY s, b",
        "SELECT SUM(n) FROM t GROUP BY s, s, k",
        "SELECT s, s, COUNT(s) FROM t GROUP BY s",
        "SELECT s FROM t GROUP BY s",
        "SELECT b, COUNT(*) FROM t WHERE n > 20 AND k IS NOT NULL GROUP BY b",
        "SELECT b, SUM(k), COUNT(*) FROM t WHERE NOT k = 2 GROUP BY b",
        "SELECT COUNT(*), SUM(k), SUM(n) FROM t WHERE s = 'y' OR b = FALSE",
        "SELECT COUNT(*), COUNT(k), SUM(k) FROM t WHERE n < 0",
        "SELECT s, COUNT(*) FROM t WHERE n < 0 GROUP BY s",
        "SELECT COUNT(*), COUNT(u), SUM(u) FROM none",
        "SELECT u, SUM(k) FROM none GROUP BY u",
    )
    found.end((2, 3, 16))


MANY = "k Int32, s Utf8?, n Int64"


def many_batches():
    lines.note("groups over more batches than there are parts, with a rest and without: keys of all parts, of one part, and of the last batch alone; and rows")
    for batches, sums in ((19, (21, 24, 27, 30, 33, 17, 19)), (16, (21, 24, 11, 13, 15, 17, 19))):
        texts = [None] * 9 + ["x"] * (batches - 10) + ["last"]
        found = one_table(MANY, *([(number % 7, texts[number], number)] for number in range(batches)))
        counts = [len(range(key, batches, 7)) for key in range(7)]
        found.ask("SELECT k, COUNT(*), SUM(n) FROM t GROUP BY k", list(zip(range(7), counts, sums)))
        found.ask("SELECT s, COUNT(*) FROM t GROUP BY s", [(None, 9), ("x", batches - 10), ("last", 1)])
        found.ask("SELECT n, COUNT(s) FROM t GROUP BY n", [(number, int(number >= 9)) for number in range(batches)])
        found.ask("SELECT n FROM t WHERE k = 6 OR n > 12 GROUP BY n", [(number,) for number in (6, *range(13, batches))])
        found.ask("SELECT COUNT(*), SUM(k), COUNT(s) FROM t WHERE n >= 0", [(batches, sum(number % 7 for number in range(batches)), batches - 9)])
        found.ask("SELECT n, s FROM t", list(enumerate(texts)))
        found.ask("SELECT n FROM t WHERE k <> 3 AND n <> 9", [(number,) for number in range(batches) if number % 7 != 3 and number != 9])
        found.ask("SELECT x.n, y.n FROM t AS x JOIN t AS y ON x.k = y.k WHERE y.n < 7", [(number, number % 7) for number in range(batches)])
        found.end((2, 3, 4, 16))


INTEGERS = ["Int8", "Int16", "Int32", "Int64", "UInt8", "UInt16", "UInt32", "UInt64"]


def more_sums():
    lines.note("sums of all widths, of their least and greatest numbers; and sums that leave 64 bits and come back")
    ends = [(-(2 ** (width - 1)), 2 ** (width - 1) - 1) for width in (8, 16, 32, 64)] + [(0, 2**width - 1) for width in (8, 16, 32, 64)]
    columns = ", ".join(f"c{number} {kind}?" for number, kind in enumerate(INTEGERS))
    least, most, none = tuple(one for one, _ in ends), tuple(other for _, other in ends), (None,) * len(ends)
    listed = ", ".join(f"SUM(c{number}), COUNT(c{number})" for number in range(len(ends)))
    for rows in ([least, least, none], [most, most, most], [least, none, most], [none, none, none]):
        found = one_table(columns, rows[:1], rows[1:])
        found.ask(f"SELECT {listed} FROM t", [tuple(cell for values in zip(*rows) for cell in summed(values))])
        found.end()
    found = one_table("a Int64", [(2**63 - 1,), (2**63 - 1,)], [(-(2**63),), (-(2**63),), (3,)])
    found.ask("SELECT SUM(a) FROM t", [(1,)])
    found.ask("SELECT SUM(a) FROM t WHERE a > 0", [(2**64 + 1,)])
    found.end()


def summed(values):
    """The sum of the values that are not null, and how many there are."""
    there = [value for value in values if value is not None]
    return (sum(there) if there else None), len(there)


def more_refusals():
    lines.note("faults of joins and groups, in their order; and an answer of more than 64 columns")
    found = shop(1)
    found.ask_all(
        "SELECT z FROM v JOIN v ON z = z", "SELECT z FROM t JOIN v ON z = z", "SELECT z FROM t JOIN t ON z = z",
        "SELECT z FROM t JOIN u ON z = t.s", "SELECT z FROM t JOIN u ON t.k = z", "SELECT z FROM t JOIN u ON k = u.k",
        "SELECT z FROM t JOIN u ON t.k = t.s", "SELECT z FROM t JOIN u ON t.k = u.s", "SELECT z FROM t JOIN u ON u.k = u.k WHERE z = 1",
        "SELECT z FROM t x JOIN u y ON x.k = z.k JOIN t z ON z.k = x.k", "SELECT x.n FROM t x JOIN u y ON x.k = y.k JOIN t z ON x.k = y.k",
        "SELECT z FROM t JOIN u ON t.k = u.k WHERE t.k = 'x'", "SELECT z FROM t JOIN u ON t.k = u.k WHERE k = 1",
        "SELECT z FROM t JOIN u ON t.k = u.k", "SELECT k FROM t JOIN u ON t.k = u.k", "SELECT t.u FROM t JOIN u ON t.k = u.k",
        "SELECT z FROM t WHERE k = 'x' GROUP BY z", "SELECT z, SUM(s) FROM t GROUP BY y", "SELECT SUM(d), z FROM t", "SELECT SUM(b) FROM t",
        "SELECT SUM(z), n FROM t", "SELECT n, SUM(s) FROM t GROUP BY k", "SELECT k x, COUNT(*) FROM t GROUP BY x", "SELECT n FROM t GROUP BY k",
        "SELECT COUNT(z) FROM t", "SELECT COUNT(t.n) FROM t AS x", "SELECT * FROM t GROUP BY k", "SELECT COUNT(*) FROM t JOIN u ON z = z",
        "SELECT t.k FROM t JOIN u ON t.k = u.k GROUP BY z", "SELECT t.k FROM t, u", "SELECT t.k FROM t LEFT JOIN u ON t.k = u.k",
        "SELECT t.k FROM t JOIN u", "SELECT t.k FROM t JOIN u ON t.k < u.k", "SELECT SUM(*) FROM t", "SELECT COUNT(DISTINCT k) FROM t",
        "SELECT COUNT(*) FROM t GROUP BY COUNT(*)", "SELECT k FROM t GROUP BY k HAVING k = 1",
    )
    found.end()
    wide = one_table(", ".join(f"c{number} Bool" for number in range(32)), [(True,) * 32])
    wide.put("u", "c0 Bool", [(True,)])
    wide.ask("SELECT * FROM t x JOIN t y ON x.c0 = y.c31", [(True,) * 64])
    wide.ask("SELECT * FROM t x JOIN t y ON x.c0 = y.c31 JOIN u ON u.c0 = x.c1", "F12")
    wide.end()


def older_versions():
    lines.note("joins and groups of versions that are no longer the newest")
    found = one_table("a Int64, i Int64?", [(1, 10), (2, None)], parts=2)
    join, grouped = "SELECT x.i, y.i FROM t x JOIN t y ON x.a = y.a", "SELECT i, COUNT(*) FROM t GROUP BY i"
    found.ask_all(join, grouped)
    found.put("t", "a Int64, i Int64?", [(1, None)], [(2, 10)], how="APPEND")
    found.ask_all(join, grouped)
    found.put("t", "a Utf8, i dictionary", [("x", "y")], how="REPLACE")
    found.ask_all(join, grouped)
    for text in (join, grouped):
        for version, end in ((1, 2), (2, 4), (3, 1), (1, 4), (2, 2), (0, 0), (4, 1)):
            found.fetch(text, 0, end, version=version)
    found.end((4,))


def connections():
    for part in (sums, groups, joins, refusals, more_joins, more_groups, many_batches, more_sums, more_refusals, older_versions, dictionaries):
        part()
