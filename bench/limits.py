#!/usr/bin/env python3
"""What one client can cost at the limits of docs/PROTOCOL.md: the dearest tickets, joins, groups and puts that we know of.

    python3 bench/limits.py [--program PATH] [--rows N] [--keys K] [--rounds R] [CASE..]

A ticket or a join at its limit may take a server days. So each case is run at two smaller sizes: tables have N rows (131,072)
or fewer and a quarter of them, and places of a join K equal keys (60) and half of them. What the larger one takes more, of the
processor and of memory, is told for each row, group, batch or joined row. The last two columns are what the limit comes to at
that rate: they are worked out, and not measured. Of R rounds (1) the least processor time and the most memory of each size count.

Each case is puts and one fetch through `flightscan pipe`. The program is run on the puts alone too, and what it takes and holds
then is taken from what it takes and holds with the fetch. Of a put the program without an input is. Every answer has to end
with status 0. Build the program first, as for `pipe.py`.
"""

import argparse
import pathlib
import struct
import subprocess
import sys
import tempfile
from dataclasses import dataclass

sys.dont_write_bytecode = True
ROOT = pathlib.Path(__file__).resolve().parent.parent
sys.path[:0] = [str(ROOT / "bench"), str(ROOT / "scripts"), str(ROOT / "vectors/arrow")]

from built import program  # noqa: E402
from hostile import LONG, STATUS_OK, most_held, put, single_rows  # noqa: E402
from measured import Measured  # noqa: E402
from trees import BOOL, UTF8, batch, dictionary, encoding, field, integer, placed, schema, texts  # noqa: E402
from wire import call, query_handle, ticket  # noqa: E402

MOST_ROWS, MOST_TEXT, MOST_KEYS = 16_777_216, 16_384, 1_000
INT8, UINT8, INT32, INT64 = integer(8, True), integer(8, False), integer(32, True), integer(64, True)
FEWER, FEWEST = 16, 512  # so many times fewer rows has a put of small batches, and a table of long texts
PIECE = 65_536  # rows of a batch
COLUMNS = 64


@dataclass
class Case:
    """Puts, the query of a fetch if there is one, and the rows of its first place; how many units are worked on, what a unit is,
    and how many there may be."""

    name: str
    puts: list
    query: str | None
    rows: int
    units: int
    unit: str
    limit: int
    at: str
    grows: bool = True  # whether memory grows with the units: a join drops a piece of joined rows that it does not keep


# ---- tables


def zeros_and_twos(count):
    """A table of so many rows of 0 and 2 in turn, in batches of 65,536 rows: by its ends each batch may hold a 1."""
    sizes = [min(PIECE, count - first) for first in range(0, count, PIECE)]
    return put(b"t", [(schema(field("a", INT64, False)), b""), *(batch(size, (0, b"", struct.pack("<2q", 0, 2) * (size // 2))) for size in sizes)])


def single_zeros(count):
    """A table of so many rows of 0, each of which is a batch."""
    return put(b"t", [(schema(field("a", INT64, False)), b""), *[batch(1, (0, b"", bytes(8)))] * count])


def two_numbers(count):
    """Each row has 0 beside 1, or 1 beside 0: by the ends of its batch they may be equal."""
    head = schema(field("a", INT64, False), field("b", INT64, False))
    return put(b"t", [(head, b""), batch(count, *((0, b"", struct.pack("<2q", number, 1 - number) * (count // 2)) for number in range(2)))])


def two_truths(count):
    """The same of truth values."""
    head = schema(field("a", BOOL, False), field("b", BOOL, False))
    return put(b"t", [(head, b""), batch(count, *((0, b"", bytes([byte]) * (count // 8)) for byte in (0x55, 0xAA)))])


def short_texts(count):
    """A table of so many rows of the text c, and of one text a at the head of each batch of 65,536: by its ends each may be below b."""
    sizes = [min(PIECE, count - first) for first in range(0, count, PIECE)]
    pieces = [batch(size, (0, b"", *texts([b"a"] + [b"c"] * (size - 1)))) for size in sizes]
    return put(b"t", [(schema(field("s", UTF8, False)), b""), *pieces])


def equal_keys(count):
    """A table of so many rows of one key and of one value."""
    head = schema(field("k", INT8, False), field("v", INT32, False))
    return put(b"t", [(head, b""), batch(count, (0, b"", bytes(count)), (0, b"", bytes(4 * count)))])


def long_texts(count, many, pairs):
    """A table of so many rows of pairs of long texts, which two dictionaries have. The texts differ in their last byte."""
    head = schema(field("s", UTF8, False, dictionary=encoding(0, UINT8)), field("u", UTF8, False, dictionary=encoding(1, UINT8)))
    words = [dictionary(id, batch(many, (0, b"", *texts([LONG[:-1] + bytes([65 + number]) for number in range(many)])))) for id in range(2)]
    codes = b"".join(bytes(pairs(row)[side] for row in range(count)) for side in range(2))
    return put(b"t", [(head, b""), *words, placed(count, [(count, 0)] * 2, [(0, 0), (0, count), (0, 0), (count, count)], codes)])


def two_texts(count):
    """Each row has one of two texts in both columns."""
    return long_texts(count, 2, lambda row: (row % 2, row % 2))


def many_texts(count):
    """Of 16 texts and 16 others each row has another pair, as long as there are some."""
    return long_texts(count, 16, lambda row: (row % 16, row // 16 % 16))


def windows(count, table=b"t"):
    """A table of so many rows: their numbers, and 63 columns of small numbers, which are windows on the same bytes."""
    head = schema(field("k", INT32, False), *(field(f"c{number}", INT8, False) for number in range(COLUMNS - 1)))
    body = struct.pack(f"<{count}i", *range(count)) + bytes(row % 100 for row in range(count + 8 * COLUMNS))
    buffers = [(0, 0), (0, 4 * count)] + [place for number in range(COLUMNS - 1) for place in ((0, 0), (4 * count + 8 * number, count))]
    return put(table, [(head, b""), placed(count, [(count, 0)] * COLUMNS, buffers, body)])


# ---- cases


def filled(front, part, between):
    """A text of at most 16,384 bytes: the front, and the part as often as there is room."""
    times = (MOST_TEXT - len(front) + len(between)) // (len(part) + len(between))
    return front + between.join([part] * times)


def tickets(rows):
    """The cases of long WHEREs, over tables of so many rows or fewer."""
    small, few = rows // FEWER, rows // FEWEST
    table, singles, alike, pairs = [zeros_and_twos(rows)], [single_zeros(small)], [two_texts(rows)], [many_texts(few)]
    front, counted = "SELECT a FROM t WHERE ", "SELECT COUNT(*) FROM t WHERE "
    numbers = filled(front, "a IN (" + ",".join(str(2 * number + 1) for number in range(256)) + ")", " OR ")
    others, texts_of = (filled(counted, f"{column} IN({','.join([item] * 256)})", "OR ") for column, item in ("ab", "su"))
    mixed = f"s IN('x',{','.join(['u'] * 255)})"  # the last item is looked at first, so that the literal comes behind all others
    made = [
        ("a ticket of comparisons joined by OR", table, filled(front, "a=1", "OR "), rows),
        ("a ticket of INs of 256 numbers", table, numbers, rows),
        ("a ticket of INs of 256 columns, of numbers", [two_numbers(rows)], others, rows),
        ("a ticket of INs of 256 columns, of truth values", [two_truths(rows)], others, rows),
        ("a ticket of orders of a text and a literal", [short_texts(rows)], filled(counted, "s<'b'", "OR "), rows),
        ("a ticket of comparisons joined by OR, each row a batch", singles, filled(front, "a=0", "OR "), small),
        ("a ticket of equalities of two long texts", alike, filled(counted, "s=u", " AND "), rows),
        ("a ticket of INs of 256 columns, of two long texts", alike, texts_of, rows),
        ("a ticket of inequalities of long texts, each row another pair", pairs, filled(counted, "s<>u", " AND "), few),
        ("a ticket of INs of 256 columns, of long texts, each row another pair", pairs, texts_of, few),
        ("a ticket of INs of a literal and 255 columns, of long texts, each row another pair", pairs, filled(counted, mixed, "OR "), few),
    ]
    judged = Case("a ticket of comparisons that opens no batch, each row a batch", singles, filled(front, "a=1", "OR "), small, small, "batch",
                  MOST_ROWS, "16,777,216 batches")
    return [*(Case(name, puts, query, count, count, "row", MOST_ROWS, "16,777,216 rows") for name, puts, query, count in made), judged]


def cases(rows, keys):
    """The cases, where tables have so many rows, and a join so many equal keys."""
    singles, groups = rows // FEWER, "16,777,216 groups"
    sums, columns = ", ".join(f"SUM(c{number})" for number in range(COLUMNS - 1)), ", ".join(f"c{number}" for number in range(COLUMNS - 1))
    joins = "".join(f" JOIN t AS {place} ON x.k = {place}.k" for place in "yzw")
    on = " AND ".join(f"u.{column} = t.{column}" for column in ["k", *columns.split(", ")])
    never = f"SELECT x.v FROM t AS x{joins} WHERE x.v < w.v"  # it names the first place and the last one, so it stands above all joins
    return [
        *tickets(rows),
        Case("four places of equal keys, of which no row is kept", [equal_keys(keys)], never, keys, keys**4, "joined row", MOST_KEYS**4, "1,000 keys",
             False),
        Case("a further place that is hashed by 64 columns", [windows(rows), windows(1, b"u")], f"SELECT u.k FROM u JOIN t ON {on}", 1, rows, "row",
             MOST_ROWS, "16,777,216 rows"),
        Case("63 sums of a group for each row", [windows(rows)], f"SELECT {sums} FROM t GROUP BY k", rows, rows, "group", MOST_ROWS, groups),
        Case("groups by 63 columns and a number", [windows(rows)], f"SELECT COUNT(*) FROM t GROUP BY {columns}, k", rows, rows, "group", MOST_ROWS, groups),
        Case("a put of batches of one row of 64 columns", [single_rows(b"t", COLUMNS, singles)], None, singles, singles, "row", MOST_ROWS, "16,777,216 rows"),
    ]


# ---- runs


def worked(pid):
    """The processor seconds of a process so far."""
    with open(f"/proc/{pid}/schedstat") as file:
        return int(file.read().split()[0]) / 1e9


def run(command, records):
    """Runs the program on records, up to its last answer: its processor seconds, the most bytes held, and how the answers end."""
    with tempfile.TemporaryFile() as given:
        given.write(records)
        given.seek(0)
        with subprocess.Popen(command, stdin=given, stdout=subprocess.PIPE) as child:
            last = subprocess.Popen(["tail", "-c", str(len(STATUS_OK))], stdin=child.stdout, stdout=subprocess.PIPE)
            child.stdout.close()
            seconds = Watch(child)
            held = most_held(seconds)
            ends = last.communicate()[0]
    return seconds.taken, held, ends


class Watch:
    """A process whose processor time is noted at each look whether it has ended."""

    def __init__(self, child):
        self.child, self.pid, self.taken = child, child.pid, 0.0

    def poll(self):
        try:
            self.taken = max(self.taken, worked(self.pid))
        except (OSError, IndexError):
            pass
        return self.child.poll()


def cost(command, case):
    """The processor seconds and the bytes that a case takes more than its puts, or a put more than none; and whether it is whole."""
    puts = b"".join(case.puts)
    fetch = b"" if case.query is None else call(b"DoGet", [ticket(query_handle(len(case.puts), 0, case.rows, case.query.encode()))])
    before, base, _ = run(command, puts if fetch else b"")
    seconds, held, ends = run(command, puts + fetch)
    return seconds - before, held - base, ends == STATUS_OK


def costs(command, case, rounds):
    """The least processor seconds and the most memory of so many rounds, and whether the answers of all are whole."""
    seconds, held, good = zip(*[cost(command, case) for _ in range(rounds)])
    return min(seconds), max(held), all(good)


def tried(command, case, smaller, rounds):
    """A line on a case at two sizes, and whether its answers are whole."""
    (seconds, held, good), (less, fewer, also) = (costs(command, one, rounds) for one in (case, smaller))
    units = case.units - smaller.units
    each, room = max(seconds - less, 0) / units, max(held - fewer, 0) / units
    there = f"{room * case.limit / 1e9:,.1f} GB" if case.grows else "no more"
    line = (f"| {case.name} | {'whole' if good and also else 'NOT WHOLE'} | {sum(map(len, case.puts)) / 1e3:,.0f} | {case.units:,} | {seconds:.2f} "
            f"| {held / 1e6:,.0f} | {1e9 * each:,.1f} ns, {room:,.0f} bytes a {case.unit} | {case.at} | {each * case.limit / 3600:,.2f} h "
            f"| {there} |")
    return line, good and also


def main():
    parser = argparse.ArgumentParser(description=__doc__, formatter_class=argparse.RawDescriptionHelpFormatter)
    parser.add_argument("--program", help="the built program (that of the repository)")
    parser.add_argument("--rows", type=int, default=131_072, help="how many rows a table has, a multiple of 4,096")
    parser.add_argument("--keys", type=int, default=60, help="how many equal keys a place of a join has")
    parser.add_argument("--rounds", type=int, default=1, help="how often each case is run at each size")
    parser.add_argument("cases", nargs="*", metavar="CASE", help="words of the names of the cases that are tried (all)")
    words = parser.parse_args()
    command, measured, right = [program(words.program), "pipe"], Measured(words.program), True
    print("| | ends | KB put | units | processor seconds | MB more | for each | the limit | processor time there | memory there |")
    print("|---|---|---:|---:|---:|---:|---:|---|---:|---:|")
    for case, smaller in zip(cases(words.rows, words.keys), cases(words.rows // 4, words.keys // 2)):
        if words.cases and not any(word in case.name for word in words.cases):
            continue
        line, good = tried(command, case, smaller, words.rounds)
        print(line, flush=True)
        right = right and good
    print(f"\n{measured.line()}")
    return 0 if right else 1


if __name__ == "__main__":
    sys.exit(main())
