"""Puts at random: what each means, as the plain model has it, and the messages that say so.

The tables are laid out by vectors/arrow/layout.py, in layouts that our own writer does not have: buffers with gaps
between, bits past the rows, bytes under nulls, and dictionaries that are replaced and extended between batches.
"""

from __future__ import annotations

from collections.abc import Callable
from dataclasses import dataclass
from random import Random

import trees
from layout import written
from random_calls.plain_model import (FIRST_DAY, FIRST_MOMENT, LAST_DAY, LAST_MOMENT, MICROSECONDS, Column, Database, Day, Moment, Put,
                                      Row, Table, Value, class_of)
from reader import INTEGERS
from wire import chunk, descriptor, packed, scalar

TREES = {name: trees.integer(width, signed) for (width, signed), name in INTEGERS.items()}
TREES |= {"Utf8": trees.UTF8, "Bool": trees.BOOL, "Decimal128": trees.DECIMAL, "Date": trees.DATE, "dictionary": trees.UTF8}
TREES[MICROSECONDS] = trees.TIMESTAMP
RANGES = {name: (-(2 ** (width - 1)), 2 ** (width - 1)) if signed else (0, 2**width)
          for (width, signed), name in [*INTEGERS.items(), ((128, True), "Decimal128")]}
TABLES = ["t", "u", "T", "a b", "select", "\u00e9", "t2", "x" * 64]
COLUMNS = ["a", "b", "c", "A", "k", "order", "timestamp", "a b", "\u00e9\"", "_1", "y" * 64]
TEXTS = ["", "a", "b", "ab", "a ", "Z", "'", "\u00e9", "\u20ac", "\U00010000", "\n--\"", "x" * 300]
DAYS = (FIRST_DAY, LAST_DAY, 0, 1, -1, 8766, FIRST_DAY - 1, LAST_DAY + 1, -(2**31), 2**31 - 1)  # of cells
MOMENTS = (FIRST_MOMENT, LAST_MOMENT, 0, 1, -1, 1_714_564_800_250_000, 1_714_564_800_000_000, FIRST_MOMENT - 1, LAST_MOMENT + 1,
           -(2**63), 2**63 - 1)
ABSENT = {"unspecified": 0, "CREATE": 1, "FAIL": 2}
THERE = {"unspecified": 0, "FAIL": 1, "APPEND": 2, "REPLACE": 3}
MOST_WORDS = 100  # of a dictionary, whose indices may have 8 bits


@dataclass
class MadePut:
    """A put, the Messages that say it, and the fault where these do not read."""

    put: Put
    messages: list[bytes]
    fault: str | None
    said: str


def value_of(random: Random, kind: str) -> Value:
    """A value of a type: mostly one of a few, so that values meet again."""
    match class_of(kind):
        case "truth":
            return random.random() < 0.5
        case "text":
            return random.choice(TEXTS)
        case "date":
            return Day(random.choice(DAYS) if random.random() < 0.9 else random.randrange(-(2**31), 2**31))
        case "timestamp":
            return Moment(random.choice(MOMENTS) if random.random() < 0.9 else random.randrange(-(2**63), 2**63))
    least, above = RANGES[kind]
    few = [number for number in (least, above - 1, 0, 1, 2, 3, 100, -1) if least <= number < above]
    return random.choice(few) if random.random() < 0.9 else random.randrange(least, above)


def rows_of(random: Random, columns: tuple[Column, ...], count: int) -> list[Row]:
    """Rows, and now and then in one cell a null where none may be, or a text of 65,536 bytes or one more."""
    nulls = random.choice([0, 0.1, 0.5])
    rows = [[None if column.nullable and random.random() < nulls else value_of(random, column.type)
             for column in columns] for _ in range(count)]
    number, chance = random.randrange(len(columns)), random.random()
    if rows and chance < 0.04 and not columns[number].nullable:
        random.choice(rows)[number] = None
    elif rows and chance < 0.05 and class_of(columns[number].type) == "text":
        random.choice(rows)[number] = "z" * random.choice([65_536, 65_537])
    return [tuple(row) for row in rows]


def columns_of(random: Random) -> tuple[Column, ...]:
    """Columns of any types, mostly of different names."""
    count = random.choice([1, 1, 2, 3, 4, 6, 10])
    names = random.sample(COLUMNS, count)
    if count == 10 and random.random() < 0.2:
        names = [f"c{number}" for number in range(random.choice([63, 64]))]
    if count > 1 and random.random() < 0.04:
        names[-1] = names[0]
    return tuple(Column(name, random.choice(list(TREES)), random.random() < 0.7) for name in names)


# ---- Arrow messages


def bits(random: Random, flags: list[bool]) -> bytes:
    """Packed bits, with any bits behind them."""
    return trees.bits(flags + [random.random() < 0.5 for _ in range(-len(flags) % 8)])


def validity(random: Random, flags: list[bool]) -> tuple[int, bytes]:
    """A null_count and validity bits. Where it is 0 the bits are not read, and else it is not compared with them."""
    if all(flags) and random.random() < 0.9:
        return 0, random.randbytes(random.choice([0, 0, 0, 1, 9]))
    exact = flags.count(False)
    return exact if exact > 0 and random.random() < 0.9 else random.choice([-1, 1, 77]), bits(random, flags)


def cells(random: Random, kind: str, values: list[Value]) -> list[bytes]:
    """The buffers behind the validity of a column that is no dictionary. Under a null stands anything."""
    if kind == "Utf8":
        parts = [random.randbytes(random.choice([0, 3])) if value is None else value.encode() for value in values]
        return trees.texts(parts) if parts or random.random() < 0.5 else [b"", b""]
    if kind == "Bool":
        return [bits(random, [random.random() < 0.5 if value is None else value for value in values])]
    least, above = RANGES[{"Date": "Int32", MICROSECONDS: "Int64"}.get(kind, kind)]
    width = (above - least).bit_length() // 8
    numbers = [random.randbytes(width) if value is None else value.to_bytes(width, "little", signed=least < 0)
               for value in values]
    return [b"".join(numbers)]


class Stream:
    """The messages of a put, as trees with their bodies: a schema, then dictionaries and batches."""

    def __init__(self, random: Random, columns: tuple[Column, ...]):
        self.random, self.columns = random, columns
        ids = random.sample([0, 1, 7, -1, 2**40, *range(100, 200)], len(columns))
        self.ids = {number: ids[number] for number, column in enumerate(columns) if column.type == "dictionary"}
        self.indices = {number: random.choice(list(INTEGERS.values())) for number in self.ids}
        self.words: dict[int, list[str | None]] = {number: [] for number in self.ids}
        self.led = False  # whether an index leads into a dictionary
        self.messages = [(self.schema(), b"")]

    def schema(self) -> dict:
        """The message of the schema."""
        fields = []
        for number, column in enumerate(self.columns):
            more = {}
            if number in self.ids:
                more["dictionary"] = trees.encoding(self.ids[number], TREES[self.indices[number]])
            fields.append(trees.field(column.name, TREES[column.type], column.nullable, **more))
        return trees.schema(*fields)

    def add(self, rows: list[Row]) -> None:
        """A batch of these rows, behind the dictionaries that it needs."""
        columns = []
        for number, column in enumerate(self.columns):
            values = [row[number] for row in rows]
            if number in self.ids:
                columns.append(self.slots(number, values))
            else:
                flags = [value is not None for value in values]
                columns.append((*validity(self.random, flags), *cells(self.random, column.type, values)))
        self.messages.append(self.placed(len(rows), columns))

    def placed(self, length: int, columns: list[tuple]) -> tuple[dict, bytes]:
        """A batch whose buffers lie anywhere in its body."""
        body, places = b"", []
        for _, *buffers in columns:
            for buffer in buffers:
                body += self.random.randbytes(self.random.choice([0, 0, -len(body) % 8, 3]))
                places.append((len(body), len(buffer)))
                body += buffer
        return trees.placed(length, [(length, nulls) for nulls, *_ in columns], places, body)

    def slots(self, number: int, values: list[Value]) -> tuple:
        """A dictionary column: a null is an index that is null, or one that leads to a null."""
        self.renew(number, {value for value in values if value is not None})
        words, found = self.words[number], []
        for value in values:
            leading = [place for place, word in enumerate(words) if word == value]
            through = leading and (value is not None or self.random.random() < 0.5)
            found.append(self.random.choice(leading) if through else None)
        flags = [slot is not None for slot in found]
        self.led = self.led or any(flags)
        return (*validity(self.random, flags), *cells(self.random, self.indices[number], found))

    def renew(self, number: int, needed: set[str]) -> None:
        """Sends what a dictionary lacks, in place of what it has or behind it; at times where it lacks nothing."""
        lacking = sorted(needed - set(self.words[number]))
        if not lacking and self.random.random() < 0.7:
            return
        delta = self.random.random() < 0.5 and len(self.words[number]) < MOST_WORDS
        more = lacking if delta else sorted(needed)
        more += self.random.choices([*TEXTS, None], k=self.random.randrange(4))
        self.random.shuffle(more)
        column = (*validity(self.random, [word is not None for word in more]), *cells(self.random, "Utf8", more))
        self.messages.append(trees.dictionary(self.ids[number], self.placed(len(more), [column]), delta))
        self.words[number] = self.words[number] + more if delta else more


# ---- what a put may have amiss, each with its fault


def of_batch(change: Callable[[dict, bytes], object]) -> Callable[[Stream], bool]:
    """A change of the last message, where that is a batch. It says whether it was one."""

    def spoil(stream: Stream) -> bool:
        tree, body = stream.messages[-1]
        if tree["header_type"] == "RecordBatch":
            change(tree, body)
            return True
        return False

    return spoil


def of_field(**more: object) -> Callable[[Stream], bool]:
    """Other words in the schema's last field."""

    def spoil(stream: Stream) -> bool:
        stream.messages[0][0]["header"]["fields"][-1].update(more)
        return True

    return spoil


def of_list(change: Callable[[list], object]) -> Callable[[Stream], bool]:
    """A change of the list of messages."""

    def spoil(stream: Stream) -> bool:
        change(stream.messages)
        return True

    return spoil


def without_dictionaries(stream: Stream) -> bool:
    """Leaves out all dictionaries, where an index leads into one."""
    if stream.led:
        stream.messages = [one for one in stream.messages if one[0]["header_type"] != "DictionaryBatch"]
    return stream.led


def past_the_text(stream: Stream) -> bool:
    """Has the last offset of a column of texts lead outside its bytes, where the last message has such a column."""
    (tree, body), place = stream.messages[-1], 0
    for column in stream.columns if tree["header_type"] == "RecordBatch" else ():
        if column.type == "Utf8":
            offsets = tree["header"]["buffers"][place + 1]
            end = offsets["offset"] + offsets["length"]
            if offsets["length"] > 0:
                stream.messages[-1] = tree, body[: end - 1] + b"\x7f" + body[end:]
            return offsets["length"] > 0
        place += 2
    return False


NO_ROWS = (0, b"", b"", b"")
STREAMS_AMISS = [
    ("F7", "a compression table", of_batch(lambda tree, _: tree["header"].update(compression={}))),
    ("F8", "a bodyLength above the body", of_batch(lambda tree, body: tree.update(bodyLength=len(body) + 1))),
    ("F8", "a node of another length", of_batch(lambda tree, _: tree["header"]["nodes"][-1].update(length=2**40))),
    ("F8", "a node too few", of_batch(lambda tree, _: tree["header"]["nodes"].pop())),
    ("F8", "a buffer too few", of_batch(lambda tree, _: tree["header"]["buffers"].pop())),
    ("F8", "a buffer outside", of_batch(lambda tree, body: tree["header"]["buffers"][-1].update(offset=len(body) + 1))),
    ("F8", "a buffer of length -1", of_batch(lambda tree, _: tree["header"]["buffers"][0].update(length=-1))),
    ("F7", "metadata of V4", of_batch(lambda tree, _: tree.update(version="V4"))),
    ("F6", "no header", of_batch(lambda tree, _: tree.pop("header"))),
    ("F8", "indices into no dictionary", without_dictionaries),
    ("F8", "an offset past the text", past_the_text),
    ("F12", "a column without a name", of_field(name="")),
    ("F12", "a column name of 65 bytes", of_field(name="n" * 65)),
    ("F7", "a column of floats", of_field(type_type="FloatingPoint", type={"precision": 2})),
    ("F7", "a column of timestamps in another unit", of_field(type_type="Timestamp", type={"unit": 4})),
    ("F7", "a column of times of another width", of_field(type_type="Time", type={"unit": 3, "bitWidth": 32})),
    ("F6", "a column without a type", of_field(type=None)),
    ("F8", "no schema", of_list(lambda messages: messages.pop(0))),
    ("F8", "a second schema", of_list(lambda messages: messages.append(messages[0]))),
    ("F8", "a dictionary of no field", of_list(lambda messages: messages.insert(
        1, trees.dictionary(-9, trees.batch(0, NO_ROWS))))),
    ("F6", "a header of three bytes", of_list(lambda messages: messages.append((b"\x10\0\0", b"")))),
]
COMMANDS_AMISS = [
    ("F4", "an option outside its list", chunk(1, scalar(1, 3))),
    ("F4", "a command that is cut off", b"\x12\x05t"),
    ("F16", "a catalog", chunk(4, b"c")),
    ("F16", "a temporary table", scalar(5, 1)),
    ("F16", "a transaction", chunk(6, b"x")),
    ("F12", "a cmd of 70,000 bytes", chunk(1000, bytes(70_000))),
]
MESSAGES_AMISS = [
    ("F5", "no Message", lambda messages: messages.clear()),
    ("F5", "a descriptor of a path", lambda messages: messages.__setitem__(0, messages[0] + chunk(1, scalar(1, 1)))),
    ("F4", "a Message that is cut off", lambda messages: messages.append(b"\x12\x05a")),
]


# ---- a whole put


def ingest(random: Random, put: Put, more: bytes) -> bytes:
    """The command of a put. Options that are unspecified may be left out."""
    absent, there = ABSENT[put.if_absent], THERE[put.if_there]
    options = (scalar(1, absent) if absent or random.random() < 0.5 else b"") + (scalar(2, there) if there else b"")
    said = chunk(1, options) if options or random.random() < 0.5 else b""
    fields = [said, chunk(2, put.name.encode()), chunk(1000, b"\xff") if random.random() < 0.1 else b""]
    random.shuffle(fields)
    return packed(b"CommandStatementIngest", b"".join(fields) + more)


def flight_data(random: Random, header: dict | bytes, body: bytes) -> bytes:
    """The FlightData of an Arrow message, its fields in any order."""
    if isinstance(header, dict):
        header = written("Message", header, random.choice(["packed", "spread"]))
    fields = [chunk(2, header), chunk(1000, body) if body or random.random() < 0.5 else b""]
    fields.append(chunk(3, b"metadata") if random.random() < 0.2 else b"")
    random.shuffle(fields)
    return b"".join(fields)


def messages_of(random: Random, command: bytes, stream: Stream) -> list[bytes]:
    """The Messages of a put: the command alone or with the first data, and such without data here and there."""
    found = [flight_data(random, *message) for message in stream.messages]
    if not found or random.random() < 0.3:
        found.insert(0, b"")
    found[0] += chunk(1, descriptor(command))
    if random.random() < 0.2:
        found.insert(random.randrange(1, len(found) + 1), random.choice([b"", chunk(3, b"none"), chunk(1, b"\x0b")]))
    return found


def stream_of(random: Random, put: Put) -> tuple[Stream, list[int]]:
    """The rows of a put, cut in batches, and how many rows each has."""
    rows, ends = put.table.rows, [0, 0, len(put.table.rows)]
    if random.random() < 0.7:
        ends += [random.randrange(len(rows) + 1) for _ in range(random.randrange(4))]
    ends = sorted(ends)[0 if random.random() < 0.1 else 1 :]
    stream = Stream(random, put.table.columns)
    for first, end in zip(ends, ends[1:]) if rows or random.random() < 0.5 else ():
        stream.add(rows[first:end])
    return stream, [end - first for first, end in zip(ends, ends[1:])]


def put_of(random: Random, database: Database) -> Put:
    """A put that is mostly accepted."""
    name = random.choice(list(database)) if database and random.random() < 0.7 else random.choice(TABLES)
    if random.random() < 0.02:
        name = random.choice(["", "n" * 65])
    absent, there = random.choice(list(ABSENT)), random.choice(list(THERE))
    if random.random() < 0.8:
        absent, there = "CREATE", random.choice(["APPEND", "APPEND", "REPLACE"])
    columns, old = columns_of(random), database.get(name)
    if old is not None and there == "APPEND" and random.random() < 0.9:
        columns = old.columns
    rows = rows_of(random, columns, random.choice([0, 1, 2, 3, 5, 8, 13, 30, 70, 200]))
    return Put(name, absent, there, Table(columns, rows))


def made_put(random: Random, database: Database) -> MadePut:
    """A put, and one time in seven something that is amiss in its bytes."""
    put, fault, amiss, more = put_of(random, database), None, None, b""
    stream, counts = stream_of(random, put)
    chance = random.random()
    if chance < 0.1:
        fault, amiss, spoil = random.choice(STREAMS_AMISS)
        if not spoil(stream):
            fault = amiss = None
    elif chance < 0.13:
        fault, amiss, more = random.choice(COMMANDS_AMISS)
    messages = messages_of(random, ingest(random, put, more), stream)
    if chance > 0.98:
        fault, amiss, change = random.choice(MESSAGES_AMISS)
        change(messages)
    columns = ", ".join(f"{column.name!r} {column.type}{' or null' * column.nullable}" for column in put.table.columns)
    said = f"put {put.name!r} (absent: {put.if_absent}, there: {put.if_there}) of {columns}; rows {counts}"
    return MadePut(put, messages, fault, said + (f"; amiss: {amiss}" if amiss else ""))
