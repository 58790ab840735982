"""What is read from bytes that other tools wrote: Arrow's messages and those of Flight."""

from __future__ import annotations

import copy
import datetime
import functools
import json
import pathlib
from decimal import Decimal
from typing import Any

import flightscan
import numpy as np
from flightscan import messages
from flightscan.protobuf import content, fields
from flightscan.stream import Batch, MessageReader
from random_calls.answers import same
from reader import Fault, Reader

from trials.cases import Run, case

ROOT = pathlib.Path(__file__).resolve().parent.parent.parent.parent
ARROW, FLIGHT = ROOT / "vectors/arrow", ROOT / "vectors/flight"
NAMES = {"utf8": "Utf8", "bool": "Bool", "decimal": "Decimal128", "date": "Date"}
for ending, unit in (("_s", "Second"), ("_ms", "Millisecond"), ("", "Microsecond"), ("_ns", "Nanosecond")):
    NAMES |= {f"timestamp{ending}": f"Timestamp({unit}, false)", f"timestamptz{ending}": f"Timestamp({unit}, true)",
              f"time{ending}": f"Time({unit})", f"duration{ending}": f"Duration({unit})"}


def type_name(found: flightscan.DataType) -> str:
    """A type as the vectors name it. Of a dictionary it is that of its indices."""
    name = found.dtype.name if found.is_dictionary and found.dtype is not None else found.name
    return NAMES.get(name) or name.replace("int", "Int").replace("u", "U")


def plain(value: Any) -> Any:
    """A value as the vectors have it: dates, timestamps and decimals as whole numbers."""
    if isinstance(value, datetime.datetime):
        return (value - datetime.datetime(1970, 1, 1)) // datetime.timedelta(microseconds=1)
    if isinstance(value, datetime.date):
        return (value - datetime.date(1970, 1, 1)).days
    return int(value) if isinstance(value, Decimal) else value


def plain_column(column: flightscan.Column) -> list[Any]:
    """The values of a column as the vectors have them."""
    if isinstance(column, (flightscan.Timestamps, flightscan.Spans)):
        nulls = [False] * len(column) if column.mask is None else column.mask.tolist()
        return [None if null else number for number, null in zip(column.slots.tolist(), nulls)]
    return [plain(value) for value in column.objects()]


def rows_of(batch: Batch) -> list[list[Any]]:
    return [list(row) for row in zip(*map(plain_column, batch.columns))]


def schema_said(schema: flightscan.Schema) -> list[list[Any]]:
    """A schema as the vectors have it."""
    return [[field.name, f"dictionary {field.dictionary} {type_name(field.type)}" if field.type.is_dictionary else
             type_name(field.type), field.nullable] for field in schema]


class Answers:
    """A reader of the package that answers as index.txt does."""

    def __init__(self) -> None:
        self.reader = MessageReader()
        self.total: list[list[Any]] = []

    def answer(self, header: bytes, body: bytes) -> str:
        try:
            found = self.reader.read(memoryview(header), memoryview(body))
            if found is None:
                return "dictionary"
            if isinstance(found, flightscan.Schema):
                return "schema " + json.dumps(schema_said(found))
            rows = rows_of(found)
        except flightscan.Error as failed:
            return f"F{failed.number}"
        self.total += rows
        return "rows " + json.dumps(rows)


@functools.cache
def stored(name: str) -> tuple[bytes, bytes]:
    body = ARROW / f"{name}.body"
    return (ARROW / f"{name}.header").read_bytes(), body.read_bytes() if body.exists() else b""


@case("each case of vectors/arrow: schemas, dictionaries and rows, and the fault of each message that is refused")
def arrow_vectors(run: Run) -> str:
    lines = [line.split("\t") for line in (ARROW / "index.txt").read_text().splitlines()]
    for name, wanted, before, _ in lines:
        answers = Answers()
        for one in before.split():
            answers.answer(*stored(one))
        found = answers.answer(*stored(name))
        same(f"{name} after [{before}]", wanted, "total " + json.dumps(answers.total) if wanted.startswith("total ") else found)
    return f"{len(lines)} cases"


@case("bytes changed and cut in headers and bodies: the answer, or the fault, is that of the second reader")
def changed_bytes(run: Run) -> str:
    random, count, refusals = np.random.default_rng(87), 0, 0
    dictionaries = [f"all_dictionary_{number}" for number in range(10, 18)]
    for name, before in (("schema_all", []), ("all_batch_flatc", ["schema_all", *dictionaries]),
                         ("all_delta_10", ["schema_all", *dictionaries])):
        parts, first_reader, first_second = stored(name), Answers(), Reader()
        for one in before:
            first_reader.answer(*stored(one))
            first_second.message(*stored(one))
        for _ in range(400):
            which, place = int(random.random() < 0.3 and len(parts[1]) > 0), int(random.integers(0, 2**31))
            place %= len(parts[which])
            rest = parts[which][place + 1 :] if random.random() < 0.9 else b""
            changed = list(parts)
            changed[which] = parts[which][:place] + random.bytes(1) + rest
            answers, second = copy.copy(first_reader), copy.copy(first_second)
            answers.reader = copy.copy(first_reader.reader)
            for reader in (answers.reader, second):
                reader.dictionaries = dict(reader.dictionaries)
            try:
                wanted = second.message(*changed)
            except Fault as fault:
                wanted = str(fault)
            given = answers.answer(*changed)
            same(f"{name} with {['header', 'body'][which]} changed at {place}", wanted, given)
            count, refusals = count + 1, refusals + wanted.startswith("F")
    return f"{count} messages, {refusals} refused"


@case("columns are views of the body: no byte of it is copied")
def views_of_the_body(run: Run) -> str:
    count = 0
    for name in ("all_batch_flatc", "all_batch_spread"):
        reader = MessageReader()
        for one in ["schema_all", *(f"all_dictionary_{number}" for number in range(10, 18))]:
            header, body = stored(one)
            reader.read(memoryview(header), memoryview(body))
        header, body = stored(name)
        whole = np.frombuffer(body, np.uint8)
        batch = reader.read(memoryview(header), memoryview(body))
        assert isinstance(batch, Batch)
        for column in batch.columns:
            for part in ("slots", "bits", "offsets", "data"):
                if hasattr(column, part) and len(getattr(column, part)):
                    same(f"{column.field.name}.{part} is a view", True, np.shares_memory(getattr(column, part), whole))
                    count += 1
            if isinstance(column, flightscan.Integers):
                same(f"the values of {column.field.name} are a view", True, np.shares_memory(column.values, whole))
    return f"{count} arrays"


@case("messages of Flight by protoc: infos, tickets, the answers of puts and expiries; and those that do not read are F4")
def flight_vectors(run: Run) -> str:
    def read(name: str) -> memoryview:
        return memoryview((FLIGHT / f"{name}.bin").read_bytes())

    info = messages.Info.read(read("info"), "here")
    same("the schema of an info", [["a", "Int64", True]], schema_said(info.schema))
    same("its endpoints", [(1, (0, 2))], [(one.version, one.range) for one in info.endpoints])
    same("its ticket", bytes(read("ticket")), info.endpoints[0].message)
    same("the rows of a put", [4, 0], [messages.rows_put(read("put_result")), messages.rows_put(memoryview(b""))])
    same("a floor", 2, int.from_bytes(content(read("result"), 1), "big"))
    same("the descriptor of a query", bytes(read("query_descriptor")), messages.statement("SELECT * FROM t"))
    same("that of the tables", bytes(read("tables_descriptor")), messages.all_tables())
    same("that of a put", bytes(content(read("put_schema"), 1)), bytes(read("descriptor")))
    same("an action", bytes(read("action")), messages.expiry(2))
    broken = ["bad_group", "bad_number", *(f"bad_{number}" for number in range(20))]
    for name in [*broken, "bad_info_field", "bad_info_endpoint"]:
        try:
            messages.Info.read(read(name), "here") if "info" in name else list(fields(read(name)))
        except flightscan.Error as failed:
            same(f"the fault of {name}", 4, failed.number)
        else:
            same(f"{name} is refused", True, False)
    return f"{11 + len(broken)} messages"
