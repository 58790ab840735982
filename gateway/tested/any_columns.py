"""A reader of Arrow's messages for every type that drivers are answered in, by Schema.fbs, Message.fbs and the columnar format.

It reads headers by the second reader of vectors/arrow, and shares no code with what writes them. It demands what strict readers
do: each number and each struct at a multiple of its size, a zero after each string, and buffers at multiples of 8.
"""

from __future__ import annotations

import struct
from dataclasses import dataclass

from reader import Table, bit, demand

SCHEMA, RECORD_BATCH = 1, 3
INT, BINARY, UTF8, BOOL, DECIMAL, DATE, LIST, STRUCT, UNION, MAP = 2, 4, 5, 6, 7, 8, 12, 13, 14, 17  # of Schema.fbs, union Type
DENSE = 1


class Strict(Table):
    """A table whose reads are all aligned."""

    def number(self, place: int, size: int, signed: bool = False) -> int:
        demand(place % size == 0, f"a number of {size} bytes at {place}")
        return super().number(place, size, signed)

    def table(self, slot: int) -> Strict | None:
        place = self.follow(slot)
        return None if place is None else Strict(self.data, place)

    def text(self, slot: int) -> str | None:
        place, found = self.follow(slot), super().text(slot)
        demand(found is None or self.data[place + 4 + len(found.encode())] == 0, "no zero after a string")
        return found

    def list(self, slot: int) -> list[Strict]:
        count, _ = self.tables(slot)
        ends = [self.follow(slot) + 4 + 4 * index for index in range(count)]
        return [Strict(self.data, end + self.number(end, 4)) for end in ends]

    def pairs(self, slot: int) -> list[tuple[int, int]]:
        demand((self.follow(slot) + 4) % 8 == 0, "structs that are not aligned")
        return self.structs(slot)


@dataclass
class Field:
    """A field: its name and type, as Arrow's FlightSql.proto writes them in its comments."""

    name: str
    is_nullable: bool
    kind: int
    bits: int
    is_signed: bool
    below: list[Field]

    @classmethod
    def read(cls, table: Strict) -> Field:
        kind, type = table.scalar(2, 1), table.table(3)
        bits, signed = (type.scalar(0, 4), type.scalar(1, 1) != 0) if kind == INT else (0, False)
        if kind == UNION:
            place, below = type.follow(1), table.list(5)
            ids = [type.number(place + 4 + 4 * index, 4) for index in range(type.number(place, 4))]
            demand((type.scalar(0, 2), ids) == (DENSE, [*range(len(below))]), "not a dense union of its children in order")
        return cls(table.text(0), table.scalar(1, 1) != 0, kind, bits, signed, [cls.read(one) for one in table.list(5)])

    def type(self) -> str:
        below = ", ".join(map(str, self.below))
        if self.kind == MAP:
            key, value = self.below[0].below
            return f"map<key: {key.type()}, value: {value.type()}>"
        return {INT: f"{'' if self.is_signed else 'u'}int{self.bits}", BINARY: "bytes", UTF8: "utf8", BOOL: "bool",
                LIST: f"list<{below}>", STRUCT: f"struct<{below}>", UNION: f"dense_union<{below}>"}.get(self.kind, "another")

    def __str__(self) -> str:
        return f"{self.name}: {self.type()}{'' if self.is_nullable else ' not null'}"


def head_of(header: bytes) -> tuple[Strict, Strict]:
    """A Message and its header."""
    demand(len(header) % 8 == 0, "a header whose length is no multiple of 8")
    message = Strict(header, int.from_bytes(header[:4], "little"))
    demand(message.scalar(0, 2) == 4, "another version than V5")
    return message, message.table(2)


def fields_of(header: bytes) -> list[Field]:
    """The fields of a schema's header."""
    message, head = head_of(header)
    demand(message.scalar(1, 1) == SCHEMA and head.scalar(0, 2) == 0, "no schema")
    return [Field.read(one) for one in head.list(1)]


def framed_fields(data: bytes) -> list[Field]:
    """The fields of a schema in IPC form: FF FF FF FF, a length, and the Message."""
    demand(data[:4] == b"\xff" * 4 and int.from_bytes(data[4:8], "little") == len(data) - 8, "a schema's IPC form")
    return fields_of(data[8:])


def shown(fields: list[Field]) -> str:
    return ", ".join(map(str, fields))


class Batch:
    """A record batch, whose nodes and buffers are taken in order."""

    def __init__(self, header: bytes, body: bytes):
        message, head = head_of(header)
        demand(message.scalar(1, 1) == RECORD_BATCH and message.scalar(3, 8) == len(body), "no batch of this body")
        self.rows, self.body, self.nodes, self.places = head.scalar(0, 8), body, head.pairs(1), head.pairs(2)
        demand(all(at % 8 == 0 and at + size <= len(body) for at, size in self.places), "where buffers are")

    def take(self) -> bytes:
        at, size = self.places.pop(0)
        return self.body[at : at + size]

    def column(self, field: Field) -> list:
        rows, nulls = self.nodes.pop(0)
        if field.kind == UNION:
            return self.union(field, rows)
        validity = self.take()
        is_valid = [nulls == 0 or bit(validity, row) == 1 for row in range(rows)]
        demand(nulls == is_valid.count(False), "a count of nulls")
        return [value if valid else None for value, valid in zip(self.values(field, rows), is_valid)]

    def values(self, field: Field, rows: int) -> list:
        if field.kind == STRUCT:
            return [*zip(*[self.column(child) for child in field.below])]
        data = self.take()
        if field.kind == INT:
            width = field.bits // 8
            parts = [data[width * row : width * row + width] for row in range(rows)]
            return [int.from_bytes(part, "little", signed=field.is_signed) for part in parts]
        if field.kind == BOOL:
            return [bit(data, row) == 1 for row in range(rows)]
        ends = struct.unpack_from(f"<{rows + 1}i", data)
        parts = self.take() if field.kind in (UTF8, BINARY) else self.column(field.below[0])
        demand(ends[0] >= 0 and ends[-1] <= len(parts) and [*ends] == sorted(ends), "offsets")
        found = [parts[one:other] for one, other in zip(ends, ends[1:])]
        return [one.decode() for one in found] if field.kind == UTF8 else found

    def union(self, field: Field, rows: int) -> list:
        """Pairs of a child's name and its value."""
        kinds, places = self.take(), struct.unpack(f"<{rows}i", self.take())
        parts = [self.column(child) for child in field.below]
        return [(field.below[kind].name, parts[kind][place]) for kind, place in zip(kinds, places)]


def rows_of(messages: list) -> tuple[list[Field], list[tuple]]:
    """The fields and the rows of an answer: a schema, and batches."""
    fields, rows = fields_of(messages[0].data_header), []
    demand(messages[0].data_body == b"", "a body of a schema")
    for data in messages[1:]:
        batch = Batch(data.data_header, data.data_body)
        columns = [batch.column(field) for field in fields]
        demand(not batch.nodes and not batch.places and all(len(one) == batch.rows for one in columns), "all of a batch")
        rows += [*zip(*columns)]
    return fields, rows
