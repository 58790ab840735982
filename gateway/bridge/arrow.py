"""Arrow's messages, as the gateway writes them for what it answers by itself: schemas, and rows in one batch."""

from __future__ import annotations

import itertools
import struct
from dataclasses import dataclass

from bridge.flatbuffers import Block, buffer, numbers, padded, pairs, table, text, vector

V5, SCHEMA, RECORD_BATCH = 4, 1, 3
INT, BINARY, UTF8, BOOL, LIST, STRUCT, UNION, MAP = 2, 4, 5, 6, 12, 13, 14, 17  # the kinds of types
DENSE = 1
LETTERS = {8: "b", 16: "h", 32: "i", 64: "q"}  # of integers in `struct`; those without a sign are capitals


@dataclass(frozen=True)
class Type:
    """An Arrow type: its kind, the slots of its table, and the fields below it."""

    kind: int
    slots: tuple[int, ...] = ()
    children: tuple[Field, ...] = ()

    def block(self) -> Block:
        if self.kind == UNION:
            return table(DENSE, numbers([*range(len(self.children))]))
        return table(*self.slots)

    def letter(self) -> str:
        """Of an integer."""
        bits, signed = self.slots
        return LETTERS[bits] if signed else LETTERS[bits].upper()


@dataclass(frozen=True)
class Field:
    """A column, or a part of one."""

    name: str
    type: Type
    nullable: bool = True

    def block(self) -> Block:
        children = vector([child.block() for child in self.type.children])
        return table(text(self.name), int(self.nullable), self.type.kind, self.type.block(), None, children)


def integer(bits: int, signed: bool = True) -> Type:
    return Type(INT, (bits, int(signed)))


def listed(child: Field) -> Type:
    return Type(LIST, (), (child,))


# ---- columns


@dataclass
class Columns:
    """The nodes and the buffers of a batch, as its columns are added."""

    nodes: list[tuple[int, int]]
    buffers: list[bytes]

    def add(self, type: Type, values: list) -> None:
        """A column of these values; those of a union are pairs of a child's number and its value."""
        nulls = 0 if type.kind == UNION else sum(value is None for value in values)
        self.nodes.append((len(values), nulls))
        if type.kind == UNION:
            self.add_union(type, values)
            return
        self.buffers.append(bits([value is not None for value in values]) if nulls else b"")
        if type.kind == INT:
            self.buffers.append(struct.pack(f"<{len(values)}{type.letter()}", *(value or 0 for value in values)))
        elif type.kind == BOOL:
            self.buffers.append(bits([bool(value) for value in values]))
        elif type.kind in (UTF8, BINARY):
            parts = [value.encode() if isinstance(value, str) else value or b"" for value in values]
            self.buffers += [offsets(parts), b"".join(parts)]
        elif type.kind in (LIST, MAP):
            parts = [value or [] for value in values]
            self.buffers.append(offsets(parts))
            self.add(type.children[0].type, [*itertools.chain(*parts)])
        else:
            for index, child in enumerate(type.children):
                self.add(child.type, [value[index] for value in values])

    def add_union(self, type: Type, values: list[tuple[int, object]]) -> None:
        """Each child has its own values one after the other, and each slot says which child and which of its values."""
        parts: list[list] = [[] for _ in type.children]
        places = []
        for child, value in values:
            places.append(len(parts[child]))
            parts[child].append(value)
        self.buffers += [bytes(child for child, _ in values), struct.pack(f"<{len(places)}i", *places)]
        for child, part in zip(type.children, parts):
            self.add(child.type, part)


def bits(flags: list[bool]) -> bytes:
    return sum(flag << place for place, flag in enumerate(flags)).to_bytes((len(flags) + 7) // 8, "little")


def offsets(parts: list) -> bytes:
    return struct.pack(f"<{len(parts) + 1}i", *itertools.accumulate(map(len, parts), initial=0))


# ---- messages


def message(kind: int, header: Block, body_length: int = 0) -> bytes:
    """A Message of Arrow's metadata."""
    return buffer(table(V5, kind, header, body_length))


def record_batch(rows: int, nodes: list[tuple[int, int]], lengths: list[int]) -> tuple[Block, int]:
    """A RecordBatch whose buffers of these lengths begin at multiples of 8, one after the other; and its body's length."""
    places, end = [], 0
    for length in lengths:
        places.append((end, length))
        end += length + -length % 8
    return table(rows, pairs(nodes), pairs(places)), end


def schema_message(fields: list[Field]) -> bytes:
    return message(SCHEMA, table(0, vector([field.block() for field in fields])))


def framed_schema(fields: list[Field]) -> bytes:
    """A schema in IPC form."""
    header = schema_message(fields)
    return b"\xff\xff\xff\xff" + struct.pack("<i", len(header)) + header


def rows_message(fields: list[Field], rows: list[tuple]) -> tuple[bytes, bytes]:
    """The header and the body of one batch of all rows."""
    columns = Columns([], [])
    for index, field in enumerate(fields):
        columns.add(field.type, [row[index] for row in rows])
    header, length = record_batch(len(rows), columns.nodes, [*map(len, columns.buffers)])
    return message(RECORD_BATCH, header, length), b"".join(map(padded, columns.buffers))
