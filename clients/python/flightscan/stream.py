"""Arrow's messages: a schema, dictionaries and record batches become batches of columns, and nothing of a body is copied."""

from __future__ import annotations

from collections.abc import Iterator, Sequence
from dataclasses import dataclass
from typing import Any

from .columns import KINDS, Categories, Column, Integers, Texts
from .errors import fault
from .flatbuffers import Table
from .schema import DICTIONARY_BATCH, RECORD_BATCH, SCHEMA, TEXT, TRUTH, Field, Schema, message_of, schema_of, there

MOST_VALUES = 16_777_216  # of a dictionary
DICTIONARY = Schema((Field("dictionary", TEXT),))
Pairs = list[tuple[int, int]]
Dictionaries = dict[int, list[str | None]]


@dataclass(frozen=True)
class Batch:
    """Some rows: their columns, each a view of what was received."""

    schema: Schema
    length: int
    columns: tuple[Column, ...]

    def __len__(self) -> int:
        return self.length

    def __getitem__(self, name: str | int) -> Column:
        return self.columns[self.schema.place(name)]

    def rows(self) -> list[tuple[Any, ...]]:
        """The rows as tuples of what Python has: None, bool, int, str, Decimal, date and datetime."""
        return list(zip(*(column.objects() for column in self.columns)))

    def check(self) -> None:
        """Looks at the bytes of each slot. Else a column does so once its values are asked for."""
        for column in self.columns:
            column.check()


@dataclass
class Parts:
    """What the header of a record batch says, and the body that it speaks of."""

    length: int
    nodes: Pairs
    buffers: Pairs
    body: memoryview

    @classmethod
    def read(cls, header: Table, body: memoryview, size: int) -> Parts:
        length = header.scalar(0, 8)
        nodes, buffers = there(header.pairs(1), "nodes"), there(header.pairs(2), "buffers")
        if header.table(3) is not None:
            raise fault(7, "a compressed body")
        look_at_size(size, body)
        return cls(length, nodes, buffers, body)

    def buffer(self, pair: tuple[int, int]) -> memoryview:
        begin, size = pair
        if begin < 0 or size < 0 or begin + size > len(self.body):
            raise fault(8, f"a buffer of {size} bytes at {begin} in a body of {len(self.body)}")
        return self.body[begin : begin + size]

    def columns(self, schema: Schema, dictionaries: Dictionaries) -> Iterator[Column]:
        """The columns of a schema's fields, each over its part of the body."""
        counts = [3 if field.type == TEXT else 2 for field in schema]
        if len(self.nodes) != len(schema) or len(self.buffers) != sum(counts):
            raise fault(8, f"{len(self.nodes)} nodes and {len(self.buffers)} buffers for the columns {schema}")
        first = 0
        for field, node, count in zip(schema, self.nodes, counts):
            if node[0] != self.length or self.length < 0:
                raise fault(8, f"column {field.name}: {node[0]} slots in a batch of {self.length} rows")
            buffers = [self.buffer(pair) for pair in self.buffers[first : first + count]]
            yield self.column(field, node[1], buffers, dictionaries)
            first += count

    def column(self, field: Field, nulls: int, buffers: Sequence[memoryview], dictionaries: Dictionaries) -> Column:
        self.look_at_room(field, nulls, buffers)
        if field.type.is_dictionary:
            values = dictionaries.get(field.dictionary or 0, [])
            return Categories(field, self.length, nulls, buffers[0], buffers[1], values)
        return KINDS.get(field.type.name, Integers)(field, self.length, nulls, *buffers)

    def look_at_room(self, field: Field, nulls: int, buffers: Sequence[memoryview]) -> None:
        """Whether the buffers are long enough for the rows."""
        validity, data = buffers[0], buffers[1]
        if nulls != 0 and 8 * len(validity) < self.length:
            raise fault(8, f"column {field.name}: {len(validity)} bytes of validity for {self.length} rows")
        if field.type == TEXT:
            is_short = len(data) < 4 * (self.length + 1) and (len(data) > 0 or self.length > 0)
        elif field.type == TRUTH:
            is_short = 8 * len(data) < self.length
        else:
            is_short = field.type.dtype is None or len(data) < self.length * field.type.dtype.itemsize
        if is_short:
            raise fault(8, f"column {field.name}: {len(data)} bytes for {self.length} rows")


def look_at_size(size: int, body: memoryview) -> None:
    if not 0 <= size <= len(body):
        raise fault(8, f"bodyLength is {size}, and the body has {len(body)} bytes")


class MessageReader:
    """Reads the messages of one stream, in order. A refused message leaves it as it was."""

    def __init__(self) -> None:
        self.schema: Schema | None = None
        self.dictionaries: Dictionaries = {}

    def read(self, header: memoryview, body: memoryview) -> Schema | Batch | None:
        """What a message says: the schema, a batch, or nothing yet for a dictionary."""
        kind, message = message_of(header)
        if kind not in (SCHEMA, DICTIONARY_BATCH, RECORD_BATCH):
            raise fault(7, f"a message of kind {kind}")
        if (kind == SCHEMA) == (self.schema is not None):
            raise fault(8, "a second schema" if self.schema else "a batch before any schema")
        table, size = there(message.table(2), "header"), message.scalar(3, 8)
        if self.schema is None:
            schema = schema_of(table)
            look_at_size(size, body)
            self.schema = schema
            return schema
        if kind == DICTIONARY_BATCH:
            self.keep_dictionary(table, body, size)
            return None
        parts = Parts.read(table, body, size)
        return Batch(self.schema, parts.length, tuple(parts.columns(self.schema, self.dictionaries)))

    def keep_dictionary(self, table: Table, body: memoryview, size: int) -> None:
        """Sets, replaces or extends the values of a dictionary."""
        number, data, is_delta = table.scalar(0, 8), there(table.table(1), "data"), table.scalar(2, 1) != 0
        parts = Parts.read(data, body, size)
        if self.schema is None or all(field.dictionary != number for field in self.schema):
            raise fault(8, f"no column has the dictionary {number}")
        (column,) = parts.columns(DICTIONARY, {})
        if not isinstance(column, Texts):
            raise fault(8, "a dictionary that has no strings")
        values = column.objects()
        if is_delta:
            values = self.dictionaries.get(number, []) + values
        if len(values) > MOST_VALUES:
            raise fault(12, f"a dictionary of {len(values)} values")
        self.dictionaries[number] = values
