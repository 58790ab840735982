"""What can be put: frames, batches, columns by name, and several of these one after the other, as the messages of a put."""

from __future__ import annotations

import itertools
import sys
from collections.abc import Iterable, Iterator, Mapping
from dataclasses import dataclass, replace
from typing import Any

from .columns import Categories, Column, Decimals, Slots, Texts
from .errors import DataError, InterfaceError, OperationalError
from .messages import DATA_BODY, DATA_HEADER, ingest
from .protobuf import chunk, chunk_head
from .records import LONGEST_MESSAGE, Pieces
from .rows import ROWS_OF_A_BATCH, Values, cut, dictionary_messages
from .schema import Field, Schema, dictionary_of, schema_message
from .stream import Batch
from .tables import Table
from .values import fitted, look_at_name, look_at_nulls, values_of, with_codes



def is_frame(source: object) -> bool:
    pandas = sys.modules.get("pandas")
    return pandas is not None and isinstance(source, pandas.DataFrame)


def is_of_arrow(source: object) -> bool:
    if "pyarrow" not in sys.modules:
        return False
    from . import arrow

    return arrow.is_of_arrow(source)


def is_one(source: object) -> bool:
    """Whether a source is no iterable of others."""
    return isinstance(source, (Batch, Table, Mapping)) or is_frame(source) or is_of_arrow(source)


def parts_of(source: Any, schema: Schema | None) -> Iterator[list[Values]]:
    """The parts of a source in order, each as its columns. `schema` says the types; else they are those of the first part."""
    if isinstance(source, Batch):
        yield values_of_batch(source, schema)
    elif isinstance(source, Table):
        yield from (values_of_batch(batch, schema or source.schema) for batch in source.batches)
    elif is_frame(source):
        from .frames import values_of_frame

        yield values_of_frame(source, schema)
    elif isinstance(source, Mapping):
        yield values_of_mapping(source, schema)
    elif is_of_arrow(source):
        from . import arrow

        yield from (arrow.values_of_batch(batch, schema) for batch in arrow.parts_of(source))
    elif isinstance(source, (str, bytes)) or not isinstance(source, Iterable):
        raise InterfaceError(f"{type(source).__name__} can't be put: give a DataFrame, a Table, columns by name, or several")
    else:
        for one in source:
            for part in parts_of(one, schema):
                schema = schema or wide(schema_of(part))
                yield part


def values_of_mapping(source: Mapping[str, Any], schema: Schema | None) -> list[Values]:
    if schema is not None and list(source) != schema.names:
        raise InterfaceError(f"the columns are {list(source)}, and those of the schema {schema.names}")
    for name in source:
        look_at_name(name)
    fields = [None] * len(source) if schema is None else schema.fields
    return [values_of(name, found, field) for (name, found), field in zip(source.items(), fields)]


def values_of_batch(batch: Batch, schema: Schema | None) -> list[Values]:
    """The columns of a batch that was read. Their buffers are sent from where they lie."""
    fields = batch.schema.fields if schema is None else schema.fields
    if len(fields) != len(batch.columns):
        raise InterfaceError(f"the batch has the columns {batch.schema}, and the schema {schema}")
    return [values_of_column(column, field) for column, field in zip(batch.columns, fields)]


def values_of_column(column: Column, field: Field) -> Values:
    """A column that was read, in the type of a field."""
    if isinstance(column, Categories):
        categories = tuple("" if value is None else value for value in column.categories)
        return with_codes(field, column.slots if column.mask is None else column.codes(), column.mask, categories)
    if isinstance(column, Texts) and field.type == column.field.type:
        column.check()
        look_at_nulls(field, column.mask)
        return Values(field, column.offsets[:-1], column.mask, texts=column)
    if isinstance(column, Decimals) and field.type != column.field.type:
        raise DataError(f"column {field.name}: decimal where {field.type} must be")
    data = column.slots if isinstance(column, Slots) else column.values
    return fitted(column.field.type, field, data, column.mask)


def wide(schema: Schema) -> Schema:
    """The same columns, where each dictionary has indices of 32 bits, so that it has room for later parts."""
    return Schema(tuple(replace(one, type=dictionary_of()) if one.type.is_dictionary else one for one in schema))


def schema_of(part: list[Values]) -> Schema:
    return Schema(tuple(column.field for column in part))


@dataclass
class Put:
    """A put of a source into a table, as its messages."""

    table: str
    mode: str
    source: Any
    schema: Schema | None = None
    rows: int = ROWS_OF_A_BATCH

    def messages(self) -> Iterator[Pieces]:
        """The command with the schema, then dictionaries and batches. Rows become bytes as they are asked for."""
        if self.rows < 1:
            raise InterfaceError(f"a batch of at most {self.rows} rows")
        command = chunk(1, ingest(self.table, self.mode))
        parts = parts_of(self.source, self.schema)
        first = next(parts, None)
        if first is not None and not first or first is None and self.schema is None and not isinstance(self.source, Table):
            raise InterfaceError("there is no column to put")
        schema = self.schema or (self.source.schema if first is None else schema_of(first))
        if self.schema is None and not is_one(self.source):
            schema = wide(schema)
        schema = schema.numbered()
        yield [command, *flight_data(schema_message(schema), [])]
        held: dict[int, tuple[str, ...]] = {}
        for part in [] if first is None else itertools.chain([first], parts):
            yield from self.messages_of(part, schema, held)

    def messages_of(self, part: list[Values], schema: Schema, held: dict[int, tuple[str, ...]]) -> Iterator[Pieces]:
        """The messages of one part. `held` has the dictionaries that the server has by now."""
        if not schema_of(part).says_as(schema):
            raise DataError(f"rows with the columns {schema_of(part)}, where {schema} must be")
        lengths = {len(column) for column in part}
        if len(lengths) != 1:
            raise DataError(f"columns of {sorted(lengths)} rows")
        for number, (column, field) in enumerate(zip(part, schema)):
            if column.categories is None:
                continue
            column.data = column.data.astype(field.type.dtype, copy=False)
            if held.get(number) != column.categories:
                held[number] = column.categories
                yield from (flight_data(*message) for message in dictionary_messages(number, column.categories))
        for rows in cut(part, self.rows):
            yield flight_data(*rows.message())


def flight_data(header: bytes, body: list[Any]) -> Pieces:
    """A FlightData: a header and the pieces of its body."""
    size, head = sum(map(len, body)), chunk(DATA_HEADER, header)
    if len(head) + size + 16 > LONGEST_MESSAGE:
        raise OperationalError(f"a row of {size} bytes does not fit into a message")
    return [head + chunk_head(DATA_BODY, size), *body] if size else [head]
