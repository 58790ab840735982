"""The rows of a whole answer: its batches, and its columns joined over them."""

from __future__ import annotations

from collections.abc import Iterator, Sequence
from dataclasses import dataclass
from functools import cached_property
from typing import TYPE_CHECKING, Any

import numpy as np

from .columns import Array, Categories, Column, Decimals
from .errors import InterfaceError
from .schema import MOMENTS, ZONED, Field, Schema
from .stream import Batch

if TYPE_CHECKING:
    import pandas
    import pyarrow


class JoinedColumn:
    """A column of all batches. With one batch it is that batch's column, and nothing is copied."""

    def __init__(self, field: Field, parts: Sequence[Column]):
        self.field, self.parts = field, parts

    def __len__(self) -> int:
        return sum(map(len, self.parts))

    @cached_property
    def values(self) -> Array:
        """The values; what stands at a null of a number or a truth says nothing."""
        return self.joined([part.values for part in self.parts], self.empty_dtype())

    @cached_property
    def mask(self) -> Array | None:
        """True where a value is null, or None where none is."""
        masks = [part.mask for part in self.parts]
        if all(mask is None for mask in masks):
            return None
        whole = [np.zeros(len(part), np.bool_) if mask is None else mask for part, mask in zip(self.parts, masks)]
        return self.joined(whole, np.bool_)

    def masked(self) -> np.ma.MaskedArray[Any, Any]:
        """The values as numpy's masked array."""
        mask = np.ma.nomask if self.mask is None else self.mask
        return np.ma.MaskedArray(self.values, mask=mask)  # type: ignore[no-untyped-call]

    def objects(self) -> list[Any]:
        """The values as Python has them, with None for a null."""
        return [one for part in self.parts for one in part.objects()]

    def empty_dtype(self) -> Any:
        """The dtype of the values where there are no batches."""
        of = self.field.type
        if of.unit is not None:
            return f"<{'M' if of in (*MOMENTS.values(), *ZONED.values()) else 'm'}8[{of.unit}]"
        return of.dtype if of.is_integer else {"bool": np.bool_, "date": "<M8[D]"}.get(of.name, object)

    @staticmethod
    def joined(found: Sequence[Array], dtype: Any) -> Array:
        """Arrays one after the other: the first one itself if it is the only one, and of this dtype if there are none."""
        if len(found) == 1:
            return found[0]
        made: Array = np.concatenate(found) if found else np.empty(0, dtype)
        return made

    def coded(self) -> tuple[Array, list[str]]:
        """Of a dictionary: an index for each slot, with -1 at nulls, and the distinct strings of all batches."""
        places: dict[str, int] = {}
        codes = []
        for part in self.parts:
            if not isinstance(part, Categories):
                raise InterfaceError(f"column {self.field.name} is no dictionary")
            placing = [-1 if value is None else places.setdefault(value, len(places)) for value in part.categories]
            is_same = placing == list(range(len(placing)))
            codes.append(part.codes() if is_same else np.array([*placing, -1], np.int32)[part.codes()])
        return self.joined(codes, np.int32), list(places)

    def int64(self) -> Array:
        """Of decimals: the values as integers of 64 bits, if they fit."""
        found = [part.int64() for part in self.parts if isinstance(part, Decimals)]
        return self.joined(found, np.int64)


@dataclass(frozen=True)
class Table:
    """The rows of an answer, or of one endpoint of it."""

    schema: Schema
    batches: tuple[Batch, ...]

    def __len__(self) -> int:
        return sum(map(len, self.batches))

    def __getitem__(self, name: str | int) -> JoinedColumn:
        number = self.schema.place(name)
        return JoinedColumn(self.schema.fields[number], [batch.columns[number] for batch in self.batches])

    def __iter__(self) -> Iterator[JoinedColumn]:
        return (self[number] for number in range(len(self.schema)))

    def rows(self) -> list[tuple[Any, ...]]:
        """The rows as tuples of what Python has: None, bool, int, str, Decimal, date and datetime."""
        return [row for batch in self.batches for row in batch.rows()]

    def to_numpy(self) -> dict[str, Array]:
        """The columns by name, as arrays; those with nulls as masked arrays. No two may have one name."""
        if len(set(self.schema.names)) < len(self.schema):
            raise InterfaceError(f"two of the columns {self.schema} have one name: take them by their numbers")
        return {column.field.name: column.values if column.mask is None else column.masked() for column in self}

    def to_pandas(self, decimals: str = "objects", dates: str = "datetime64") -> pandas.DataFrame:
        """The rows as a DataFrame; `frames.frame_of` says of which dtypes."""
        from .frames import frame_of

        return frame_of(self, decimals, dates)

    def to_arrow(self) -> pyarrow.Table:
        """The rows as a Table of pyarrow, whose buffers are those that were received."""
        from .arrow import table_of

        return table_of(self)


def joined_tables(schema: Schema, tables: Sequence[Table]) -> Table:
    """The rows of tables of one schema, one after the other."""
    return Table(schema, tuple(batch for table in tables for batch in table.batches))
