"""A stand-in for the few calls of pyarrow by which a table is made, where pyarrow is not at hand.

An array is the list of its values, as the second reader of vectors/arrow reads its buffers.
"""

from __future__ import annotations

import types
from typing import Any

import numpy as np
from reader import read_column

UNITS = {"s": "Second", "ms": "Millisecond", "us": "Microsecond", "ns": "Nanosecond"}
NAMES = {f"{'u' if sign else ''}int{bits}": f"{'U' if sign else ''}Int{bits}" for sign in (0, 1) for bits in (8, 16, 32, 64)}


def array_from_buffers(of: str, length: int, buffers: list[bytes | None]) -> list[Any]:
    whole = [b"" if buffer is None else bytes(buffer) for buffer in buffers]
    found: list[Any] = read_column(of, None, length, (length, int(buffers[0] is not None)), whole, {})
    return found


def dictionary_array(indices: list[int | None], values: list[str | None]) -> list[str | None]:
    return [None if index is None else values[index] for index in indices]


def table_from_batches(batches: list[list[list[Any]]], schema: list[tuple[str, str, bool]]) -> tuple[Any, list[tuple[Any, ...]]]:
    return schema, [row for batch in batches for row in zip(*batch)]


def module() -> types.ModuleType:
    """What `import pyarrow` gives."""
    made = types.ModuleType("pyarrow")
    made.__dict__.update(
        py_buffer=bytes,
        string=lambda: "Utf8", bool_=lambda: "Bool", date32=lambda: "Date",
        timestamp=lambda unit, zone=None: f"Timestamp({UNITS[unit]}, {str(zone is not None).lower()})",
        time32=lambda unit: f"Time({UNITS[unit]})", time64=lambda unit: f"Time({UNITS[unit]})",
        duration=lambda unit: f"Duration({UNITS[unit]})",
        decimal128=lambda digits, scale: "Decimal128",
        from_numpy_dtype=lambda dtype: NAMES[np.dtype(dtype).name],
        dictionary=lambda index, values: f"dictionary of {values} by {index}",
        field=lambda name, of, nullable: (name, of, nullable),
        schema=list,
        array=lambda values, of: list(values),
        Array=types.SimpleNamespace(from_buffers=array_from_buffers),
        DictionaryArray=types.SimpleNamespace(from_arrays=dictionary_array),
        RecordBatch=types.SimpleNamespace(from_arrays=lambda arrays, schema: arrays),
        Table=types.SimpleNamespace(from_batches=table_from_batches),
    )
    return made
