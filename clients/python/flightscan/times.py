"""Dates, timestamps, times and durations that are put: which type they get, and their numbers in its unit."""

from __future__ import annotations

import datetime
from typing import Any

import numpy as np

from .columns import Array
from .errors import DataError
from .schema import CLOCKS, DAY, MOMENTS, PER_SECOND, SPANS, UNITS, ZONED, DataType

TIME_ZERO, MICROSECOND = datetime.datetime(1970, 1, 1), datetime.timedelta(microseconds=1)
DAYS_AND_MORE, FINER = ("D", "W", "M", "Y"), ("ps", "fs", "as")  # numpy's units from a day on, and below a nanosecond
NAMES = {"s": "seconds", "ms": "milliseconds", "us": "microseconds", "ns": "nanoseconds"}
# The types in which values of a type may be put, if a schema says so. What has no zone is in UTC there.
ALSO = {**{one: [*MOMENTS.values(), *ZONED.values()] for one in MOMENTS.values()},
        **{one: [*ZONED.values()] for one in ZONED.values()}, **{one: [*CLOCKS.values()] for one in CLOCKS.values()},
        **{one: [*SPANS.values(), *CLOCKS.values()] for one in SPANS.values()}}


def unit_of(data: Array) -> str:
    """The unit in which times of an array are put, if nothing else says one."""
    unit = np.datetime_data(data.dtype)[0]
    return unit if unit in UNITS else "ns" if unit in FINER else "us" if unit == "generic" else "s"


def moments_type(data: Array, nulls: Array, has_zone: bool, wanted: DataType | None) -> DataType:
    """The type of an array of times: the wanted one where it may have it. Else it is that of its unit; but days are dates,
    and so are midnights of another unit than microseconds. Whole microseconds, as pandas has them in nanoseconds, are
    microseconds."""
    kinds = ZONED if has_zone else MOMENTS
    if wanted is not None and (wanted in ALSO[kinds["us"]] or wanted == DAY and not has_zone):
        return wanted
    unit = unit_of(data)
    is_date = np.datetime_data(data.dtype)[0] in DAYS_AND_MORE or unit != "us" and bool((nulls | are_midnights(data)).all())
    if is_date and not has_zone:
        return DAY
    return kinds["us" if unit == "ns" and (nulls | (data.astype("<M8[us]").astype(data.dtype) == data)).all() else unit]


def are_midnights(data: Array) -> Array:
    """Of which times no more than a day is said."""
    moments = data.astype("<M8[us]")
    found: Array = (moments.astype("<M8[D]") == moments) & (moments.astype(data.dtype) == data)
    return found


def days_in(name: str, data: Array, nulls: Array) -> Array:
    """Times as numbers of days, which each that is not null must be."""
    if np.datetime_data(data.dtype)[0] not in DAYS_AND_MORE:
        if not (nulls | are_midnights(data)).all():
            raise DataError(f"column {name}: a timestamp where a date must be")
        data = data.astype("<M8[us]")
    found: Array = data.astype("<M8[D]").view("<i8")
    return found


def numbers_in(name: str, data: Array, nulls: Array, unit: str) -> Array:
    """Times or spans as whole numbers of a unit, which each that is not null must be."""
    kind, own = data.dtype.kind, np.datetime_data(data.dtype)[0]
    found = data.astype(f"<{kind}8[{unit}]", copy=False)
    if not (nulls | (found.astype(data.dtype) == data)).all():
        if own in FINER or own in UNITS and UNITS.index(own) > UNITS.index(unit):
            raise DataError(f"column {name}: a time that is no whole number of {NAMES[unit]}")
        raise DataError(f"column {name}: a time whose {NAMES[unit]} do not fit into 64 bits")
    numbers: Array = found.view("<i8")
    return numbers


# ---- objects


def kind_of(value: Any) -> dict[str, DataType] | None:
    """The types of a time of Python or of pandas, if it is one."""
    if isinstance(value, datetime.datetime):
        return MOMENTS if value.tzinfo is None else ZONED
    return CLOCKS if isinstance(value, datetime.time) else SPANS if isinstance(value, datetime.timedelta) else None


def type_of_objects(name: str, values: list[Any]) -> DataType | None:
    """The type that holds all these values, if they are times: in nanoseconds if one needs them."""
    kinds = [kind_of(value) for value in values]
    kind = kinds[0]
    if kind is None or any(one is not kind for one in kinds):
        if all(one in (MOMENTS, ZONED) for one in kinds):
            raise DataError(f"column {name}: times with a zone next to some without")
        return None
    has_nanoseconds = any(getattr(value, "nanosecond", 0) or getattr(value, "nanoseconds", 0) for value in values)
    return kind["ns" if has_nanoseconds else "us"]


def nanoseconds_of(name: str, value: Any) -> int:
    """The nanoseconds of a time: from 1970 on, in UTC where it has a zone, or from the day's begin on; or those of a span."""
    if isinstance(value, datetime.datetime):
        since = datetime.datetime.combine(value.date(), value.time()) - TIME_ZERO - (value.utcoffset() or datetime.timedelta())
        return since // MICROSECOND * 1_000 + getattr(value, "nanosecond", 0)
    if isinstance(value, datetime.time):
        if value.tzinfo is not None:
            raise DataError(f"column {name}: a time of a day with a zone")
        return ((value.hour * 60 + value.minute) * 60 + value.second) * 10**9 + value.microsecond * 1_000
    seconds = value.days * 86_400 + value.seconds
    found: int = (seconds * 10**6 + value.microseconds) * 1_000 + getattr(value, "nanoseconds", 0)
    return found


def number_in(name: str, value: Any, unit: str) -> int:
    """A time as a whole number of a unit, which it must be, of 64 bits."""
    number, rest = divmod(nanoseconds_of(name, value), 10**9 // PER_SECOND[unit])
    if rest != 0:
        raise DataError(f"column {name}: a time that is no whole number of {NAMES[unit]}")
    if not -(2**63) <= number < 2**63:
        raise DataError(f"column {name}: a time whose {NAMES[unit]} do not fit into 64 bits")
    return number

