"""Several servers under Dask: their endpoints as one DataFrame, rows spread over them, and groups added up.

Each server answers for itself, from the version that its info names. Together these versions are a list, and nothing says
that they belong to one moment: docs/USING.md has a way to such a snapshot, for writers that name their puts.
"""

from __future__ import annotations

import datetime
import threading
import uuid
from collections import deque
from collections.abc import Iterable, Iterator, Sequence
from concurrent.futures import ThreadPoolExecutor
from dataclasses import dataclass, replace
from decimal import Decimal
from typing import Any

import dask
import dask.dataframe
import numpy as np
import pandas
from dask.dataframe.utils import clear_known_categories

from .client import SECONDS, connect, place_of
from .columns import EPOCH, Array, Decimals
from .errors import InterfaceError, OperationalError, fault
from .frames import frame_of, values_of_frame
from .literals import aggregate, column_named, group_columns, select_items
from .messages import Info
from .schema import NUMBER, Schema
from .sources import schema_of, wide
from .tables import JoinedColumn, Table, joined_tables
from .times import kind_of, nanoseconds_of
from .values import refused, whole_number

Address = str | int
By = str | tuple[str, Sequence[Any]]
LIMB = 0xFFFF_FFFF
NANOSECONDS_OF_A_DAY = 86_400_000_000_000


@dataclass(frozen=True)
class Infos:
    """What each server said of one query: its columns, its endpoints and its version. No row was read."""

    query: str
    infos: tuple[Info, ...]
    timeout: float | None = SECONDS

    @property
    def versions(self) -> list[tuple[str, int]]:
        """Of each server its address and the version that its rows are of."""
        return [(info.server, info.version) for info in self.infos]

    @property
    def schema(self) -> Schema:
        """The columns, which are the same on each server."""
        return self.infos[0].schema

    def frame(self, parts: int | None = None, decimals: str = "objects", dates: str = "datetime64") -> dask.dataframe.DataFrame:
        """The rows of all servers, in their order. Each endpoint is a partition; with `parts`, neighbours are joined, so
        that each server has at most so many. Each partition is fetched by the worker that computes it.

        Its keys in Dask are of this call only: a ticket from a server's next life may be equal, and of other rows.
        """
        runs = [run for info in self.infos for run in runs_of(info, parts)]
        meta = clear_known_categories(frame_of(Table(self.schema, ()), decimals, dates))
        return dask.dataframe.from_map(read_part, runs, meta=meta, enforce_metadata=False, label="flightscan",
                                       token=uuid.uuid4().hex, choices=(decimals, dates), timeout=self.timeout)

    def grouped(self, dates: str = "datetime64") -> pandas.DataFrame:
        """The groups over all servers: counts and sums are added. Groups come in the order of their first appearance.

        Keys that are dates outside the years of pandas, 1677 to 2262, need `dates="objects"`.
        """
        kinds = kinds_of_columns(self.query)
        with ThreadPoolExecutor(len(self.infos)) as pool:
            tables = list(pool.map(lambda info: read_table(info, self.timeout), self.infos))
        frame = added(joined_tables(self.schema, tables), kinds, dates)
        frame.attrs["versions"] = self.versions
        return frame


def ask(query: str, servers: Sequence[Address], timeout: float | None = SECONDS) -> Infos:
    """Asks each server for its info of a query. All must answer, and name the same columns."""
    look_at_servers(servers)
    with ThreadPoolExecutor(len(servers)) as pool:
        infos = tuple(pool.map(lambda server: info_of(query, server, timeout), servers))
    for info in infos[1:]:
        if not info.schema.says_as(infos[0].schema):
            raise fault(11, f"{infos[0].server} has the columns {infos[0].schema}, and this one {info.schema}", info.server)
    return Infos(query, infos, timeout)


def look_at_servers(servers: Sequence[Address]) -> None:
    """Whether these are servers, each named once: one that is named twice would give its rows twice."""
    if isinstance(servers, (str, int)):
        raise InterfaceError(f"{servers!r} is no list of servers")
    if not servers:
        raise InterfaceError("there is no server")
    places = [place_of(server) for server in servers]
    for server, place in zip(servers, places):
        if places.count(place) > 1:
            raise InterfaceError(f"the server {server} is named twice")


def info_of(query: str, server: Address, timeout: float | None) -> Info:
    with connect(server, timeout) as connection:
        return connection.info(query)


def read_query(sql: str, servers: Sequence[Address], parts: int | None = None) -> dask.dataframe.DataFrame:
    """The rows of a query on all servers; of each server those of one version, whatever is put meanwhile.

    The versions are named when this is called. `ask` gives them too.
    """
    return ask(sql, servers).frame(parts)


def grouped(sql: str, servers: Sequence[Address], dates: str = "datetime64") -> pandas.DataFrame:
    """Sends a query with COUNT or SUM to each server, and adds what they answer. GROUP BY columns must be selected."""
    return ask(sql, servers).grouped(dates)


# ---- read


def runs_of(info: Info, parts: int | None) -> list[Info]:
    """The info in so many runs of neighbouring endpoints at most."""
    if parts is not None and parts < 1:
        raise InterfaceError(f"{parts} parts hold no rows: give 1 or more")
    count = len(info.endpoints)
    runs = count if parts is None else min(parts, count)
    return [replace(info, endpoints=info.endpoints[run * count // runs : (run + 1) * count // runs]) for run in range(runs)]


def read_table(info: Info, timeout: float | None) -> Table:
    with connect(info.server, timeout) as connection:
        return connection.read_all(info)


def read_part(run: Any, choices: tuple[str, str], timeout: float | None) -> pandas.DataFrame:
    """A partition. With workers that are threads, `Client(processes=False)`, distributed 2022.12 hands its arguments over in a
    wrapping that it forgets to take off."""
    info: Info = getattr(run, "data", run)
    return frame_of(read_table(info, timeout), *choices)


# ---- groups


def kinds_of_columns(query: str) -> list[str | None]:
    """Of each select item whether it is a COUNT, a SUM or a column. Each GROUP BY column must be among these."""
    items = select_items(query)
    kinds = [aggregate(item) for item in items]
    groups = group_columns(query)
    if not groups and None in kinds:
        raise InterfaceError("the query has no groups: read its rows by read_query")
    selected = {column_named(item) for item, kind in zip(items, kinds) if kind is None}
    missing = [name for name in groups if name not in selected]
    if missing:
        raise InterfaceError(f"groups of several servers need their keys: select {', '.join(missing)} too")
    return kinds


def added(rows: Table, kinds: Sequence[str | None], dates: str) -> pandas.DataFrame:
    """The rows that have equal keys become one, with their counts and sums added."""
    columns = list(rows)
    numbers = group_numbers([column for column, kind in zip(columns, kinds) if kind is None], len(rows))
    count = int(numbers.max()) + 1 if len(numbers) else 0
    first = np.zeros(count, np.int64)
    first[numbers[::-1]] = np.arange(len(numbers))[::-1]
    keys = frame_of(rows, dates=dates)
    made: dict[int, Any] = {}
    for place, (column, kind) in enumerate(zip(columns, kinds)):
        if kind is None:
            made[place] = keys.iloc[:, place].array.take(first)
        elif kind == "COUNT":
            made[place] = added_counts(column.values, numbers, count)
        else:
            made[place] = added_sums(column, numbers, count)
    frame = pandas.DataFrame(made, index=pandas.RangeIndex(count))
    frame.columns = pandas.Index(rows.schema.names, dtype=object)
    return frame


def group_numbers(keys: Sequence[JoinedColumn], length: int) -> Array:
    """The number of each row's group, in order of first appearance. Two nulls are equal."""
    numbers = np.zeros(length, np.int64)
    for column in keys:
        found = column.coded()[0].astype(np.int64) + 1 if column.field.type.is_dictionary else codes_of(column)
        numbers = pandas.factorize(numbers * (int(found.max(initial=0)) + 1) + found)[0].astype(np.int64)
    return numbers


def codes_of(column: JoinedColumn) -> Array:
    """A number from 1 on for each distinct value, and 0 for a null."""
    values = column.values.view(np.int64) if column.values.dtype.kind in "Mm" else column.values
    found: Array = pandas.factorize(values)[0].astype(np.int64) + 1
    if column.mask is not None:
        found[column.mask] = 0
    return found


def added_counts(counts: Array, numbers: Array, groups: int) -> Array:
    made = np.zeros(groups, np.int64)
    np.add.at(made, numbers, counts)
    return made


def added_sums(column: JoinedColumn, numbers: Array, groups: int) -> Array:
    """Exact sums of decimals: each is added in four parts of 32 bits. A sum of nulls is null."""
    assert column.field.type == NUMBER
    parts = [part.slots for part in column.parts if isinstance(part, Decimals)]
    slots = np.concatenate(parts) if parts else np.empty(0, NUMBER.dtype)
    kept = np.ones(len(slots), np.bool_) if column.mask is None else ~column.mask
    low, high = slots["low"][kept], slots["high"][kept]
    limbs = [(low & LIMB).astype(np.int64), (low >> np.uint64(32)).astype(np.int64), high & LIMB, high >> 32]
    sums = np.zeros(groups, object)
    for place, limb in enumerate(limbs):
        sums += added_counts(limb, numbers[kept], groups).astype(object) << (32 * place)
    made = np.empty(groups, object)
    made[:] = list(map(Decimal, sums.tolist()))
    made[added_counts(kept.astype(np.int64), numbers, groups) == 0] = None
    return made


# ---- put


class PartPut(OperationalError):
    """Some servers made the put, and some did not. `rows` has of each server its rows, or None, and `failures` why not.

    If a server's answer was lost, its failure says that it may have made the put.
    """

    def __init__(self, text: str, rows: Sequence[int | None] = (), failures: Sequence[Exception] = ()):
        super().__init__(text)
        self.rows, self.failures = list(rows), list(failures)


def put_table(frame: pandas.DataFrame | dask.dataframe.DataFrame, servers: Sequence[Address], by: By, table: str,
              mode: str = "create", schema: Schema | str | None = None) -> list[int]:
    """Spreads rows over servers, and gives the number of rows of each. Each server takes all of its rows in one put.

    `by` names a column, by whose hash a row's server is chosen; or it is a column and bounds, one fewer than servers: the
    first server takes what is below the first bound. Nulls go to the first server. Bounds of dates may be strings, such as
    "2026-12-01".

    Dask's workers compute the rows, and this process makes the puts, each of them once, whichever workers die. If the rows
    can't be had, no server makes its put. If a server fails, the others may have made theirs: see `PartPut`.
    """
    look_at_spread(frame, servers, by)
    if isinstance(frame, pandas.DataFrame):
        schema, parts = schema_of_frame(frame) if schema is None else schema, iter([split(frame, by, len(servers))])
    else:
        schema, parts = computed(frame, by, len(servers), schema)
    made = put_parts(parts, servers, table, mode, schema)
    failures = [one for one in made if isinstance(one, Exception)]
    if failures:
        said = "; ".join(f"{server}: {one}" for server, one in zip(servers, made))
        raise PartPut(f"not every server made the put: {said}", [one if isinstance(one, int) else None for one in made], failures)
    return [one for one in made if isinstance(one, int)]


def look_at_spread(frame: Any, servers: Sequence[Address], by: By) -> None:
    """Whether rows can be spread so."""
    look_at_servers(servers)
    name, bounds = column_and_bounds(by)
    if list(frame.columns).count(name) != 1:
        lacking = "several columns" if name in frame.columns else "no column"
        raise InterfaceError(f"the frame has {lacking} {name!r}")
    if bounds is not None and len(bounds) != len(servers) - 1:
        raise InterfaceError(f"{len(bounds)} bounds for {len(servers)} servers")
    if bounds is not None and not pandas.Index(bounds).is_monotonic_increasing:
        raise InterfaceError(f"the bounds fall or can't be compared: {bounds}")


def column_and_bounds(by: By) -> tuple[str, list[Any] | None]:
    """The column by which rows are spread, and the bounds, if there are some."""
    if isinstance(by, str):
        return by, None
    if isinstance(by, (tuple, list)) and len(by) == 2 and isinstance(by[1], Iterable) and not isinstance(by[1], str):
        return by[0], list(by[1])
    raise InterfaceError(f"rows can't be spread by {by!r}: name a column, or a column and its bounds")


def schema_of_frame(frame: pandas.DataFrame) -> Schema:
    """The schema of a put whose first part is this one."""
    return wide(schema_of(values_of_frame(frame, None)))


def computed(frame: dask.dataframe.DataFrame, by: By, count: int,
             schema: Schema | str | None) -> tuple[Schema | str, Iterator[list[pandas.DataFrame]]]:
    """The schema, and each partition's rows for each server, once all are computed. Workers keep them until they come."""
    partitions = frame.to_delayed()
    first, *kept = dask.persist(dask.delayed(schema_of_frame if schema is None else len)(partitions[0]),
                                *[dask.delayed(split)(partition, by, count) for partition in partitions])
    found, *_ = dask.compute(first, *[dask.delayed(len)(pieces) for pieces in kept])
    return found if schema is None else schema, fetched(deque(kept))


def fetched(kept: deque[Any]) -> Iterator[list[pandas.DataFrame]]:
    """Each partition's rows for each server, one partition after the other. All of them are of one computing of it, even if
    a worker died and Dask computes it again."""
    while kept:
        (pieces,) = dask.compute(kept.popleft())
        yield pieces


class Handover:
    """Hands the rows of one put from the thread that fetches them to the thread that sends them, piece by piece."""

    def __init__(self) -> None:
        self.changed = threading.Condition()
        self.piece: pandas.DataFrame | None = None
        self.is_ended = self.is_left = False

    def give(self, piece: pandas.DataFrame) -> None:
        """Gives a piece once the one before is taken. If the put has failed, nobody takes it."""
        with self.changed:
            self.changed.wait_for(lambda: self.piece is None or self.is_left)
            self.piece = piece
            self.changed.notify_all()

    def end(self, is_whole: bool) -> None:
        """Says that no piece follows; or, if the rows are not whole, that the put has to fail or has failed."""
        with self.changed:
            self.is_ended, self.is_left = True, self.is_left or not is_whole
            self.changed.notify_all()

    def __iter__(self) -> Iterator[pandas.DataFrame]:
        while True:
            with self.changed:
                self.changed.wait_for(lambda: self.piece is not None or self.is_ended)
                if self.is_left:
                    raise OperationalError("the rows are not whole")
                if self.piece is None:
                    return
                piece, self.piece = self.piece, None
                self.changed.notify_all()
            yield piece


def put_parts(parts: Iterable[list[pandas.DataFrame]], servers: Sequence[Address], table: str, mode: str,
              schema: Schema | str) -> list[int | Exception]:
    """One put for each server, all at once, as the parts come. If a part can't be had, no put is made."""
    handovers = [Handover() for _ in servers]
    with ThreadPoolExecutor(len(servers)) as pool:
        is_whole = False
        try:
            puts = [pool.submit(put_pieces, server, table, pieces, mode, schema) for server, pieces in zip(servers, handovers)]
            for part in parts:
                for handover, piece in zip(handovers, part):
                    handover.give(piece)
            is_whole = True
        finally:
            for handover in handovers:
                handover.end(is_whole)
    return [put.result() for put in puts]


def put_pieces(server: Address, table: str, pieces: Handover, mode: str, schema: Schema | str) -> int | Exception:
    """One server's put. What refuses it is given, so that what the others made is known."""
    try:
        with connect(server) as connection:
            return connection.put(table, pieces, mode, schema)
    except Exception as failed:  # noqa: BLE001 (it is told with what the others made)
        return failed
    finally:
        pieces.end(False)


def split(frame: pandas.DataFrame, by: By, count: int) -> list[pandas.DataFrame]:
    """The rows of each server, in their order."""
    name, bounds = column_and_bounds(by)
    places = (hashes(frame[name]) % np.uint64(count)).astype(np.int64) if bounds is None else places_of(frame[name], bounds)
    return [frame[places == place] for place in range(count)]


def places_of(series: pandas.Series[Any], bounds: Sequence[Any]) -> Array:
    """Of each value how many bounds it has reached. Of a null it is 0."""
    if isinstance(series.dtype, pandas.CategoricalDtype):
        return of_codes(places_of(pandas.Series(series.cat.categories, name=series.name), bounds), series)
    nulls = series.isna().to_numpy()
    found, values = np.zeros(len(series), np.int64), series[~nulls]
    try:
        if series.dtype.kind == "M" or pandas.api.types.infer_dtype(values, skipna=False) == "date":
            moments = np.array([moment(bound) for bound in bounds], "datetime64[us]")
            found[~nulls] = moments.searchsorted(without_zone(values).to_numpy().astype("datetime64[us]"), side="right")
        else:
            found[~nulls] = pandas.Index(bounds).searchsorted(values, side="right")
    except (TypeError, ValueError):
        raise InterfaceError(f"column {series.name} can't be compared with the bounds {list(bounds)}") from None
    return found


def without_zone(series: pandas.Series[Any]) -> pandas.Series[Any]:
    """The same times in UTC, where they have a zone."""
    if isinstance(series.dtype, pandas.DatetimeTZDtype):
        return series.dt.tz_convert("UTC").dt.tz_localize(None)
    return series


def moment(bound: Any) -> np.datetime64:
    """A bound of dates. A string is a date as ISO writes it: 2026-12-01."""
    if isinstance(bound, str) and datetime.date.fromisoformat(bound).isoformat() == bound:
        return np.datetime64(bound, "us")
    if not isinstance(bound, (datetime.date, np.datetime64)) or getattr(bound, "tzinfo", None) is not None:
        raise TypeError
    return np.datetime64(bound, "us")


def of_codes(of_categories: Array, series: pandas.Series[Any]) -> Array:
    """What is known of each category, for each value. Of a null it is 0."""
    found: Array = np.append(of_categories, np.zeros(1, of_categories.dtype))[series.cat.codes.to_numpy()]
    return found


def hashes(series: pandas.Series[Any]) -> Array:
    """A hash of each value, which is the same in every process, and for equal values whatever holds them. Of a null it is 0."""
    if isinstance(series.dtype, pandas.CategoricalDtype):
        return of_codes(hashes(pandas.Series(series.cat.categories, name=series.name)), series)
    nulls = series.isna().to_numpy()
    kind = getattr(getattr(series.dtype, "numpy_dtype", series.dtype), "kind", "O")
    if kind in "iub":
        values = series.to_numpy(dtype=np.uint64 if kind == "u" else np.int64, **({"na_value": 0} if nulls.any() else {}))
    elif kind in "Mm":
        values = without_zone(series).to_numpy().astype(f"<{kind}8[ns]").view(np.int64)
    elif kind == "f":  # as pandas holds integers with nulls; a put refuses what is not whole
        with np.errstate(invalid="ignore"):
            values = np.where(nulls, 0, series.to_numpy(dtype=np.float64, na_value=np.nan)).astype(np.int64)
    else:
        return hashes_of_objects(str(series.name), series.to_numpy(dtype=object), nulls)
    found: Array = pandas.util.hash_array(values)
    found[nulls] = 0
    return found


def hashes_of_objects(name: str, values: Array, nulls: Array) -> Array:
    """The same of objects: numbers and dates have the hashes that arrays of numbers and dates have."""
    found, others = np.zeros(len(values), np.uint64), ~nulls
    if pandas.api.types.infer_dtype(values, skipna=True) not in ("string", "empty"):
        numbers = [None if null else number_of(name, value) for value, null in zip(values.tolist(), nulls.tolist())]
        counted = np.array([number is not None for number in numbers], np.bool_)
        whole = [number % 2**64 for number in numbers if number is not None]
        found[counted] = pandas.util.hash_array(np.array(whole, np.uint64))
        others &= ~counted
    try:
        found[others] = pandas.util.hash_array(values[others])
    except TypeError:  # (a list, a dictionary)
        raise refused(name, " with ".join(sorted({type(value).__name__ for value in values[others]}))) from None
    return found


def number_of(name: str, value: object) -> int | None:
    """The number of a number, and that of a date or a time as pandas holds it."""
    if isinstance(value, (int, np.integer, np.bool_, Decimal)):
        return whole_number(name, value)
    if kind_of(value) is not None:
        return nanoseconds_of(name, value)
    if isinstance(value, datetime.date):
        return (value.toordinal() - EPOCH) * NANOSECONDS_OF_A_DAY
    return None


__all__ = ["Infos", "PartPut", "ask", "grouped", "put_table", "read_query"]
