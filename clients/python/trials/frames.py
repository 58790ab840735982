"""DataFrames of pandas, and tables of pyarrow where it is there."""

from __future__ import annotations

import datetime
import sys
import unittest.mock
from decimal import Decimal
from typing import Any

import flightscan
import numpy as np
from flightscan.sources import Put
from random_calls.answers import same

from trials import arrow_stand_in
from trials.bytes_read import plain
from trials.bytes_written import SPELLED
from trials.cases import Run, case, refused, trips, wanted_package


def frame_of_trips(pandas: Any, count: int) -> Any:
    """The same rows as `trips` has, as pandas holds them."""
    columns = trips(count)
    frame = pandas.DataFrame({
        "id": columns["id"],
        "town": pandas.Categorical(columns["town"]),
        "rider": columns["town"],
        "day": columns["day"].astype("datetime64[ns]"),
        "at": columns["at"].astype("datetime64[ns]"),
        "large": [None if value is None else Decimal(value) for value in columns["large"]],
        "great": columns["great"],
    })
    for name, dtype in (("small", "Int8"), ("km", "Int32"), ("paid", "boolean")):
        frame[name] = pandas.array(columns[name].data, dtype)
        frame.loc[np.ma.getmaskarray(columns[name]), name] = pandas.NA
    return frame


def same_frame(pandas: Any, what: str, wanted: Any, given: Any) -> None:
    """Two frames of the same dtypes and values."""
    same(f"the dtypes of {what}", {name: str(dtype) for name, dtype in wanted.dtypes.items()},
         {name: str(dtype) for name, dtype in given.dtypes.items()})
    for name in wanted.columns:
        left, right = wanted[name], given[name]
        same(f"the nulls of {name} in {what}", left.isna().tolist(), right.isna().tolist())
        same(f"{name} in {what}", left[left.notna()].tolist(), right[right.notna()].tolist())


@case("frames: each dtype comes back as it was put, also over several batches and parts, and in an empty answer")
def frames_come_back(run: Run) -> str:
    pandas = wanted_package("pandas")
    frame = frame_of_trips(pandas, 90_000)
    with run.connected("--parts", "3", "--seats", "8") as connection:
        same("the rows", len(frame), connection.put("t", frame))
        codes = frame["town"].cat.codes.to_numpy()
        pieces = [piece for pieces in Put("t", "create", frame[["town"]]).messages() for piece in pieces]
        same("indices are sent from where they lie", len(frame), sum(
            len(piece) for piece in pieces if isinstance(piece, np.ndarray) and np.shares_memory(piece, codes)))
        same_frame(pandas, "all rows", frame, connection.query("SELECT * FROM t", streams=3).to_pandas())
        near = frame[(frame["km"] < 100).fillna(False)].reset_index(drop=True)
        same_frame(pandas, "a filter", near, connection.query("SELECT * FROM t WHERE km < 100").to_pandas())
        none = connection.query("SELECT * FROM t WHERE id < 0").to_pandas()
        same("an empty answer", (0, {name: str(dtype) for name, dtype in frame.dtypes.items()}),
             (len(none), {name: str(dtype) for name, dtype in none.dtypes.items()}))
        groups = connection.query("SELECT town, COUNT(*) AS n, SUM(km) AS km FROM t WHERE town IS NOT NULL GROUP BY town")
        by_pandas = frame.groupby("town", observed=True)
        given = groups.to_pandas(decimals="integers").set_index("town")
        same("counts", by_pandas.size().sort_index().to_dict(), given["n"].sort_index().to_dict())
        sums = by_pandas["km"].sum().astype("int64").sort_index().to_dict()
        same("sums", sums, given["km"].astype("int64").sort_index().to_dict())
        connection.put("parts", (frame[first : first + 40_000] for first in range(0, 90_000, 40_000)))
        same_frame(pandas, "frames one after the other", frame, connection.query("SELECT * FROM parts").to_pandas())
    return f"{len(frame)} rows"


@case("frames: a view where one batch comes without nulls; dates outside pandas' years; decimals as integers")
def frames_at_limits(run: Run) -> None:
    pandas = wanted_package("pandas")
    with run.connected() as connection:
        connection.put("t", {"a": np.arange(1_000), "d": [10**18] * 1_000})
        table = connection.query("SELECT a, d FROM t")
        given = table.to_pandas(decimals="integers")
        same("a view", True, np.shares_memory(given["a"].to_numpy(), table.batches[0]["a"].values))
        same("integers", "Int64", str(given["d"].dtype))
        same("their sum", 10**21, sum(int(value) for value in given["d"]))
        connection.put("days", {"d": np.array(["0001-01-01", "1700-01-01", "9999-12-31", "NaT"], "M8[D]")})
        days = connection.query("SELECT d FROM days")
        refused("early days", flightscan.DataError, "column d: a date outside", lambda: days.to_pandas())
        same("as objects", [datetime.date(1, 1, 1), datetime.date(1700, 1, 1), datetime.date(9999, 12, 31), None],
             days.to_pandas(dates="objects")["d"].tolist())
        look_at_far_times(connection)
        connection.put("large", {"d": [2**63, None]})
        refused("too large", flightscan.DataError, "column d: a decimal", lambda: connection.query(
            "SELECT d FROM large").to_pandas(decimals="integers"))
        same("as objects", Decimal(2**63), connection.query("SELECT d FROM large").to_pandas()["d"][0])
        refused("no choice", flightscan.InterfaceError, "dates is 'x'", lambda: days.to_pandas(dates="x"))
        twice = connection.query("SELECT a, a FROM t").to_pandas()
        same("one name twice", (["a", "a"], 499_500 * 2), (list(twice.columns), int(twice.to_numpy().sum())))


def look_at_far_times(connection: flightscan.Connection) -> None:
    """Timestamps outside pandas' years, and those at their ends."""
    texts = ["0001-01-01T00:00", "2262-04-11T23:47:16.854775", "9999-12-31T23:59:59.999999", "NaT", "1677-09-22T00:00"]
    connection.put("times", {"t": np.array(texts, "M8[us]")})
    times = connection.query("SELECT t FROM times")
    refused("early times", flightscan.DataError, "column t: a timestamp outside", times.to_pandas)
    same("as objects", [datetime.datetime.min, datetime.datetime(2262, 4, 11, 23, 47, 16, 854_775), datetime.datetime.max, None,
                        datetime.datetime(1677, 9, 22)], times.to_pandas(dates="objects")["t"].tolist())
    near = "SELECT t FROM times WHERE t BETWEEN TIMESTAMP '1677-09-22 00:00:00' AND TIMESTAMP '2262-04-11 23:47:16.854775'"
    same("near ones", [texts[1], texts[4] + ":00.000000"],
         [one.isoformat(timespec="microseconds") for one in connection.query(near).to_pandas()["t"]])


@case("frames that can't be put: floats, names that are no strings; floats that are whole can, by a schema")
def frames_refused(run: Run) -> None:
    pandas = wanted_package("pandas")
    with run.connected() as connection:
        times = pandas.Series(pandas.to_datetime(["2026-01-01 10:00"]))
        for what, column in (("float64", pandas.Series([0.5])), ("float64", pandas.Series([1.0, None]))):
            refused(what, flightscan.NotSupportedError, f"column a: {what}", lambda column=column: connection.put(
                "t", pandas.DataFrame({"a": column})))
        refused("a number as name", flightscan.InterfaceError, "a column is named 0", lambda: connection.put(
            "t", pandas.DataFrame([[1]])))
        same("nothing was put", [], connection.tables())
        nulls = {"a": pandas.Categorical([7, None, 8]), "b": pandas.Categorical([True, False, None]),
                 "d": pandas.Categorical(pandas.to_datetime(["2026-01-01", None, None]))}
        connection.put("nulls", pandas.DataFrame(nulls))
        same("categories that are no strings, with nulls", ("a:int64?, b:bool?, d:date?", [
            (7, True, datetime.date(2026, 1, 1)), (None, False, None), (8, None, None)]), (
            str(connection.schema("SELECT * FROM nulls")), connection.query("SELECT * FROM nulls").rows()))
        connection.put("times", pandas.DataFrame({"a": times, "b": times.dt.normalize()}))
        same("times, and midnights as dates", ("a:timestamp?, b:date?", [
            (datetime.datetime(2026, 1, 1, 10), datetime.date(2026, 1, 1))]), (
            str(connection.schema("SELECT * FROM times")), connection.query("SELECT * FROM times").rows()))
        whole = pandas.DataFrame({"a": [1.0, None, -3.0], "c": pandas.Categorical([7, 8, 7])})
        connection.put("t", whole, schema="a:int16?, c:uint8")
        same("the rows", [(1, 7), (None, 8), (-3, 7)], connection.query("SELECT * FROM t").rows())
        day = datetime.date(2026, 1, 1)
        connection.put("s", pandas.DataFrame({"s": pandas.array(["x", None], "string"), "d": [day, None]}))
        same("strings and dates", [("x", day), (None, None)], connection.query("SELECT * FROM s").rows())


@case("times of each unit, with a zone or none, times of a day and durations come back as frames, rows and an empty answer")
def times_come_back(run: Run) -> None:
    pandas = wanted_package("pandas")
    moments = pandas.Series(pandas.to_datetime(["2026-01-01 10:00:00.000000001", None, "1969-12-31 23:59:59.999999999"]))
    spans = pandas.Series(pandas.to_timedelta([1, None, -(10**9)], unit="ns"))
    days = pandas.Series(pandas.to_timedelta([0, 43_200 * 10**9 + 1, None], unit="ns"))
    frame = pandas.DataFrame({"n": moments, "z": moments.dt.tz_localize("Europe/Vienna"), "e": spans, "c": days})
    wanted = frame.assign(z=frame["z"].dt.tz_convert("UTC"))
    spelled = "n:timestamp_ns?,z:timestamptz_ns?,e:duration_ns?,c:time_ns?"
    clock, noon = datetime.time(12, 30, 15, 250_000), datetime.datetime(2026, 1, 1, 12)
    aware, span = noon.replace(tzinfo=datetime.timezone.utc), datetime.timedelta(days=-1, microseconds=1)
    with run.connected("--parts", "2") as connection:
        connection.put("t", frame, schema=spelled)
        same("the columns", spelled, str(connection.schema("SELECT * FROM t")).replace(", ", ","))
        same_frame(pandas, "all rows", wanted, connection.query("SELECT * FROM t").to_pandas())
        none = connection.query("SELECT * FROM t WHERE n IS NULL AND c IS NULL").to_pandas()
        same("an empty answer", (0, wanted.dtypes.astype(str).to_dict()), (len(none), none.dtypes.astype(str).to_dict()))
        connection.put("found", frame)
        same("the types that are found", "n:timestamp_ns?, z:timestamptz_ns?, e:duration_ns?, c:duration_ns?",
             str(connection.schema("SELECT * FROM found")))
        rows = [(noon, aware, clock, span), (None, None, None, None)]
        connection.put("objects", dict(zip("tzce", zip(*rows))))
        same("the types of objects", "t:timestamp?, z:timestamptz?, c:time?, e:duration?",
             str(connection.schema("SELECT * FROM objects")))
        same("objects", rows, connection.query("SELECT * FROM objects").rows())
        same("parameters", rows[:1], connection.cursor().execute(
            "SELECT * FROM objects WHERE t = ? AND z = ? AND c = ? AND ? IN (t)", (noon, aware, clock, noon)).fetchall())
        connection.put("seconds", connection.query("SELECT t, e FROM objects"), schema="t:timestamp?, e:duration?")
        same("an answer that is put", [(noon, span), (None, None)], connection.query("SELECT * FROM seconds").rows())


@case("the buffers that pyarrow is given are those that were received, as the second reader reads them (by a stand-in)")
def buffers_for_pyarrow(run: Run) -> str:
    spelled = SPELLED + ", code:dictionary?"
    with run.connected("--parts", "2") as connection:
        connection.put("t", {**trips(5_000), "code": trips(5_000)["town"]}, schema=spelled)
        table = connection.query("SELECT * FROM t")
    stand_in = arrow_stand_in.module()
    with unittest.mock.patch.dict(sys.modules, {"pyarrow": stand_in}):
        sys.modules.pop("flightscan.arrow", None)
        schema, rows = table.to_arrow()
    for names, name in ((sys.modules, "flightscan.arrow"), (vars(flightscan), "arrow")):
        names.pop(name, None)  # the module that knows only the stand-in
    same("the names", table.schema.names, [name for name, *_ in schema])
    same("which may be null", [field.nullable for field in table.schema], [nullable for *_, nullable in schema])
    same("the rows", [tuple(map(plain, row)) for row in table.rows()], rows)
    return f"{len(rows)} rows"


@case("tables of pyarrow: over the buffers that were received, and put")
def tables_of_pyarrow(run: Run) -> str:
    pyarrow = wanted_package("pyarrow")
    with run.connected("--parts", "2") as connection:
        connection.put("t", {**trips(70_000), "code": trips(70_000)["town"]},
                       schema=SPELLED + ", code:dictionary?")
        table = connection.query("SELECT * FROM t")
        given = table.to_arrow()
        given.validate(full=True)
        same("the rows", table.rows(), list(zip(*(given.column(number).to_pylist() for number in range(given.num_columns)))))
        same("put again", 70_000, connection.put("copy", given))
        same("the copy", table.rows(), connection.query("SELECT * FROM copy").rows())
    return f"pyarrow {pyarrow.__version__}"
