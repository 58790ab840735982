"""A client of flightscan for Python: puts, infos and fetches by records or by gRPC, columns as numpy arrays, and DB-API 2.0.

    import flightscan

    with flightscan.connect("127.0.0.1:4711") as connection:
        connection.put("trips", frame)
        info = connection.info("SELECT town, km FROM trips WHERE km > 6")
        parts = [connection.read(endpoint) for endpoint in info.endpoints]
        km = parts[0]["km"]
        print(km.values, km.mask)
        print(connection.query("SELECT town, COUNT(*) AS trips FROM trips GROUP BY town").to_pandas())

It needs numpy. pandas, pyarrow and grpcio are used where they are asked for. `flightscan.dask` reads from several servers.
"""

from .client import Connection, Stream, connect
from .columns import Categories, Clocks, Column, Days, Decimals, Integers, Spans, Texts, Timestamps, Truths
from .dbapi import (BINARY, DATETIME, NUMBER_GROUP, ROWID, STRING, Binary, Cursor, Date, DateFromTicks, Time, TimeFromTicks,
                    Timestamp, TimestampFromTicks, apilevel, paramstyle, threadsafety)
from .errors import (DatabaseError, DataError, Error, IntegrityError, InterfaceError, InternalError, NotSupportedError,
                     OperationalError, ProgrammingError, Warning)
from .messages import Endpoint, Info
from .schema import DataType, Field, Schema
from .stream import Batch, MessageReader
from .tables import JoinedColumn, Table

NUMBER = NUMBER_GROUP

__all__ = [
    "BINARY", "DATETIME", "NUMBER", "ROWID", "STRING", "Batch", "Binary", "Categories", "Clocks", "Column", "Connection", "Cursor",
    "DataError", "DataType", "DatabaseError", "Date", "DateFromTicks", "Days", "Decimals", "Endpoint", "Error", "Field", "Info",
    "Integers", "IntegrityError", "InterfaceError", "InternalError", "JoinedColumn", "MessageReader", "NotSupportedError",
    "OperationalError", "ProgrammingError", "Schema", "Spans", "Stream", "Table", "Texts", "Time", "TimeFromTicks", "Timestamp",
    "TimestampFromTicks", "Timestamps", "Truths", "Warning", "apilevel", "connect", "paramstyle", "threadsafety",
]
