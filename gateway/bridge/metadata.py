"""The commands of Flight SQL that the gateway answers by itself: their columns, and their rows."""

from __future__ import annotations

import itertools
import re
import struct
from dataclasses import dataclass

from bridge.arrow import BINARY, UTF8, Field, Type, framed_schema, integer, rows_message, schema_message
from bridge.flatbuffers import Table
from bridge.infos import INFO_COLUMNS, TYPE_COLUMNS, info_rows, type_rows
from bridge.protobuf import Message, chunk, command, scalar
from bridge.records import Connection
from bridge.seats import Seat

TEXT, INT32, RULE = Type(UTF8), integer(32), integer(8, False)
CATALOG, SCHEMA_NAME = Field("catalog_name", TEXT), Field("db_schema_name", TEXT)
TABLE_COLUMNS = [CATALOG, SCHEMA_NAME, Field("table_name", TEXT, False), Field("table_type", TEXT, False)]
KEY_COLUMNS = [CATALOG, SCHEMA_NAME, Field("table_name", TEXT, False), Field("column_name", TEXT, False),
               Field("key_sequence", INT32, False), Field("key_name", TEXT)]
REFERENCE_COLUMNS = [
    *(Field(f"{side}_{name}", TEXT, nullable) for side in ("pk", "fk") for name, nullable in (
        ("catalog_name", True), ("db_schema_name", True), ("table_name", False), ("column_name", False))),
    Field("key_sequence", INT32, False), Field("fk_key_name", TEXT), Field("pk_key_name", TEXT),
    Field("update_rule", RULE, False), Field("delete_rule", RULE, False)]
COLUMNS = {
    "CommandGetSqlInfo": INFO_COLUMNS,
    "CommandGetCatalogs": [Field("catalog_name", TEXT, False)],
    "CommandGetDbSchemas": [CATALOG, Field("db_schema_name", TEXT, False)],
    "CommandGetTableTypes": [Field("table_type", TEXT, False)],
    "CommandGetXdbcTypeInfo": TYPE_COLUMNS,
    "CommandGetPrimaryKeys": KEY_COLUMNS,
    "CommandGetExportedKeys": REFERENCE_COLUMNS,
    "CommandGetImportedKeys": REFERENCE_COLUMNS,
    "CommandGetCrossReference": REFERENCE_COLUMNS,
    "CommandGetTables": TABLE_COLUMNS,
}
TABLE = "TABLE"  # the type of all tables
LONGEST_NAME = 64  # bytes of a table's name
UNKNOWN = -1  # how many rows and bytes an answer has


class Pattern:
    """A pattern of names: % is any text, _ any character, and a backslash takes both meanings away. None fits all."""

    def __init__(self, text: str | None):
        parts = re.findall(r"\\[\\%_]|.", "%" if text is None else text, re.DOTALL)
        self.runs = [[*run] for is_any, run in itertools.groupby(parts, lambda part: part == "%") if not is_any]
        self.is_open = [parts[:1] == ["%"], parts[-1:] == ["%"]]
        self.has_any, self.least = "%" in parts, sum(map(len, self.runs))
        self.forms = [re.compile("".join("." if part == "_" else re.escape(part[-1]) for part in run), re.DOTALL)
                      for run in self.runs if self.least <= LONGEST_NAME]

    def fits(self, name: str) -> bool:
        """Whether a name fits: its runs of characters stand in it in their order, each taken as early as it can be."""
        if self.least > len(name) or not self.has_any and self.least != len(name):
            return False
        place = 0
        for index, form in enumerate(self.forms):
            is_last = index == len(self.forms) - 1 and not self.is_open[1]
            if is_last:
                place = max(place, len(name) - len(self.runs[index]))
            found = form.match(name, place) if is_last or index == 0 and not self.is_open[0] else form.search(name, place)
            if found is None or is_last and found.end() != len(name):
                return False
            place = found.end()
        return True


def select_all(table: str) -> str:
    return 'SELECT * FROM "' + table.replace('"', '""') + '"'


def statement(text: bytes) -> bytes:
    """The descriptor of a query."""
    return scalar(1, 2) + chunk(2, command("CommandStatementQuery", chunk(1, text)))


def flight_data(header: bytes, body: bytes = b"") -> bytes:
    return chunk(2, header) + (chunk(1000, body) if body else b"")


@dataclass(frozen=True)
class Metadata:
    """One of these commands."""

    name: str
    value: Message

    @classmethod
    def asked(cls, name: str, content: bytes) -> Metadata | None:
        """The command of this name and content, if it is the gateway's. The server has the tables without any filter."""
        if name not in COLUMNS:
            return None
        value = Message(content)
        is_plain = not value.number(5) and not any(value.contents(number) for number in (1, 2, 3, 4))
        return None if name == "CommandGetTables" and is_plain else cls(name, value)

    def columns(self) -> list[Field]:
        if self.name == "CommandGetTables" and self.value.number(5):
            return [*TABLE_COLUMNS, Field("table_schema", Type(BINARY), False)]
        return COLUMNS[self.name]

    def schema_result(self) -> bytes:
        return chunk(1, framed_schema(self.columns()))

    def info(self, descriptor: bytes, asked: bytes) -> bytes:
        """A FlightInfo of one endpoint, whose ticket is the command itself."""
        return b"".join([chunk(1, framed_schema(self.columns())), chunk(2, descriptor), chunk(3, chunk(1, chunk(1, asked))),
                         scalar(4, UNKNOWN), scalar(5, UNKNOWN), scalar(6, 1)])

    def answer(self, rows: list[tuple]) -> list[bytes]:
        """The messages of a fetch."""
        return [flight_data(schema_message(self.columns())), flight_data(*rows_message(self.columns(), rows))]

    async def rows(self, seat: Seat) -> list[tuple]:
        """The rows; only those of tables are asked of the server."""
        if self.name == "CommandGetTables":
            return await self.table_rows(await seat.connection())
        return self.own_rows()

    def own_rows(self) -> list[tuple]:
        value = self.value
        if self.name == "CommandGetSqlInfo":
            return info_rows(set(value.numbers(1)))
        if self.name == "CommandGetXdbcTypeInfo":
            return type_rows(signed(value.number(1)) if value.has(1) else None)
        if self.name == "CommandGetTableTypes":
            return [(TABLE,)]
        if self.name == "CommandGetDbSchemas":
            return [(None, "")] if is_ours(value) else []
        return []

    async def table_rows(self, server: Connection) -> list[tuple]:
        """The tables that fit. Where their columns are asked for, each is asked for now."""
        value, kinds = self.value, self.value.texts(4)
        if not is_ours(value) or kinds and TABLE not in kinds:
            return []
        pattern = Pattern(value.text(3))
        rows = [(None, None, name, TABLE) for name in await table_names(server) if pattern.fits(name)]
        if not value.number(5):
            return rows
        return [(*row, await table_schema(server, row[2])) for row in rows]


def is_ours(value: Message) -> bool:
    """Whether a catalog and a pattern of schemas leave the one schema that there is: it has no catalog, and no name."""
    return not value.text(1) and Pattern(value.text(2)).fits("")


def signed(number: int) -> int:
    return number - (1 << 64) if number >> 63 else number


# ---- asked of the server


async def table_names(server: Connection) -> list[str]:
    """The names of all tables, in their order, by the server's own answer to CommandGetTables."""
    (info,) = await server.ask("GetFlightInfo", scalar(1, 2) + chunk(2, command("CommandGetTables")))
    names = []
    for data in await server.ask("DoGet", Message(info).message(3).content(1)):
        whole = Message(data)
        head, body = Table.root(whole.content(2)), whole.content(1000)
        if head.number(1, "B") != 3:  # it is the schema
            continue
        batch = head.needed(2)
        (start, _), (at, length) = batch.pairs(2)[7:9]  # of the third column, after three buffers each of two columns
        ends = struct.unpack_from(f"<{batch.number(0, 'q') + 1}i", body, start)
        texts = body[at : at + length]
        names += [texts[one:other].decode() for one, other in zip(ends, ends[1:])]
    return names


async def table_schema(server: Connection, table: str) -> bytes:
    """A table's schema in IPC form."""
    (result,) = await server.ask("GetSchema", statement(select_all(table).encode()))
    return Message(result).content(1)
