#!/usr/bin/env python3
"""Puts the columns of 34 well-known public tables, and counts those that are taken.

    python3 scripts/public_tables.py [--program PATH] [--expect COLUMNS TABLES]

`public_tables.tsv` has the tables. A line `# NAME: ..` begins one and says whose types these are; then each column has a line of
its name, its type and three values, with tabs between. A `?` after the type says that values may be absent. NULL is no value,
EMPTY is an empty string, and lists, structs and maps are JSON. The times of a zone are in UTC.

Each table is put as an Arrow IPC stream, and each of its columns as a table of its own, so that one column hides no other.
A refusal has to be F7, and its line is printed: table, column, type and fault. What is taken is described and fetched, and
Python's `datetime` and `decimal` say what has to come back. The last line counts the columns and the tables that are taken.
It ends with 1 at a difference, or if the counts are not those of `--expect`.
"""

from __future__ import annotations

import argparse
import pathlib
import re
import sys
from collections import Counter
from dataclasses import dataclass

sys.dont_write_bytecode = True
ROOT = pathlib.Path(__file__).resolve().parent.parent
sys.path += [str(ROOT / "vectors" / folder) for folder in ("arrow", "flight", "queries", "streams")]

import column_types  # noqa: E402
import framing  # noqa: E402
import trees  # noqa: E402
from column_types import Type, type_of  # noqa: E402
from built import program  # noqa: E402
from layout import written  # noqa: E402
from loopback import Server  # noqa: E402
from random_calls.answers import Difference, same  # noqa: E402
from served.cases import Run  # noqa: E402
from served.programs import printed, put, query, typed  # noqa: E402

LISTED = ROOT / "scripts/public_tables.tsv"
ROWS = 3
ONE_COLUMN = "one_column"  # the table into which columns are put


@dataclass(frozen=True)
class Column:
    name: str
    said: str  # its type, as the list spells it
    of: Type
    nullable: bool
    values: list


def column_of(line: str) -> Column:
    """The column of a line of the list."""
    name, said, *values = line.split("\t")
    assert len(values) == ROWS, line
    nullable, said = said.endswith("?"), said.removesuffix("?")
    of = type_of(said)
    read = [None if value == "NULL" else of.read("" if value == "EMPTY" else value) for value in values]
    assert nullable or None not in read, line
    return Column(name, said, of, nullable, read)


def listed_tables() -> dict[str, list[Column]]:
    """The columns of each table of the list."""
    tables: dict[str, list[Column]] = {}
    for line in LISTED.read_text().splitlines():
        if line.startswith("# "):
            columns = tables.setdefault(line[2:].partition(":")[0], [])
        elif line:
            columns.append(column_of(line))
    return tables


# ---- put


def messages(columns: list[Column]) -> list[tuple[dict, bytes]]:
    """The messages of a stream of these columns: a schema, the dictionaries, and a batch."""
    fields = [column_types.field(one.name, one.of, one.nullable, number) for number, one in enumerate(columns)]
    coded = [(number, column_types.distinct(one.values)) for number, one in enumerate(columns) if one.of.index]
    dictionaries = [trees.dictionary(number, trees.batch(len(texts), (0, b"", *trees.texts(texts)))) for number, texts in coded]
    return [(trees.schema(*fields), b""), *dictionaries, column_types.batch(ROWS, [(one.of, one.values) for one in columns])]


def stream(columns: list[Column]) -> bytes:
    headers = ((framing.padded(written("Message", tree, "spread")), body) for tree, body in messages(columns))
    return framing.stream_of(headers) + framing.END


# ---- taken


def described(columns: list[Column]) -> str:
    """The line of `describe`."""
    return ",".join(f"{one.name}:{one.of.word}{'?' if one.nullable else ''}" for one in columns)


def lines(columns: list[Column]) -> list[str]:
    """What `query` prints of all rows."""
    cells = [["NULL" if value is None else one.of.shown(value) for value in one.values] for one in columns]
    return ["\t".join(row) for row in zip(*[[one.name, *shown] for one, shown in zip(columns, cells)])]


def refusal(run: Run, server: Server, table: str, columns: list[Column]) -> str | None:
    """Why a table of these columns is refused. If it is taken, it has to come back as it was put."""
    status, out, said = put(run, server, table, stream(columns), "replace")
    if status:
        fault = said.decode().strip().removeprefix("fault: ")
        same(f"how a put into {table} is refused, where the fault is {fault!r}", "F7 ", fault[:3])
        return "; ".join(fault.splitlines())
    same(f"a put into {table}", f"{ROWS} rows\n".encode(), out)
    same(f"columns of {table} that are taken, and of which nothing here says how they are printed", [],
         [(one.name, one.said) for one in columns if one.of.word is None])
    same(f"describe {table}", printed(described(columns)), typed(run, "describe", "--port", str(server.port), "--table", table))
    same(f"the rows of {table}", printed(*lines(columns)), query(run, server, f"SELECT * FROM {table}"))
    return None


def refused_columns(run: Run, server: Server, table: str, columns: list[Column]) -> list[Column]:
    """Which columns of a table are refused, each by itself. The whole table has the fault of the first."""
    faults = [(column, refusal(run, server, ONE_COLUMN, [column])) for column in columns]
    refused = [(column, fault) for column, fault in faults if fault is not None]
    for column, fault in refused:
        print(table, column.name, column.said, fault, sep="\t", flush=True)
    same(f"why {table} is refused", refused[0][1] if refused else None, refusal(run, server, table, columns))
    return [column for column, _ in refused]


def main() -> int:
    parser = argparse.ArgumentParser(description=__doc__, formatter_class=argparse.RawDescriptionHelpFormatter)
    parser.add_argument("--program", help="the built program (that of the repository)")
    parser.add_argument("--expect", nargs=2, type=int, metavar=("COLUMNS", "TABLES"), help="how many have to be taken")
    words = parser.parse_args()
    run, tables = Run(program(words.program), 0), listed_tables()
    try:
        with run.serving() as server:
            refused = {table: refused_columns(run, server, table, columns) for table, columns in tables.items()}
    except Difference as found:
        print(f"DIFFERENCE: {found}")
        return 1
    kinds = Counter(re.match(r"\w+", one.said)[0] for columns in refused.values() for one in columns)
    print("refused: " + (", ".join(f"{count} {kind}" for kind, count in kinds.most_common()) or "none"))
    taken = [sum(map(len, tables.values())) - kinds.total(), sum(not columns for columns in refused.values())]
    print(f"columns {taken[0]} of {sum(map(len, tables.values()))}; tables {taken[1]} of {len(tables)}")
    if words.expect not in (None, taken):
        print(f"where {words.expect[0]} columns and {words.expect[1]} tables were expected")
        return 1
    return 0


if __name__ == "__main__":
    sys.exit(main())
