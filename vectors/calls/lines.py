"""The room "connections" of crates/call_cases: connections with their calls, and what each call is answered.

The records and the messages are laid out by scripts/wire.py and arrow/layout.py."""
import pathlib
import re
import sys

sys.dont_write_bytecode = True
ROOT = pathlib.Path(__file__).resolve().parent.parent.parent
sys.path += [str(ROOT / "scripts"), *(str(ROOT / "vectors" / folder) for folder in ("", "arrow", "flight", "queries"))]

import trees  # noqa: E402
import wire  # noqa: E402
from layout import written  # noqa: E402
from random_calls.answers import NAMES  # noqa: E402
from random_calls.refused import QUERY  # noqa: E402
from wire import chunk, descriptor, packed, scalar, ticket  # noqa: E402

LINES, ANSWERS, NAMED = [], [], {}
INT64, UTF8 = trees.integer(64, True), trees.UTF8
CREATE, APPEND, REPLACE = scalar(1, 1), scalar(2, 2), scalar(2, 3)
DONE = "0  | "


def note(text):
    LINES.append(f"# {text}")
    ANSWERS.append(f"# {text}")


def digits(records):
    """The bytes by two digits each; of a hundred equal ones or more how many they are, and one."""
    pieces, place = [], 0
    for run in re.finditer(rb"(.)\1{99,}", records, re.S):
        pieces += [records[place : run.start()].hex(), f"{len(run[0])}*{run[1].hex()}"]
        place = run.end()
    return "+".join(piece for piece in [*pieces, records[place:].hex()] if piece)


def name_of(records):
    """The name of a call's records, which are named once."""
    if records not in NAMED:
        NAMED[records] = f"call{len(NAMED)}"
        LINES.append(f"bytes {NAMED[records]} {digits(records)}")
    return NAMED[records]


def pipe(options, *calls, status=0, printed="", way="pipe"):
    """A connection: of each call its kind, its records and its answer. By the way `bytewise` it comes in single bytes."""
    named = [f"{kind}:{name_of(records)}" for kind, records, _ in calls]
    LINES.append(f"{way} {options} | {' '.join(named)}")
    ANSWERS.extend(answer for _, _, answer in calls)
    ANSWERS.append(f"ends {status} {len(printed)}")


# ---- puts


def flight_data(header, body=b""):
    return chunk(2, written("Message", header, "spread")) + (chunk(1000, body) if body else b"")


def put_of(table, options, fields, *made, rows=0, fault=None):
    """A put of fields, and of batches and dictionaries, each a tree and its body."""
    command = packed(b"CommandStatementIngest", chunk(1, options) + chunk(2, table))
    messages = [chunk(1, descriptor(command)) + flight_data(trees.schema(*fields)), *(flight_data(*one) for one in made)]
    answer = DONE + (chunk(1, scalar(1, rows)).hex() if rows else "") + ";"
    return "hex", wire.call(b"DoPut", messages), refused(fault) if fault else answer


def put(table, options, columns, *batches, rows=0, fault=None):
    """A put of columns, each a name and a type, and of batches."""
    return put_of(table, options, [trees.field(*column) for column in columns], *batches, rows=rows, fault=fault)


def numbers(*values):
    """A batch of one column of these numbers."""
    return trees.batch(len(values), (0, b"", b"".join(value.to_bytes(8, "little", signed=True) for value in values)))


def pairs(*rows):
    """A batch of two columns of numbers, row by row."""
    columns = [(0, b"", b"".join(value.to_bytes(8, "little", signed=True) for value in values)) for values in zip(*rows)]
    return trees.batch(len(rows), *columns)


def words(*values):
    """A batch of one column of these texts."""
    return trees.batch(len(values), (0, b"", *trees.texts([value.encode() for value in values])))


# ---- what is asked, and its answer


def refused(fault):
    """A status: the fault by its number, and for a place in a text the words behind its name."""
    name, code = NAMES[fault.split(" ")[0]]
    number, *place = fault.split(" ", 1)
    return f"{code} {' '.join([number, name, *place])} | "


def of_query(text):
    return descriptor(packed(QUERY, chunk(1, text)))


def info(payload, columns, handles):
    """An info: its descriptor as it came, a ticket for each handle, -1 rows and bytes, and ordered."""
    endpoints = b"".join(chunk(3, chunk(1, ticket(handle))) for handle in handles)
    rest = chunk(2, payload) + endpoints + scalar(4, -1) + scalar(5, -1) + scalar(6, 1)
    return "info", wire.call(b"GetFlightInfo", [payload]), f"{DONE}{columns} {rest.hex()};"


def schema(payload, columns):
    return "schema", wire.call(b"GetSchema", [payload]), f"{DONE}{columns} ;"


def fetch(handle, columns, *rows):
    """A fetch's columns and rows, of which each cell has a comma behind, and each row a semicolon."""
    return "rows", wire.call(b"DoGet", [ticket(handle)]), f"{DONE}{columns} " + "".join(f"{row};" for row in rows)


def bodies(handle, *bodies):
    """A fetch's bodies, byte by byte: that of the schema, which is empty, and those of the batches."""
    return "bodies", wire.call(b"DoGet", [ticket(handle)]), DONE + ";" + "".join(f"{body.hex()};" for body in bodies)


def refuse(method, messages, fault):
    return "hex", wire.call(method, messages), refused(fault)


def whole_numbers(*values):
    return [f"Int({value})," for value in values]


def rows_of(*rows):
    return ["".join(whole_numbers(*row)) for row in rows]
