"""The tables of the comparison, the same in each run, as files that each peer takes in.

Table t has seven columns: a and j at random, b with a tenth of nulls, k of 1,000 values, s of ten words, d like a day, and c
that rises. Table u has a key in no order, and a value. Table w has k and s of t, its texts by a dictionary. Of each table there
are files: `.command` and `.rows` are the records of a put to our server, `.native` has ClickHouse's FORMAT Native, and `.binary`
the binary form of PostgreSQL's COPY.
"""

from __future__ import annotations

import struct
from array import array
from contextlib import ExitStack
from pathlib import Path
from random import Random

from layout import written
from trees import UTF8, batch, dictionary, encoding, field, integer, schema, texts
from wire import END, chunk, descriptor, packed, record_message, record_open, scalar, varint
from workers import BATCH_ROWS, BILLION, MILLION, WORDS, below

SMALLER_ROWS = 100_000
LONG, INT = integer(64, True), integer(32, True)
OF_T = [field("a", LONG, False), field("b", LONG), field("k", INT, False), field("s", UTF8, False), field("d", INT, False),
        field("c", LONG, False), field("j", INT, False)]
OF_U = [field("key", LONG, False), field("v", LONG, False)]
OF_W = [field("k", INT, False), field("e", UTF8, False, dictionary=encoding(0, integer(8, True)))]
NAMED = {"t": OF_T, "u": OF_U, "w": OF_W, "copy": OF_T}
CREATE, REPLACE = 1, 3
BINARY_BEGIN, BINARY_END = b"PGCOPY\n\xff\r\n\0" + bytes(8), b"\xff\xff"
LENGTHS = [varint(len(word)) + word for word in WORDS]


def batch_of_t(first: int, rows: int) -> dict[str, array]:
    """The columns of some rows. A null of b is 0, and a text of s is the number of its word."""
    random = Random(first)
    is_null = array("B", [number < 26 for number in random.randbytes(rows)])
    b = array("q", [0 if null else number - MILLION for null, number in zip(is_null, below(random, rows, 2 * MILLION, "q"))])
    return {
        "a": below(random, rows, BILLION, "q"), "b": b, "is_null": is_null, "k": below(random, rows, 1_000, "i"),
        "s": below(random, rows, len(WORDS), "B"), "d": array("i", [8_000 + day for day in below(random, rows, 12_000, "i")]),
        "c": array("q", [10 * row + more for row, more in enumerate(below(random, rows, 10, "q"), first)]),
        "j": below(random, rows, MILLION, "i"),
    }


def rows_of_u() -> tuple[array, array]:
    random = Random("u")
    return array("q", random.sample(range(MILLION), SMALLER_ROWS)), below(random, SMALLER_ROWS, BILLION, "q")


def middle_of_c(rows: int) -> tuple[int, int]:
    """The least and the greatest c of the batch in the middle."""
    first = rows // BATCH_ROWS // 2 * BATCH_ROWS
    return 10 * first, 10 * (first + BATCH_ROWS) - 1


# ---- our server


def command_of(name: str) -> bytes:
    """The open call of a put, and the message that has its command and the schema."""
    ingest = chunk(1, scalar(1, CREATE) + scalar(2, REPLACE)) + chunk(2, name.encode())
    front = chunk(1, descriptor(packed(b"CommandStatementIngest", ingest)))
    return record_open(b"DoPut") + record_message(front + chunk(2, written("Message", schema(*NAMED[name]), "spread")))


def record_of(tree_and_body: tuple[dict, bytes]) -> bytes:
    tree, body = tree_and_body
    return record_message(chunk(2, written("Message", tree, "spread")) + chunk(1000, body))


def plain(column: array) -> tuple[int, bytes, bytes]:
    """A column without nulls, for a batch."""
    return 0, b"", column.tobytes()


def validity_of(is_null: array) -> bytes:
    """The validity by digits, the last row first."""
    return int(bytes(49 - null for null in reversed(is_null)), 2).to_bytes((len(is_null) + 7) // 8, "little")


def record_of_t(found: dict[str, array]) -> bytes:
    b = sum(found["is_null"]), validity_of(found["is_null"]), found["b"].tobytes()
    s = 0, b"", *texts([WORDS[number] for number in found["s"]])
    return record_of(batch(len(found["a"]), plain(found["a"]), b, plain(found["k"]), s, *(plain(found[name]) for name in "dcj")))


# ---- ClickHouse


def native_block(columns: dict[str, tuple[str, bytes]], rows: int) -> bytes:
    """A block: of each column its name, its type and its values."""
    named = (varint(len(name)) + name.encode() + varint(len(of)) + of.encode() + data for name, (of, data) in columns.items())
    return b"".join([varint(len(columns)), varint(rows), *named])


def native_of_t(found: dict[str, array]) -> bytes:
    named = {name: ("Int64" if column.itemsize == 8 else "Int32", column.tobytes()) for name, column in found.items()}
    named["b"] = "Nullable(Int64)", named.pop("is_null")[1] + found["b"].tobytes()
    named["s"] = "String", b"".join([LENGTHS[number] for number in found["s"]])
    return native_block(named, len(found["a"]))


# ---- PostgreSQL, and SQLite


def binary_of_t(found: dict[str, array]) -> bytes:
    """Each row has the number of its fields, and each field its size in front; a null has the size -1."""
    given = [struct.Struct(f">hiqiqiii{len(word)}siiiqii").pack for word in WORDS]
    null = [struct.Struct(f">hiqiiii{len(word)}siiiqii").pack for word in WORDS]
    return b"".join(
        null[s](7, 8, a, -1, 4, k, len(WORDS[s]), WORDS[s], 4, d, 8, c, 4, j)
        if is_null
        else given[s](7, 8, a, 8, b, 4, k, len(WORDS[s]), WORDS[s], 4, d, 8, c, 4, j)
        for a, b, is_null, k, s, d, c, j in zip(*found.values())
    )


# ---- the files


def write_t(folder: Path, rows: int) -> None:
    """The files of t, and those of w, whose rows have the same k and s."""
    words = dictionary(0, batch(len(WORDS), (0, b"", *texts(WORDS))))
    names = ("t.rows", "w.rows", "t.native", "t.binary")
    with ExitStack() as stack:
        t, w, native, binary = (stack.enter_context(open(folder / name, "wb")) for name in names)
        w.write(record_of(words))
        binary.write(BINARY_BEGIN)
        for first in range(0, rows, BATCH_ROWS):
            found = batch_of_t(first, min(BATCH_ROWS, rows - first))
            t.write(record_of_t(found))
            w.write(record_of(batch(len(found["k"]), plain(found["k"]), plain(found["s"]))))
            native.write(native_of_t(found))
            binary.write(binary_of_t(found))
        t.write(END)
        w.write(END)
        binary.write(BINARY_END)


def write_u(folder: Path) -> None:
    key, v = rows_of_u()
    cuts = [slice(first, first + BATCH_ROWS) for first in range(0, len(key), BATCH_ROWS)]
    records = [record_of(batch(len(key[cut]), plain(key[cut]), plain(v[cut]))) for cut in cuts]
    (folder / "u.rows").write_bytes(b"".join([*records, END]))
    named = {"key": ("Int32", array("i", key).tobytes()), "v": ("Int64", v.tobytes())}
    (folder / "u.native").write_bytes(native_block(named, len(key)))
    rows = (struct.pack(">hiqiq", 2, 8, one, 8, other) for one, other in zip(key, v))
    (folder / "u.binary").write_bytes(b"".join([BINARY_BEGIN, *rows, BINARY_END]))


def write_tables(folder: Path, rows: int) -> None:
    for name in NAMED:
        (folder / f"{name}.command").write_bytes(command_of(name))
    write_t(folder, rows)
    write_u(folder)
