#!/usr/bin/env python3
"""Writes trips.arrows: an Arrow IPC stream of a table of seven trips, as a tool of others would send it. Needs flatc.

The headers are flatc's, of Arrow's schema files in arrow/. The town is a dictionary, whose third text comes by a delta
between the two batches. As Arrow's own writers do by choice, each message and each buffer begins at a multiple of 64
bytes, with zeros between, and the stream ends with the end marker. ROWS says what it means, and the reader of arrow/ is
asked whether it does."""
import importlib.util
import pathlib
import struct
import sys
import tempfile

sys.dont_write_bytecode = True
HERE = pathlib.Path(__file__).parent
sys.path.append(str(HERE.parent / "arrow"))

import trees  # noqa: E402
from framing import END, padded, stored_messages, stream_of  # noqa: E402
from reader import Reader  # noqa: E402

STREAM = HERE / "trips.arrows"
LINE = 64
COLUMNS = ["id", "town", "rider", "km", "paid"]
ROWS = [
    (1, "Utrecht", "Ada", 12, True),
    (2, "Delft", "Bram", 7, False),
    (3, None, "Cato", None, True),
    (4, "Utrecht", "O'Neill", 3, None),
    (5, "Leiden", None, 28, True),
    (6, "Delft", "Ada", 5, True),
    (7, "Utrecht", "J\u00f8rgen", 9, False),
]
TOWNS, MORE_TOWNS = ["Utrecht", "Delft"], ["Leiden"]


def batch(length, *columns):
    """A record batch whose buffers begin at multiples of 64."""
    nodes, buffers, body = [], [], b""
    for nulls, *parts in columns:
        nodes.append((length, nulls))
        for part in parts:
            buffers.append((len(body), len(part)))
            body += part + bytes(-len(part) % LINE)
    return trees.placed(length, nodes, buffers, body)


def column(values, *buffers):
    return values.count(None), trees.validity(values), *buffers


def numbers(kind, values):
    return column(values, struct.pack(f"<{len(values)}{kind}", *(value or 0 for value in values)))


def texts(values):
    return column(values, *trees.texts([(value or "").encode() for value in values]))


def rows_of(rows, towns):
    """The batch of some rows, by the towns of the dictionary so far."""
    ids, names, riders, lengths, paid = map(list, zip(*rows))
    places = [None if name is None else towns.index(name) for name in names]
    flags = column(paid, trees.bits([bool(flag) for flag in paid]))
    return batch(len(rows), numbers("q", ids), numbers("b", places), texts(riders), numbers("h", lengths), flags)


def messages():
    """The trees of the headers, with the bodies, in the order of the stream."""
    towns = trees.encoding(1, trees.integer(8, True))
    kinds = [trees.integer(64, True), trees.UTF8, trees.UTF8, trees.integer(16, True), trees.BOOL]
    fields = [trees.field(name, kind, nullable=name != "id", **{"dictionary": towns} if name == "town" else {})
              for name, kind in zip(COLUMNS, kinds)]
    yield trees.schema(*fields), b""
    yield trees.dictionary(1, batch(len(TOWNS), texts(TOWNS)))
    yield rows_of(ROWS[:4], TOWNS)
    yield trees.dictionary(1, batch(len(MORE_TOWNS), texts(MORE_TOWNS)), delta=True)
    yield rows_of(ROWS[4:], TOWNS + MORE_TOWNS)


def flatc():
    """What writes headers by flatc: the make.py of arrow/."""
    place = importlib.util.spec_from_file_location("arrow_make", HERE.parent / "arrow/make.py")
    module = importlib.util.module_from_spec(place)
    place.loader.exec_module(module)
    return module


def main():
    compiled = flatc().compiled
    with tempfile.TemporaryDirectory() as name:
        headers = [(padded(compiled(pathlib.Path(name), tree), LINE), body) for tree, body in messages()]
        stream = stream_of(headers) + END
    reader = Reader()
    for message in stored_messages(stream):
        reader.message(*message)
    assert [column[0] for column in reader.fields] == COLUMNS and [*map(tuple, reader.total)] == ROWS
    STREAM.write_bytes(stream)
    print(len(stream), "bytes")


if __name__ == "__main__":
    main()
