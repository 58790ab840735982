"""Cases of puts whose batches are longer than a message may be: the gateway cuts them, and no row changes."""

from __future__ import annotations

import json
import struct
from collections.abc import Iterator

from bridge.cutting import pieces_of, widths_of
from bridge.flatbuffers import Unreadable
from layout import written
from random_calls.answers import Refusal, same
from reader import Fault, Reader, Table
from served.cases import MEGABYTE, fetch_of
from trees import BOOL, DATE, DECIMAL, TIMESTAMP, UTF8, batch, dictionary, encoding, field, integer, schema, texts

from tested.cases import ask, case, look_at_status
from tested.client import LONGEST_MESSAGE, Client, flight, ingest, query
from tested.running import TOP, Run

VECTORS = TOP.parent / "vectors/arrow"
LIMITS = ((1, 1 << 30), (3, 1 << 30), (1 << 30, 100), (1 << 30, 1))  # rows and bytes of a piece: at least one row each
EXHAUSTED, DICTIONARY = 8, 2  # a code of gRPC; a kind of messages


def vector(name: str) -> tuple[bytes, bytes]:
    """The header and the body of a message of vectors/arrow."""
    body = VECTORS / f"{name}.body"
    return (VECTORS / f"{name}.header").read_bytes(), body.read_bytes() if body.exists() else b""


def rows_of_message(header: bytes) -> int:
    """How many rows a batch or a dictionary says it has."""
    message = Table(header, int.from_bytes(header[:4], "little"))
    head = message.table(2)
    return (head.table(1) if message.scalar(1, 1) == DICTIONARY else head).scalar(0, 8)


class CutReader:
    """The second reader of vectors/arrow, which is given what the gateway makes of each message."""

    def __init__(self, limits: tuple[int, int]):
        self.limits, self.reader, self.widths, self.pieces = limits, Reader(), [], 0

    def message(self, header: bytes, body: bytes) -> str:
        """What the reader says of a message that was cut, or the fault of the first piece that is refused."""
        if self.reader.fields is None:
            said = self.reader.message(header, body)
            self.widths = widths_of(header)
            return said
        said, rows = "", len(self.reader.total)
        for one, data in pieces_of(header, memoryview(body), self.widths, *self.limits):
            said, self.pieces = self.reader.message(one, data), self.pieces + 1
        return f"rows {json.dumps(self.reader.total[rows:])}" if said.startswith("rows") else said


def looked_at(name: str, before: list[str], wanted: str, limits: tuple[int, int]) -> int:
    """Compares what is read of a case's messages when they are cut. Gives the number of pieces."""
    reader, said = CutReader(limits), ""
    for one in (*before, name):
        header, body = vector(one)
        try:
            said = reader.message(header, body)
        except (Fault, Unreadable) as refused:
            said = f"refused: {refused}"
    if wanted.startswith("total "):
        said = f"total {json.dumps(reader.reader.total)}"
    if wanted.startswith("F"):
        same(f"{name}, whether it is refused, cut by {limits}", True, said.startswith("refused"))
    else:
        same(f"{name}, cut by {limits}", wanted, said)
    return reader.pieces


def is_cut(name: str, before: list[str]) -> bool:
    """Whether a case is of a put's messages: after a schema, with rows, and after none that ended the put by a fault.

    A long message without rows is refused.
    """
    if not before or not before[0].startswith("schema") or any(one.startswith("bad_") for one in before):
        return False
    try:
        return all(rows_of_message(vector(one)[0]) != 0 for one in (*before[1:], name))
    except (Fault, AttributeError):
        return True


@case("each batch and dictionary of vectors/arrow, cut by rows and by bytes: the rows of its index, and what is wrong is refused")
def vectors_are_cut(run: Run) -> str:
    cases = pieces = 0
    for line in (VECTORS / "index.txt").read_text().splitlines():
        name, wanted, before, _ = line.split("\t")
        if is_cut(name, before.split()):
            cases += 1
            pieces += sum(looked_at(name, before.split(), wanted, limits) for limits in LIMITS)
    return f"{cases} cases, {pieces:,} pieces"


# ---- over gRPC

LONG_ROWS, WORDS = 700_000, 300_000


def data_of(tree: dict, body: bytes, **more: object) -> flight.FlightData:
    return flight.FlightData(data_header=written("Message", tree, "spread"), data_body=body, **more)


def packed(flags: list[bool]) -> bytes:
    """Bits, eight of them in each byte."""
    flags = flags + [False] * (-len(flags) % 8)
    return bytes(sum(flag << place for place, flag in enumerate(flags[at : at + 8])) for at in range(0, len(flags), 8))


def long_columns() -> tuple[dict, list[tuple]]:
    """A schema and the columns of one batch of 700,000 rows, 35 MB: numbers, decimals, dates, timestamps, truths and texts."""
    tree = schema(field("n", integer(64, True), False), field("m", DECIMAL), field("d", DATE), field("t", TIMESTAMP),
                  field("b", BOOL), field("s", UTF8), field("w", UTF8, dictionary=encoding(7, integer(32, True))))
    rows = range(LONG_ROWS)
    every_third = packed([row % 3 > 0 for row in rows])
    nulls = LONG_ROWS // 3 + 1
    return tree, [(0, b"", struct.pack(f"<{LONG_ROWS}q", *rows)),
                  (nulls, every_third, b"".join(row.to_bytes(16, "little") for row in rows)),
                  (0, b"", struct.pack(f"<{LONG_ROWS}i", *rows)),
                  (0, b"", struct.pack(f"<{LONG_ROWS}q", *(-row for row in rows))),
                  (nulls, every_third, packed([row % 5 == 0 for row in rows])),
                  (0, b"", *texts([b"%d" % row for row in rows])),
                  (0, b"", struct.pack(f"<{LONG_ROWS}i", *(row % WORDS for row in rows)))]


def long_put() -> Iterator[flight.FlightData]:
    """A put of a dictionary of 21 MB and of one batch of 35 MB."""
    tree, columns = long_columns()
    yield data_of(tree, b"", flight_descriptor=ingest("t"))
    yield data_of(*dictionary(7, batch(WORDS, (0, b"", *texts([b"%064d" % word for word in range(WORDS)])))))
    yield data_of(*batch(LONG_ROWS, *columns))


@case("a put of a batch of 35 MB and a dictionary of 21 MB: all rows are there, in batches of 65,536 rows at most")
def long_batches(run: Run) -> str:
    put = [*long_put()]
    longest = max(len(data.SerializeToString()) for data in put)
    same("two are longer than a message may be", 2, sum(len(data.SerializeToString()) > LONGEST_MESSAGE for data in put))
    with run.serving() as (_, gateway), Client(gateway.port) as client:
        same("the number of rows put", LONG_ROWS, client.put(put))
        found, rows = Reader(), 0
        text = "SELECT n, m, d, t, b, s, w FROM t WHERE n < 1000 OR n >= 65000 AND n < 66000 OR n > 699000"
        for endpoint in client.info(query(text)).endpoint:
            for data in client.fetch(endpoint.ticket):
                found.message(data.data_header, data.data_body)
        wanted = [[row, row if row % 3 else None, row, -row, row % 5 == 0 if row % 3 else None, str(row), f"{row % WORDS:064d}"]
                  for row in range(LONG_ROWS) if row < 1000 or 65_000 <= row < 66_000 or row > 699_000]
        same("the rows", wanted, found.total)
        whole = b""
        for data in client.fetch(client.info(query("SELECT n FROM t")).endpoint[0].ticket):
            whole += data.data_body
            rows = max(rows, len(data.data_body) // 8)
        same("all numbers", struct.pack(f"<{LONG_ROWS}q", *range(LONG_ROWS)), whole)
        same(f"batches of {rows} rows", True, rows <= 65_536)
        held = gateway.most_held() / MEGABYTE
        same(f"the gateway held {held:.0f} MB, less than 200", True, held < 200)
    return f"the longest message has {longest / MEGABYTE:.0f} MB, the gateway held {held:.0f} MB"


def too_long(tree: dict, body: bytes) -> list[bytes]:
    """A put whose second message is this one and 17 MB that no row claims."""
    front = data_of(schema(field("a", integer(64, True))), b"", flight_descriptor=ingest("t"))
    return [front.SerializeToString(), data_of(tree, body + bytes(17 * MEGABYTE)).SerializeToString()]


@case("long messages that cannot be cut: RESOURCE_EXHAUSTED, the reason, and nothing is put; also one above --longest-put")
def not_cut(run: Run) -> None:
    compressed, body = batch(1, (0, b"", bytes(8)), compression={"codec": "ZSTD", "method": 0})
    cases = {"it is compressed": (compressed, body),
             "a buffer is shorter than its rows": batch(2, (0, b"", bytes(8))),
             "other counts than its schema's": batch(1, (0, b"", bytes(8)), (0, b"", bytes(8))),
             "it is no batch": (schema(field("a", integer(64, True))), b"")}
    with run.serving() as (_, gateway), Client(gateway.port) as client:
        for why, made in cases.items():
            messages = too_long(*made)
            said = f"Received message larger than max ({len(messages[1])} vs. {LONGEST_MESSAGE}), and it cannot be cut: {why}"
            look_at_status(why, EXHAUSTED, said, client.answer("DoPut", messages))
        ask(client, fetch_of(1, 0, 1, "SELECT * FROM t"), Refusal("F18"))
        look_at_status("70 MB", EXHAUSTED, "Received message larger than max (70000000 vs. 64000000)",
                       client.answer("DoPut", [bytes(70 * MEGABYTE)]))
        answer = client.answer("DoPut", too_long(*batch(1, (0, b"", bytes(8)))))
        same("the status of a batch with much that no row claims", 0, answer.code)
