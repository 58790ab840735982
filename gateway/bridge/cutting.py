"""Cuts the batches of a put that are longer than a message may be. Rows and values stay what they were.

A batch is cut by its rows. Buffers are cut where the rows are, and the offsets of strings are counted from the first one that
is left. What the server would refuse is refused here, or is still wrong when it is cut.
"""

from __future__ import annotations

import struct
from collections.abc import Iterator
from dataclasses import dataclass

from bridge.arrow import RECORD_BATCH, SCHEMA, V5, message, record_batch
from bridge.flatbuffers import Table, Unreadable, table

DICTIONARY = 2  # the kind of a dictionary's message
INT, UTF8, BOOL, DECIMAL, DATE, TIME, TIMESTAMP, DURATION = 2, 5, 6, 7, 8, 9, 10, 18  # the kinds of types
DECIMAL_BYTES, DATE_BYTES, LONG_BYTES, OFFSET_BYTES = 16, 4, 8, 4  # timestamps and durations are long
MOST_ROWS, MOST_BYTES = 65_536, 8_388_608  # of a piece, where one row is not longer
BITS, TEXTS = 0, -1  # in place of a width in bytes: bits, and strings with offsets
Pair = tuple[int, int]


# ---- what a schema says


def width_of(bits: int) -> int:
    if bits not in (8, 16, 32, 64):
        raise Unreadable("an integer of another width")
    return bits // 8


def column_width(field: Table) -> int:
    """How many bytes a value of a column has, or BITS, or TEXTS."""
    kind, encoding = field.number(2, "B"), field.table(4)
    if encoding is not None:
        index = encoding.table(1)
        return 4 if index is None else width_of(index.number(0, "i"))
    if kind == INT:
        return width_of(field.needed(3).number(0, "i"))
    if kind == TIME:
        return width_of(field.needed(3).number(1, "i", 32))
    known = {UTF8: TEXTS, BOOL: BITS, DECIMAL: DECIMAL_BYTES, DATE: DATE_BYTES, TIMESTAMP: LONG_BYTES, DURATION: LONG_BYTES}
    if kind not in known:
        raise Unreadable("a type that is not supported")
    return known[kind]


def widths_of(header: bytes) -> list[int] | None:
    """What a schema's header says of each column. None where the server will not take it."""
    try:
        head = Table.root(header)
        if head.number(1, "B") != SCHEMA:
            return None
        return [column_width(field) for field in head.needed(2).tables(1)]
    except Unreadable:
        return None


# ---- columns


@dataclass(frozen=True)
class Column:
    """A column of a batch: its width, whether it may have nulls, and its buffers."""

    width: int
    validity: memoryview | None
    offsets: memoryview
    data: memoryview

    def demand_rows(self, rows: int) -> None:
        """That its buffers are long enough."""
        wanted = OFFSET_BYTES * (rows + 1) if self.width == TEXTS else self.width * rows
        held = len(self.offsets if self.width == TEXTS else self.data)
        is_short = (rows + 7) // 8 > held if self.width == BITS else wanted > held
        if is_short or self.validity is not None and (rows + 7) // 8 > len(self.validity):
            raise Unreadable("a buffer is shorter than its rows")

    def ends(self, first: int, end: int) -> Pair:
        """Where the bytes of the strings of these rows begin and end."""
        (start,) = struct.unpack_from("<i", self.offsets, OFFSET_BYTES * first)
        (stop,) = struct.unpack_from("<i", self.offsets, OFFSET_BYTES * end)
        if not 0 <= start <= stop <= len(self.data):
            raise Unreadable("offsets that lead outside")
        return start, stop

    def size(self, first: int, end: int) -> int:
        """How many bytes these rows have, at most."""
        rows = end - first
        size = rows // 8 + 8
        if self.width == TEXTS:
            start, stop = self.ends(first, end)
            return size + OFFSET_BYTES * (rows + 1) + stop - start + 16
        return size + (rows // 8 + 8 if self.width == BITS else self.width * rows + 8)

    def cut(self, first: int, end: int) -> tuple[int, list[bytes | memoryview]]:
        """The number of nulls in these rows, and their buffers."""
        nulls, validity = 0, b""
        if self.validity is not None:
            kept = cut_bits(self.validity, first, end)
            nulls = end - first - int.from_bytes(kept, "little").bit_count()
            validity = kept if nulls else b""
        if self.width == TEXTS:
            start, stop = self.ends(first, end)
            places = self.offsets[OFFSET_BYTES * first : OFFSET_BYTES * (end + 1)]
            return nulls, [validity, lowered(places, start), self.data[start:stop]]
        if self.width == BITS:
            return nulls, [validity, cut_bits(self.data, first, end)]
        return nulls, [validity, self.data[self.width * first : self.width * end]]


def cut_bits(bits: memoryview, first: int, end: int) -> bytes:
    """The bits from one place up to another, with zeros after them."""
    count = end - first
    number = int.from_bytes(bits[first // 8 : (end + 7) // 8], "little") >> first % 8
    return (number & (1 << count) - 1).to_bytes((count + 7) // 8, "little")


def lowered(places: memoryview, by: int) -> bytes | memoryview:
    """Numbers of 32 bits, each less by the first one. As one long number they are lowered at once.

    Where none is less than the first, no digit is borrowed. The first one that is less comes out below 0. So does, or is too
    far for any body, the one after that. So the server refuses it as it would have refused the whole.
    """
    if by == 0:
        return places
    count = len(places) // OFFSET_BYTES
    each = int.from_bytes(struct.pack("<i", by) * count, "little")
    number = int.from_bytes(places, "little") - each
    return (number % (1 << 32 * count)).to_bytes(len(places), "little")


# ---- batches


@dataclass(frozen=True)
class Batch:
    """A record batch that is read as far as it is needed to cut it."""

    rows: int
    columns: list[Column]

    @classmethod
    def read(cls, batch: Table, body: memoryview, widths: list[int]) -> Batch:
        rows, nodes, places = batch.number(0, "q"), batch.pairs(1), batch.pairs(2)
        if batch.entry(3) is not None:
            raise Unreadable("it is compressed")
        wanted = sum(3 if width == TEXTS else 2 for width in widths)
        if rows < 1 or len(nodes) != len(widths) or len(places) != wanted or any(length != rows for length, _ in nodes):
            raise Unreadable("other counts than its schema's")
        if any(at < 0 or size < 0 or at + size > len(body) for at, size in places):
            raise Unreadable("a buffer outside the body")
        buffers, columns = iter([body[at : at + size] for at, size in places]), []
        for width, (_, nulls) in zip(widths, nodes):
            validity = next(buffers)
            offsets = next(buffers) if width == TEXTS else validity
            columns.append(Column(width, validity if nulls else None, offsets, next(buffers)))
            columns[-1].demand_rows(rows)
        return cls(rows, columns)

    def size(self, first: int, end: int) -> int:
        return sum(column.size(first, end) for column in self.columns)

    def end_of_piece(self, first: int, most_rows: int, most_bytes: int) -> int:
        """Up to which row a piece goes that begins here: as many rows as fit, and one at least."""
        low, high = first + 1, min(self.rows, first + most_rows)
        while low < high:
            middle = (low + high + 1) // 2
            if self.size(first, middle) <= most_bytes:
                low = middle
            else:
                high = middle - 1
        return low

    def pieces(self, most_rows: int, most_bytes: int) -> Iterator[Piece]:
        first = 0
        while first < self.rows:
            end = self.end_of_piece(first, most_rows, most_bytes)
            cut = [column.cut(first, end) for column in self.columns]
            yield Piece(end - first, [nulls for nulls, _ in cut], [part for _, parts in cut for part in parts])
            first = end


@dataclass(frozen=True)
class Piece:
    """Some rows of a batch: their number, of each column its nulls, and all buffers."""

    rows: int
    nulls: list[int]
    buffers: list[bytes | memoryview]

    def message(self, dictionary: Pair | None) -> tuple[bytes, bytes]:
        """The header and the body, of a record batch, or of the dictionary of this id and delta flag."""
        nodes = [(self.rows, nulls) for nulls in self.nulls]
        header, length = record_batch(self.rows, nodes, [*map(len, self.buffers)])
        if dictionary is not None:
            id, is_delta = dictionary
            header = table(id, header, is_delta)
        body = b"".join(part for one in self.buffers for part in (one, bytes(-len(one) % 8)))
        return message(RECORD_BATCH if dictionary is None else DICTIONARY, header, length), body


def pieces_of(header: bytes, body: memoryview, widths: list[int], most_rows: int = MOST_ROWS,
              most_bytes: int = MOST_BYTES) -> Iterator[tuple[bytes, bytes]]:
    """The headers and bodies of the pieces of a record batch or of a dictionary. What cannot be cut is Unreadable."""
    head = Table.root(header)
    if head.number(0, "h") != V5 or not 0 <= head.number(3, "q") <= len(body):
        raise Unreadable("another version, or a longer body")
    kind, one = head.number(1, "B"), head.needed(2)
    if kind == RECORD_BATCH:
        for piece in Batch.read(one, body, widths).pieces(most_rows, most_bytes):
            yield piece.message(None)
    elif kind == DICTIONARY:
        id, is_delta = one.number(0, "q"), int(one.number(2, "B") != 0)
        for piece in Batch.read(one.needed(1), body, [TEXTS]).pieces(most_rows, most_bytes):
            yield piece.message((id, is_delta))
            is_delta = 1
    else:
        raise Unreadable("it is no batch")
