"""FlatBuffers, as far as the gateway reads and writes them: section 2 of docs/FORMATS.md."""

from __future__ import annotations

import struct
from dataclasses import dataclass

MOST_TABLES, MOST_PAIRS = 64, 192  # of a vector that is read here: a table has at most 64 columns of three buffers


class Unreadable(ValueError):
    """Bytes that lead outside themselves, or lack a part."""


# ---- read


@dataclass(frozen=True)
class Table:
    """A table of a buffer, whose slots are read by their numbers."""

    data: bytes
    place: int

    @classmethod
    def root(cls, data: bytes) -> Table:
        return cls(data, number_at(data, 0, "I"))

    def entry(self, slot: int) -> int | None:
        """Where the field of a slot lies."""
        vtable = self.place - number_at(self.data, self.place, "i")
        if 6 + 2 * slot > number_at(self.data, vtable, "H"):
            return None
        offset = number_at(self.data, vtable + 4 + 2 * slot, "H")
        return self.place + offset if offset else None

    def number(self, slot: int, kind: str, default: int = 0) -> int:
        """A scalar; `kind` is its letter of `struct`."""
        place = self.entry(slot)
        return default if place is None else number_at(self.data, place, kind)

    def follow(self, slot: int) -> int | None:
        """Where the offset in a slot leads to."""
        place = self.entry(slot)
        return None if place is None else place + number_at(self.data, place, "I")

    def table(self, slot: int) -> Table | None:
        place = self.follow(slot)
        return None if place is None else Table(self.data, place)

    def needed(self, slot: int) -> Table:
        """A table that has to be there."""
        found = self.table(slot)
        if found is None:
            raise Unreadable("a part is absent")
        return found

    def tables(self, slot: int) -> list[Table]:
        """A vector of tables; none where it is absent."""
        place = self.follow(slot)
        if place is None:
            return []
        count = number_at(self.data, place, "I")
        if count > MOST_TABLES:
            raise Unreadable("a vector is too long")
        ends = [place + 4 + 4 * index for index in range(count)]
        return [Table(self.data, end + number_at(self.data, end, "I")) for end in ends]

    def pairs(self, slot: int) -> list[tuple[int, int]]:
        """A vector of structs of two numbers of 64 bits."""
        place = self.follow(slot)
        if place is None:
            raise Unreadable("a part is absent")
        count = number_at(self.data, place, "I")
        if count > MOST_PAIRS or place + 4 + 16 * count > len(self.data):
            raise Unreadable("a vector is too long")
        return list(struct.iter_unpack("<qq", self.data[place + 4 : place + 4 + 16 * count]))


def number_at(data: bytes, place: int, kind: str) -> int:
    if place < 0:
        raise Unreadable("an offset leads before the buffer")
    try:
        (found,) = struct.unpack_from(f"<{kind}", data, place)
    except struct.error:
        raise Unreadable("an offset leads past the buffer") from None
    return found


# ---- written


@dataclass(frozen=True)
class Block:
    """Bytes that lead nowhere outside themselves, a multiple of 8 of them, and where what they are begins."""

    data: bytes
    root: int


Slot = int | Block | None


def padded(data: bytes) -> bytes:
    return data + bytes(-len(data) % 8)


def table(*slots: Slot) -> Block:
    """A table: its vtable, a field of 8 bytes for each slot, and the blocks that the fields lead to."""
    count = len(slots)
    entries = [0 if slot is None else 8 + 8 * index for index, slot in enumerate(slots)]
    vtable = padded(struct.pack(f"<{2 + count}H", 4 + 2 * count, 8 + 8 * count, *entries))
    front, rest = struct.pack("<q", len(vtable)), b""
    for index, slot in enumerate(slots):
        if isinstance(slot, Block):
            front += struct.pack("<q", 8 * (count - index) + len(rest) + slot.root)
            rest += slot.data
        else:
            front += struct.pack("<q", slot or 0)
    return Block(vtable + front + rest, len(vtable))


def vector(blocks: list[Block]) -> Block:
    """A vector of what these blocks are."""
    size = len(padded(bytes(4 + 4 * len(blocks))))
    front, rest = struct.pack("<I", len(blocks)), b""
    for block in blocks:
        front += struct.pack("<I", size - len(front) + len(rest) + block.root)
        rest += block.data
    return Block(padded(front) + rest, 0)


def text(value: str) -> Block:
    data = value.encode()
    return Block(padded(struct.pack("<I", len(data)) + data + b"\0"), 0)


def numbers(values: list[int]) -> Block:
    """A vector of numbers of 32 bits."""
    return Block(padded(struct.pack(f"<I{len(values)}i", len(values), *values)), 0)


def pairs(values: list[tuple[int, int]]) -> Block:
    """A vector of structs of two numbers of 64 bits, which begin at a multiple of 8."""
    return Block(struct.pack("<II", 0, len(values)) + b"".join(struct.pack("<qq", *pair) for pair in values), 4)


def buffer(root: Block) -> bytes:
    """A whole buffer whose root is this table."""
    return struct.pack("<q", 8 + root.root) + root.data
