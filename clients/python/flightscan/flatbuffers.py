"""FlatBuffers: tables read by position, and tables written, as docs/FORMATS.md section 2 has them."""

from __future__ import annotations

import struct
from collections.abc import Callable, Sequence
from dataclasses import dataclass

from .errors import fault

FORMATS = {1: "<b", 2: "<h", 4: "<i", 8: "<q"}
UNSIGNED = {2: "<H", 4: "<I"}


class Table:
    """A table of a buffer. What lies outside the buffer is F6, once it is read."""

    def __init__(self, data: memoryview, place: int):
        self.data, self.place = data, place

    @classmethod
    def root(cls, data: memoryview) -> Table:
        table = cls(data, 0)
        return cls(data, table.unsigned(0, 4))

    def inside(self, place: int, size: int) -> int:
        if not 0 <= place <= len(self.data) - size:
            raise fault(6, f"{size} bytes at {place} of {len(self.data)}")
        return place

    def unsigned(self, place: int, size: int) -> int:
        found: int = struct.unpack_from(UNSIGNED[size], self.data, self.inside(place, size))[0]
        return found

    def signed(self, place: int, size: int) -> int:
        found: int = struct.unpack_from(FORMATS[size], self.data, self.inside(place, size))[0]
        return found

    def entry(self, slot: int) -> int | None:
        """Where a slot's field lies."""
        vtable = self.place - self.signed(self.place, 4)
        if 6 + 2 * slot > self.unsigned(vtable, 2):
            return None
        entry = self.unsigned(vtable + 4 + 2 * slot, 2)
        return self.place + entry if entry else None

    def scalar(self, slot: int, size: int, default: int = 0) -> int:
        place = self.entry(slot)
        return default if place is None else self.signed(place, size)

    def has(self, slot: int) -> bool:
        return self.entry(slot) is not None

    def followed(self, slot: int) -> int | None:
        """Where a slot's offset leads."""
        place = self.entry(slot)
        return None if place is None else place + self.unsigned(place, 4)

    def table(self, slot: int) -> Table | None:
        place = self.followed(slot)
        return None if place is None else Table(self.data, place)

    def text(self, slot: int) -> str | None:
        """The string to which a slot leads."""
        place = self.followed(slot)
        if place is None:
            return None
        size = self.unsigned(place, 4)
        begin = self.inside(place + 4, size)
        try:
            return str(self.data[begin : begin + size], "utf-8")
        except UnicodeDecodeError:
            raise fault(6, "a name that is not UTF-8") from None

    def tables(self, slot: int) -> tuple[int, Callable[[int], Table]] | None:
        """How many tables a vector has, and what gives each one."""
        place = self.followed(slot)
        if place is None:
            return None
        first = place + 4

        def element(index: int) -> Table:
            at = first + 4 * index
            return Table(self.data, at + self.unsigned(at, 4))

        return self.unsigned(place, 4), element

    def pairs(self, slot: int) -> list[tuple[int, int]] | None:
        """A vector of structs of two signed numbers of eight bytes."""
        place = self.followed(slot)
        if place is None:
            return None
        count = self.unsigned(place, 4)
        begin = self.inside(place + 4, 16 * count)
        return [(first, second) for first, second in struct.iter_unpack("<qq", self.data[begin : begin + 16 * count])]


@dataclass(frozen=True)
class Block:
    """Bytes that lead nowhere outside themselves, of a multiple of 8, and the place in them to which an offset leads."""

    data: bytes
    anchor: int = 0


Slot = tuple[int, int] | Block | None  # a scalar as its size and its value, what an offset leads to, or nothing


def table(*slots: Slot) -> Block:
    """A table: its vtable, then each slot in a field of eight bytes, then what the slots lead to."""
    vtable = 4 + 2 * len(slots)
    begin = vtable + -vtable % 8
    size = 8 + 8 * len(slots)
    entries = [8 + 8 * number if slot is not None else 0 for number, slot in enumerate(slots)]
    head = struct.pack(f"<HH{len(slots)}H", vtable, size, *entries).ljust(begin, b"\0") + struct.pack("<ii", begin, 0)
    inline, children, place = [], [], begin + size
    for number, slot in enumerate(slots):
        if isinstance(slot, Block):
            inline.append(struct.pack("<q", place + slot.anchor - (begin + 8 + 8 * number)))
            children.append(slot.data)
            place += len(slot.data)
        else:
            inline.append(struct.pack(FORMATS[slot[0]], slot[1]).ljust(8, b"\0") if slot else bytes(8))
    return Block(b"".join([head, *inline, *children]), begin)


def text(said: str) -> Block:
    """A string, with a zero after it."""
    data = said.encode()
    whole = struct.pack("<I", len(data)) + data + b"\0"
    return Block(whole + bytes(-len(whole) % 8))


def tables(found: Sequence[Block]) -> Block:
    """A vector of tables."""
    size = 4 + 4 * len(found)
    size += -size % 8
    offsets, place = [], size
    for number, one in enumerate(found):
        offsets.append(place + one.anchor - (4 + 4 * number))
        place += len(one.data)
    head = struct.pack(f"<I{len(found)}I", len(found), *offsets).ljust(size, b"\0")
    return Block(head + b"".join(one.data for one in found))


def pairs(found: Sequence[tuple[int, int]]) -> Block:
    """A vector of structs of two signed numbers of eight bytes, which begin at a multiple of 8."""
    flat = [number for pair in found for number in pair]
    return Block(struct.pack(f"<II{len(flat)}q", 0, len(found), *flat), 4)


def finished(root: Block) -> bytes:
    """A buffer whose root is this table."""
    return struct.pack("<II", 8 + root.anchor, 0) + root.data
