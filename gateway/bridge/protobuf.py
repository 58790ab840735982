"""Protocol Buffers, as far as the gateway reads and writes them: section 1 of docs/FORMATS.md."""

from __future__ import annotations

import itertools
from collections.abc import Iterator

from bridge.refusals import UnreadMessage

VARINT, EIGHT_BYTES, BYTES, FOUR_BYTES = 0, 1, 2, 5  # the wire types
MOST_SHIFT = 63  # of a varint's last byte
MOST_FIELDS = 10_000  # of a message, and numbers of a field, that are read here: more would keep others waiting
PACKAGE = "arrow.flight.protocol.sql."
PREFIX = "type.googleapis.com/"
Field = tuple[int, "int | memoryview"]


# ---- read


class Message:
    """The fields of a message: of each its number, and its varint or its bytes. A message that does not read is F4."""

    def __init__(self, data: bytes | memoryview):
        self.fields: list[Field] = list(itertools.islice(fields_of(memoryview(data)), MOST_FIELDS + 1))
        if len(self.fields) > MOST_FIELDS:
            raise UnreadMessage

    def has(self, number: int) -> bool:
        return any(one == number for one, _ in self.fields)

    def numbers(self, number: int) -> list[int]:
        """All varints of a field, also those of its packed form."""
        found = []
        for one, value in self.fields:
            if one == number:
                found += [value] if isinstance(value, int) else varints(value)
        return found

    def number(self, number: int) -> int:
        """The last varint of a field, or 0."""
        return next((value for one, value in reversed(self.fields) if one == number and isinstance(value, int)), 0)

    def contents(self, number: int) -> list[memoryview]:
        return [value for one, value in self.fields if one == number and not isinstance(value, int)]

    def content(self, number: int) -> bytes:
        """The last bytes of a field, or none."""
        return bytes(([b""] + self.contents(number))[-1])

    def texts(self, number: int) -> list[str]:
        """All strings of a field."""
        try:
            return [str(value, "utf-8") for value in self.contents(number)]
        except UnicodeDecodeError:
            raise UnreadMessage from None

    def text(self, number: int) -> str | None:
        """The last string of a field."""
        return ([None] + self.texts(number))[-1]

    def message(self, number: int) -> Message:
        """An embedded message. One that comes again is merged, which is what its parts say one after the other."""
        return Message(b"".join(self.contents(number)))


def fields_of(data: memoryview) -> Iterator[Field]:
    place = 0
    while place < len(data):
        tag, place = varint_at(data, place)
        number, kind = tag >> 3, tag & 7
        if number == 0:
            raise UnreadMessage
        if kind == VARINT:
            value, place = varint_at(data, place)
            yield number, value
            continue
        if kind == BYTES:
            length, place = varint_at(data, place)
        elif kind in (EIGHT_BYTES, FOUR_BYTES):
            length = 8 if kind == EIGHT_BYTES else 4
        else:
            raise UnreadMessage
        if place + length > len(data):
            raise UnreadMessage
        if kind == BYTES:
            yield number, data[place : place + length]
        place += length


def varint_at(data: memoryview, place: int) -> tuple[int, int]:
    """A varint and the place after it."""
    value = shift = 0
    while place < len(data) and shift <= MOST_SHIFT:
        byte = data[place]
        value |= (byte & 127) << shift
        place, shift = place + 1, shift + 7
        if byte < 128:
            return value & (1 << 64) - 1, place
    raise UnreadMessage


def varints(data: memoryview) -> list[int]:
    found, place = [], 0
    while place < len(data):
        value, place = varint_at(data, place)
        found.append(value)
        if len(found) > MOST_FIELDS:
            raise UnreadMessage
    return found


def command_in(data: bytes) -> tuple[str, bytes]:
    """The name and the content of a command of Flight SQL in an Any. Another one has an empty name."""
    holder = Message(data)
    url = (holder.text(1) or "").rpartition("/")[2]
    name = url.removeprefix(PACKAGE) if url.startswith(PACKAGE) else ""
    return name, holder.content(2)


# ---- written


def varint(number: int) -> bytes:
    groups = bytearray()
    while number >= 128:
        groups.append(number & 127 | 128)
        number >>= 7
    groups.append(number)
    return bytes(groups)


def scalar(number: int, value: int) -> bytes:
    """A field of a varint; a negative one has 64 bits."""
    return varint(number << 3 | VARINT) + varint(value & (1 << 64) - 1)


def chunk(number: int, content: bytes) -> bytes:
    """A field of bytes, of a string or of a message."""
    return chunk_head(number, len(content)) + content


def chunk_head(number: int, length: int) -> bytes:
    """What stands before so many bytes of a field."""
    return varint(number << 3 | BYTES) + varint(length)


def command(name: str, content: bytes = b"") -> bytes:
    """An Any of Flight SQL."""
    return chunk(1, (PREFIX + PACKAGE + name).encode()) + chunk(2, content)
