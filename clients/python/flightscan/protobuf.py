"""Protocol Buffers: fields and varints, as docs/FORMATS.md section 1 has them."""

from __future__ import annotations

from collections.abc import Iterator

from .errors import fault

VARINT, EIGHT, BYTES, FOUR = 0, 1, 2, 5  # the wire types
LONGEST_VARINT = 10
MOST_NUMBER = 536_870_911


def varint(number: int) -> bytes:
    """A number in its shortest form."""
    groups = bytearray()
    number %= 2**64
    while number >= 128:
        groups.append(number % 128 + 128)
        number //= 128
    groups.append(number)
    return bytes(groups)


def chunk_head(number: int, size: int) -> bytes:
    """What stands before the bytes of a field."""
    return varint(number * 8 + BYTES) + varint(size)


def chunk(number: int, content: bytes) -> bytes:
    """A field of bytes."""
    return chunk_head(number, len(content)) + content


def scalar(number: int, value: int) -> bytes:
    """A field of a varint. The default is not written."""
    return varint(number * 8 + VARINT) + varint(value) if value else b""


def varint_at(data: memoryview, place: int) -> tuple[int, int]:
    """The varint at a place, and the place after it."""
    value, shift = 0, 0
    for place in range(place, min(place + LONGEST_VARINT, len(data))):
        byte = data[place]
        value |= (byte & 127) << shift
        if byte < 128:
            return value % 2**64, place + 1
        shift += 7
    raise fault(4, "a varint without an end")


def fields(data: memoryview) -> Iterator[tuple[int, int, int | memoryview]]:
    """Each field's number, its wire type, and its varint or its bytes, which are views of the message."""
    place = 0
    while place < len(data):
        tag, place = varint_at(data, place)
        number, wire = tag // 8, tag % 8
        if not 1 <= number <= MOST_NUMBER:
            raise fault(4, f"field number {number}")
        if wire == VARINT:
            value, place = varint_at(data, place)
            yield number, wire, value
            continue
        if wire == BYTES:
            size, place = varint_at(data, place)
        elif wire in (EIGHT, FOUR):
            size = 8 if wire == EIGHT else 4
        else:
            raise fault(4, f"wire type {wire}")
        if size > len(data) - place:
            raise fault(4, "a field that is cut off")
        yield number, wire, data[place : place + size]
        place += size


def contents(data: memoryview, number: int) -> list[memoryview]:
    """The bytes of every field of this number."""
    return [value for one, wire, value in fields(data) if one == number and wire == BYTES and isinstance(value, memoryview)]


def content(data: memoryview, number: int) -> memoryview:
    """The bytes of the last field of this number; empty where there is none."""
    return (contents(data, number) or [memoryview(b"")])[-1]
