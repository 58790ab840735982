"""The bytes of calls and of their answers: records, fields of Protocol Buffers, commands and tickets.

What is read here is read by the published rules and the words of docs/PROTOCOL.md alone.
"""

from __future__ import annotations

from dataclasses import dataclass

SERVICE = b"/arrow.flight.protocol.FlightService/"
PACKAGE = b"type.googleapis.com/arrow.flight.protocol.sql."
END = b"\x03"
VARINT, BYTES = 0, 2  # the wire types that our messages have


class Unreadable(Exception):
    """Bytes that are not what they have to be."""


def demand(truth: bool, said: str) -> None:
    if not truth:
        raise Unreadable(said)


# ---- written


def varint(number: int) -> bytes:
    groups = []
    while number >= 128:
        groups.append(number % 128 + 128)
        number //= 128
    return bytes(groups + [number])


def chunk(number: int, content: bytes) -> bytes:
    """A field of bytes."""
    return varint(number * 8 + BYTES) + varint(len(content)) + content


def scalar(number: int, value: int) -> bytes:
    """A field of a varint."""
    return varint(number * 8 + VARINT) + varint(value % 2**64)


def packed(name: bytes, command: bytes) -> bytes:
    """An Any of Flight SQL."""
    return chunk(1, PACKAGE + name) + chunk(2, command)


def descriptor(command: bytes) -> bytes:
    """A FlightDescriptor of type CMD."""
    return scalar(1, 2) + chunk(2, command)


def ticket(handle: bytes) -> bytes:
    """A Ticket round a statement handle."""
    return chunk(1, packed(b"TicketStatementQuery", chunk(1, handle)))


def query_handle(version: int, first: int, end: int, text: bytes) -> bytes:
    return b"\x01" + version.to_bytes(8, "big") + first.to_bytes(4, "big") + end.to_bytes(4, "big") + text


def tables_handle(version: int) -> bytes:
    return b"\x02" + version.to_bytes(8, "big")


def record_open(method: bytes) -> bytes:
    path = SERVICE + method
    return b"\x01" + len(path).to_bytes(2, "big") + path


def record_message(message: bytes) -> bytes:
    return b"\x02\x00" + len(message).to_bytes(4, "big") + message


def call(method: bytes, messages: list[bytes]) -> bytes:
    """The records of a call."""
    return b"".join([record_open(method), *map(record_message, messages), END])


# ---- read


@dataclass
class Answer:
    """The records that answer one call: Messages, then a Status."""

    messages: list[bytes]
    code: int
    text: str


class Bytes:
    """Bytes that are taken from the front."""

    def __init__(self, data: bytes):
        self.data, self.place = data, 0

    def ended(self) -> bool:
        return self.place == len(self.data)

    def take(self, count: int) -> bytes:
        demand(self.place + count <= len(self.data), f"{count} bytes at {self.place} of {len(self.data)}")
        self.place += count
        return self.data[self.place - count : self.place]

    def number(self, size: int) -> int:
        return int.from_bytes(self.take(size), "big")

    def varint(self) -> int:
        """A varint in its shortest form, which is what a server writes."""
        value, shift = 0, 0
        while True:
            byte = self.number(1)
            value |= byte % 128 << shift
            shift += 7
            if byte < 128:
                demand(byte > 0 or shift == 7, "a varint that is longer than needed")
                return value
            demand(shift < 70, "a varint of more than ten bytes")


def rest_of_message(source: Bytes) -> bytes:
    """A Message behind the byte of its kind."""
    demand(source.number(1) == 0, "a message's flag")
    return source.take(source.number(4))


def answer(source: Bytes, begun: list[bytes] | None = None) -> Answer:
    """The next answer of a connection, or what is left of it behind the Messages that it began with."""
    messages = begun or []
    while (kind := source.number(1)) == 2:
        messages.append(rest_of_message(source))
    demand(kind == 4, f"a record of kind {kind}")
    code = source.number(1)
    return Answer(messages, code, source.take(source.number(2)).decode())


def fields(message: bytes) -> list[tuple[int, int | bytes]]:
    """The fields of a message: of each its number, and its varint or its bytes."""
    source, found = Bytes(message), []
    while not source.ended():
        tag = source.varint()
        demand(tag % 8 in (VARINT, BYTES), f"wire type {tag % 8}")
        found.append((tag // 8, source.varint() if tag % 8 == VARINT else source.take(source.varint())))
    return found


def one_field(message: bytes, number: int) -> bytes:
    """The bytes of a message's only field. One at its default is left out."""
    found = fields(message)
    demand([one for one, _ in found] in ([], [number]), f"fields {found}, wanted {number} alone")
    return found[0][1] if found else b""


def handle_of(message: bytes) -> bytes:
    """The statement handle in a Ticket."""
    parts = fields(one_field(message, 1))
    demand([number for number, _ in parts] == [1, 2], f"a ticket of {parts}")
    demand(parts[0][1] == PACKAGE + b"TicketStatementQuery", f"a ticket of {parts[0][1]}")
    return one_field(parts[1][1], 1)


def handle_parts(handle: bytes) -> tuple[int, int, int, bytes] | tuple[int]:
    """The version, the range and the text of a query handle; of a tables handle the version alone."""
    source = Bytes(handle)
    kind, version = source.number(1), source.number(8)
    demand(kind == 1 or kind == 2 and source.ended(), f"a handle of kind {kind}")
    if kind == 2:
        return (version,)
    return version, source.number(4), source.number(4), handle[source.place :]


def schema_header(data: bytes) -> bytes:
    """The Message in a schema's IPC form."""
    demand(len(data) % 8 == 0 and data[:4] == b"\xff" * 4, "a schema's IPC form")
    demand(int.from_bytes(data[4:8], "little", signed=True) == len(data) - 8, "the length of a schema's IPC form")
    return data[8:]
