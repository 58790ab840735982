"""The framing of Arrow IPC streams: messages put together to a stream, and a stream cut into its messages again."""
import struct

from reader import Table, demand

WORD, END = b"\xff" * 4, b"\xff" * 4 + bytes(4)


def framed(header, body=b"", length=None):
    """A message in a stream; its length may lie."""
    return WORD + struct.pack("<i", len(header) if length is None else length) + header + body


def padded(header, size=8):
    """A header that is filled up with zeros, so that its body begins at a multiple of a size where the message does."""
    return header + bytes(-(8 + len(header)) % size)


def stream_of(messages):
    return b"".join(framed(header, body) for header, body in messages)


def stored_messages(data):
    """The messages of a stream, each a header and a body."""
    place = 0
    while place < len(data):
        demand(data[place : place + 4] == WORD and place + 8 <= len(data), "F6")
        (length,) = struct.unpack_from("<i", data, place + 4)
        if length == 0:
            break
        demand(0 < length <= len(data) - place - 8, "F6")
        header = data[place + 8 : place + 8 + length]
        root = Table(header, 0).number(0, 4)
        size = Table(header, root).scalar(3, 8)
        place += 8 + length
        demand(0 <= size <= len(data) - place, "F6")
        yield header, data[place : place + size]
        place += size
