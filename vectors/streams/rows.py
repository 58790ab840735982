"""The rows of Arrow IPC streams of the program format_cases, for formats/make.py, and the messages that they are cut into.

The headers are flatc's, of arrow/, or laid out by arrow/layout.py, or here by hand. A stream is put together here of its
messages, so its answer is known before it is read; what is refused, is refused by hand. Of streams that are cut to each
length or have one byte changed, the answers are those of a second reader, `cut_up`, which is tried on all others too."""
import pathlib
import struct
import sys

sys.dont_write_bytecode = True
HERE = pathlib.Path(__file__).parent
ARROW = HERE.parent / "arrow"
sys.path += [str(HERE), str(ARROW)]

import trees  # noqa: E402
from framing import END, WORD, framed, padded, stored_messages, stream_of  # noqa: E402
from layout import written  # noqa: E402
from reader import Fault  # noqa: E402

LINES, ANSWERS = [], []
REFUSED = "F6 BadFlatbuffer"

# ---- streams


def told(messages):
    return " ".join([str(len(messages)), *(f"{header.hex()}/{body.hex()}" for header, body in messages)])


def cut_up(data):
    """The second reader: the messages of a stream, or why there are none."""
    try:
        return told([*stored_messages(data)])
    except Fault:
        return REFUSED


def note(text):
    LINES.append(f"# {text}")
    ANSWERS.append(f"# {text}")


def ask(data, answer):
    assert cut_up(data) == answer, (data.hex(), answer, cut_up(data))
    LINES.append(data.hex())
    ANSWERS.append(answer)


def whole(*messages):
    """A stream with each of its ends, and with bytes behind the end marker."""
    data = stream_of(messages)
    behind = [END + END + data, END + WORD] if len(data) < 200 else []
    for end in (b"", END, END + b"\x00", *behind):
        ask(data + end, told(messages))


def refused(data):
    ask(data, REFUSED)


# ---- messages


def by_flatc(name, claimed=None):
    """A message of arrow/. Where its body is longer than its header claims, it stands here with what is claimed."""
    body = ARROW / f"{name}.body"
    return (ARROW / f"{name}.header").read_bytes(), body.read_bytes()[:claimed] if body.exists() else b""


def laid_out(made, layout):
    tree, body = made if isinstance(made, tuple) else (made, b"")
    return padded(written("Message", tree, layout)), body


def saying(size, slots=4):
    """A header by hand: the root's offset, a vtable of so many slots whose last one leads to a number of eight bytes,
    and a table."""
    vtable = 4 + 2 * slots
    root = 4 + vtable + -vtable % 4
    entries = struct.pack(f"<{2 + slots}H", vtable, 12, *[0] * (slots - 1), 4)
    return struct.pack("<I", root) + entries + bytes(-vtable % 4) + struct.pack("<i", root - 4) + struct.pack("<q", size)


SHORTEST = bytes(4)  # the root is at 0, and so is its vtable, of no byte
FIELDS = trees.schema(trees.field("s", trees.UTF8, dictionary=trees.encoding(1, trees.integer(8, True))), trees.field("a", trees.integer(64, True)))
TEXTS = trees.dictionary(1, trees.batch(2, (0, b"", *trees.texts([b"x", b"yy"]))))
DELTA = trees.dictionary(1, trees.batch(1, (0, b"", *trees.texts([b"zzz"]))), delta=True)
ROWS = trees.batch(3, (0, b"", bytes([0, 2, 1])), (1, trees.bits([True, False, True]), struct.pack("<3q", 1, 0, -3)))


def whole_streams():
    note("no message")
    whole()

    note("flatc's messages: schemas, dictionaries, deltas and batches")
    whole(by_flatc("schema_Int64"))
    whole(by_flatc("schema_Int64"), by_flatc("batch_Int64_two"))
    whole(by_flatc("schema_Utf8"), by_flatc("batch_Utf8"), by_flatc("batch_Utf8_long"))
    whole(*map(by_flatc, ("schema_of_Int8", "dictionary_a", "indices_0", "dictionary_delta_b", "indices_1_0", "dictionary_c", "indices_0")))
    whole(by_flatc("schema_all"), by_flatc("all_batch_flatc"))
    whole(by_flatc("schema_all_spread"), by_flatc("all_batch_packed"))
    whole(by_flatc("schema_with_body", 3), by_flatc("empty_Int64"))

    note("the same with zeros behind their headers, up to multiples of 8 and of 64 bytes, as Arrow's writers have them")
    for size in (8, 64):
        names = ("schema_of_Int8", "dictionary_a", "indices_0", "dictionary_delta_b", "indices_1_0", "batch_Utf8")
        whole(*((padded(header, size), body) for header, body in map(by_flatc, names)))

    note("the stored stream of trips.py: a dictionary, a delta and two batches, all at multiples of 64 bytes")
    trips = (HERE / "trips.arrows").read_bytes()
    for data in (trips, trips[: -len(END)], trips + trips, trips[: -len(END)] + trips):
        ask(data, cut_up(data))
    refused(trips[: -len(END) - 1])

    note("the same in two layouts that flatc never picks")
    for layout in ("packed", "spread"):
        whole(*(laid_out(made, layout) for made in (FIELDS, TEXTS, ROWS, DELTA, ROWS)))

    note("what the reader of messages refuses, is cut all the same: other versions, kinds and orders")
    for name in ("bad_version_V4", "bad_kind_tensor", "bad_header_absent", "bad_endianness", "bad_type_Date", "bad_compression", "bad_data_short_Int64"):
        whole(by_flatc(name))
    whole(by_flatc("batch_Int64"), by_flatc("schema_Int64"), by_flatc("schema_Int64"))


def headers_by_hand():
    note("bodies of all small sizes, and headers with more zeros than they need, and none")
    for size in range(18):
        whole((saying(size), bytes(range(1, size + 1))))
    for zeros in (*range(1, 9), 100):
        whole((saying(3) + bytes(zeros), b"abc"), (SHORTEST + bytes(zeros), b""))

    note("the body's length is absent: by an entry of 0, and by a vtable that ends before it")
    whole((saying(7, slots=3), b""), (saying(0), b""), (saying(7, slots=5), b""))
    whole((SHORTEST, b""))
    whole(*[(SHORTEST, b"")] * 300)

    note("what is not read: the sizes of a vtable and of a table, and other slots")
    good = saying(1)
    for place in (4, 6, 7, 8, 9, 10, 11, 12, 13):
        whole((good[:place] + b"\xff" + good[place + 1 :], b"a"))

    note("bodies that look like messages")
    inner = framed(saying(2), b"ok")
    whole((saying(len(inner)), inner), (saying(len(END)), END), (saying(1), b"\xff"))


def refusals():
    first = framed(saying(3), b"abc")
    for front in (b"", first):
        note("another word in a message's place" + (", behind a message" if front else ""))
        refused(front + b"\x00")
        refused(front + bytes(8))
        refused(front + END[4:] + END[:4])
        refused(front + struct.pack("<i", len(saying(3))) + saying(3) + b"abc")
        for place in range(4):
            refused(front + WORD[:place] + b"\xfe" + WORD[place + 1 :] + bytes(4))
            refused(front + WORD[:place] + b"\x7f" + WORD[place + 1 :] + framed(saying(0))[4:])

        note("a negative length, and one past the end")
        for length in (-1, -2, -8, -(2**31), 2**31 - 1, len(saying(3)) + 4, 1000):
            refused(front + framed(saying(3), b"abc", length))

        note("a header that does not read")
        for header in (b"\x00", bytes(3), struct.pack("<I", 1), struct.pack("<I", 4), struct.pack("<I", 2**32 - 1), struct.pack("<Ii", 4, 5)):
            refused(front + framed(header))
        good = saying(0)
        for place, new in ((0, 25), (0, 28), (0, 255), (16, 17), (16, 255), (19, 128), (14, 5), (14, 255)):
            refused(front + framed(good[:place] + bytes([new]) + good[place + 1 :]))
        for length in range(1, len(good)):
            refused(front + framed(good[:length], b""))

        note("a negative length of a body, and one past the end")
        for size in (-1, -8, -(2**63), 1, 2**31, 2**32, 2**63 - 1):
            refused(front + framed(saying(size)))
        refused(front + framed(saying(5), b"abcd"))
        refused(front + framed(saying(9), END))


def swept():
    data = framed(saying(3), b"abc") + framed(SHORTEST) + END + b"\x01"
    note("cut to each length")
    for length in range(len(data)):
        ask(data[:length], cut_up(data[:length]))
    note("each byte set to other values")
    for place in range(len(data)):
        for new in (0, 1, 2, 4, 12, 127, 128, 255):
            changed = data[:place] + bytes([new]) + data[place + 1 :]
            ask(changed, cut_up(changed))


def rows():
    """Each row and its answer."""
    whole_streams()
    headers_by_hand()
    refusals()
    swept()
    return list(zip(LINES, ANSWERS))
