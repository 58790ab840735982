#!/usr/bin/env python3
"""Lays out, by the words of ipc_batch's and flatbuf's specs, what our writer writes, for `to_cases.py`. Run by itself it
has flatc read five of the dictionary headers: they say what flatc's own messages of these texts say. That needs flatc."""
import pathlib
import struct
import sys
import tempfile

sys.dont_write_bytecode = True

# Dictionaries that are written: of each its id, its delta flag, its rows and nulls, and the lengths of its buffers; the
# texts that are given, by their validity bits, offsets and bytes; and the body by hand. A byte that is no text's own is
# not written, nor a bit past the length.
LETTER = "- 0100000002000000 2D"  # one text, behind a byte that is none of its own
DICTIONARIES = {
    "written_a": ((1, 0, 1, 0, (0, 8, 1)), LETTER + "61", "0000000001000000 6100000000000000"),
    "written_delta_b": ((1, 1, 1, 0, (0, 8, 1)), LETTER + "62", "0000000001000000 6200000000000000"),
    "written_c": ((1, 0, 1, 0, (0, 8, 1)), LETTER + "63", "0000000001000000 6300000000000000"),
    "written_greatest_id": ((2**64 - 1, 0, 1, 0, (0, 8, 1)), LETTER + "6D", "0000000001000000 6D00000000000000"),
    # As answers have them: in order of first appearance, and of a batch of nulls alone.
    "written_b_a": ((0, 0, 2, 0, (0, 12, 2)), "- 000000000100000002000000 6261", "000000000100000002000000 00000000 6261000000000000"),
    "written_none": ((0, 0, 0, 0, (0, 4, 0)), "- 00000000 -", "0000000000000000"),
    # 'x' and a null, with bits past the length.
    "written_x_null": ((1, 0, 2, 1, (1, 12, 1)), "FD 000000000100000001000000 78",
                       "0100000000000000 000000000100000001000000 00000000 7800000000000000"),
    # 'x', a null whose bytes are 'y', and 'zz', cut from a longer text.
    "written_with_null": ((0, 0, 3, 1, (1, 16, 3)), "05 01000000020000000300000005000000 7778797A7A77",
                          "0500000000000000 00000000010000000100000003000000 787A7A0000000000"),
}
# What flatc wrote of the same texts.
COMPARED = {"written_delta_b": "dictionary_delta_b", "written_greatest_id": "dictionary_less_1",
            "written_x_null": "dictionary_x_null", "written_b_a": "dictionary_0_b_a", "written_none": "dictionary_0_none"}
# What is then read, by hand.
CASES = [
    ("schema_of_Int8 written_a written_delta_b indices_1_0", 'rows [["b"], ["a"]]'),
    ("schema_of_Int8 written_a written_delta_b written_c indices_0", 'rows [["c"]]'),
    ("schema_of_Int8 written_x_null indices_0_1_null", 'rows [["x"], [null], [null]]'),
    ("schema_of_negative written_greatest_id indices_of_negative", 'rows [["m"]]'),
    ("schema_of written_b_a indices_of_default", 'rows [["a"], ["b"]]'),
    ("schema_of written_none indices_of_default_null", 'rows [[null]]'),
    ("schema_of written_none indices_of_default", "F8"),
]
# Batches that are written: of each the rows, the null counts and the lengths of the buffers, and the body by hand.
BATCHES = {
    "schema_Int64 batch_Int64_two": ((2, (0,), (0, 16)), "0100000000000000 0200000000000000"),
    "schema_Bool batch_Bool": ((4, (1,), (1, 1)), "0D00000000000000 0900000000000000"),
    "schema_Utf8 batch_Utf8_within": ((2, (0,), (0, 12, 2)), "000000000200000002000000 00000000 6162000000000000"),
    "schema_Utf8 batch_Utf8_null_bytes": ((3, (1,), (1, 16, 2)),
                                          "0500000000000000 00000000010000000100000002000000 6162000000000000"),
    # A column of a dictionary is written as its indices.
    "schema_of_two dictionary_a dictionary_2 indices_two": (
        (2, (0, 1), (0, 2, 1, 4)), "0000000000000000 0200000000000000 0000010000000000"),
}


def padded(data):
    return data + bytes(-len(data) % 8)


def table(*slots):
    """A vtable right before its table, a field of 8 bytes for each slot, and the blocks that it leads to behind. A slot
    is a number, or a block: its bytes and where its root is in them."""
    count = len(slots)
    vtable = padded(struct.pack(f"<{2 + count}H", 4 + 2 * count, 8 + 8 * count, *(8 + 8 * j for j in range(count))))
    root, fields, behind = len(vtable), b"", b""
    for j, slot in enumerate(slots):
        if isinstance(slot, tuple):
            slot, behind = 8 * (count - j) + len(behind) + slot[1], behind + slot[0]
        fields += struct.pack("<Q", slot)
    return vtable + struct.pack("<Q", root) + fields + behind, root


def structs(*pairs):
    """Structs of two numbers each behind their count, which makes them begin at a multiple of 8."""
    return padded(struct.pack("<II", 0, len(pairs)) + b"".join(struct.pack("<QQ", *pair) for pair in pairs)), 4


def record_batch(rows, nulls, lengths):
    """The RecordBatch table, and how long its body is."""
    places, end = [], 0
    for length in lengths:
        places.append((end, length))
        end += length + -length % 8
    return table(rows, structs(*((rows, count) for count in nulls)), structs(*places)), end


def buffer(kind, header, body_length):
    message, root = table(4, kind, header, body_length)
    return struct.pack("<Q", 8 + root) + message


def batch_header(rows, nulls, lengths):
    values, end = record_batch(rows, nulls, lengths)
    return buffer(3, values, end)


def header(id, delta, rows, nulls, lengths):
    values, end = record_batch(rows, (nulls,), lengths)
    return buffer(2, table(id, values, delta), end)


def main():
    from make import HERE, told

    with tempfile.TemporaryDirectory() as folder:
        for name, other in COMPARED.items():
            data = header(*DICTIONARIES[name][0])
            assert told(pathlib.Path(folder), data) == told(pathlib.Path(folder), (HERE / f"{other}.header").read_bytes()), name


if __name__ == "__main__":
    main()
