"""Messages of 70,000 slots, a type each, laid out by layout.py: more than 2^16 rows, cells and values. A body is given as
the text that `crates/column_cases` reads: digits, digits `*` how many times, or `first:step:count`, numbers of four bytes."""
import struct

import layout

SLOTS = 70000
# Of each type what seven slots have, again and again.
SEVEN = {
    "Int8": "80FF000102037F", "UInt8": "FF000180FE7F02",
    "Int16": "0080FFFF000001000200FF7F0301", "UInt16": "FFFF000001000080FF7F02000301",
    "Int32": "00000080FFFFFFFF0000000001000000FFFFFF7F0302010007000000",
    "UInt32": "FFFFFFFF000000000100000000000080FFFFFF7F0302010007000000",
    "Int64": "0000000000000080" "FFFFFFFFFFFFFFFF" "0000000000000000" "0100000000000000" "FFFFFFFFFFFFFF7F"
             "0807060504030201" "0000000001000000",
    "UInt64": "FFFFFFFFFFFFFFFF" "0000000000000000" "0100000000000000" "0000000000000080" "FFFFFFFFFFFFFF7F"
              "0807060504030201" "0000000001000000",
    "Decimal128": "00" * 15 + "80" + "FF" * 16 + "00" * 16 + "01" + "00" * 15 + "FF" * 15 + "7F"
                  + "100F0E0D0C0B0A090807060504030201" + "00" * 8 + "01" + "00" * 7,
}
VALIDITY = "FBDFFFFEF7BF7D"  # of 56 slots seven are null


def piece(text):
    """The bytes that a piece says."""
    if text == "-":
        return b""
    if "*" in text:
        digits, count = text.split("*")
        return bytes.fromhex(digits) * int(count)
    if ":" in text:
        first, step, count = map(int, text.split(":"))
        return struct.pack(f"<{count}I", *range(first, first + step * count, step)) if step else struct.pack("<I", first) * count
    return bytes.fromhex(text)


def bytes_of(text):
    return b"".join(map(piece, text.split("+")))


def batch(nulls, *buffers):
    """A record batch of one column: its tree, and its body as text."""
    places, text, end = [], [], 0
    for buffer in buffers:
        length = len(bytes_of(buffer))
        places.append({"offset": end, "length": length})
        if buffer != "-":
            text.append(buffer)
        if -length % 8:
            text.append("00" * (-length % 8))
        end += length + -length % 8
    tree = {"length": SLOTS, "nodes": [{"length": SLOTS, "null_count": nulls}], "buffers": places}
    return {"version": "V5", "header_type": "RecordBatch", "header": tree, "bodyLength": end}, "+".join(text)


def dictionary(id, made):
    tree, text = made
    header = {"id": id, "data": tree["header"], "isDelta": False}
    return {**tree, "header_type": "DictionaryBatch", "header": header}, text


SOME, BITS, TIMES = SLOTS // 8, f"{VALIDITY}*{SLOTS // 56}", SLOTS // 7
MADE = {f"large_{name}": batch(SOME, BITS, f"{seven}*{TIMES}") for name, seven in SEVEN.items()}
MADE["large_Bool"] = batch(SOME, BITS, f"E5A3187EC0FF01*{SLOTS // 56}")
MADE["large_Utf8"] = batch(SOME, BITS, f"0:2:{SLOTS + 1}", f"6162C3A92000C3BC7A5A00002241*{TIMES}")
MADE["large_Utf8_empty"] = batch(0, "-", f"0:0:{SLOTS + 1}", "-")
for name, index in [("Int8", "0001027F037D7E"), ("UInt16", "FF000000FE0001000200FF00FD00"),
                    ("UInt64", "FF00000000000000" + "0000000000000000" * 5 + "FE00000000000000")]:
    MADE[f"large_of_{name}"] = batch(SOME, BITS, f"{index}*{TIMES}")
# A dictionary of as many values, the numbers of two bytes in hex, and each of its indices once.
MADE["large_dictionary"] = dictionary(3, batch(SOME, BITS, f"0:1:{SLOTS + 1}", f"4142434445464748494A*{SLOTS // 10}"))
MADE["large_of_Int32"] = batch(0, "-", f"0:1:{SLOTS}")

CASES = [f"schema_{name} large_{name}" for name in [*SEVEN, "Bool", "Utf8"]] + ["schema_Utf8 large_Utf8_empty"]
CASES += [f"schema_of_{name} dictionary_of_{name} large_of_{name}" for name in ("Int8", "UInt16", "UInt64")]
CASES += ["schema_of_Int32 large_dictionary large_of_Int32"]


def messages():
    """Each message: its name, its header, and its body as text."""
    for name, (tree, text) in MADE.items():
        yield name, layout.written("Message", tree, "spread"), text or "-"
