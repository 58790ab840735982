"""Headers that were made by hand or by other writers than flatc, with bytes changed; each answer is by hand too.
`to_cases.py` has reader.py read them once more and compares."""

# Each message: its name, its header, its body.
HEADERS = {
    # One nullable Int64 column `a`, as Arrow's own writers lay it out.
    "own_schema": ("""
        10000000 00000a00 0c000800 0a000400 0a000000 10000000 04000100 08000800 00000400 08000000 04000000 01000000
        10000000 0c001000 04000c00 0d000800 0c000000 0c000000 18000000 01020000 01000000 61000000 08000c00 04000800
        08000000 40000000 01000000 00000000""", ""),
    # The same column, with each vtable behind its table.
    "own_schema_turned": ("""
        04000000 c0ffffff 04000100 04000000 c2ffffff 04000000 01000000 04000000 caffffff 18000000 08000000 01020000
        ceffffff 40000000 01000000 01000000 61000000 0a000c00 04000600 08000800 08000000 04000c00 10000400 0c000d00
        08000800 0c000400 0800""", ""),
    # Two rows of it: 1 and 2.
    "own_batch": ("""
        10000000 0c001400 10001200 04000800 0c000000 1c000000 10000000 00000000 04000300 00000a00 14000800 04001000
        0a000000 10000000 02000000 00000000 1c000000 01000000 02000000 00000000 00000000 00000000 00000000 02000000
        00000000 00000000 00000000 00000000 00000000 00000000 10000000 00000000""",
                  "0100000000000000 0200000000000000"),
    # A dictionary of id 5, not a delta: the batch, and a table that leads to it.
    "own_dictionary": ("""
        10000000 0c001400 10001200 04000800 0c000000 1c000000 10000000 00000000 04000200 0a001400 08000400 10000000
        0c000000 1c000000 05000000 00000000 00000000 00000a00 14000800 04001000 0a000000 10000000 02000000 00000000
        1c000000 01000000 02000000 00000000 00000000 00000000 02000000 00000000 00000000 00000000 00000000 00000000
        00000000 00000000 10000000 00000000""", "0100000000000000 0200000000000000"),
}
MESSAGES = {name: tuple(map(bytes.fromhex, parts)) for name, parts in HEADERS.items()}

SCHEMA = 'schema [["a", "Int64", true]]'
BOTH, FIRST, SECOND = "rows [[1], [2]]", "rows [[1]]", "rows [[2]]"

# Each case: its message, those before, the changed bytes of its header, and the answer.
CASES = [
    ("own_schema", "", {}, SCHEMA),
    ("own_schema_turned", "", {}, SCHEMA),
    ("own_schema", "", {24: 3}, "F7"),  # metadata version V4
    ("own_schema", "", {10: 0}, "F7"),  # no version
    ("own_schema", "", {26: 0}, "F7"),  # kind 0
    ("own_schema", "", {26: 3}, "F8"),  # a record batch
    ("own_schema", "", {26: 4}, "F7"),  # an unknown kind
    ("own_schema", "", {12: 0}, "F7"),  # no kind
    ("own_schema", "", {14: 0}, "F6"),  # no header
    ("own_schema", "", {32: 4}, "F7"),  # endianness 4
    ("own_schema", "", {34: 0}, "F6"),  # no fields
    ("own_schema", "", {44: 0}, "F12"),  # no column
    ("own_schema", "", {44: 65}, "F12"),  # 65 columns
    ("own_schema", "", {44: 2}, "F6"),  # a second column outside
    ("own_schema", "", {56: 0}, "F12"),  # no name
    ("own_schema", "", {80: 0}, "F12"),  # an empty name
    ("own_schema", "", {80: 65}, "F6"),  # a name that ends outside
    ("own_schema", "", {84: 0xFF}, "F6"),  # a name that is not UTF-8
    ("own_schema", "", {60: 0}, "F6"),  # no type kind
    ("own_schema", "", {77: 0}, "F7"),  # type kind 0
    ("own_schema", "", {77: 3}, "F7"),  # FloatingPoint
    ("own_schema", "", {77: 7}, "F7"),  # Decimal of precision 64
    ("own_schema", "", {62: 0}, "F6"),  # no type
    ("own_schema", "", {100: 63}, "F7"),  # 63 bits
    ("own_schema", "", {100: 0}, "F7"),  # 0 bits
    ("own_batch", "schema_Int64", {}, BOTH),
    ("own_batch", "schema_Int64", {20: 0xFF}, "F6"),  # the header lies past the end
    ("own_batch", "schema_Int64", {32: 3}, "F7"),  # another version
    ("own_batch", "schema_Int64", {34: 4}, "F7"),  # another kind
    ("own_batch", "schema_Int64", {34: 2}, "F6"),  # a dictionary, whose data is no table
    ("own_batch", "schema_Int64", {24: 0x18}, "F8"),  # bodyLength 24 of 16
    ("own_batch", "schema_Int64", {56: 3}, "F8"),  # the batch's length
    ("own_batch", "schema_Int64", {72: 3}, "F8"),  # the node's length
    ("own_batch", "schema_Int64", {80: 1}, "F8"),  # a null, and no bits
    ("own_batch", "schema_Int64", {92: 1}, "F8"),  # one buffer
    ("own_batch", "schema_Int64", {119: 0x80}, "F8"),  # a negative offset
    ("own_batch", "schema_Int64", {120: 0x18}, "F8"),  # data of 24 bytes in a body of 16
    ("own_batch", "schema_Int64", {120: 8}, "F8"),  # data of 8 bytes for 2 rows
    ("own_batch", "schema_Int64", {38: 12}, "F7"),  # slot 3 of the vtable, which is compression
    ("own_batch", "schema_Int64", {96: 0x11}, "F8"),  # an empty buffer past the body
    ("own_batch", "schema_Int64", {38: 12, 24: 0x18}, "F7"),  # compression, then bodyLength
    ("own_batch", "schema_Int64", {38: 12, 92: 1}, "F7"),  # compression, then the count of buffers
    ("own_batch", "schema_Int64", {92: 1, 20: 0xFF}, "F6"),  # the header's place, then that count
    ("own_batch", "schema_Int64", {104: 16}, BOTH),  # buffers that lie over one another
    ("own_batch", "schema_Int64", {56: 1, 72: 1}, FIRST),  # buffers longer than their rows need
    ("own_batch", "schema_Int64", {56: 1, 72: 1, 112: 8, 120: 8}, SECOND),  # a buffer in the middle of the body
    ("own_batch", "schema_Int64", {24: 0}, BOTH),  # buffers that bodyLength does not hold
    ("own_dictionary", "schema_Int64", {}, "F8"),  # no field has its id
    ("own_dictionary", "schema_Int64", {20: 0xFF}, "F6"),  # the header lies past the end
    ("own_dictionary", "schema_Int64", {41: 0xFF}, "F6"),  # the id lies past the end
    ("own_dictionary", "schema_Int64", {42: 0}, "F6"),  # no data
    ("own_dictionary", "schema_Int64", {45: 0xFF}, "F6"),  # the sign of a delta lies past the end
    ("own_dictionary", "schema_Int64", {84: 0xFF}, "F6"),  # the nodes of the data lie past the end
    ("own_dictionary", "schema_Int64", {70: 12}, "F7"),  # slot 3 of the data's vtable, which is compression
    # Before the schema nothing of a dictionary is read.
    ("own_dictionary", "", {}, "F8"),
    ("own_dictionary", "", {20: 0xFF}, "F8"),
    ("own_dictionary", "", {41: 0xFF}, "F8"),
    ("own_dictionary", "", {42: 0}, "F8"),
    ("own_dictionary", "", {45: 0xFF}, "F8"),
    ("own_dictionary", "", {84: 0xFF}, "F8"),
    ("own_dictionary", "", {70: 12}, "F8"),
]
