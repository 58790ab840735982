"""A second writer of FlatBuffers, in two layouts that flatc never picks. It knows the slots of Arrow's
tables by itself: nothing here is read from the .fbs files.

packed   nothing is aligned; strings have no zero behind them; tables that lead nowhere and say the same
         are written once; equal vtables are shared and lie behind all tables; zero entries at a vtable's
         end are cut off; the size of the table, which nobody has to read, is FF FF
spread   everything is aligned to 8; vtables lie before the root and are shared; each is longer by three
         slots, as a newer writer's would be; fields lie in falling slot order; EE bytes lie between
         the parts
"""
import struct

SCALARS = {"u8": "<B", "i8": "<b", "i16": "<h", "i32": "<i", "i64": "<q"}
STRUCTS = {"FieldNode": ("length", "null_count"), "Buffer": ("offset", "length")}
TYPES = [
    "NONE", "Null", "Int", "FloatingPoint", "Binary", "Utf8", "Bool", "Decimal", "Date", "Time",
    "Timestamp", "Interval", "List", "Struct_", "Union", "FixedSizeBinary", "FixedSizeList", "Map",
    "Duration", "LargeBinary", "LargeUtf8",
]
HEADERS = ["NONE", "Schema", "DictionaryBatch", "RecordBatch", "Tensor"]
WORDS = {
    "V1": 0, "V4": 3, "V5": 4, "Little": 0, "Big": 1, "DAY": 0,
    "SECOND": 0, "MILLISECOND": 1, "MICROSECOND": 2, "NANOSECOND": 3, "LZ4_FRAME": 0, "ZSTD": 1,
    "UNUSED": 0, "DICTIONARY_REPLACEMENT": 1, "COMPRESSED_BODY": 2,
}
# The slots in order: each a name and a scalar's width, a string, a table, a vector, or a union's words.
TABLES = {
    "Message": [("version", "i16"), ("header", HEADERS), ("bodyLength", "i64"), ("custom_metadata", ["KeyValue"])],
    "Schema": [("endianness", "i16"), ("fields", ["Field"]), ("custom_metadata", ["KeyValue"]), ("features", ["i64"])],
    "Field": [
        ("name", "string"), ("nullable", "u8"), ("type", TYPES), ("dictionary", "DictionaryEncoding"),
        ("children", ["Field"]), ("custom_metadata", ["KeyValue"]),
    ],
    "KeyValue": [("key", "string"), ("value", "string")],
    "Int": [("bitWidth", "i32"), ("is_signed", "u8")],
    "FloatingPoint": [("precision", "i16")],
    "Decimal": [("precision", "i32"), ("scale", "i32"), ("bitWidth", "i32")],
    "Date": [("unit", "i16")],
    "Time": [("unit", "i16"), ("bitWidth", "i32")],
    "Timestamp": [("unit", "i16"), ("timezone", "string")],
    "Duration": [("unit", "i16")],
    "DictionaryEncoding": [("id", "i64"), ("indexType", "Int"), ("isOrdered", "u8"), ("dictionaryKind", "i16")],
    "RecordBatch": [
        ("length", "i64"), ("nodes", ["FieldNode"]), ("buffers", ["Buffer"]), ("compression", "BodyCompression"),
        ("variadicBufferCounts", ["i64"]),
    ],
    "BodyCompression": [("codec", "i8"), ("method", "i8")],
    "DictionaryBatch": [("id", "i64"), ("data", "RecordBatch"), ("isDelta", "u8")],
}


class Part:
    """Bytes with holes: each hole is a place and the part that it leads to. A table has a vtable too."""

    def __init__(self, data, holes=(), vtable=None):
        self.data, self.holes, self.vtable = bytearray(data), list(holes), vtable


def scalar(width, value):
    return struct.pack(SCALARS[width], WORDS.get(value, value) if isinstance(value, str) else int(value))


def text(value, packed):
    data = value.encode("utf-8", "surrogateescape")
    return Part(struct.pack("<I", len(data)) + data + (b"" if packed else b"\0"))


def vector(kind, items, packed, leaves):
    count = struct.pack("<I", len(items))
    if kind in STRUCTS:
        words = [struct.pack("<qq", *(item[name] for name in STRUCTS[kind])) for item in items]
        return Part(count + b"".join(words))
    if kind in SCALARS:
        return Part(count + b"".join(scalar(kind, item) for item in items))
    parts = [table(kind, item, packed, leaves) for item in items]
    return Part(count + bytes(4 * len(parts)), [(4 + 4 * j, part) for j, part in enumerate(parts)])


def slots(of, tree, packed, leaves):
    """For each slot None, a scalar's bytes, or the part that it leads to."""
    found = []
    for name, shape in TABLES.get(of, []):
        value = tree.get(name)
        if isinstance(shape, list) and len(shape) > 1:
            word = tree.get(name + "_type")
            number = shape.index(word) if isinstance(word, str) else word
            found.append(None if number is None else struct.pack("<B", number))
            kind = word if isinstance(word, str) else "NONE"
            found.append(None if value is None else table(kind, value, packed, leaves))
        elif value is None:
            found.append(None)
        elif isinstance(shape, list):
            found.append(vector(shape[0], value, packed, leaves))
        elif shape == "string":
            found.append(text(value, packed))
        elif shape in SCALARS:
            found.append(scalar(shape, value))
        else:
            found.append(table(shape, value, packed, leaves))
    return found


def table(kind, tree, packed, leaves):
    data, holes, places = bytearray(4), [], {}
    found = slots(kind, tree, packed, leaves)
    for slot in range(len(found)) if packed else reversed(range(len(found))):
        value = found[slot]
        if value is None:
            continue
        if not packed:
            size = 4 if isinstance(value, Part) else len(value)
            data += bytes(-len(data) % size)
        places[slot] = len(data)
        if isinstance(value, Part):
            holes.append((len(data), value))
        data += bytes(4) if isinstance(value, Part) else value
    count = max(places, default=-1) + 1 if packed else len(found) + 3
    entries = [places.get(slot, 0) for slot in range(count)]
    size = 0xFFFF if packed else len(data)
    part = Part(data, holes, struct.pack(f"<{2 + count}H", 4 + 2 * count, size, *entries))
    if packed and not holes:
        return leaves.setdefault((bytes(part.data), part.vtable), part)
    return part


def in_order(root, leaves, packed):
    """The parts, each behind all that lead to it: depth first and the last child first, or level by level."""
    last = list(leaves.values())
    order, waiting = [], [root]
    while waiting:
        part = waiting.pop() if packed else waiting.pop(0)
        if not any(part is leaf for leaf in last):
            order.append(part)
        waiting += [child for _, child in part.holes]
    return order + last


def written(kind, tree, layout):
    packed, leaves = layout == "packed", {}
    root = table(kind, tree, packed, leaves)
    parts = in_order(root, leaves, packed)
    vtables = list(dict.fromkeys(part.vtable for part in parts if part.vtable))
    places, out = {}, bytearray(4 if packed else 8)

    def put(key, data):
        if not packed:
            out.extend(b"\xee" * 8 + b"\xee" * (-len(out) % 8))
            # A vector's elements of eight bytes stand on a multiple of 8: its count before it does not.
            if not isinstance(key, bytes) and key.vtable is None:
                out.extend(b"\xee" * 4)
        places[key if isinstance(key, bytes) else id(key)] = len(out)
        out.extend(data)

    for group in ([parts, vtables] if packed else [vtables, parts]):
        for key in group:
            put(key, key if isinstance(key, bytes) else key.data)
    struct.pack_into("<I", out, 0, places[id(root)])
    for part in parts:
        place = places[id(part)]
        if part.vtable:
            struct.pack_into("<i", out, place, place - places[part.vtable])
        for hole, child in part.holes:
            struct.pack_into("<I", out, place + hole, places[id(child)] - place - hole)
    return bytes(out)
