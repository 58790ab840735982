#!/usr/bin/env python3
"""The answers of crates/column_cases to its rows of columns, by a second reader.

    python3 scripts/column_answers.py < crates/column_cases/stdin

The rows stand between the notes `# columns` and `# CSV`, and so do their answers in crates/column_cases/stdout.

A row has a type, a number of slots, validity bits, a buffer, the texts that go with it, and the slots that are kept:
from one up to, not with, another. A further word 3 says that every third of those is gathered, from the first on. Each
slot's value is worked out here from Arrow's columnar format alone, with Python's own numbers and texts, and each buffer
is written anew: of a dictionary the indices are cut as they lie, and else it is made of those values. It shares nothing with
the program.

A row `Built Int64 65 3` has a column that is built of 65 values of a rule, every third of them null, and none where the
last word is 0. Under a null of fixed width such a column has zeros.

A row `Slots 5 20 Int8 9 ..` has a column of 40 slots of the column that comes after it: for each of 20 turns one of all
its slots and one of those that are kept, the next turn's five further on, and from the front again after the last. Under
a null of fixed width it has zeros, and where the column has a dictionary it is one of texts.

A row `Coded ..` has the column of texts that comes after the word: as indices over its own texts, and then those texts.
"""

import sys

WIDTHS = {"Int8": 1, "Int16": 2, "Int32": 4, "Int64": 8, "UInt8": 1, "UInt16": 2, "UInt32": 4, "UInt64": 8,
          "Decimal128": 16}
BAD = "F8 BadBatch"


class Bad(Exception):
    """The buffers are no column."""


def buffer(word):
    """`-` none, `.` of no byte, `0aff*3` bytes three times, `+5*3` the numbers 0, 5 and 10 in four bytes each, of which a
    number of more than 32 bits has its lowest."""
    if word == "-":
        return None
    spelled, _, count = word.partition("*")
    count = int(count or 1)
    if spelled.startswith("+"):
        return b"".join((int(spelled) * i % 2**32).to_bytes(4, "little") for i in range(count))
    return bytes.fromhex(spelled.replace(".", "")) * count


def bits(data, count):
    """So many bits, the lowest of each byte first."""
    if 8 * len(data) < count:
        raise Bad
    return [data[i // 8] >> i % 8 & 1 == 1 for i in range(count)]


def numbers(data, count, width, signed):
    if len(data) < width * count:
        raise Bad
    return [int.from_bytes(data[width * i:width * i + width], "little", signed=signed) for i in range(count)]


def texts(valid, offsets, data, count):
    """The texts that offsets cut. No slots may lack offsets; a null's bytes need be no text."""
    if count == 0 and not offsets:
        return []
    ends = numbers(offsets, count + 1, 4, True)
    if ends[0] < 0 or any(a > b for a, b in zip(ends, ends[1:])) or ends[-1] > len(data):
        raise Bad
    try:
        return [data[a:b].decode() if ok else None for a, b, ok in zip(ends, ends[1:], valid)]
    except UnicodeDecodeError:
        raise Bad from None


def valid_slots(word, count):
    data = buffer(word)
    return [True] * count if data is None else bits(data, count)


def dictionary(word):
    values = []
    for part in word.split(";"):
        times, _, words = part.rpartition("#")
        count, validity, offsets, data = words.split(":")
        count = int(count)
        values += texts(valid_slots(validity, count), buffer(offsets), buffer(data), count) * int(times or 1)
    return values


def slots_of(kind, count, validity, values, behind):
    """The values of all slots: None for a null."""
    valid = valid_slots(validity, count)
    if kind == "Utf8":
        return texts(valid, buffer(values), buffer(behind), count)
    if kind == "Bool":
        cells = bits(buffer(values), count)
    else:
        cells = numbers(buffer(values), count, WIDTHS[kind], not kind.startswith("U"))
    if behind != "-":
        led_to = dictionary(behind)
        if any(ok and not 0 <= index < len(led_to) for ok, index in zip(valid, cells)):
            raise Bad
        return [led_to[index] if ok else None for ok, index in zip(valid, cells)]
    return [cell if ok else None for ok, cell in zip(valid, cells)]


def packed(flags):
    return bytes(sum(1 << j for j, flag in enumerate(flags[i:i + 8]) if flag) for i in range(0, len(flags), 8))


def written(kind, values, places, slots):
    """The buffers of the slots at places: of a dictionary the indices. Under a null of fixed width stays what stood there."""
    bitmap = packed([slot is not None for slot in slots]) if None in slots else b""
    if kind == "Utf8":
        cells = [(slot or "").encode() for slot in slots]
        ends = [0]
        for cell in cells:
            ends.append(ends[-1] + len(cell))
        return [bitmap, b"".join(end.to_bytes(4, "little") for end in ends), b"".join(cells)]
    data = buffer(values)
    if kind == "Bool":
        return [bitmap, packed([data[place // 8] >> place % 8 & 1 == 1 for place in places])]
    width = WIDTHS[kind]
    return [bitmap, b"".join(data[width * place:width * (place + 1)] for place in places)]


def summed(total, data):
    for byte in data:
        total = (31 * total + byte) % 2**32
    return total


def sum_of(slots):
    total = 0
    for slot in slots:
        if slot is None:
            total = summed(total, b"\0")
        elif isinstance(slot, bool):
            total = summed(total, bytes([1 + slot]))
        elif isinstance(slot, int):
            total = summed(total, slot.to_bytes(16, "little", signed=True))
        else:
            total = summed(total, slot.encode() + b"\xff")
    return total


def shown(slot):
    if slot is None:
        return "null"
    if isinstance(slot, bool):
        return "true" if slot else "false"
    return str(slot) if isinstance(slot, int) else f"'{slot}'"


def wrapped(number, bits):
    """The number that the lowest bits of another are, in two's complement."""
    return (number + 2**(bits - 1)) % 2**bits - 2**(bits - 1)


RULES = {
    "Int64": lambda place: wrapped(-7046029254386353131 * place, 64),
    "Decimal128": lambda place: wrapped(-129000000000000000000000000000000000007 * place, 128),
    "Bool": lambda place: place % 3 == 0,
    "Utf8": lambda place: ["a", "", "é€", "xyz"][place % 4],
}


def anew(kind, slots):
    """The buffers of slots, with zeros under the nulls."""
    if kind == "Utf8":
        return written(kind, "-", range(len(slots)), slots)
    bitmap = packed([slot is not None for slot in slots]) if None in slots else b""
    if kind == "Bool":
        return [bitmap, packed([slot or False for slot in slots])]
    signed = not kind.startswith("U")
    return [bitmap, b"".join((slot or 0).to_bytes(WIDTHS[kind], "little", signed=signed) for slot in slots)]


def built(kind, count, nulls):
    """The slots of a column that is built, and its buffers."""
    slots = [None if nulls and place % nulls == nulls - 1 else RULES[kind](place) for place in range(count)]
    return slots, anew(kind, slots)


def picked(step, turns, kind, count, validity, values, behind, first, to):
    """The slots of all turns, and their buffers."""
    whole = slots_of(kind, int(count), validity, values, behind)
    kept = whole[int(first):int(to)]
    slots = [part[step * turn % len(part)] for turn in range(turns) for part in (whole, kept)]
    return slots, anew(kind if behind == "-" or kind == "Utf8" else "Utf8", slots)


def column_of(line):
    """The slots and the buffers of a line's column."""
    if line.startswith("Built "):
        _, kind, count, nulls = line.split()
        return built(kind, int(count), int(nulls))
    if line.startswith("Slots "):
        _, step, turns, *words = line.split()
        return picked(int(step), int(turns), *words)
    kind, count, validity, values, behind, first, to, *step = line.split()
    places = range(int(first), int(to), int(step[0]) if step else 1)
    all_slots = slots_of(kind, int(count), validity, values, behind)
    slots = [all_slots[place] for place in places]
    return slots, written(kind, values, places, slots)


def coded(slots):
    """The same slots as indices of four bytes over their own texts, each once and by first appearance; and those texts."""
    firsts = {text: place for place, text in enumerate(dict.fromkeys(slot for slot in slots if slot is not None))}
    indices = told(slots, anew("Int32", [None if slot is None else firsts[slot] for slot in slots]))
    texts = list(firsts)
    return "\n".join([indices, told(texts, anew("Utf8", texts))])


def answer(line):
    try:
        if line.startswith("Coded "):
            return coded(column_of(line.removeprefix("Coded "))[0])
        return told(*column_of(line))
    except Bad:
        return BAD


def told(slots, buffers):
    said = "".join(" " + shown(slot) for slot in slots) if len(slots) <= 20 else f" sum {sum_of(slots)}"
    parts = [f"{len(slots)} slots, {slots.count(None)} null:{said}"]
    for data in buffers:
        parts.append(f"{len(data)}: " + (data.hex() if len(data) <= 64 else f"sum {summed(0, data)}"))
    return " | ".join(parts)


def rows_of_columns(lines):
    """The lines between the two notes."""
    rows = [line.rstrip("\n") for line in lines]
    return rows[rows.index("# columns") + 1:rows.index("# CSV")]


for row in rows_of_columns(sys.stdin):
    print(answer(row))
