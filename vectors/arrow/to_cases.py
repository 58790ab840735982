#!/usr/bin/env python3
"""Writes the rows of messages in stdin and stdout of crates/column_cases, which come before those of columns: every message and
every case of index.txt and of lies.py, whose answers are by hand; what our writer makes, laid out by written.py; messages with
bytes changed or cut, and large ones, whose answers are those of reader.py."""
import copy
import json
import pathlib
import sys

sys.dont_write_bytecode = True
import large
import lies
import written
from reader import Fault, Reader, Table

HERE = pathlib.Path(__file__).parent
CRATE = HERE.parent.parent / "crates/column_cases"
# The note, in stdin as in stdout, before the rows that are not of messages.
OTHERS = "# columns\n"
FAULTS = {"F6": "F6 BadFlatbuffer", "F7": "F7 UnsupportedArrow", "F8": "F8 BadBatch", "F12": "F12 LimitReached"}
# The messages that are changed byte by byte and cut at each length, behind others.
HOSTILE = "hostile_schema hostile_dictionary"
SWEPT = [
    ("header", "own_schema"), ("header", "own_schema own_batch"), ("header", "schema_Decimal128_full"), ("header", "hostile_schema"),
    ("header", "hostile_schema hostile_dictionary"), ("body", "hostile_schema hostile_dictionary"),
    ("header", f"{HOSTILE} hostile_batch"), ("body", f"{HOSTILE} hostile_batch"),
]
MESSAGES, INPUT, OUTPUT = {}, [], []


# Answers as the program tells them: values with a comma between, and a semicolon behind each row or field.


def escaped(text):
    return "".join(chr(b) if 32 <= b < 127 and b not in b'"\\' else f"\\x{b:02x}" for b in text.encode())


def value(found):
    return f'"{escaped(found)}"' if isinstance(found, str) else json.dumps(found)


def told(answer):
    word, _, rest = answer.partition(" ")
    if word in FAULTS:
        return FAULTS[word]
    if word == "dictionary":
        return word
    rows = json.loads(rest)
    if word == "schema":
        return "schema " + "".join(f"{escaped(name)} {of}{' or null' * nullable};" for name, of, nullable in rows)
    return f"{word} " + "".join(",".join(map(value, row)) + ";" for row in rows)


def add(line, *answers):
    INPUT.append(line)
    OUTPUT.extend(answers)


def message(name, header, body, text=None):
    """Bytes under a name. `text` is the body as pieces, where it is long."""
    MESSAGES[name] = header, body
    add(f"message {name} {header.hex().upper() or '-'} {text or body.hex().upper() or '-'}")


# What reader.py says.


def answer(reader, header, body):
    try:
        return copy.deepcopy(reader).message(header, body)
    except Fault as fault:
        return str(fault)


def reader_behind(names):
    reader = Reader()
    for name in names:
        try:
            reader.message(*MESSAGES[name])
        except Fault:
            pass
    return reader


def changed(data, place, new):
    return data[:place] + new + data[place + len(new) :]


# Cases whose answers are by hand.


def cases():
    lines = [line.split("\t") for line in (HERE / "index.txt").read_text().splitlines()]
    for name in dict.fromkeys(name for found, _, before, _ in lines for name in [*before.split(), found]):
        body = HERE / f"{name}.body"
        message(name, (HERE / f"{name}.header").read_bytes(), body.read_bytes() if body.exists() else b"")
    for name, found, before, _ in lines:
        names = f"{before} {name}".strip()
        if found.startswith("total "):
            rest = told(found.replace("total", "rows", 1)).removeprefix("rows ")
            add(f"total {names}", f"{name}, all rows: {rest}")
        else:
            add(f"case {names}", f"{name}: {told(found)}")
        if found.startswith(("schema", "rows")):
            add(f"again {names}", f"{name}, written again: {told(found)}")


def own_lies():
    for name, parts in lies.MESSAGES.items():
        message(name, *parts)
    for name, before, changes, found in lies.CASES:
        header, body = lies.MESSAGES[name]
        for place, byte in changes.items():
            header = changed(header, place, bytes([byte]))
        assert answer(reader_behind(before.split()), header, body) == found, (name, before, changes)
        names = f"{before} {name}".strip()
        if len(changes) == 1:
            (place, byte), = changes.items()
            add(f"set header {place} {byte:02X} {names}", f"{name}, header {place} {byte:02X}: {told(found)}")
        elif changes:
            other = "_".join([name, *(f"{place}_{byte:02X}" for place, byte in changes.items())])
            message(other, header, body)
            add(f"case {before} {other}", f"{other}: {told(found)}")
        else:
            add(f"case {names}", f"{name}: {told(found)}")


# Messages that are changed byte by byte: the answers are those of reader.py.


def parts(part, names):
    """The reader behind all but the last name, its bytes of the part, and what answers to other ones."""
    *before, name = names.split()
    header, body = MESSAGES[name]
    reader = reader_behind(before)
    if part == "header":
        return name, header, lambda data: told(answer(reader, data, body))
    return name, body, lambda data: told(answer(reader, header, data))


def runs(found):
    """The first of each run of answers that are the same, and the answer."""
    return "".join(f" {at} {one}" for at, one in enumerate(found) if at == 0 or found[at - 1] != one)


def sweep(part, names):
    name, data, said = parts(part, names)
    add(f"sweep {part} {names}")
    for place in range(len(data)):
        OUTPUT.append(f"{name}, {part} {place}:" + runs([said(changed(data, place, bytes([byte]))) for byte in range(256)]))


def cut(part, names):
    name, data, said = parts(part, names)
    add(f"cut {part} {names}", f"{name}, {part} cut:" + runs([said(data[:length]) for length in range(len(data) + 1)]))


def numbers(part, names, place, size, room):
    """A number set to 0, 1, -1, the room, one past it, and the greatest ones."""
    name, data, said = parts(part, names)
    top = 2 ** (8 * size)
    for number in dict.fromkeys([0, 1, top - 1, room, room + 1, top // 2 - 1, top // 2]):
        new = (number % top).to_bytes(size, "little")
        add(f"set {part} {place} {new.hex().upper()} {names}",
            f"{name}, {part} {place} {new.hex().upper()}: {said(changed(data, place, new))}")


def hostile_numbers():
    """Every offset, vtable entry, count and length of a batch."""
    names = f"{HOSTILE} hostile_batch"
    header, body = MESSAGES["hostile_batch"]

    def of_table(table, slots):
        vtable = table.place - table.number(table.place, 4, True)
        numbers("header", names, table.place, 4, table.place)  # how far back the vtable begins
        numbers("header", names, vtable, 2, len(header) - vtable)  # its size
        for slot in range(slots):
            if vtable + 4 + 2 * slot < vtable + table.number(vtable, 2):
                numbers("header", names, vtable + 4 + 2 * slot, 2, len(header) - table.place)

    def of_vector(table, slot):
        at, start = table.entry(slot), table.follow(slot)
        numbers("header", names, at, 4, len(header) - at)
        numbers("header", names, start, 4, (len(header) - start - 4) // 16)
        return start + 4

    whole = Table(header, int.from_bytes(header[:4], "little"))
    batch = whole.table(2)
    numbers("header", names, 0, 4, len(header))
    of_table(whole, 4)
    numbers("header", names, whole.entry(2), 4, len(header) - whole.entry(2))
    numbers("header", names, whole.entry(3), 8, len(body))  # bodyLength
    of_table(batch, 4)
    numbers("header", names, batch.entry(0), 8, 3)
    nodes, buffers = of_vector(batch, 1), of_vector(batch, 2)
    for column in range(2):
        numbers("header", names, nodes + 16 * column, 8, 3)
        numbers("header", names, nodes + 16 * column + 8, 8, 3)
    for number, (offset, length) in enumerate(batch.structs(2)):
        numbers("header", names, buffers + 16 * number, 8, len(body) - length)
        numbers("header", names, buffers + 16 * number + 8, 8, len(body) - offset)
    (start, _), (_, room) = batch.structs(2)[3:5]
    for number in range(4):
        numbers("body", names, start + 4 * number, 4, room)  # the texts' offsets


# What our own writer makes: headers laid out by written.py, and bodies by hand.


def own_writer():
    for name, (words, buffers, body) in written.DICTIONARIES.items():
        header = written.header(*words)
        id, delta, rows, *_ = words
        MESSAGES[name] = header, bytes.fromhex(body)
        add(f"write {name} {id} {'delta' if delta else 'new'} {rows} {buffers}",
            f"{name}, written: {header.hex().upper()} {bytes.fromhex(body).hex().upper()}")
    for names, found in written.CASES:
        assert answer(reader_behind(names.split()[:-1]), *MESSAGES[names.split()[-1]]) == found, names
        add(f"case {names}", f"{names.split()[-1]}: {told(found)}")
    for names, (words, body) in written.BATCHES.items():
        header = written.batch_header(*words).hex().upper()
        add(f"written {names}", f"{names.split()[-1]}, written: {header} {bytes.fromhex(body).hex().upper()}")


# Large messages: the answers are those of reader.py.


def digest_of(found):
    if isinstance(found, str):
        digest = 7
        for byte in found.encode():
            digest = digest * 31 + byte
        return digest
    return int(found)


def count(column):
    digest = 0
    for found in column:
        if found is not None:
            digest = (digest * 31 + digest_of(found)) % 2**64
    return f"{len(column)} slots, {column.count(None)} null, {digest};"


def large_ones():
    for name, header, text in large.messages():
        message(name, header, large.bytes_of(text), text)
    for names in large.CASES:
        *before, name = names.split()
        rows = json.loads(answer(reader_behind(before), *MESSAGES[name]).removeprefix("rows "))
        counts = "".join(map(count, map(list, zip(*rows))))
        add(f"count {names}", f"{name}: {counts}", f"{name}, written again: {counts}")


def renew(name, lines):
    """Sets the rows of messages of a file. The others stay."""
    _, note, others = (CRATE / name).read_text().partition(OTHERS)
    assert note, f"{name} has no note {OTHERS}"
    (CRATE / name).write_text("\n".join(lines) + "\n" + note + others)


def main():
    add("# messages", "# messages")
    cases()
    own_lies()
    for part, names in SWEPT:
        sweep(part, names)
        cut(part, names)
    hostile_numbers()
    own_writer()
    large_ones()
    renew("stdin", INPUT)
    renew("stdout", OUTPUT)
    print(f"{len(INPUT)} lines of input, {len(OUTPUT)} of output")


main()
