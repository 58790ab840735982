"""Arrow's types as words, for `public_tables.py`: their tables, how values are read from texts and laid out in buffers, and how
the program prints what it takes. A type whose `word` is absent is not printed here yet."""

from __future__ import annotations

import datetime
import itertools
import json
import re
import struct
from collections.abc import Callable
from dataclasses import dataclass
from decimal import Decimal

import trees

EPOCH = datetime.datetime(1970, 1, 1)
UNITS = {"s": ("Second", 0), "ms": ("Millisecond", 3), "us": ("Microsecond", 6), "ns": ("Nanosecond", 9)}  # and their digits
ESCAPES = {"\\": "\\\\", "\t": "\\t", "\n": "\\n", "\r": "\\r"}


@dataclass(frozen=True)
class Type:
    table: tuple[str, dict]  # Arrow's, as vectors/arrow/trees.py has them
    read: Callable[[str], object]  # a value of a text
    buffers: Callable[[list], list[bytes]]  # after the validity; a null is None
    word: str | None = None  # as `describe` prints it
    shown: Callable[[object], str] = str  # as `query` prints a value
    index: tuple[str, dict] | None = None  # of a dictionary
    children: tuple[tuple[str, Type, bool], ...] = ()  # their names, their types, and whether they are nullable
    below: Callable[[list], list[list]] = lambda values: []  # the values of each child


def packed(form: str) -> Callable[[list], list[bytes]]:
    """Numbers of this form one after another; a null is 0."""
    return lambda values: [struct.pack(f"<{len(values)}{form}", *(value or 0 for value in values))]


def integer(bits: int, signed: bool) -> Type:
    form = {8: "b", 16: "h", 32: "i", 64: "q"}[bits]
    return Type(trees.integer(bits, signed), int, packed(form if signed else form.upper()), f"{'' if signed else 'u'}int{bits}")


def strings(table: str, offset: str, word: str | None = None) -> Type:
    """Texts or bytes: offsets of this form, and the bytes."""
    def buffers(values: list) -> list[bytes]:
        parts = [value or b"" for value in values]
        ends = [*itertools.accumulate(map(len, parts), initial=0)]
        return [struct.pack(f"<{len(ends)}{offset}", *ends), b"".join(parts)]

    return Type((table, {}), text, buffers, word, quoted)


def text(said: str) -> bytes:
    """A text's bytes; `\\n` is a line's end."""
    return said.replace("\\n", "\n").encode()


def quoted(value: bytes) -> str:
    said = value.decode().replace("'", "''")
    return f"'{''.join(ESCAPES.get(letter, letter) for letter in said)}'"


def timestamp(unit: str, zone: str | None = None) -> Type:
    """Its values are numbers of the unit."""
    table, digits = UNITS[unit]

    def read(said: str) -> int:
        whole, _, fraction = said.partition(".")
        assert len(fraction) <= digits, said
        seconds = (datetime.datetime.fromisoformat(whole) - EPOCH) // datetime.timedelta(seconds=1)
        return seconds * 10**digits + int(fraction.ljust(digits, "0") or "0")

    def shown(value: int) -> str:
        seconds, fraction = divmod(value, 10**digits)
        said = (EPOCH + datetime.timedelta(seconds=seconds)).isoformat(" ")
        return f"TIMESTAMP '{said}{f'.{fraction:0{digits}}' if digits else ''}{'Z' if zone else ''}'"

    word = f"timestamp{'tz' if zone else ''}{'' if unit == 'us' else '_' + unit}"
    return Type(trees.timestamp(table, zone), read, packed("q"), word, shown)


def day(said: str) -> int:
    return (datetime.date.fromisoformat(said) - EPOCH.date()).days


def shown_day(value: int) -> str:
    return f"DATE '{EPOCH.date() + datetime.timedelta(value)}'"


def decimal128(precision: str, scale: str) -> Type:
    """Its values are numbers without their point."""
    def read(said: str) -> int:
        return int(Decimal(said).scaleb(int(scale)))

    def shown(value: int) -> str:
        return f"{Decimal(value).scaleb(-int(scale)):f}"

    def buffers(values: list) -> list[bytes]:
        return [b"".join((value or 0).to_bytes(16, "little", signed=True) for value in values)]

    table = ("Decimal", {"precision": int(precision), "scale": int(scale), "bitWidth": 128})
    return Type(table, read, buffers, f"decimal_{precision}_{scale}", shown)


def dictionary(index: str) -> Type:
    """Of texts, in the order in which they come first."""
    indices = type_of(index)

    def buffers(values: list) -> list[bytes]:
        texts = distinct(values)
        return indices.buffers([None if value is None else texts.index(value) for value in values])

    return Type(trees.UTF8, text, buffers, "utf8", quoted, indices.table)


def distinct(values: list) -> list:
    return list(dict.fromkeys(value for value in values if value is not None))


# ---- nested


def inner(of: Type, value: object) -> object:
    """A value inside of JSON, as its type has it."""
    return value if value is None or of.children else of.read(str(value))


def offsets(values: list) -> list[bytes]:
    return [trees.offsets(*itertools.accumulate((len(value or ()) for value in values), initial=0))]


def listed(item: str) -> Type:
    of = type_of(item)

    def below(values: list) -> list[list]:
        return [[inner(of, one) for value in values for one in value or ()]]

    return Type(("List", {}), json.loads, offsets, children=(("item", of, True),), below=below)


def structured(*fields: str) -> Type:
    named = [(name, type_of(said)) for name, _, said in (field.partition(": ") for field in fields)]

    def below(values: list) -> list[list]:
        return [[inner(of, value and value[name]) for value in values] for name, of in named]

    children = tuple((name, of, name != "key") for name, of in named)
    return Type(("Struct_", {}), json.loads, lambda values: [], children=children, below=below)


def mapped(key: str, value: str) -> Type:
    def below(values: list) -> list[list]:
        return [[{"key": name, "value": one} for value in values for name, one in (value or {}).items()]]

    entries = structured(f"key: {key}", f"value: {value}")
    return Type(("Map", {}), json.loads, offsets, children=(("entries", entries, False),), below=below)


# ---- by their words


PLAIN = {
    **{of.word: of for of in (integer(bits, signed) for bits in (8, 16, 32, 64) for signed in (True, False))},
    "float32": Type(("FloatingPoint", {"precision": 1}), float, packed("f")),
    "float64": Type(("FloatingPoint", {"precision": 2}), float, packed("d")),
    "bool": Type(trees.BOOL, lambda said: said.lower() == "true", lambda values: [trees.bits([*map(bool, values)])], "bool",
                 lambda value: str(value).upper()),
    "utf8": strings("Utf8", "i", "utf8"), "large_utf8": strings("LargeUtf8", "q", "utf8"),
    "binary": strings("Binary", "i"), "large_binary": strings("LargeBinary", "q"),
    "date32": Type(trees.DATE, day, packed("i"), "date", shown_day),
}
OF_PARTS = {"timestamp": timestamp, "decimal128": decimal128, "dictionary": dictionary, "list": listed, "struct": structured,
            "map": mapped}


def parts(said: str) -> list[str]:
    """What stands between the commas that no bracket holds."""
    found, depth = [""], 0
    for letter in said:
        depth += (letter in "<[(") - (letter in ">])")
        if letter == "," and depth == 0:
            found.append("")
        else:
            found[-1] += letter
    return [part.strip() for part in found]


def type_of(said: str) -> Type:
    """The type of words such as `int64`, `timestamp[us, UTC]` or `list<struct<a: utf8>>`."""
    if said in PLAIN:
        return PLAIN[said]
    head, inside = re.fullmatch(r"(\w+)[<\[(](.*)[>\])]", said).groups()
    return OF_PARTS[head](*parts(inside))


# ---- laid out


def field(name: str, of: Type, nullable: bool, number: int = 0) -> dict:
    """The Field of a column, whose dictionary has this number."""
    more = {"dictionary": trees.encoding(number, of.index)} if of.index else {}
    if of.children:
        more["children"] = [field(*child) for child in of.children]
    return trees.field(name, of.table, nullable, **more)


def encoded(of: Type, values: list) -> tuple[list[tuple[int, int]], list[bytes]]:
    """The node and the buffers of a column, then those of its children."""
    nodes, buffers = [(len(values), values.count(None))], [trees.validity(values), *of.buffers(values)]
    for (_, child, _), held in zip(of.children, of.below(values)):
        more_nodes, more_buffers = encoded(child, held)
        nodes, buffers = nodes + more_nodes, buffers + more_buffers
    return nodes, buffers


def batch(length: int, columns: list[tuple[Type, list]]) -> tuple[dict, bytes]:
    """A record batch, whose buffers begin at multiples of 8."""
    nodes, places, body = [], [], b""
    for of, values in columns:
        more, buffers = encoded(of, values)
        nodes += more
        for part in buffers:
            places.append((len(body), len(part)))
            body += part + bytes(-len(part) % 8)
    return trees.placed(length, nodes, places, body)
