"""The rows of bits of the program format_cases: lists at every bit offset of a byte. The answers are those of a plain loop
over the bytes, one bit at a time."""

LENGTHS = (0, 1, 63, 64, 65, 130)  # below, at and above whole words

# Two runs of 18 bytes with no pattern that repeats; the last byte is all ones.
BYTES = bytes.fromhex("35c80f927be144ad5e03f7681db28926daff")
OTHERS = bytes.fromhex("a3517c0ed936f48b22c51fe8974a60bd73ff")

# Ten slots with nulls at 2 and 9, and a word between bits that are none of it.
VALIDITY = bytes([0xfb, 0xfd, *[0] * 16])
WORD = bytes([0x80, 0, 0, 0, 0, 0, 0, 0x01, 0xff, *[0] * 9])

OPERATIONS = {
    "and": lambda left, right: left and right,
    "or": lambda left, right: left or right,
    "and_not": lambda left, right: left and not right,
}


def plain(data, first, length):
    """Bits from a place on, the lowest of each byte first."""
    return [data[place // 8] // 2 ** (place % 8) % 2 == 1 for place in range(first, first + length)]


def told(bits):
    """Each bit, and how many are 1."""
    return f"{''.join('01'[bit] for bit in bits)}, {sum(bits)}"


def by_hand():
    sliced = told([True] * 2 + [False] + [True] * 6 + [False])
    assert sliced == "1101111110, 8"
    yield f"bits.run {VALIDITY.hex()} 0 10", sliced
    yield f"bits.short_word {VALIDITY.hex()} 0 10 0 10", str(0x1fb)
    yield f"bits.slice {VALIDITY.hex()} 0 10 2 10", "01111110, 6"
    yield f"bits.short_word {VALIDITY.hex()} 2 8 0 8", str(0x7e)
    yield f"bits.word {WORD.hex()} 7 65 0", ", ".join([str(0xfe02_0000_0000_0001)] * 2)
    yield f"bits.word {WORD.hex()} 7 65 1", ", ".join([str(0xff01_0000_0000_0000)] * 2)
    yield f"bits.short_word {WORD.hex()} 7 65 49 16", str(0xff01)


def rows():
    yield from by_hand()
    for first in range(8):
        for length in LENGTHS:
            yield f"bits.run {BYTES.hex()} {first} {length}", told(plain(BYTES, first, length))
    for first in range(8):
        for second in range(8):
            for name, operation in OPERATIONS.items():
                for length in LENGTHS:
                    pairs = zip(plain(BYTES, first, length), plain(OTHERS, second, length))
                    made = told([operation(*pair) for pair in pairs])
                    yield f"bits.{name} {BYTES.hex()}{OTHERS.hex()} {first} {second} {length}", made
