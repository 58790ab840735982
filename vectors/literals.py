"""Python values as Rattle writes them, for the scripts that print tables of vectors."""

WIDTH = 76  # of the pieces of one literal


def joined(letters):
    """A literal's letters, over several lines where they are many. No piece begins with a space, which a line that
    goes on would drop."""
    pieces, piece = [], ""
    for letter in letters:
        if (len(piece) > WIDTH or piece.endswith("\\n")) and letter != " ":
            pieces.append(piece)
            piece = ""
        piece += letter
    return '"' + "\\\n".join([*pieces, piece]) + '"'


def in_literal(byte):
    if byte in b'"\\':
        return "\\" + chr(byte)
    return chr(byte) if 32 <= byte < 127 else f"\\x{byte:02x}"


def in_text(letter):
    if letter in '"\\':
        return "\\" + letter
    if letter == "\t":
        return "\\t"
    return letter if " " <= letter <= "~" else f"\\u{{{ord(letter):x}}}"


def literal(data):
    """A byte string."""
    return "b" + joined(map(in_literal, data))


def text(value):
    """A string."""
    return joined(map(in_text, value))


def dots(data):
    """Bytes as a text that a test decodes: a dot for each zero, and two digits for each other byte."""
    return "".join(f"{byte:02x}" if byte else "." for byte in data)


def table(name, remark, of, rows):
    """A static table, with a comment above it."""
    lines = "".join(f"    ({', '.join(row)}),\n" for row in rows)
    return f"// {remark}\npub(crate) static {name}: [({', '.join(of)}); {len(rows)}] = [\n{lines}];\n"


def listed(name, remark, rows):
    """A static string of many lines, however long, whose parts have a tab between. A table of some 500 rows is more
    than the prover takes in one declaration, and a string of 100,000 bytes costs it little."""
    lines = ["\t".join(row) for row in rows]
    assert all(line.count("\t") == lines[0].count("\t") and "\n" not in line for line in lines), name
    rows = "\\n\\\n".join("".join(map(in_text, line)) for line in lines)
    return f"// {remark}\npub(crate) static {name}: &str = \"{rows}\\n\";\n"


def array(name, data):
    """A static of these bytes, 16 on a line."""
    lines = [f"pub(crate) static {name.upper()}: [u8; {len(data)}] = ["]
    for start in range(0, len(data), 16):
        lines.append("    " + " ".join(f"0x{byte:02x}," for byte in data[start : start + 16]))
    return "\n".join(lines + ["];\n"]) if data else lines[0] + "];\n"
