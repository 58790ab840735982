"""Cases whose bytes and answers are worked out by hand from the published rules: each a kind, bytes and an answer."""

F1, F2, F4, F5, F16, F17 = ("F1 BadFrame", "F2 MessageTooLarge", "F4 BadProto", "F5 UnknownCommand", "F16 NotInSubset",
                            "F17 BadTicket")
SQL = "type.googleapis.com/arrow.flight.protocol.sql."
INGEST, TICKET = SQL + "CommandStatementIngest", SQL + "TicketStatementQuery"
FF9 = b"\xff" * 9


def chunk(number, content):
    """A field of bytes whose number is below 16, of fewer than 16,384 bytes."""
    size = len(content)
    return bytes([8 * number + 2, *([size] if size < 128 else [size % 128 + 128, size // 128])]) + content


def packed(url, value):
    """An Any."""
    return chunk(1, url.encode()) + chunk(2, value)


def first(value, url=INGEST, kind=2):
    """The first message of a put: a descriptor of this type round a command of this URL."""
    return chunk(1, b"\x08" + bytes([kind]) + chunk(2, packed(url, value)))


def asked(name, value):
    """What GetFlightInfo and GetSchema are sent: a descriptor round a command."""
    return b"\x08\x02" + chunk(2, packed(SQL + name, value))


def fetch(value, url=TICKET):
    """What begins a fetch: a Ticket round an Any."""
    return chunk(1, packed(url, value))


# ---- the table of faults: text and gRPC number

FAULTS = [("BadFrame", 3), ("MessageTooLarge", 8), ("UnknownMethod", 12), ("BadProto", 3), ("UnknownCommand", 12),
          ("BadFlatbuffer", 3), ("UnsupportedArrow", 12), ("BadBatch", 3), ("TableMissing", 5), ("TableExists", 6),
          ("SchemaMismatch", 3), ("LimitReached", 8), ("BadSql at byte 4294967295", 3), ("UnknownName", 5),
          ("TypeClash", 3), ("NotInSubset", 12), ("BadTicket", 3), ("VersionUnknown", 5), ("VersionExpired", 5),
          ("ResultTooLarge", 8), ("OutOfMemory", 8), ("Transport", 14)]


def faults():
    for place, (name, code) in enumerate(FAULTS):
        text = f"F{place + 1} {name}"
        yield "fault", bytes([place]), f"{text}, {code}"
        yield "status", bytes([place]), (bytes([4, code, 0, len(text)]) + text.encode()).hex()
    yield "status", b"", "04000000"


TEXTS = [("text", b"na\xc3\xafve", "naïve")] + [("text", bad, F4) for bad in (b"\xff", b"\xc3", b"\xc0\x80", b"\xed\xa0\x80")]

# ---- fields

BOTH_WAYS = [
    (b"\x08\x00", "1 varint 0, end"),
    (b"\x08\x01", "1 varint 1, end"),
    (b"\x08\x96\x01", "1 varint 150, end"),
    (b"\x12\x07testing", "2 bytes 74657374696e67, end"),
    (b"\xc2\x3e\x01\x61", "1000 bytes 61, end"),
    (b"\x20" + FF9 + b"\x01", "4 varint 18446744073709551615, end"),
    (b"\xf8\xff\xff\xff\x0f\x00", "536870911 varint 0, end"),
    (b"\x09\xef\xcd\xab\x89\x67\x45\x23\x01", "1 fixed64 81985529216486895, end"),
    (b"\x15\x78\x56\x34\x12", "2 fixed32 305419896, end"),
    (b"\x12\x00\x08\x01", "2 bytes -, 1 varint 1, end"),
]

READ = [
    (b"\x08\x96\x81\x80\x00", "1 varint 150, end"),
    (b"\x08" + FF9 + b"\x7f", "1 varint 18446744073709551615, end"),
    (b"\x08\x01\x0b", "1 varint 1, " + F4),
]

BROKEN = [
    b"\x0b", b"\x0c", b"\x0e\x00", b"\x0f\x00", b"\x00\x00", b"\x02\x00", b"\x80\x80\x80\x80\x10\x00", b"\x80", b"\x08",
    b"\x08\x96", b"\x08" + b"\x80" * 10 + b"\x00", b"\x08" + b"\x80" * 10 + b"\x01", b"\x12", b"\x12\x07testin",
    b"\x12" + FF9 + b"\x01\x61", b"\x09\x01\x02\x03\x04\x05\x06\x07", b"\x0d\x01\x02\x03",
]


def fields():
    for data, answer in BOTH_WAYS:
        yield "fields", data, answer
        yield "write_fields", data, data.hex()
    for data, answer in READ:
        yield "fields", data, answer
    for data in BROKEN:
        yield "fields", data, F4


# ---- messages

MESSAGES = [
    # The last value counts, and a varint of a known number does not.
    ("FlightData", b"\xc2\x3e\x01a\x12\x01b\x12\x01c\x10\x00\xc2\x3e\x02de", "63, 6465"),
    ("Ticket", b"\x0a\x01a\x0a\x01b", "62"),
    ("Ticket", b"\x0a\x01a\x08\x01\x0a\x00", "-"),
    ("PutResult", b"\x0a\x01a\x0a\x02bc", "6263"),
    ("TicketStatementQuery", b"\x0a\x02ab\x0a\x01c", "63"),
    ("Any", b"\x12\x01a\x0a\x02/x\x12\x01b\x0a\x02/y", "/y, y, 62"),
    # Options in two payloads, and as one; the last value of each counts.
    ("CommandStatementIngest", b"\x0a\x02\x08\x02\x12\x01t\x0a\x02\x10\x01", "Some((2, 1)), t, , , false, -"),
    ("CommandStatementIngest", b"\x0a\x04\x08\x02\x10\x01\x12\x01t", "Some((2, 1)), t, , , false, -"),
    ("CommandStatementIngest", b"\x0a\x06\x08\x01\x08\x02\x10\x01\x12\x01u\x12\x01t", "Some((2, 1)), t, , , false, -"),
    # The low 32 bits of an enum's varint.
    ("CommandStatementIngest", b"\x12\x01t\x0a\x06\x08\x81\x80\x80\x80\x10", "Some((1, 0)), t, , , false, -"),
    # Known numbers with another wire type, and an unknown number.
    ("CommandStatementIngest", b"\x12\x01t\x08\x01\x10\x01\x2a\x01a\x0a\x02\x0a\x00", "Some((0, 0)), t, , , false, -"),
    ("CommandStatementIngest", b"\x12\x01t\x3a\x01\xff\x35\x00\x00\x00\x00", "None, t, , , false, -"),
    # A bool that is not 0, and is 0 at last; one whose low 32 bits are 0.
    ("CommandStatementIngest", b"\x12\x01t\x28\x02\x28\x00", "None, t, , , false, -"),
    ("CommandStatementIngest", b"\x12\x01t\x28\x80\x80\x80\x80\x10", "None, t, , , true, -"),
    # Options that are a map's entries are not read.
    ("CommandStatementIngest", b"\x12\x01t\xc2\x3e\x03\x0a\x01\xff\xc2\x3e\x01\x0a", "None, t, , , false, -"),
    # No UTF-8 in a text, also where another takes its place; an embedded message, and a field, that do not read.
    ("CommandStatementIngest", b"\x12\x01\xff\x12\x01t", F4),
    ("CommandStatementIngest", b"\x12\x01t\x1a\x02\xc3\x28\x1a\x00", F4),
    ("CommandStatementIngest", b"\x12\x01t\x0a\x01\x08", F4),
    ("CommandStatementIngest", b"\x12\x02t", F4),
    ("FlightDescriptor", b"\x08\x01\x1a\x01a\x1a\x01b", "1, -"),
    ("FlightDescriptor", b"\x08\x02\x12\x02\x01\xff", "2, 01ff"),
    ("FlightDescriptor", b"\x12\x01a\x08\x02\x12\x01b\x08\x03", "3, 62"),
    ("FlightDescriptor", b"\x0a\x01\x02\x10\x01", "0, -"),
    ("FlightDescriptor", b"\x08\x02\x1a\x01\xff", F4),
    ("FlightDescriptor", b"\x08", F4),
    # How many rows were put.
    ("rows_put", b"", "0"),
    ("rows_put", b"\x0a\x02\x08\x01", "1"),
    ("rows_put", b"\x0a\x0b\x08" + FF9 + b"\x01", "-1"),
    ("rows_put", b"\x0a", F4),
    ("rows_put", b"\x0a\x01\x08", F4),
    ("write_rows_put", b"", "-"),
    ("write_rows_put", b"\x0a\x02\x08\x02", "0a020802"),
    ("write_rows_put", b"\x0a\x0b\x08" + FF9 + b"\x01", "0a0b08" + FF9.hex() + "01"),
    # What a put asks for.
    ("ingest", first(b"\x12\x01t"), "t, Unspecified, Unspecified"),
    ("ingest", first(b"\x12\x01t", "a/b/arrow.flight.protocol.sql.CommandStatementIngest"), "t, Unspecified, Unspecified"),
    ("ingest", first(b"\x12\x01t", "/arrow.flight.protocol.sql.CommandStatementIngest"), "t, Unspecified, Unspecified"),
    ("ingest", first(b"\x0a\x00\x12\x01t\x1a\x00\x22\x00\x28\x00\x32\x00"), "t, Unspecified, Unspecified"),
    ("ingest", first(b"\x12\x01t\xc2\x3e\x03\x0a\x01\xff"), "t, Unspecified, Unspecified"),
    ("ingest", first(b"\x12\x01t\x0a\x04\x08\x01\x10\x01"), "t, Create, Fail"),
    ("ingest", first(b"\x12\x01t\x0a\x04\x08\x02\x10\x02"), "t, Fail, Append"),
    ("ingest", first(b"\x12\x01t\x0a\x02\x10\x03"), "t, Unspecified, Replace"),
    ("ingest", b"", F5),
    ("ingest", b"\x12\x01", F4),
    ("ingest", chunk(1, b"\x08\x02"), F5),
    ("ingest", chunk(1, b"\x08\x02" + chunk(2, b"\x0a\x01\xff")), F4),
    ("ingest", first(b"\x12\x01t", kind=0), F5),
    ("ingest", first(b"\x12\x01t", kind=1), F5),
    ("ingest", first(b"\x12\x01t", kind=3), F5),
    ("ingest", first(b"", "arrow.flight.protocol.sql.CommandStatementIngest"), F5),
    ("ingest", first(b"", "a/arrow.flight.protocol.sql.CommandStatementIngest/b"), F5),
    ("ingest", first(b"", TICKET), F5),
    ("ingest", first(b"\x12\x02t"), F4),
    ("ingest", first(b"\x0a\x02\x08\x03\x1a\x01s"), F4),
    ("ingest", first(b"\x0a\x02\x10\x04"), F4),
    ("ingest", first(b"\x1a\x01s"), F16),
    ("ingest", first(b"\x22\x01c"), F16),
    ("ingest", first(b"\x28\x01"), F16),
    ("ingest", first(b"\x28\x80\x80\x80\x80\x10"), F16),
    ("ingest", first(b"\x32\x01x"), F16),
    # What a flight info is asked for.
    ("wanted", asked("CommandStatementQuery", b"\x0a\x01a"), "rows a"),
    ("wanted", b"\x08\x02" + chunk(2, packed("/" + SQL[20:] + "CommandGetTables", b"")), "tables"),
    ("wanted", asked("CommandStatementQuery", b"\x0a\x01a\x12\x00"), "rows a"),
    ("wanted", asked("CommandStatementQuery", b"\x0a\x01a\x12\x01\x00"), F16),
    ("wanted", asked("CommandGetTables", b"\x08\x01\x28\x00"), "tables"),
    ("wanted", asked("CommandGetTables", b"\x0a\x00"), F16),
    ("wanted", asked("CommandGetTables", b"\x12\x00"), F16),
    ("wanted", asked("CommandGetTables", b"\x1a\x00"), F16),
    ("wanted", asked("CommandGetTables", b"\x22\x00"), F16),
    ("wanted", asked("CommandGetTables", b"\x28\x02"), F16),
    ("wanted", asked("CommandStatementIngest", b""), F5),
    ("wanted", asked("commandStatementQuery", b""), F5),
    ("wanted", asked("CommandStatementQuery", b"\x0a"), F4),
    ("wanted", asked("CommandGetTables", b"\x12\x01\xff"), F4),
    ("wanted", b"", F5),
    ("wanted", b"\x08\x01", F5),
    ("wanted", b"\x08", F4),
    ("wanted", b"\x08\x02\x1a\x01\xff", F4),
    ("wanted", b"\x08\x02" + chunk(2, b"\x0a"), F4),
    ("wanted", b"\x08\x02" + chunk(2, packed("arrow.flight.protocol.sql.CommandGetTables", b"")), F5),
    # The handle in what begins a fetch.
    ("handle", fetch(b"\x0a\x02\x01\x02"), "0102"),
    ("handle", fetch(b"\x0a\x01a\x0a\x01b\x08\x01"), "62"),
    ("handle", chunk(1, b"\x0a\x00") + fetch(b"\x0a\x01a"), "61"),
    ("handle", fetch(b""), "-"),
    ("handle", fetch(b"\x0a\x02\x01"), F17),
    ("handle", fetch(b"\x0a\x01a", INGEST), F17),
    ("handle", fetch(b"", "arrow.flight.protocol.sql.TicketStatementQuery"), F17),
    ("handle", fetch(b"", ""), F17),
    ("handle", b"\x0a\x01", F4),
    ("handle", b"\x0a\x01\x0a", F17),
]

# ---- records

OPEN = b"\x01\x00\x02/x"
RECORDS = [
    ("calls", b"", "between calls"),
    ("calls", b"\x01", "not between calls"),
    ("calls", OPEN + b"\x03", "Open 2f78, End, between calls"),
    ("calls", OPEN + b"\x02\x00\x00\x00\x00\x01", "Open 2f78, not between calls"),
    ("calls", OPEN + b"\x02\x00\x00\x00\x00\x00\x03", "Open 2f78, Message -, End, between calls"),
    ("calls", b"\x05", F1),
    ("calls", b"\x03", F1),
    ("calls", b"\x01\x01\x01", F1),
    ("calls", b"\x01\x01\x00" + b"a" * 256, "Open " + "61" * 256 + ", not between calls"),
    ("calls", OPEN + b"\x01", "Open 2f78, " + F1),
    ("calls", OPEN + b"\x04", "Open 2f78, " + F1),
    ("calls", OPEN + b"\x02\x01", "Open 2f78, " + F1),
    ("calls", OPEN + b"\x02\x00\x01\x00\x00\x00", "Open 2f78, not between calls"),
    ("calls", OPEN + b"\x02\x00\x01\x00\x00\x01", "Open 2f78, " + F2),
    ("answers", b"\x02\x00\x00\x00\x00\x04\x0a\x02\x08\x04", "Message 0a020804, not between calls"),
    ("answers", b"\x04\x00\x00\x00", "Status 0 , not between calls"),
    ("answers", b"\x04\x03\x00\x0bF1 BadFrame", "Status 3 F1 BadFrame, not between calls"),
    ("answers", b"\x04\x03\x00\x01", "not between calls"),
    ("answers", b"\x04\x03\x00\x01\xff", F1),
    ("answers", b"\x01", F1),
    ("answers", b"\x03", F1),
]


def first_run(data):
    """The records of the first run, by how long each head and content is."""
    parts = [("Open", 3, 42), ("Message", 6, 199), ("Message", 6, 150), ("End", 1, 0),
             ("Open", 3, 42), ("Message", 6, 106), ("End", 1, 0)]
    at, words = 0, []
    for name, head, size in parts:
        content = data[at + head : at + head + size]
        words.append(name if name == "End" else f"{name} {content.hex()}")
        at += head + size
    assert at == len(data) == 565
    return "calls", data, ", ".join([*words, "between calls"])


def cases():
    return [*faults(), *TEXTS, *fields(), *MESSAGES, *RECORDS]
