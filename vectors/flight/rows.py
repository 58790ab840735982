"""The rows of messages, fields, records and faults of the program format_cases, for formats/make.py.

What a message says is read from index.txt, and the bytes of what is embedded in an info from the message itself, by the
public encoding. The cases of by_hand.py stand before them."""
import pathlib
import re
import sys

sys.dont_write_bytecode = True
HERE = pathlib.Path(__file__).parent
sys.path.append(str(HERE))
import by_hand

ENUMS = {name: int(number) for file in ("Flight", "FlightSql")
         for name, number in re.findall(r"\b([A-Z_]+) = (\d+);", (HERE / f"{file}.proto").read_text())}
WORDS = {"true": True, "false": False, **ENUMS}
CASES = [line.split("\t")[:3] for line in (HERE / "index.txt").read_text().splitlines()]
BY_HAND = [name for name, *_ in CASES].index("last_value")  # protoc wrote all before it


def message(name):
    return (HERE / f"{name}.bin").read_bytes()


def shown(data):
    return data.hex() or "-"


# What protoc's text form says: of each field its name and its value, in order.


def unquoted(word):
    escaped = re.sub(r"\\([0-7]{3})", lambda found: chr(int(found[1], 8)), word[1:-1])
    return escaped.encode("latin-1")


def said(words):
    fields = []
    while words and words[0] != "}":
        name, mark = words.pop(0), words.pop(0)
        if mark == "{":
            fields.append((name, said(words)))
            assert words.pop(0) == "}"
            continue
        word = words.pop(0)
        fields.append((name, unquoted(word) if word[0] == '"' else WORDS[word] if word in WORDS else int(word)))
    return fields


def says(answer):
    """The last value of each field."""
    return dict(said(re.findall(r'"(?:[^"\\]|\\.)*"|[\w-]+|[{}:]', answer)))


# What is printed of each message.


def chunk(name):
    return lambda fields: shown(fields.get(name, b""))


def any_of(fields):
    url = fields.get("type_url", b"").decode()
    name = url.rsplit("/", 1)[1] if "/" in url else "no name"
    return f"{url}, {name}, {chunk('value')(fields)}"


def descriptor(fields):
    return f"{fields.get('type', 0)}, {chunk('cmd')(fields)}"


def stream(fields):
    inside = fields.get("flight_descriptor")
    return "none" if inside is None else descriptor(dict(inside))


def data(fields):
    return f"{chunk('data_header')(fields)}, {chunk('data_body')(fields)}"


def options(fields):
    """The two numbers, or None where there are no options."""
    inside = fields.get("table_definition_options")
    return None if inside is None else tuple(dict(inside).get(name, 0) for name in ("if_not_exist", "if_exists"))


def statement(fields):
    numbers = options(fields)
    words = ["None" if numbers is None else f"Some({numbers})"]
    words += [fields.get(name, b"").decode() for name in ("table", "schema", "catalog")]
    words.append(str(fields.get("temporary", False)).lower())
    return ", ".join([*words, shown(fields.get("transaction_id", b""))])


def ingest(fields):
    """What a put makes of a statement."""
    if any(fields.get(name) for name in ("schema", "catalog", "temporary", "transaction_id")):
        return by_hand.F16
    if_not_exist, if_exists = options(fields) or (0, 0)
    absent = ("Unspecified", "Create", "Fail")[if_not_exist]
    present = ("Unspecified", "Fail", "Append", "Replace")[if_exists]
    return f"{fields['table'].decode()}, {absent}, {present}"


def query(fields):
    return f"{fields.get('query', b'').decode()}, {chunk('transaction_id')(fields)}"


FILTERS = {"catalog", "db_schema_filter_pattern", "table_name_filter_pattern", "table_types"}


def tables(fields):
    """Whether any filter is there, and whether schemas are asked for."""
    filtered = bool(FILTERS & fields.keys())
    return f"{filtered}, {fields.get('include_schema', False)}".lower()


def wanted(kind, fields):
    """What a command asks for."""
    if kind == "CommandGetTables":
        return "tables" if tables(fields) == "false, false" else by_hand.F16
    return by_hand.F16 if fields.get("transaction_id") else f"rows {fields.get('query', b'').decode()}"


def action(fields):
    return f"{fields.get('type', b'').decode()}, {chunk('body')(fields)}"


def endpoint(data):
    """The ticket and whether there is a location, of the bytes: protoc's text does not keep those of the ticket."""
    return f"{shown(joined(data, 1))} {bool(chunks(data, 2))}".lower()


def info(fields):
    """The schema, the bytes of the descriptor, the endpoints and the three numbers behind them."""
    data = fields[""]
    words = [chunk("schema")(fields), shown(joined(data, 2)), *map(endpoint, chunks(data, 3))]
    numbers = [fields.get(name, 0) for name in ("total_records", "total_bytes")]
    return ", ".join(map(str, [*words, *numbers, str(fields.get("ordered", False)).lower()]))


TYPED = {
    "CommandStatementQuery": query, "CommandGetTables": tables, "Action": action, "SchemaResult": chunk("schema"),
    "FlightInfo": info, "FlightEndpoint": lambda fields: endpoint(fields[""]), "Result": chunk("body"), "Location": lambda fields: fields.get("uri", b"").decode(),
    "DoPutUpdateResult": lambda fields: str(fields.get("record_count", 0)), "PutResult": chunk("app_metadata"), "Any": any_of,
    "FlightDescriptor": descriptor, "FlightData": data, "Ticket": chunk("ticket"),
    "TicketStatementQuery": chunk("statement_handle"), "CommandStatementIngest": statement,
}
NOT_KEPT = {"ingest_all", "ingest_present", "data_all", "query_transaction"}  # they say more than what is kept of them
WRITTEN = {  # of these messages, those that we write: without filters, locations and counts
    "CommandGetTables": {"tables_none", "tables_schema"}, "FlightEndpoint": {"endpoint"},
    "FlightInfo": {"info", "info_two", "info_none"},
}
OUTSIDE = {"bad_enum_0": (3, 0), "bad_enum_1": (0, 4), "bad_enum_2": (2**32 - 1, 0)}  # numbers that are kept, and refused later


# The fields of a message by the public encoding: numbers, and payloads by wire type.


def varint(data, at):
    value = shift = 0
    while True:
        value |= (data[at] & 127) << shift
        shift, at = shift + 7, at + 1
        if data[at - 1] < 128:
            return value % 2**64, at


def chunks(data, number):
    """The bytes of each field of a number."""
    at, found = 0, []
    while at < len(data):
        tag, at = varint(data, at)
        size, after = varint(data, at) if tag & 7 in (0, 2) else ({1: 8, 5: 4}[tag & 7], at)
        at = after if tag & 7 == 0 else after + size
        if tag == 8 * number + 2:
            found.append(data[at - size : at])
    return found


def joined(data, number):
    return b"".join(chunks(data, number))


# The cases of each line of index.txt.


def of_statement(name, data, fields):
    """The statement, and what a put makes of it."""
    first = by_hand.first(data)
    if name in OUTSIDE:
        kept = {"table_definition_options": list(zip(("if_not_exist", "if_exists"), OUTSIDE[name]))}
        return [("CommandStatementIngest", data, statement(kept)), ("ingest", first, by_hand.F4)]
    if fields is None:
        return [("CommandStatementIngest", data, by_hand.F4), ("ingest", first, by_hand.F4)]
    return [("CommandStatementIngest", data, statement(fields)), ("ingest", first, ingest(fields))]


def of_data(data, fields, written):
    """The descriptor in a message of a stream; one without, up to its body."""
    found = [("stream", data, by_hand.F4 if fields is None else stream(fields))]
    if written and "flight_descriptor" not in fields:
        body = fields.get("data_body", b"")
        assert data.endswith(body)
        found.append(("write_head", data, shown(data[: len(data) - len(body)])))
    return found


def cases_of(index, name, kind, answer):
    data = message(name)
    if kind == "records":
        return [by_hand.first_run(data)]
    fields = None if answer == "F4" else says(answer)
    written = index < BY_HAND and name not in NOT_KEPT
    if kind == "CommandStatementIngest":
        found = of_statement(name, data, fields)
    elif kind == "FlightData" and fields is None:
        found = []  # what cannot be read is the descriptor, which is read apart
    else:
        found = [(kind, data, by_hand.F4 if fields is None else TYPED[kind]({"": data, **fields}))]
    if kind == "FlightData":
        found += of_data(data, fields, written)
    if kind == "Ticket" and fields is not None:
        found.append(("handle", data, shown(message("ticket_statement")[2:])))
        found.append(("write_handle", data, shown(data)))
    if kind in ("CommandStatementQuery", "CommandGetTables"):
        found.append(("wanted", by_hand.asked(kind, data), by_hand.F4 if fields is None else wanted(kind, fields)))
    if name in ("query_descriptor", "tables_descriptor"):
        found.append(("write_wanted", data, shown(data)))
    if kind == "DoPutUpdateResult" and fields is None:
        found.append(("write_fields", data, by_hand.F4))
    if written and name in WRITTEN.get(kind, {name}):
        found.append((f"write_{kind}", data, shown(data)))
    return found


def all_cases():
    found = by_hand.cases()
    for index, (name, kind, answer) in enumerate(CASES):
        found += cases_of(index, name, kind, answer)
    return found


def rows():
    """Each row and its answer."""
    return [(f"{kind} {data.hex()}", answer) for kind, data, answer in all_cases()]
