#!/usr/bin/env python3
"""Writes NAME.bin of each case, and index.txt. Needs protoc (Debian: protobuf-compiler)."""
import pathlib
import re
import subprocess

HERE = pathlib.Path(__file__).parent
FILES = ["google/protobuf/any.proto", "google/protobuf/timestamp.proto", "Flight.proto", "FlightSql.proto"]
PACKAGES = [("google.protobuf.", ("Any",)), ("arrow.flight.protocol.sql.", ("Command", "TicketS", "DoPut"))]
BINARIES, INDEX = {}, []


def full(message):
    for package, beginnings in PACKAGES:
        if message.startswith(beginnings):
            return package + message
    return "arrow.flight.protocol." + message


def protoc(option, message, data):
    words = ["protoc", "-I", ".", "-I", "/usr/include", f"--{option}={full(message)}", *FILES]
    return subprocess.run(words, cwd=HERE, input=data, capture_output=True)


def compiled(message, text):
    done = protoc("encode", message, text.encode())
    assert done.returncode == 0, (text, done.stderr)
    return done.stdout


def known(text):
    """A decoded message without its unknown fields."""
    kept, depth = [], 0
    for line in text.splitlines():
        if depth or re.match(r"\s*\d+ \{", line):
            depth += line.count("{") - line.count("}")
        elif not re.match(r"\s*\d+:", line):
            kept.append(line)
    return "\n".join(kept)


def quoted(data):
    return '"' + "".join(f"\\{byte:03o}" if not 32 <= byte < 127 or byte in b'"\\' else chr(byte) for byte in data) + '"'


def add(name, message, text, remark=""):
    """A message that protoc writes."""
    assert name not in BINARIES, name
    BINARIES[name] = compiled(message, text)
    INDEX.append((name, message, text, remark))
    return BINARIES[name]


def by_hand(name, message, data, answer, remark="", agrees=True):
    """Bytes by hand, and what they say. Where `agrees`, protoc has to read the same."""
    assert name not in BINARIES, name
    data = BINARIES[name] = data if isinstance(data, bytes) else bytes.fromhex(data)
    INDEX.append((name, message, answer, remark))
    done = protoc("decode", message, data)
    if answer == "F4":
        same = done.returncode != 0
    else:
        same = done.returncode == 0 and compiled(message, known(done.stdout.decode())) == compiled(message, answer)
    assert same == agrees, (name, done.stdout, done.stderr)


# The first run, from the inside out. Its two headers are those of the samples in docs/FORMATS.md.

SCHEMA = bytes.fromhex(
    "10000000 00000A00 0C000800 0A000400 0A000000 10000000 04000100 08000800 00000400 08000000 04000000 01000000"
    "10000000 0C001000 04000C00 0D000800 0C000000 0C000000 18000000 01020000 01000000 61000000 08000C00 04000800"
    "08000000 40000000 01000000 00000000")
BATCH = bytes.fromhex(
    "10000000 0C001400 10001200 04000800 0C000000 1C000000 10000000 00000000 04000300 00000A00 14000800 04001000"
    "0A000000 10000000 02000000 00000000 1C000000 01000000 02000000 00000000 00000000 00000000 00000000 02000000"
    "00000000 00000000 00000000 00000000 00000000 00000000 10000000 00000000")
BODY = bytes.fromhex("01000000 00000000 02000000 00000000")
IPC_SCHEMA = bytes.fromhex("FFFFFFFF 70000000") + SCHEMA
URL = "type.googleapis.com/arrow.flight.protocol.sql."


def command(name, kind, text, remark=""):
    """A command in an Any; protoc writes the Any from its own text form."""
    data = add(name, kind, text, remark)
    return add(name + "_any", "Any", f'type_url: "{URL}{kind}" value: {quoted(data)}')


ANY = command("ingest", "CommandStatementIngest",
              'table_definition_options { if_not_exist: TABLE_NOT_EXIST_OPTION_CREATE } table: "t"')
assert len(ANY) == 79
add("descriptor", "FlightDescriptor", f"type: CMD cmd: {quoted(ANY)}")
PUT = [
    add("put_schema", "FlightData",
        f"flight_descriptor {{ type: CMD cmd: {quoted(ANY)} }} data_header: {quoted(SCHEMA)}", "199 bytes"),
    add("put_batch", "FlightData", f"data_header: {quoted(BATCH)} data_body: {quoted(BODY)}", "150 bytes"),
]
HANDLE = bytes.fromhex("01 0000000000000001 00000000 00000002") + b"SELECT * FROM t"
ANY = command("ticket_statement", "TicketStatementQuery", f"statement_handle: {quoted(HANDLE)}")
TICKET = add("ticket", "Ticket", f"ticket: {quoted(ANY)}", "106 bytes")
SERVICE = b"/arrow.flight.protocol.FlightService/"


def call(method, *messages):
    path = SERVICE + method
    sent = b"".join(b"\2\0" + len(one).to_bytes(4, "big") + one for one in messages)
    return b"\1" + len(path).to_bytes(2, "big") + path + sent + b"\3"


BINARIES["first_run"] = call(b"DoPut", *PUT) + call(b"DoGet", TICKET)
INDEX.append(("first_run", "records", "two calls", "the whole input of the first run, 565 bytes"))
assert len(BINARIES["first_run"]) == 565
QUERY = command("query", "CommandStatementQuery", 'query: "SELECT * FROM t"')
DESCRIPTOR = f"type: CMD cmd: {quoted(QUERY)}"
assert len(add("query_descriptor", "FlightDescriptor", DESCRIPTOR, "92 bytes")) == 92
add("info", "FlightInfo", f"schema: {quoted(IPC_SCHEMA)} flight_descriptor {{ {DESCRIPTOR} }} "
    f"endpoint {{ ticket {{ ticket: {quoted(ANY)} }} }} total_records: -1 total_bytes: -1 ordered: true",
    "its end: 20, nine FF, 01, 28, nine FF, 01, 30 01")
add("put_result", "PutResult", 'app_metadata: "\\010\\004"', "0A 02 08 04")
add("update_result", "DoPutUpdateResult", "record_count: 4", "08 04")

# Further messages that protoc writes.

add("update_result_0", "DoPutUpdateResult", "record_count: 0", "no byte")
add("update_result_less_1", "DoPutUpdateResult", "record_count: -1")
add("update_result_least", "DoPutUpdateResult", "record_count: -9223372036854775808")
add("update_result_greatest", "DoPutUpdateResult", "record_count: 9223372036854775807")
command("ingest_append", "CommandStatementIngest",
        "table_definition_options { if_not_exist: TABLE_NOT_EXIST_OPTION_FAIL if_exists: TABLE_EXISTS_OPTION_APPEND } "
        'table: "t\\303\\244ble"')
command("ingest_all", "CommandStatementIngest",
        "table_definition_options { if_not_exist: TABLE_NOT_EXIST_OPTION_CREATE if_exists: TABLE_EXISTS_OPTION_REPLACE } "
        'table: "t" schema: "s" catalog: "c" temporary: true transaction_id: "\\377" '
        'options { key: "k" value: "v" } options { key: "" value: "" }')
command("ingest_present", "CommandStatementIngest",
        'table_definition_options { } table: "" schema: "" catalog: "" transaction_id: ""',
        "present and empty: four are written, the table is not")
add("ingest_plain", "CommandStatementIngest", 'table: "t"')
add("ingest_options_empty", "CommandStatementIngest", 'table_definition_options { } table: "t"')
add("ingest_every_field", "CommandStatementIngest",
    'table_definition_options { if_exists: TABLE_EXISTS_OPTION_REPLACE } table: "t" schema: "s" catalog: "c" temporary: true '
    'transaction_id: "\\377"', "but the map of options")
command("query_transaction", "CommandStatementQuery", 'query: "" transaction_id: ""')
TABLES = command("tables_none", "CommandGetTables", "")
add("tables_descriptor", "FlightDescriptor", f"type: CMD cmd: {quoted(TABLES)}")
command("tables_present", "CommandGetTables", 'catalog: "" db_schema_filter_pattern: "" table_name_filter_pattern: ""')
command("tables_all", "CommandGetTables",
        'catalog: "c" db_schema_filter_pattern: "%" table_name_filter_pattern: "t_" table_types: "TABLE" table_types: "" '
        "include_schema: true")
add("data_empty", "FlightData", "", "no byte")
add("data_descriptor_empty", "FlightData", "flight_descriptor { }", "a present message is written, though empty")
add("data_all", "FlightData", 'flight_descriptor { type: PATH path: "a" path: "" path: "b" } data_header: "h" '
    'app_metadata: "m" data_body: "b"')
add("data_long_body", "FlightData", f"data_body: {quoted(bytes(range(256)) * 2)}", "a length of two bytes")
add("info_empty", "FlightInfo", "")
add("info_all", "FlightInfo", 'schema: "s" flight_descriptor { } endpoint { } endpoint { ticket { } location { uri: "grpc://h:1" } '
    'location { } expiration_time { seconds: -1 nanos: 5 } app_metadata: "m" } total_records: 1 total_bytes: 300 ordered: false '
    'app_metadata: "n"')
add("info_two", "FlightInfo", f'schema: "s" flight_descriptor {{ {DESCRIPTOR} }} endpoint {{ ticket {{ ticket: "a" }} }} '
    "endpoint { ticket { } } total_records: -1 total_bytes: -1 ordered: true", "two endpoints, the second of an empty ticket")
add("info_none", "FlightInfo", 'flight_descriptor { } total_records: -1 total_bytes: -1 ordered: true', "no endpoint")
add("endpoint", "FlightEndpoint", f"ticket {{ ticket: {quoted(ANY)} }}")
add("endpoint_all", "FlightEndpoint", 'ticket { ticket: "t" } location { uri: "grpc://h:1" } location { } '
    'expiration_time { seconds: 1 } app_metadata: "m"')
add("endpoint_empty", "FlightEndpoint", "")
add("location", "Location", 'uri: "grpc+tcp://h\\303\\266st:1"')
add("location_empty", "Location", "")
add("query_empty", "CommandStatementQuery", "")
add("query_in_transaction", "CommandStatementQuery", 'query: "SELECT a FROM t" transaction_id: "\\001\\377"')
add("tables_schema", "CommandGetTables", "include_schema: true")
add("tables_types", "CommandGetTables", 'table_types: "TABLE"')
add("action_empty", "Action", "")
add("result_empty", "Result", "")
add("schema_result_empty", "SchemaResult", "")
add("schema_result", "SchemaResult", f"schema: {quoted(IPC_SCHEMA)}", "a schema in IPC form")
add("action", "Action", 'type: "scan.expire" body: "\\000\\000\\000\\000\\000\\000\\000\\002"', "23 bytes")
add("result", "Result", 'body: "\\000\\000\\000\\000\\000\\000\\000\\002"')

# Bytes by hand that protoc does not write: what a reader makes of them.

UPDATE, DATA, GET = "DoPutUpdateResult", "FlightData", "CommandGetTables"
by_hand("last_value", UPDATE, "08 04 08 05", "record_count: 5", "the last value counts")
by_hand("last_is_default", UPDATE, "08 04 08 00", "record_count: 0")
by_hand("long_varint", UPDATE, "08 84 80 80 00", "record_count: 4", "longer than needed")
by_hand("long_varint_10", UPDATE, "08 84 80 80 80 80 80 80 80 80 00", "record_count: 4", "ten bytes")
by_hand("varint_above_64", UPDATE, "08 81 80 80 80 80 80 80 80 80 7E", "record_count: 1", "modulo 2^64")
by_hand("long_tag", UPDATE, "88 80 00 04", "record_count: 4", "a tag longer than needed")
by_hand("long_tag_6", UPDATE, "88 80 80 80 80 00 04", "record_count: 4", "a tag of six bytes: protoc takes five at most", False)
by_hand("unknown_fields", UPDATE, "10 05 1A 01 78 21 01 02 03 04 05 06 07 08 2D 01 02 03 04 08 04", "record_count: 4",
        "unknown fields of wire types 0, 2, 1, 5")
by_hand("unknown_greatest", UPDATE, "F8 FF FF FF 0F 01 08 04", "record_count: 4", "field 536,870,911")
by_hand("other_wire_type", UPDATE, "0A 01 04 08 04 09 01 02 03 04 05 06 07 08 0D 01 02 03 04", "record_count: 4",
        "field 1 with wire types 2, 1 and 5 is skipped")
by_hand("merged", DATA, "0A 02 08 02 12 01 68 0A 03 12 01 63 0A 03 1A 01 70 0A 02 08 01",
        'flight_descriptor { type: PATH cmd: "c" path: "p" } data_header: "h"', "four parts of one descriptor")
by_hand("merged_empty", DATA, "0A 02 08 02 0A 00", "flight_descriptor { type: CMD }")
by_hand("backwards", DATA, "C2 3E 01 62 1A 01 6D 12 01 68 0A 00", 'flight_descriptor { } data_header: "h" app_metadata: "m" '
        'data_body: "b"', "fields in falling order")
by_hand("repeated_apart", GET, "22 01 61 28 00 22 00 0A 00 22 01 62 28 02",
        'catalog: "" table_types: "a" table_types: "" table_types: "b" include_schema: true', "a bool of 2 is true")
by_hand("bool_high", GET, "28 80 80 80 80 80 80 80 80 80 01", "include_schema: true", "2^63 is not 0")
by_hand("enum_low_32", "FlightDescriptor", "08 82 80 80 80 10", "type: CMD", "2^32 + 2: the low 32 bits")
for number, data in enumerate([
    "00", "02 00", "05 00 00 00 00", "08", "08 80", "08 FF FF FF FF FF FF FF FF FF FF 01", "88", "0A", "0A 02 01", "0A 80",
    "09 01 02 03 04 05 06 07", "0D 01 02 03", "0E 00", "0F 00", "16", "12 FF FF FF FF FF FF FF FF FF 01 00", "0C",
    "0B 08 01", "0A FF FF FF FF 0F 01", "08 04 10",
]):
    by_hand(f"bad_{number}", UPDATE, data, "F4", data)
by_hand("bad_group", UPDATE, "13 14 08 04", "F4", "a group, wire types 3 and 4: protoc skips it", False)
by_hand("bad_number", UPDATE, "80 80 80 80 10 00 08 04", "F4", "field 536,870,912")
by_hand("bad_text", "CommandStatementQuery", "0A 01 FF", "F4", "not UTF-8")
by_hand("bad_text_replaced", "CommandStatementQuery", "0A 01 FF 0A 01 61", "F4", "not UTF-8, and a later one replaces it")
by_hand("bad_text_path", "FlightDescriptor", "1A 02 C0 80", "F4", "not UTF-8")
by_hand("bad_inside", DATA, "0A 01 08", "F4", "the embedded message is cut off")
by_hand("bad_inside_parts", DATA, "0A 01 08 0A 01 02", "F4",
        "the first part is cut off, though the two in a row would read: each part is read by itself")
INGEST = "CommandStatementIngest"
for number, data in enumerate(["08 03", "10 04", "08 FF FF FF FF FF FF FF FF FF 01"]):
    by_hand(f"bad_enum_{number}", INGEST, f"0A {len(bytes.fromhex(data)):02X} {data}", "F4",
            "an enum's number outside its list, which protoc keeps", False)
by_hand("enum_twice", INGEST, "0A 02 08 01 12 01 74 0A 02 10 02",
        "table_definition_options { if_not_exist: TABLE_NOT_EXIST_OPTION_CREATE if_exists: TABLE_EXISTS_OPTION_APPEND } "
        'table: "t"', "two parts of the options")
by_hand("options_not_read", INGEST, "12 01 74 C2 3E 01 08", 'table: "t"', "an entry of the map that is cut off", False)
by_hand("bad_options_cut", INGEST, "12 01 74 C2 3E 02 08", "F4", "here the field itself is cut off")
by_hand("bad_text_unread", INGEST, "12 01 74 22 01 FF", "F4", "a catalog that is not UTF-8")
by_hand("bad_text_pattern", GET, "12 01 C0", "F4", "a pattern that is not UTF-8")
by_hand("bad_text_url", "Any", "0A 01 80", "F4", "not UTF-8")

INFO, ENDPOINT = "FlightInfo", "FlightEndpoint"
by_hand("info_parts", INFO, "12 02 08 02 1A 08 0A 02 0A 00 0A 02 0A 00 12 03 12 01 63 0A 01 61 20 01 20 02 30 02 30 00 1A 00",
        'schema: "a" flight_descriptor { type: CMD cmd: "c" } endpoint { ticket { } } endpoint { } total_records: 2',
        "a descriptor and a ticket in two parts each, last values")
by_hand("info_other_wire_type", INFO, "08 01 10 01 18 01 22 01 61 2A 01 61 32 01 61", "", "each field with another wire type is skipped")
by_hand("info_low_bits", INFO, "20 80 80 80 80 80 80 80 80 80 01 30 80 80 80 80 10", "total_records: -9223372036854775808 ordered: true",
        "2^63 as an int64, and 2^32 as a bool")
by_hand("endpoint_ticket_parts", ENDPOINT, "0A 03 0A 01 61 12 00 0A 03 0A 01 62", 'ticket { ticket: "b" } location { }',
        "the last value of a ticket in two parts")
for name, message, data, remark in [
    ("info_endpoint", INFO, "1A 01 0A", "an endpoint that is cut off"),
    ("info_ticket", INFO, "1A 03 0A 01 0A", "a ticket that is cut off"),
    ("info_ticket_parts", INFO, "1A 06 0A 01 0A 0A 01 00", "a part of a ticket that is cut off"),
    ("info_location", INFO, "1A 02 12 01", "a location that is cut off"),
    ("info_uri", INFO, "1A 05 12 03 0A 01 FF", "a URI that is not UTF-8"),
    ("info_uri_replaced", INFO, "1A 08 12 06 0A 01 FF 0A 01 61", "a URI that is not UTF-8, and a later one replaces it"),
    ("info_time", INFO, "1A 03 1A 01 08", "a time that is cut off"),
    ("info_descriptor", INFO, "12 01 08", "a descriptor that is cut off"),
    ("info_path", INFO, "12 03 1A 01 FF", "a path that is not UTF-8"),
    ("info_field", INFO, "08", "cut off"),
    ("endpoint_time", ENDPOINT, "1A 01 80", "a time that is cut off"),
    ("location_uri", "Location", "0A 01 C0", "not UTF-8"),
    ("schema_result", "SchemaResult", "0A 02 61", "cut off"),
    ("result", "Result", "0A", "cut off"),
    ("action_type", "Action", "0A 01 FF 12 00", "not UTF-8"),
    ("action", "Action", "12 01", "cut off"),
    ("tables_catalog", GET, "0A 01 FF", "not UTF-8"),
    ("tables_name", GET, "1A 01 FF", "not UTF-8"),
    ("tables_type", GET, "22 01 FF 22 00", "a type that is not UTF-8, and another one"),
    ("query", "CommandStatementQuery", "12 01", "cut off"),
]:
    by_hand(f"bad_{name}", message, data, "F4", remark)

for old in HERE.glob("*.bin"):
    old.unlink()
for name, data in BINARIES.items():
    (HERE / f"{name}.bin").write_bytes(data)
(HERE / "index.txt").write_text("".join("\t".join(line) + "\n" for line in INDEX))
print(f"{len(INDEX)} cases")
