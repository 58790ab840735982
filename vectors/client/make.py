#!/usr/bin/env python3
"""Writes the room "streams" of crates/call_cases: infos, statuses, and streams of answers and what they say once they
are joined. The infos are those of flight/, and the messages flatc's, of arrow/, in FlightData that is laid out here, by
hand. The answers are by hand too."""
import pathlib
import sys

sys.dont_write_bytecode = True
HERE = pathlib.Path(__file__).parent
ARROW, FLIGHT = HERE.parent / "arrow", HERE.parent / "flight"
sys.path.append(str(HERE.parent))

import rooms  # noqa: E402

LINES, ANSWERS = [], []


def varint(number):
    parts = []
    while number > 127:
        parts.append(number & 127 | 128)
        number >>= 7
    return bytes([*parts, number])


def chunk(tag, data):
    return bytes.fromhex(tag) + varint(len(data)) + data if data else b""


def flight_data(header, body):
    """data_header is field 2, data_body field 1000."""
    return chunk("12", header) + chunk("C2 3E", body)


def ask(line, answer=None):
    LINES.append(line)
    if answer is not None:
        ANSWERS.append(answer)


def note(text):
    ask(f"# {text}", f"# {text}")


def payload(name, data):
    ask(f"payload {name} {data.hex()}")


def message(name):
    body = ARROW / f"{name}.body"
    data = flight_data((ARROW / f"{name}.header").read_bytes(), body.read_bytes() if body.exists() else b"")
    payload(name, data)
    return data


def join(streams, answer):
    ask("join " + " | ".join(streams), answer)


INT64, FULL, UTF8 = "a Integer(Int64) or null; ", "a Integer(Int64); ", "a Utf8 or null; "
DONE = " = 0"

note("infos: the tickets of their endpoints, in order")
TICKETS = {"info": (FLIGHT / "ticket.bin").read_bytes().hex() + ",", "info_all": ",,", "info_two": "0a0161,,", "info_parts": "0a000a00,,"}
for path in sorted(FLIGHT.glob("*info*.bin")):
    ask(f"info {path.read_bytes().hex()}", TICKETS.get(path.stem, "F4 BadProto"))

note("statuses")
NAMES = """BadFrame 3, MessageTooLarge 8, UnknownMethod 12, BadProto 3, UnknownCommand 12, BadFlatbuffer 3, UnsupportedArrow 12,
BadBatch 3, TableMissing 5, TableExists 6, SchemaMismatch 3, LimitReached 8, BadSql 3, UnknownName 5, TypeClash 3, NotInSubset 12,
BadTicket 3, VersionUnknown 5, VersionExpired 5, ResultTooLarge 8, OutOfMemory 8, Transport 14"""
for number, row in enumerate(NAMES.replace("\n", " ").split(", "), 1):
    name, code = row.split()
    if number == 13:
        ask(f"status {code} F13 BadSql", "None")
        for place in (0, 9, 25, 16384, 4294967295):
            ask(f"status {code} F13 BadSql at byte {place}", f"Some(BadSql {{ position: {place} }})")
    else:
        ask(f"status {code} F{number} {name}", f"Some({name})")
        ask(f"status {code} F{number} {name} at byte 1", "None")
    ask(f"status {int(code) + 1} F{number} {name}", "None")
    ask(f"status 0 F{number} {name}", "None")
for text in ("", "F1", "F1 ", "F1 BadFram", "F1 BadFrame ", "f1 BadFrame", "F01 BadFrame", "F2 BadFrame", "F4 BadFrame", "F13 BadSql at byte ",
             "F13 BadSql at byte 025", "F13 BadSql at byte +25", "F13 BadSql at byte -1", "F13 BadSql at byte 4294967296", "F13 BadSql at byte 25 ",
             "F13 BadSql at byte x", "F0 Nothing", "F23 Nothing", "F3 Ünbekannt"):
    ask(f"status 3 {text}", "None")

note("streams")
for name in ("schema_Int64", "schema_Int64_packed", "schema_Int64_full", "schema_Utf8", "schema_UInt64", "schema_two", "batch_Int64_two",
             "batch_Int64", "validity_Int64_7", "empty_Int64", "batch_Utf8", "bad_data_short_Int64", "bad_header_absent", "bad_version_V4",
             "schema_of_Int8", "schema_of_Int8_full", "schema_of_Int16", "dictionary_a", "dictionary_c", "dictionary_delta_b", "indices_0",
             "indices_1_0", "indices_of_Int16", "dictionary_of_Int16"):
    message(name)
INDICES = ("Int8", "Int16", "Int32", "Int64", "UInt8", "UInt16", "UInt32", "UInt64")
for name in (*(f"{part}_of_{of}" for of in INDICES if of not in ("Int8", "Int16") for part in ("schema", "dictionary", "indices")),
             "dictionary_of_Int8", "indices_of_Int8", "dictionary_x_null", "indices_0_1_null", "dictionary_x_x", "indices_0_1",
             "dictionary_empty", "indices_null", "schema_of", "dictionary_0", "dictionary_0_b_a", "dictionary_0_none", "indices_of_default",
             "indices_of_default_null", "schema_of_two", "dictionary_2", "indices_two", "schema_Date", "schema_Date_full", "batch_Date",
             "schema_Int32", "batch_Int32", "schema_Timestamp", "batch_Timestamp"):
    message(name)
payload("no_field", b"")
payload("cut", bytes.fromhex("12 05 00"))
payload("descriptor", bytes.fromhex("0A 02 08 02"))
TWO = "schema_Int64 batch_Int64_two"
join([TWO + DONE], INT64 + "1,;2,;")
join(["schema_Int64" + DONE], INT64)
join(["schema_Int64 empty_Int64" + DONE], INT64)
join(["schema_Int64 validity_Int64_7 batch_Int64_two" + DONE], INT64 + "null,;2,;1,;2,;")
join([TWO + DONE, "schema_Int64 validity_Int64_7" + DONE, TWO + DONE], INT64 + "1,;2,;null,;2,;1,;2,;")
join(["schema_Int64 validity_Int64_7" + DONE, "schema_Int64" + DONE, TWO + DONE], INT64 + "null,;2,;1,;2,;")
join(["schema_Int64" + DONE, "schema_Int64_packed batch_Int64_two" + DONE], INT64 + "1,;2,;")
join(["schema_Utf8 batch_Utf8" + DONE] * 2, UTF8 + '"ab",;null,;"",;"ab",;null,;"",;')
join([TWO + DONE] * 64, INT64 + "1,;2,;" * 64)

note("a status that ends a stream, and none")
join([TWO + " = 0 F20 ResultTooLarge"], INT64 + "1,;2,;")
join([TWO + " = 8 F20 ResultTooLarge"], "F20 ResultTooLarge")
join([TWO + " = 3 F13 BadSql at byte 25"], "F13 BadSql at byte 25")
join([TWO + " = 3 F20 ResultTooLarge"], "F1 BadFrame")
join([TWO + " = 2 "], "F1 BadFrame")
join([" = 0"], "F8 BadBatch")
join([" = 5 F18 VersionUnknown"], "F18 VersionUnknown")
join([TWO], "F22 Transport")
join(["schema_Int64"], "F22 Transport")
ask("join ", "F8 BadBatch")

note("the first fault of a stream, before schemas that differ")
OTHER, LATE = "schema_Utf8 batch_Utf8" + DONE, TWO + " = 8 F20 ResultTooLarge"
join([TWO + DONE, OTHER], "F11 SchemaMismatch")
join([TWO + DONE, OTHER, LATE], "F20 ResultTooLarge")
join([TWO + " = 5 F18 VersionUnknown", OTHER, LATE], "F18 VersionUnknown")
join([LATE, TWO + " = 5 F18 VersionUnknown"], "F20 ResultTooLarge")
join([TWO + DONE, " = 0", OTHER], "F8 BadBatch")
join([TWO + DONE, TWO, LATE], "F22 Transport")
join([TWO + DONE, TWO + DONE, OTHER], "F11 SchemaMismatch")
join([TWO + DONE, "schema_Int64_full" + DONE], "F11 SchemaMismatch")
join([TWO + DONE, "schema_UInt64" + DONE], "F11 SchemaMismatch")
join([TWO + DONE, "schema_two" + DONE], "F11 SchemaMismatch")

note("dictionaries: each batch keeps its own, and each stream has its own")
K = "k Dictionary(DictionaryEncoding { id: 1, index: Int8 }) or null; "
FRONT = "schema_of_Int8 dictionary_a indices_0"
join([FRONT + " dictionary_delta_b indices_1_0 dictionary_c indices_0" + DONE], K + '"a",;"b",;"a",;"c",;')
join([FRONT + DONE, "schema_of_Int8 dictionary_c indices_0" + DONE], K + '"a",;"c",;')
join([FRONT + DONE, "schema_of_Int8 indices_0" + DONE], "F8 BadBatch, " + K + '"a",;')
join([FRONT + DONE, "schema_of_Int8_full" + DONE], "F11 SchemaMismatch")
join([FRONT + DONE, "schema_of_Int16" + DONE], K + '"a",;')

note("dictionaries of every index type: index 0, a null, and the last one, of 256 values")
ALL_OF = [f"schema_of_{name} dictionary_of_{name} indices_of_{name}" + DONE for name in INDICES]
SAID = [f'"",;null,;"{"" if name == "Int8" else "z"}",;' for name in INDICES]
for number, (name, stream, said) in enumerate(zip(INDICES, ALL_OF, SAID), 1):
    join([stream], f"k Dictionary(DictionaryEncoding {{ id: {number}, index: {name} }}) or null; {said}")
join(ALL_OF, K + "".join(SAID))
join(ALL_OF[::-1], "k Dictionary(DictionaryEncoding { id: 8, index: UInt64 }) or null; " + "".join(SAID[::-1]))

note("a null in the dictionary, a text that stands twice in it, and none")
join(["schema_of_Int8 dictionary_x_null indices_0_1_null dictionary_x_x indices_0_1" + DONE], K + '"x",;null,;null,;"x",;"x",;')
join([FRONT + " dictionary_empty indices_null indices_0" + DONE], "F8 BadBatch, " + K + '"a",;null,;null,;')

note("as they are answered: right before each batch a dictionary of its own, with indices of 32 bits, in the place of the one before")
OWN = "k Dictionary(DictionaryEncoding { id: 0, index: Int32 }) or null; "
B_A, A_B = "dictionary_0_b_a indices_of_default", "dictionary_0 indices_of_default"
join([f"schema_of {B_A} {A_B}" + DONE], OWN + '"a",;"b",;"b",;"a",;')
join([f"schema_of {B_A}" + DONE, f"schema_of {A_B} dictionary_0_none indices_of_default_null" + DONE], OWN + '"a",;"b",;"b",;"a",;null,;')
TWO_OF = 'k Dictionary(DictionaryEncoding { id: 1, index: Int8 }) or null;l Dictionary(DictionaryEncoding { id: 2, index: UInt16 }) or null; '
join(["schema_of_two dictionary_a dictionary_2 indices_two dictionary_c dictionary_2 indices_two" + DONE],
     TWO_OF + '"a",null,;"a","q",;"c",null,;"c","q",;')

note("dates: numbers of days, and another type than numbers are")
D = "a Date or null; "
join(["schema_Date batch_Date" + DONE, "schema_Date" + DONE], D + "8766,;null,;-719163,;-2147483648,;2147483647,;")
join(["schema_Date batch_Date" + DONE, "schema_Int32 batch_Int32" + DONE], "F11 SchemaMismatch")
join(["schema_Int32 batch_Int32" + DONE, "schema_Date" + DONE], "F11 SchemaMismatch")
join(["schema_Date batch_Date" + DONE, "schema_Date_full" + DONE], "F11 SchemaMismatch")
join(["schema_Timestamp batch_Timestamp" + DONE, "schema_Timestamp" + DONE],
     "a Timestamp(Microsecond, false) or null; 1714564800250000,;null,;-1,;-62135596800000000,;-62135596800000001,;253402300799999999,;"
     "-9223372036854775808,;9223372036854775807,;")
join(["schema_Timestamp batch_Timestamp" + DONE, "schema_Int64 batch_Int64" + DONE], "F11 SchemaMismatch")
join(["schema_Int64 batch_Int64" + DONE, "schema_Timestamp" + DONE], "F11 SchemaMismatch")
join(["schema_Time_Millisecond batch_Time_Millisecond" + DONE], "a Time(Millisecond) or null; -2147483648,;null,;86399999,;")
join(["schema_Duration_Second batch_Duration_Second" + DONE],
     "a Duration(Second) or null; -9223372036854775808,;null,;1714564800250000,;9223372036854775807,;")
join(["schema_Timestamp_zone_UTC batch_Timestamp_full" + DONE, "schema_Timestamp_zone_Paris" + DONE],
     "a Timestamp(Microsecond, true) or null; 0,;-1,;")
join(["schema_Timestamp_zone_UTC" + DONE, "schema_Timestamp" + DONE], "F11 SchemaMismatch")
join(["schema_Timestamp_Second" + DONE, "schema_Timestamp_Millisecond" + DONE], "F11 SchemaMismatch")
join(["schema_Time_Second" + DONE, "schema_Time_Millisecond" + DONE], "F11 SchemaMismatch")
join(["schema_Duration_Second" + DONE, "schema_Timestamp_Second" + DONE], "F11 SchemaMismatch")

note("a payload that is refused leaves its stream as it was")
join(["schema_Int64 bad_data_short_Int64 batch_Int64_two" + DONE], "F8 BadBatch, " + INT64 + "1,;2,;")
join(["bad_version_V4 schema_Int64 schema_Int64 batch_Int64_two" + DONE], "F7 UnsupportedArrow, F8 BadBatch, " + INT64 + "1,;2,;")
join(["batch_Int64_two schema_Int64 batch_Int64_two" + DONE], "F8 BadBatch, " + INT64 + "1,;2,;")
join(["schema_Int64 cut batch_Int64_two" + DONE], "F4 BadProto, " + INT64 + "1,;2,;")
join(["schema_Int64 no_field batch_Int64_two" + DONE], "F6 BadFlatbuffer, " + INT64 + "1,;2,;")
join(["descriptor schema_Int64 batch_Int64_two" + DONE], "F6 BadFlatbuffer, " + INT64 + "1,;2,;")
join(["schema_Int64 bad_header_absent batch_Int64_two batch_Utf8" + DONE], "F8 BadBatch, F8 BadBatch, " + INT64 + "1,;2,;")
join(["bad_version_V4" + DONE], "F7 UnsupportedArrow, F8 BadBatch")
join(["bad_version_V4 = 3 F17 BadTicket"], "F7 UnsupportedArrow, F17 BadTicket")

rooms.write("streams", LINES, ANSWERS)
