#!/usr/bin/env python3
"""Writes the room "puts" of crates/call_cases: a script of puts and fetches, and what each is answered.
Needs protoc and flatc (see README.md)."""
import importlib.util
import json
import pathlib
import sys
import tempfile

sys.dont_write_bytecode = True
HERE = pathlib.Path(__file__).parent
ARROW, FLIGHT = HERE.parent / "arrow", HERE.parent / "flight"
sys.path += [str(HERE.parent), str(ARROW)]
import cases
import rooms
from literals import dots


def script_of(name, path):
    spec = importlib.util.spec_from_file_location(name, path)
    module = importlib.util.module_from_spec(spec)
    spec.loader.exec_module(module)
    return module


arrow, flight = script_of("arrow_make", ARROW / "make.py"), script_of("flight_make", FLIGHT / "make.py")

# Messages that arrow/ does not have: each a schema, or a batch and its body. A body that is left out stands in the
# script, behind the payload's own bytes.
INT8, INT64 = cases.integer(8, True), cases.I64
TWO_TEXTS = [(0, 0), (0, 12), (16, 65538)]
OWN = {
    "ten_FB01": cases.counting(10, "FB 01", 1),
    "long_texts": cases.placed(200, [(200, 0)], [(0, 0), (0, 804), (808, 13107200)], claimed=13108008),
    "schema_k": (cases.schema(cases.field("k", INT8)), b""),
    "k_1_null": cases.batch(2, (1, "FD", "01 00")),
    "a_1_null_3": cases.batch(3, (1, "FD", "01" + "00" * 15 + "03" + "00" * 7)),
    "schema_a_b": (cases.schema(cases.field("a", INT64), cases.field("b", INT64)), b""),
    "a_3_b_null": cases.batch(1, (0, "", "03" + "00" * 7), (1, "FE", "00" * 8)),
    "schema_a_a_full": (cases.schema(cases.field("a", INT64), cases.field("a", INT64, False)), b""),
    "zeros": cases.placed(70000, [(70000, 0)], [(0, 0), (0, 560000)], claimed=560000),
    "two_texts": cases.placed(2, [(2, 0)], TWO_TEXTS, claimed=65560),
    "null_and_text": cases.placed(2, [(2, 1)], [(65560, 1), (0, 12), (16, 65538)], claimed=65568),
    "texts_of_65536": cases.placed(2, [(2, 0)], [(0, 0), (0, 12), (16, 65537)], claimed=65560),
    "long_dictionary": cases.dictionary(1, cases.placed(2, [(2, 0)], TWO_TEXTS, claimed=65560)),
    "dictionary_of_200": cases.dictionary(5, cases.placed(200, [(200, 0)], [(0, 0), (0, 804), (808, 13107200)], claimed=13108008)),
    "indices_of_200": cases.batch(200, (0, "", bytes(range(200)))),
}
# The cases of arrow/index.txt that are put, by how their names begin.
CHOSEN = ("schema_", "batch_", "validity_", "buffers_", "body_", "empty_", "indices_", "all_batch_", "bad_compression",
          "bad_indices_of_", "bad_offsets_", "bad_validity_")
LAYOUTS = ("_defaults", "_packed", "_spread")  # of these a put has those alone that stand behind one another
INTEGERS = {name for name, *_ in cases.INTS}
FAULTS = {"F4": "BadProto", "F5": "UnknownCommand", "F6": "BadFlatbuffer", "F7": "UnsupportedArrow", "F8": "BadBatch",
          "F9": "TableMissing", "F10": "TableExists", "F11": "SchemaMismatch", "F12": "LimitReached",
          "F16": "NotInSubset", "F17": "BadTicket", "F18": "VersionUnknown"}
OPTIONS = {"create": "if_not_exist: 1", "append": "if_exists: 2", "replace": "if_exists: 3", "fail": "if_not_exist: 2 if_exists: 1",
           "create_append": "if_not_exist: 1 if_exists: 2", "create_replace": "if_not_exist: 1 if_exists: 3", "present_fail": "if_exists: 1"}

LINES, ANSWERS, NAMES = [], [], {}

# ---- bytes


def varint(number):
    parts = []
    while number > 127:
        parts.append(number & 127 | 128)
        number >>= 7
    return bytes([*parts, number])


def any_of(message, value):
    return f'type_url: "type.googleapis.com/arrow.flight.protocol.sql.{message}" value: {flight.quoted(value)}'


def command(table, options):
    """The FlightData of a put's command alone, as protoc writes it."""
    said = flight.compiled("CommandStatementIngest", f"table_definition_options {{ {options} }} table: {flight.quoted(table)}")
    packed = flight.compiled("Any", any_of("CommandStatementIngest", said))
    return flight.compiled("FlightData", f"flight_descriptor {{ type: CMD cmd: {flight.quoted(packed)} }}")


def payload(header, body):
    """The FlightData that protoc writes of a message."""
    text = f"data_header: {flight.quoted(header)}" + (f" data_body: {flight.quoted(body)}" if body else "")
    return flight.compiled("FlightData", text)


def message(folder, name):
    if name in OWN:
        tree, body = OWN[name]
        return payload(arrow.compiled(folder, tree), body)
    body = ARROW / f"{name}.body"
    return payload((ARROW / f"{name}.header").read_bytes(), body.read_bytes() if body.exists() else b"")


def ticket_of(handle):
    said = flight.compiled("TicketStatementQuery", f"statement_handle: {flight.quoted(handle)}")
    packed = flight.compiled("Any", any_of("TicketStatementQuery", said))
    return flight.compiled("Ticket", f"ticket: {flight.quoted(packed)}")


def handle(version, begin, end, query):
    return b"\x01" + version.to_bytes(8, "big") + begin.to_bytes(4, "big") + end.to_bytes(4, "big") + query.encode()


def ticket(version, begin, end, query="SELECT * FROM t"):
    return dots(ticket_of(handle(version, begin, end, query)))


def long_ticket(end, *pieces):
    """A ticket of rows 0 up to, not with, `end`, whose query is pieces, each a text and how often it stands."""
    query = "SELECT a FROM t WHERE " + "".join(text * times for text, times in pieces)
    whole = ticket_of(handle(1, 0, end, query))
    front = whole[:len(whole) - len(query) + len("SELECT a FROM t WHERE ")]
    assert whole.endswith(query.encode())
    return "+".join([dots(front), *(f"{times}*{dots(text.encode())}" for text, times in pieces if text and times)])


def changed(data, *changes):
    data = bytearray(data)
    for place, byte in changes:
        data[place] = byte
    return bytes(data)


# ---- lines and their answers


def ask(line, answer=None):
    LINES.append(line)
    if answer is not None:
        ANSWERS.append(answer)


def note(text):
    ask(f"# {text}", f"# {text}")


def log(*puts):
    """An empty log, and puts of so many rows each."""
    ask("log", "log")
    for rows, words in puts:
        put(words, rows)


def fault(number):
    return f"{number} {FAULTS[number]} 0"


def put(words, rows):
    """A put of so many rows, or its fault."""
    count = b"" if rows == 0 else b"\x08" + varint(rows) if isinstance(rows, int) else b""
    said = b"\x0a" + varint(len(count)) + count if count else b""
    ask(f"put {words}", fault(rows) if isinstance(rows, str) else f"bytes {said.hex()}")


def fetch(word, answer, how="fetch"):
    ask(f"{how} {word}", fault(answer) if answer in FAULTS else answer)


def named(name, data):
    NAMES[name] = data
    ask(f"bytes {name} {data}")


# What a put is answered, from the answers by hand of arrow/index.txt.


def coded(number):
    """The type as which a dictionary of texts is answered: its id is the column's number, and its indices have 32 bits."""
    return f"Dictionary(DictionaryEncoding {{ id: {number}, index: Int32 }})"


def told(columns, rows):
    """The columns of an answer, and its rows."""
    fields = ""
    for number, (name, of, nullable) in enumerate(columns):
        answered = f"Integer({of})" if of in INTEGERS else coded(number) if of.startswith("dictionary") else of
        fields += f"{name} {answered}{' or null' * nullable};"
    cells = [[f'"{cell}"' if isinstance(cell, str) else json.dumps(cell) for cell in row] for row in rows]
    return fields, [",".join(row) + ";" for row in cells]


def put_answer(columns, rows):
    """A put refuses two columns of one name, and a null where none may be, which the reader of messages does not."""
    if len({name for name, *_ in columns}) < len(columns):
        return "F11", []
    if any(cell is None and not nullable for row in rows for cell, (_, _, nullable) in zip(row, columns)):
        return "F8", []
    return told(columns, rows)


def chosen():
    """The messages of each put, and what is then answered. No refused message stands in front of the last one."""
    lines = [line.split("\t")[:3] for line in (ARROW / "index.txt").read_text().splitlines()]
    alone = {name: answer for name, answer, before in lines if not before}
    refused = {(name, before) for name, answer, before in lines if name.startswith("dictionary_") and answer in FAULTS}
    batches = {name for name, answer, _ in lines if answer.startswith("rows")}
    found = {}
    for name, answer, before in lines:
        words = before.split()
        messages, schema = " ".join([*words, name]), alone.get([*words, name][0], "")
        kind, _, rest = answer.partition(" ")
        if (not name.startswith(CHOSEN) or name == "schema_name_odd" or not schema.startswith("schema")
                or any(one.startswith("bad_") or (one, words[0]) in refused for one in words)
                or kind == "rows" and batches & set(words) or kind != "total" and name.endswith(LAYOUTS)):
            continue
        columns = json.loads(schema.partition(" ")[2])
        if kind in FAULTS:
            found[messages] = kind, []
        elif messages not in found:
            found[messages] = put_answer(columns, [] if kind == "schema" else json.loads(rest))
    return found


def all_puts(puts):
    note("every put of messages of other tools, and a fetch of all its rows")
    for messages, (columns, rows) in puts.items():
        log()
        if columns in FAULTS:
            put(f"create+{messages}", columns)
            fetch("all_0", "F18")
        else:
            put(f"create+{messages}", len(rows))
            fetch(f"all_{len(rows)}", f"{columns} {''.join(rows)}")


A = "a Integer(Int64) or null;"


def own_puts():
    schema, batch = (FLIGHT / "put_schema.bin").read_bytes(), (FLIGHT / "put_batch.bin").read_bytes()
    two = (2, "create+schema_Int64 batch_Int64_two")
    note("the first run, and what refuses a put")
    named("first", dots(schema))
    named("second", dots(batch))
    log((2, "first second"), ("F10", "first second"))
    fetch(dots((FLIGHT / "ticket.bin").read_bytes()), f"{A} 1;2;")
    for front in (["first second"], []):
        log()
        for words in front:
            put(words, 2)
        put(f"{dots(changed(schema, (0, 0x0B)))} second", "F4")
        put("", "F5")
        put("schema_Int64", "F5")
        put("fail+schema_Int64 batch_Int64_two", "F10" if front else "F9")
        put("present_fail+schema_Int64 batch_Int64_two", "F10" if front else "F9")
        put(f"{dots(changed(schema, (81, 3)))} second", "F4")
        put(f"{dots(changed(schema, (87, 0xFF)))} second", "F6")
    note("the log: a put behind a refused one makes the next version")
    log(("F9", "append+schema_Int64 batch_Int64_two"), two, (2, "append+schema_Int64 batch_Int64_two"), ("F10", two[1]))
    fetch(ticket(2, 1, 4), f"{A} 2;1;2;")
    fetch(ticket(1, 0, 2), f"{A} 1;2;")
    fetch(ticket(3, 0, 2), "F18")
    three = "schema_Utf8 batch_Utf8 batch_Utf8_null_bytes bad_offsets_outside"
    log((3, "create+schema_Utf8 batch_Utf8"), ("F8", f"append+{three}"), ("F8", f"replace+{three}"))
    fetch(ticket(1, 0, 4), "F17")
    fetch(ticket(2, 0, 0), "F18")
    put("append+schema_Utf8 batch_Utf8 batch_Utf8_null_bytes", 6)
    fetch(ticket(1, 0, 3), 'a Utf8 or null; "ab";null;"";')
    fetch(ticket(2, 0, 9), 'a Utf8 or null; "ab";null;"";"ab";null;"";"a";null;"b";')
    fetch(ticket(3, 0, 0), "F18")
    for place, byte, number in [(20, 0xFF, "F6"), (32, 3, "F7"), (34, 4, "F7"), (24, 0x18, "F8"), (56, 3, "F8"), (72, 3, "F8"),
                                (80, 1, "F8"), (92, 1, "F8"), (119, 0x80, "F8"), (120, 0x18, "F8"), (120, 8, "F8")]:
        log((number, f"first {dots(changed(batch, (place + 3, byte)))}"), (2, "first second"))
        fetch("all_2", f"{A} 1;2;")
        fetch(ticket(2, 0, 0), "F18")
    note("beginnings of a schema's header: its first 105 bytes say the schema, and no fewer do")
    for size in range(1, 113):
        log(("F6" if size < 105 else 0, dots(changed(schema[:87 + size], (86, size)))))
    note("what the options and the limits of a put refuse, and the order of the first faults")
    tables = {"": "F12", "a" * 65: "F12", "a" * 64: 0, "u": "F9"}
    for table, number in tables.items():
        log(two)
        put(f"{dots(command(table.encode(), OPTIONS['fail' if number != 0 else 'create']))}+schema_Int64_full", number)
    log(two, ("F11", "append+schema_Int64_full"), (0, "replace+schema_Int64_full"), (0, "append+schema_Int64_full"))
    log(two, ("F11", "append+schema_Int32"), ("F11", "append+schema_k"), ("F11", "append+schema_a_b"), (0, "append+schema_Int64"))
    log((0, "create+schema_Int32"), ("F11", "append+schema_Date"), (0, "append+schema_Int32"))
    log((0, "create+schema_Date"), ("F11", "append+schema_Int32"), (0, "append+schema_Date"))
    log((0, "create+schema_Int64"), ("F11", "append+schema_Timestamp"), (0, "append+schema_Int64"))
    log((0, "create+schema_Timestamp"), ("F11", "append+schema_Int64"), ("F11", "append+schema_Date"),
        ("F11", "append+schema_Timestamp_Nanosecond"), ("F7", "replace+bad_type_Timestamp_unit"), (0, "append+schema_Timestamp"))
    log((0, "create+schema_Timestamp"), ("F11", "append+schema_Timestamp_zone_UTC"), (0, "append+schema_Timestamp_zone_0"))
    log((0, "create+schema_Timestamp_zone_UTC"), ("F11", "append+schema_Timestamp"), (0, "append+schema_Timestamp_zone_Paris"))
    log((0, "create+schema_Time_Second"), ("F11", "append+schema_Time_Millisecond"), ("F11", "append+schema_Int32"), (0, "append+schema_Time_Second"))
    log((0, "create+schema_Duration_Second"), ("F11", "append+schema_Duration_Millisecond"), ("F11", "append+schema_Timestamp_Second"),
        ("F11", "append+schema_Int64"), (0, "append+schema_Duration_Second"))
    log(("F11", "create+schema_equal_names"), ("F11", "create+schema_a_a_full a_3_b_null"))
    body = long_bodies()
    log(two, ("F10", f"create+schema_Utf8_full null_and_text+{body['null_and_text']}"),
        ("F11", f"append+schema_Utf8_full null_and_text+{body['null_and_text']}"),
        ("F8", f"replace+schema_Utf8_full null_and_text+{body['null_and_text']}"),
        ("F12", f"replace+schema_Utf8 null_and_text+{body['null_and_text']}"))
    log(("F12", f"create+schema_Utf8 two_texts+{body['two_texts']}"), (2, f"create+schema_Utf8 texts_of_65536+{body['texts_of_65536']}"))
    indices = "schema_of_Int8 long_dictionary+" + body["long_dictionary"]
    log(("F12", f"create+{indices} indices_1"), (1, f"create+{indices} indices_0"))
    log((3, "create+schema_of_Int8 dictionary_of_Int8 indices_of_Int8"), (3, "append+schema_of_UInt8 dictionary_of_UInt8 indices_of_UInt8"),
        ("F11", "append+schema_Utf8 batch_Utf8"))


def long_bodies():
    """The bodies that are left out, each behind its tag and its length."""
    def behind(claimed, *pieces):
        return "+".join([dots(b"\xc2\x3e" + varint(claimed)), *pieces])

    def offsets(*ends):
        return dots(b"".join(end.to_bytes(4, "little") for end in ends) + bytes(-4 * len(ends) % 8))

    return {
        "two_texts": behind(65560, offsets(0, 1, 65538), "65538*61", "6*."),
        "null_and_text": behind(65568, offsets(0, 1, 65538), "65538*61", "6*.", "02", "7*."),
        "texts_of_65536": behind(65560, offsets(0, 1, 65537), "65537*61", "7*."),
        "long_dictionary": behind(65560, offsets(0, 1, 65538), "65538*61", "6*."),
        "long_texts": behind(13108008, offsets(*(65536 * place for place in range(201))), "12800*kilobyte"),
        "texts_apart": behind(13108008, offsets(*(65536 * place for place in range(201))),
                              *(piece for place in range(200) for piece in ("63*kilobyte", "1021*78", (b"%03d" % place).hex()))),
        "zeros": behind(560000, "560000*."),
    }


def fetches():
    two = (2, "create+schema_Int64 batch_Int64_two")
    whole = (FLIGHT / "ticket.bin").read_bytes()
    note("what refuses a fetch")
    log(two)
    for changes, answer in [([(0, 0x0B)], "F4"), ([(2, 0x0B)], "F17"), ([(74, 3)], "F17"), ([(82, 9)], "F18"), ([(82, 0)], "F17"),
                            ([(90, 3)], "F17"), ([(86, 2), (90, 1)], "F17"), ([(86, 2)], f"{A} "), ([(91, ord("s"))], f"{A} 1;2;"),
                            ([(91, ord("T"))], "F17"), ([(105, ord("u"))], "F17"), ([(90, 0)], f"{A} ")]:
        fetch(dots(changed(whole, *changes)), answer)
    for bad, number in [(b"", "F17"), (b"\x01", "F17"), (handle(1, 0, 0, "")[:16], "F17"), (b"\x02" + bytes(7) + b"\x01\x00", "F17"),
                        (handle(1, 0, 0, "")[:17] + b"\xff", "F17"), (handle(2 ** 64 - 1, 0, 2, "SELECT * FROM t"), "F18")]:
        fetch(dots(ticket_of(bad)), number)
    lists()
    note("queries over the rows 1, 2, null and 2")
    log((4, "create+schema_Int64 validity_Int64_0 validity_Int64_7"))
    for (begin, end), query, rows in [
            ((0, 4), "SELECT * FROM t", "1;2;null;2;"), ((0, 4), "SELECT a FROM t WHERE a BETWEEN 1 AND 2", "1;2;2;"),
            ((0, 4), "SELECT a FROM t WHERE 2 NOT IN (1, a)", "1;"), ((0, 4), "SELECT a FROM t WHERE NOT a = 2", "1;"),
            ((0, 4), "SELECT a FROM t WHERE a IS NULL", "null;"), ((0, 4), "SELECT a FROM t WHERE a IS NULL IS NOT TRUE", "1;2;2;"),
            ((0, 1), "SELECT a FROM t WHERE a = 2", ""), ((1, 2), "SELECT a FROM t WHERE a = 2", "2;"),
            ((2, 4), "SELECT a FROM t WHERE a = 2", "2;"), ((3, 4), "SELECT x.a FROM t x", "2;"), ((2, 2), "SELECT a FROM t", "")]:
        fetch(ticket(1, begin, end, query), f"{A} {rows}")
    fetch(ticket(1, 0, 4, "SELECT a, a FROM t WHERE a = 1;"), f"{A}{A} 1,1;")
    fetch(ticket(1, 0, 1, "SELECT a AS b FROM t"), "b Integer(Int64) or null; 1;")
    fetch(ticket(1, 0, 1, 'SELECT a, a AS "A" FROM t'), f"{A}A Integer(Int64) or null; 1,1;")
    for query in ["", "SELECT a FROM", "SELECT a FROM t,", "SELECT a FROM t ORDER BY a", "SELECT a FROM t WHERE a =", "SELECT a,, b FROM t",
                  "SELECT a FROM t WHERE a BETWEEN 1 2", "SELECT a FROM t WHERE a + 1 = 2", "SELECT a FROM t WHERE 'x", "SELECT a FROM t;;",
                  "SELECT a FROM t WHERE a = --1", "SELECT a FROM t WHERE a", "SELECT * FROM u", "SELECT b FROM t", "SELECT A FROM t",
                  "SELECT a FROM t WHERE a = 'x'"]:
        fetch(ticket(1, 0, 4, query), "F17")
    fetch(ticket(1, 0, 4, "SELECT COUNT(*) FROM t"), "col1 Integer(Int64); 4;")
    fetch(ticket(1, 0, 4, "SELECT t.a FROM t JOIN t u ON t.a = u.a"), f"{A} 1;2;2;2;2;")
    fetch(ticket(1, 2, 1, "SELECT a FROM t"), "F17")
    fetch(ticket(1, 0, 5, "SELECT a FROM t WHERE a = 1"), "F17")
    long_queries()
    other_queries()


def lists():
    note("the list of tables, at each version")
    log((0, "create+schema_Int64_full"), (0, f"{dots(command(b'a', OPTIONS['create']))}+schema_Int64_full"), (0, "replace+schema_Int64_full"))
    columns = "catalog_name Utf8 or null;db_schema_name Utf8 or null;table_name Utf8;table_type Utf8; "
    a, t = 'null,null,"a","TABLE";', 'null,null,"t","TABLE";'
    for version, answer in enumerate([columns, columns + t, columns + a + t, columns + a + t, "F18"]):
        fetch(dots(ticket_of(b"\x02" + version.to_bytes(8, "big"))), answer)


def long_queries():
    note("queries of up to 16,384 bytes, and one of a byte more")

    def chain(first, each, last):
        room = 16384 - len("SELECT a FROM t WHERE ") - len(first) - len(last)
        return long_ticket(4, (first, 1), (each, room // len(each)), (last, 1))

    fetch(chain("a=2", " OR a=3", " OR a=1"), f"{A} 1;2;2;")
    fetch(chain("a<>1", " AND a<>3", " AND a>0"), f"{A} 2;2;")
    fetch(chain("a=1 AND a=1", " OR a=2 AND a=1", " OR a=2 AND a=2"), f"{A} 1;2;2;")
    around = "a=3 OR a=3 OR a=3 OR a=3 OR a<>3 AND a<>3 AND a<>3 AND ("
    for opened, closed in [("(", ")"), ("(", " OR a=3 OR a=3 OR a=3 OR a=3) AND a<>3 AND a<>3 AND a<>3 AND a<>3"), (around, ")"),
                           (around, ") IS TRUE"), ("NOT ", " AND a<>3 AND a<>3 AND a<>3 AND a<>3")]:
        fetch(long_ticket(4, (opened, 64), ("a=1", 1), (closed, 64)), f"{A} 1;")
    for word, times, last, answer in [("NOT ", 64, "a = 1", f"{A} 1;"), ("NOT ", 65, "a = 1", "F17"), ("(", 65, "a = 1", "F17"),
                                      ("(", 16362, "", "F17"), (" ", 16357, "a = 1", f"{A} 1;"), (" ", 16358, "a = 1", "F17")]:
        fetch(long_ticket(2, (word, times), (last, 1)), answer)


def other_queries():
    note("queries over other tables")
    small, three, two = "schema_k k_1_null", "schema_Int64 a_1_null_3", "schema_a_b a_3_b_null"
    k, b = "k Integer(Int8) or null;", "b Integer(Int64) or null;"
    for words, rows, query, answer in [
            (small, 2, "SELECT k FROM t WHERE NOT (k < 1000)", f"{k} "), (small, 2, "SELECT k FROM t WHERE k < 1000", f"{k} 1;"),
            (three, 3, "SELECT a FROM t WHERE a NOT IN (1)", f"{A} 3;"), (three, 3, "SELECT a FROM t WHERE (a = 1) IS UNKNOWN", f"{A} null;"),
            (two, 1, "SELECT a FROM t WHERE a NOT IN (1, b)", f"{A} "), (two, 1, "SELECT a FROM t WHERE a IN (1, b, 3)", f"{A} 3;"),
            (two, 1, "SELECT b, a, b FROM t", f"{b}{A}{b} null,3,null;"),
            ("schema_Bool batch_Bool", 4, "SELECT a FROM t WHERE a = TRUE", "a Bool or null; true;true;"),
            ("schema_of_Int8 dictionary_x_null indices_0_1_null", 3, "SELECT k FROM t WHERE k >= 'x'", f'k {coded(0)} or null; "x";'),
            ("schema_of_Int8 dictionary_x_null indices_0_1_null", 3, "SELECT k AS a, k AS b FROM t WHERE k IS NULL",
             f"a {coded(0)} or null;b {coded(1)} or null; null,null;null,null;")]:
        log((rows, f"create+{words}"))
        fetch(ticket(1, 0, rows, query), answer)
    note("a column of another name in each version, a delimited name with a quote in it, and a comment")
    first = (FLIGHT / "put_schema.bin").read_bytes()
    log((2, "first second"), (2, f"{dots(changed(first, (80, 0x10), (81, 3), (171, ord('b'))))} second"))
    for version, name, answer in [(1, "a", f"{A} 1;2;"), (1, "b", "F17"), (2, "a", "F17"), (2, "b", f"{b} 1;2;")]:
        fetch(ticket(version, 0, 2, f"SELECT {name} FROM t"), answer)
    log((2, f"{dots(changed(first, (167, 3), (172, 34), (173, ord('b'))))} second"))
    fetch(ticket(1, 0, 2, 'select "a""b" from t -- c'), 'a"b Integer(Int64) or null; 1;2;')


def cuts():
    note("a range is answered behind bits of its own: ten rows with nulls at 2 and 9, whatever stands past them")
    for words in ("schema_Int8 ten_FB01", "schema_Int8 validity_10_FBFD"):
        log((10, f"create+{words}"))
        fetch(ticket(1, 0, 10), "fb01", "bits")
        fetch(ticket(1, 2, 10), "7e00", "bits")
        fetch(ticket(1, 2, 10), "a Integer(Int8) or null; null;4;5;6;7;8;9;null;")
    note("a message has at most 65,536 cells, and a body of at most 8,388,608 bytes")
    body = long_bodies()
    log((70000, f"create+schema_Int64 zeros+{body['zeros']}"))
    fetch(ticket(1, 0, 70000), "65536 4464 ", "cut")
    log((200, f"create+schema_Utf8 long_texts+{body['long_texts']}"))
    fetch(ticket(1, 0, 200), "100 100 ", "cut")
    note("and so have the body of a batch and those of its dictionaries together: 200 texts of 65,536 bytes, and one that stands 200 times")
    for name, answer in (("texts_apart", "100 100 "), ("long_texts", "200 ")):
        log((200, f"create+schema_of_UInt8 dictionary_of_200+{body[name]} indices_of_200"))
        fetch(ticket(1, 0, 200), answer, "cut")


# Large columns of 70,000 slots, the first 35,000 alike and the others alike: the type, what is sent, and the answer.
HALF, BITS = 35000, ("4375*ff", "4375*.")
WIDTHS = {"Int8": 1, "UInt64": 8}  # the narrowest and the widest: one layout has them all


def large_columns():
    """Of each a schema, messages and buffers by their pieces with how many bytes each buffer has, and the two rows."""
    found = []
    for name, width in WIDTHS.items():
        low = (-5 if name.startswith("I") else 5, 7)
        parts = [f"{HALF}*{dots(number.to_bytes(width, 'little', signed=number < 0))}" for number in low]
        found.append((f"schema_{name}", "", [(8750, BITS[:1] * 2), (70000 * width, parts)], low))
    flags = [(8750, ("8750*ff",)), (8750, BITS)]
    found.append(("schema_Bool", "", flags, ("true", "false")))
    found.append(("schema_Int64", "", [(8750, BITS), (560000, (f"{HALF}*05.......", f"{HALF}*........"))], (5, "null")))
    decimal = [f"{HALF}*{dots(number.to_bytes(16, 'little', signed=True))}" for number in (-3, 10 ** 20)]
    found.append(("schema_Decimal128", "", [(8750, ("8750*ff",)), (1120000, decimal)], (-3, 10 ** 20)))
    texts = [(8750, ("8750*ff",)), (280004, ("70001/3",)), (210000, (f"{HALF}*616263", f"{HALF}*78797a"))]
    found.append(("schema_Utf8", "", texts, ('"abc"', '"xyz"')))
    return found


def large():
    """Each is put once and fetched over all rows and over a range of them."""
    note("70,000 rows of each layout, more than a message of an answer has, and each row is compared")
    for number, (schema, front, buffers, rows) in enumerate(large_columns()):
        rows = [str(row) for row in rows]
        log((70000, f"create+{schema} large_{number}+{large_body(buffers)}"))
        fetch(ticket(1, 0, 70000), f"{HALF}*{rows[0]};{HALF}*{rows[1]};", "runs")
        fetch(ticket(1, 34999, 35002), f"1*{rows[0]};2*{rows[1]};", "runs")
    log((70000, f"create+schema_of_Int8 dictionary_x_y large_indices+{large_body(INDICES)}"))
    fetch(ticket(1, 0, 70000), f'{HALF}*"x";{HALF}*"y";', "runs")
    fetch(ticket(1, 34999, 35002), '1*"x";2*"y";', "runs")


INDICES = [(0, ()), (70000, (f"{HALF}*.", f"{HALF}*01"))]


def large_body(buffers):
    pieces, size = [], 0
    for length, parts in buffers:
        pieces += [*parts, f"{-length % 8}*."] if length % 8 else parts
        size += length + -length % 8
    return "+".join([dots(b"\xc2\x3e" + varint(size)), *pieces])


def large_message(buffers):
    """The header alone, whose body is left out."""
    places, size = [], 0
    for length, _ in buffers:
        places.append((size, length))
        size += length + -length % 8
    nulls = HALF if buffers[0][1] == BITS else 0
    return cases.placed(70000, [(70000, nulls)], places, claimed=size)


def main():
    for number, (_, _, buffers, _) in enumerate(large_columns()):
        OWN[f"large_{number}"] = large_message(buffers)
    OWN["large_indices"] = large_message(INDICES)
    OWN["dictionary_x_y"] = cases.dictionary(1, cases.batch(2, (0, "", "00 00 00 00 01 00 00 00 02 00 00 00", "78 79")))
    puts = chosen()
    puts["schema_Int8 ten_FB01"] = puts["schema_Int8 validity_10_FBFD"]  # of other bits past the length
    for name, options in OPTIONS.items():
        named(name, dots(command(b"t", options)))
    named("kilobyte", "78" * 1024)
    for rows in sorted({len(rows) for _, rows in puts.values()} | {0, 2}):
        named(f"all_{rows}", ticket(1, 0, rows))
    begin = len(LINES)
    all_puts(puts)
    own_puts()
    fetches()
    cuts()
    large()
    used = {piece.split("*")[-1] for line in LINES for word in line.split(" ")[1:] for piece in word.split("+")}
    with tempfile.TemporaryDirectory() as folder:
        known = [name for name in [*cases.MESSAGES, *OWN] if name in used]
        LINES[begin:begin] = [f"bytes {name} {dots(message(pathlib.Path(folder), name))}" for name in known]
    rooms.write("puts", LINES, ANSWERS)
    print(f"{len(known)} messages, {len(puts)} puts of other tools, {len(ANSWERS)} answers")


if __name__ == "__main__":
    main()
