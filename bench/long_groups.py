#!/usr/bin/env python3
"""What an answer of many groups with long keys takes, whose texts are many times those of the table.

    python3 bench/long_groups.py [--program PATH] [--groups N]

The table has a column of a dictionary of one text of 65,536 bytes, and a column of N numbers (20,000), each of which
stands in two rows; its groups are those of both columns. So the table holds the text once, and N groups have it: 1.3 GB
for 20,000 groups, where each had its own. The answer has it once for each batch, in a dictionary. A group keeps no text,
and the answer comes batch by batch, so the program may hold 64 MB at most. It reads the answer as it comes and looks at
each row, and ends with 1 where one is another or more is held. Build the program first, as for `pipe.py`.
"""

import argparse
import os
import signal
import subprocess
import sys
import tempfile
import time
from array import array

sys.dont_write_bytecode = True

from largest_join import BATCH_ROWS, BODY_BYTES, HELD_MB, Wrong, demand, read_answer  # (it also says where the others lie)
from built import program
from layout import written
from measured import Measured
from reader import Table
from trees import UTF8, batch, dictionary, encoding, field, integer, schema, texts
from wire import call, chunk, descriptor, fields, packed, query_handle, ticket

GROUPS, LONG = 20_000, b"x" * 65_536
QUERY = b"SELECT c, k, COUNT(*) FROM t GROUP BY c, k"


def numbers(values):
    return array("i", values).tobytes()


def put(groups):
    """A put of two batches, each with each number once, behind the dictionary."""
    ingest = chunk(1, b"\x08\x01") + chunk(2, b"t")
    head = schema(field("c", UTF8, False, dictionary=encoding(0)), field("k", integer(32, True), False))
    made = [(head, b""), dictionary(0, batch(1, (0, b"", *texts([LONG]))))]
    for keys in (range(groups), range(groups - 1, -1, -1)):
        made.append(batch(groups, (0, b"", bytes(4 * groups)), (0, b"", numbers(keys))))
    payloads = [chunk(2, written("Message", tree, "spread")) + (chunk(1000, body) if body else b"") for tree, body in made]
    payloads[0] = chunk(1, descriptor(packed(b"CommandStatementIngest", ingest))) + payloads[0]
    return call(b"DoPut", payloads)


class Answer:
    """The groups of an answer, which are looked at as they come: by first appearance, so from 0 on, of two rows each."""

    def __init__(self):
        self.rows, self.bytes, self.is_dressed = 0, 0, False

    def add(self, message):
        data = dict(fields(message))
        found, body = Table(data[2], int.from_bytes(data[2][:4], "little")), data.get(1000, b"")
        self.bytes += len(body)
        if found.scalar(1, 1) == 2:
            self.add_dictionary(found.table(2), body)
        elif found.scalar(1, 1) == 3:
            self.add_batch(found.table(2), body)

    def add_dictionary(self, head, body):
        """That of the next batch has the one text."""
        _, offsets, letters = (body[at : at + size] for at, size in head.table(1).structs(2))
        demand((head.scalar(0, 8), head.scalar(2, 1)) == (0, 0) and not self.is_dressed, f"another dictionary behind group {self.rows}")
        demand(offsets[:8] == numbers([0, len(LONG)]) and letters == LONG, f"another text behind group {self.rows}")
        self.is_dressed = True

    def add_batch(self, head, body):
        rows, places = head.scalar(0, 8), head.structs(2)
        demand(0 < rows <= BATCH_ROWS and len(body) <= BODY_BYTES and self.is_dressed, f"a message of {rows} rows and {len(body)} bytes")
        _, indices, _, keys, _, counts = (body[at : at + size] for at, size in places)
        demand(indices[: 4 * rows] == bytes(4 * rows), f"other texts behind group {self.rows}")
        demand(keys[: 4 * rows] == numbers(range(self.rows, self.rows + rows)), f"other keys behind group {self.rows}")
        demand(counts[: 8 * rows] == array("q", [2] * rows).tobytes(), f"other counts behind group {self.rows}")
        self.rows, self.is_dressed = self.rows + rows, False


def look(stream, groups):
    """Reads both answers. Tells the bytes of the bodies of the fetch."""
    said = read_answer(stream, None)
    demand(said == "", f"the put: {said}")
    answer = Answer()
    said = read_answer(stream, answer)
    demand(said == "" and answer.rows == groups, f"{answer.rows} groups, {said or 'status 0'}")
    return answer.bytes


def main():
    parser = argparse.ArgumentParser(description=__doc__, formatter_class=argparse.RawDescriptionHelpFormatter)
    parser.add_argument("--program", help="the built program (that of the repository)")
    parser.add_argument("--groups", type=int, default=GROUPS, help="how many groups there are (20000)")
    words = parser.parse_args()
    command, measured, why, size = [program(words.program), "pipe"], Measured(words.program), None, 0
    with tempfile.TemporaryFile() as given:
        given.write(put(words.groups) + call(b"DoGet", [ticket(query_handle(1, 0, 2 * words.groups, QUERY))]))
        given.seek(0)
        start = time.monotonic()
        with subprocess.Popen(command, stdin=given, stdout=subprocess.PIPE) as child:
            try:
                size = look(child.stdout, words.groups)
            except Wrong as wrong:
                why = str(wrong)
                os.kill(child.pid, signal.SIGKILL)
            _, status, usage = os.wait4(child.pid, 0)
            child.returncode = os.waitstatus_to_exitcode(status)
    seconds, held = time.monotonic() - start, usage.ru_maxrss * 1024 / 1e6
    if why is None and held > HELD_MB:
        why = f"{held:.0f} MB held"
    print(why or f"{words.groups:,} groups with {words.groups * len(LONG) / 1e6:,.0f} MB of text, in {size / 1e6:,.0f} MB: {seconds:.1f} seconds, "
          f"{usage.ru_utime + usage.ru_stime:.1f} of the processor, {held:.0f} MB held at most")
    print(f"\n{measured.line()}")
    return 1 if why else 0


if __name__ == "__main__":
    sys.exit(main())
