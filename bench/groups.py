#!/usr/bin/env python3
"""What groups by columns of texts take, of short texts and of long ones.

    python3 bench/groups.py [--program PATH] [--before PATH] [--rows N] [--runs N] [GROUP_BY..]

A table of N rows (2,000,000) in batches of 65,536 has texts in dictionaries (1,000 of 29 bytes, 100 of 17, 20,000 of 29 and 200,000
of 29), texts of ten words that lie in their column, and numbers below 100 and below 10. The rows are at random, from a fixed seed.
`SELECT COUNT(*) FROM t GROUP BY ..` is asked over `pipe`. Told is the processor time of the least of `--runs` runs (4), less that
of the put; with --before also that of another program, in turns, and how many times as long this one takes. It ends with 1 where
an answer is no whole one. Build the program first, as for pipe.py.
"""

import argparse
import resource
import subprocess
import sys
import tempfile
from array import array
from itertools import accumulate
from random import Random

sys.dont_write_bytecode = True

import workers  # (it also says where the others lie)
from built import program
from layout import written
from measured import Measured
from trees import UTF8, batch, dictionary, encoding, field, integer, schema, texts
from wire import call, chunk, descriptor, packed, query_handle, ticket

BATCH_ROWS = 65_536
# a column of a dictionary: how many texts it has, and of how many bytes
DICTIONARIES = {"w": (1_000, 29), "v": (100, 17), "x": (20_000, 29), "y": (200_000, 29)}
KEYS = {
    "w, k": "1,000 texts and 100 numbers",
    "v, h": "100 texts and 10 numbers",
    "w, v": "1,000 texts and 100 texts",
    "w": "1,000 texts",
    "x": "20,000 texts",
    "y": "200,000 texts",
    "s, k": "ten texts in their column, and 100 numbers",
    "s, k, h": "the same and 10 numbers",
}


def text_of(name, number, size):
    """A text of so many bytes, which no other number has."""
    return f"{name}{number:08d}".encode().ljust(size, b"-")


def put(rows):
    """The put of the table."""
    random, ingest = Random("groups"), chunk(1, b"\x08\x01") + chunk(2, b"t")
    names = list(DICTIONARIES)
    fields = [field(name, UTF8, False, dictionary=encoding(at)) for at, name in enumerate(names)]
    head = schema(*fields, field("s", UTF8, False), field("k", integer(32, True), False), field("h", integer(32, True), False))
    made = [(head, b"")]
    for at, name in enumerate(names):
        count, size = DICTIONARIES[name]
        made.append(dictionary(at, batch(count, (0, b"", *texts([text_of(name, number, size) for number in range(count)])))))
    for first in range(0, rows, BATCH_ROWS):
        count = min(BATCH_ROWS, rows - first)
        codes = [(0, b"", workers.below(random, count, DICTIONARIES[name][0], "i").tobytes()) for name in names]
        words = [workers.WORDS[number] for number in workers.below(random, count, len(workers.WORDS), "B")]
        offsets = array("i", accumulate(map(len, words), initial=0)).tobytes()
        keys = [(0, b"", workers.below(random, count, bound, "i").tobytes()) for bound in (100, 10)]
        made.append(batch(count, *codes, (0, b"", offsets, b"".join(words)), *keys))
    payloads = [chunk(2, written("Message", tree, "spread")) + (chunk(1000, body) if body else b"") for tree, body in made]
    payloads[0] = chunk(1, descriptor(packed(b"CommandStatementIngest", ingest))) + payloads[0]
    return call(b"DoPut", payloads)


def taken(path, records):
    """The processor seconds of a run, and its last bytes."""
    before = resource.getrusage(resource.RUSAGE_CHILDREN)
    with tempfile.TemporaryFile() as given, tempfile.TemporaryFile() as out:
        given.write(records)
        given.seek(0)
        subprocess.run([path, "pipe"], stdin=given, stdout=out, check=True)
        end = out.seek(0, 2)
        out.seek(max(0, end - 4))
        last = out.read()
    after = resource.getrusage(resource.RUSAGE_CHILDREN)
    return after.ru_utime + after.ru_stime - before.ru_utime - before.ru_stime, last


def least(paths, records, runs):
    """The least processor seconds of each program, in turns. It ends where an answer is no whole one."""
    found = [1e9] * len(paths)
    for _ in range(runs):
        for at, path in enumerate(paths):
            seconds, last = taken(path, records)
            if last != b"\x04" + bytes(3):
                sys.exit(f"an answer ends with {last.hex()}")
            found[at] = min(found[at], seconds)
    return found


def main():
    parser = argparse.ArgumentParser(description=__doc__, formatter_class=argparse.RawDescriptionHelpFormatter)
    parser.add_argument("--program", help="the built program (that of the repository)")
    parser.add_argument("--before", help="another program, which is put beside it")
    parser.add_argument("--rows", type=int, default=2_000_000)
    parser.add_argument("--runs", type=int, default=4)
    parser.add_argument("keys", nargs="*", metavar="GROUP_BY", help=f"the columns of GROUP BY, of {', '.join(map(repr, KEYS))}")
    words = parser.parse_args()
    paths, measured = [program(words.program), *([words.before] if words.before else [])], Measured(words.program)
    records = put(words.rows)
    puts = least(paths, records, words.runs)
    print("| GROUP BY | processor time |" + (" before | times |" if words.before else ""))
    print("|---|---:|" + ("---:|---:|" if words.before else ""))
    for keys in words.keys or KEYS:
        query = f"SELECT COUNT(*) FROM t GROUP BY {keys}".encode()
        fetch = call(b"DoGet", [ticket(query_handle(1, 0, words.rows, query))])
        found = [one - two for one, two in zip(least(paths, records + fetch, words.runs), puts)]
        more = f" {1e3 * found[1]:,.0f} | {found[0] / found[1]:.2f} |" if words.before else ""
        print(f"| {KEYS.get(keys, keys)} | {1e3 * found[0]:,.0f} ms |{more}", flush=True)
    print(f"\n{measured.line()}")


if __name__ == "__main__":
    main()
