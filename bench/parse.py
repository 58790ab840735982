#!/usr/bin/env python3
"""How long `flightscan pipe` takes to parse texts of 16 KiB of several kinds.

    python3 bench/parse.py [--program PATH]

It makes its own inputs: 1,000 fetches of one text each, at version 0, where no table is, so that a sentence is parsed
and then refused at its first table. The texts are parsed whole, unless their row says otherwise. The row `nothing`
is a text whose first byte is no token: what a fetch costs without parsing. It is taken off the other rows. Times are
of the processor, in user mode, the best of five runs. Build the program first, as for `pipe.py`.
"""

import argparse
import os
import pathlib
import subprocess
import sys
import tempfile

sys.dont_write_bytecode = True
sys.path.insert(0, str(pathlib.Path(__file__).resolve().parent.parent / "scripts"))

from built import program  # noqa: E402
from measured import Measured  # noqa: E402
from wire import call, query_handle, ticket  # noqa: E402

BYTES = 16_384
CALLS = 1_000
RUNS = 5
WHERE = "SELECT a FROM t WHERE "


def filled(front, piece, end=""):
    """The front, as many pieces as fit, the end, and blanks up to 16,384 bytes."""
    times = (BYTES - len(front) - len(end)) // len(piece)
    text = front + piece * times + end
    return text + " " * (BYTES - len(text))


def lists(items):
    """INs of so many items, joined by AND."""
    one = "a IN (" + "1, " * (items - 1) + "1)"
    return filled(WHERE + one, " AND " + one)


TEXTS = {
    "nothing": filled("@", " "),
    "blanks": filled("SELECT a FROM t", " "),
    "comments": filled("SELECT a FROM t ", "--c\n"),
    "one comment": filled("SELECT a FROM t --", "c"),
    "one name (F12)": filled("SELECT ", "n", " FROM t"),
    "one delimited name (F12)": filled('SELECT "', '""', '" FROM t'),
    "one string": filled(WHERE + "a = '", "s", "'"),
    "one string of quotes": filled(WHERE + "a = '", "''", "'"),
    "strings": filled(WHERE + "a = ''", " OR a = 's'"),
    "one number": filled(WHERE + "a = ", "0", "1"),
    "OR chain": filled(WHERE + "a = 1", " OR a = 1"),
    "OR chain, dense": filled(WHERE + "a=1", "OR a=1"),
    "OR chain of columns, dense": filled(WHERE + 'a="b"', 'OR a="b"'),
    "OR chain of strings, dense": filled(WHERE + "a='s'", "OR a='s'"),
    "OR chain of INs, dense": filled(WHERE + "a IN(1)", "OR a IN(1)"),
    "AND chain": filled(WHERE + "a = 1", " AND a = 1"),
    "BETWEEN chain": filled(WHERE + "a = 1", " AND a BETWEEN 1 AND 2"),
    "IN lists": lists(256),
    "one IN, dense (F12)": filled(WHERE + "a IN(a", ",a", ")"),
    "one IN (F12)": filled(WHERE + "a IN (1", ", 1", ")"),
    "parentheses, closed": filled(WHERE + "a = 1", " OR " + "(" * 64 + "a = 1" + ")" * 64),
    "parentheses (F12 at the 65th)": filled(WHERE, "("),
    "NOTs, closed": filled(WHERE + "a = 1", " OR " + "NOT " * 64 + "a = 1"),
    "NOTs (F12 at the 65th)": filled(WHERE, "NOT "),
    "select list (F12)": filled("SELECT a", ", a", " FROM t"),
    "select list, dense (F12)": filled("SELECT a", ",a", " FROM t"),
    "select list with aliases, dense (F12)": filled("SELECT a", ",a b", " FROM t"),
    "joins (F12)": filled("SELECT a FROM t", " JOIN t ON a = a"),
    "joins, dense (F12)": filled("SELECT a FROM t", " JOIN t ON a=a"),
    "GROUP BY (F12)": filled("SELECT a FROM t GROUP BY a", ", a"),
    "GROUP BY, dense (F12)": filled("SELECT a FROM t GROUP BY a", ",a"),
}


def fetch(text):
    """One fetch of the text, of no rows, at version 0."""
    return call(b"DoGet", [ticket(query_handle(0, 0, 0, text.encode()))])


def user_seconds(path, source):
    with open(source, "rb") as feed, open(os.devnull, "wb") as out:
        child = subprocess.Popen([path, "pipe"], stdin=feed, stdout=out)
        _, status, usage = os.wait4(child.pid, 0)
    code = os.waitstatus_to_exitcode(status)
    if code != 0:
        sys.exit(f"{path} pipe ended with {code}")
    return usage.ru_utime


def main():
    parser = argparse.ArgumentParser(description=__doc__, formatter_class=argparse.RawDescriptionHelpFormatter)
    parser.add_argument("--program", help="the built program (that of the repository)")
    words = parser.parse_args()
    path, measured = program(words.program), Measured(words.program)
    print(f"{'text of 16,384 bytes':32}{'milliseconds':>13}")
    spent = {}
    with tempfile.TemporaryDirectory() as folder:
        for name, text in TEXTS.items():
            assert len(text) == BYTES
            source = os.path.join(folder, "fetches")
            with open(source, "wb") as out:
                out.write(fetch(text) * CALLS)
            spent[name] = min(user_seconds(path, source) for _ in range(RUNS)) / CALLS * 1_000
            print(f"{name:32}{spent[name] - (spent['nothing'] if name != 'nothing' else 0):13.3f}", flush=True)
    print(f"\n{measured.line()}")


if __name__ == "__main__":
    main()
