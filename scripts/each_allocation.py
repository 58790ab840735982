#!/usr/bin/env python3
"""Runs `flightscan pipe` with each of its allocations refused in turn, and looks at what it writes.

    python3 scripts/each_allocation.py [--program PATH]

The input is the first run's put, the same put again, and two fetches of version 1. With one allocation refused, each
answer is whole or has status F21, that of a fetch behind its first messages; the first put is there exactly where its
status is 0, and else the second put makes version 1; where the connection ends, whole answers and a status F21 were
written; and where there was no memory for the command line, nothing was written, and F21 was printed. Build the program
first (`cd crates/flightscan && rt run -- pipe < stdin > /dev/null`): the unproved one of `rt try` does not do. It needs
a C compiler, and runs in a few seconds.
"""

import argparse
import collections
import os
import pathlib
import subprocess
import sys
import tempfile

sys.dont_write_bytecode = True

from built import ROOT, program  # noqa: E402

CRATE = ROOT / "crates/flightscan"
PUT_LENGTH = 407

MADE = bytes.fromhex("02 00 00 00 00 04 0A 02 08 02 04 00 00 00")
EXISTS = bytes.fromhex("04 06 00 0F") + b"F10 TableExists"
REFUSED = bytes.fromhex("04 08 00 0F") + b"F21 OutOfMemory"
FAULT_LINE = b"fault: F21 OutOfMemory\n"


def beginnings(rows):
    """The messages of an answer up to each place, from none to all."""
    found, at = [b""], 0
    while rows[at] == 2:
        at += 6 + int.from_bytes(rows[at + 2 : at + 6], "big")
        found.append(rows[:at])
    return found


def allowed(rows):
    """Each outcome that may be: what is written, what is said and the exit status, with a name."""
    whole = [MADE, EXISTS, rows, rows]
    outcomes = {(b"".join(whole), b"", 0): "all whole", (b"", FAULT_LINE, 3): "command line not read"}
    outcomes[REFUSED + MADE + rows + rows, b"", 0] = "first put refused"
    outcomes[MADE + REFUSED + rows + rows, b"", 0] = "second put refused"
    for behind, begun in enumerate(beginnings(rows)):
        for place, name in [(2, "first"), (3, "second")]:
            answers = whole[:place] + [begun + REFUSED] + whole[place + 1 :]
            outcomes[b"".join(answers), b"", 0] = f"{name} fetch refused behind {behind} messages"
    for done in range(5):
        outcomes[b"".join(whole[:done]) + REFUSED, FAULT_LINE, 3] = f"connection ended behind {done} answers"
    return outcomes


def run(path, bytes_in, shim, number, counted):
    preload = {"LD_PRELOAD": str(shim), "REFUSED": str(number), "COUNTED": str(counted)}
    done = subprocess.run([path, "pipe"], input=bytes_in, capture_output=True, env=os.environ | preload)
    return done.stdout, done.stderr, done.returncode


def counted_in(counted, path):
    """How many allocations a run made."""
    allocations = int.from_bytes(counted.read_bytes(), "little") if counted.exists() else 0
    if allocations == 0:
        sys.exit(f"{path} did not count its allocations: this wants the proved program, and not that of `rt try`")
    return allocations


def allocations_of(path, bytes_in, shim, counted):
    """How many allocations a run makes with none refused."""
    run(path, bytes_in, shim, 0, counted)
    return counted_in(counted, path)


def compiled(folder):
    """What refuses an allocation of the program into which it is loaded."""
    shim, source = folder / "refuse_allocation.so", ROOT / "scripts/refuse_allocation.c"
    subprocess.run(["cc", "-shared", "-fPIC", "-O1", "-o", shim, source, "-ldl"], check=True)
    return shim


def main():
    parser = argparse.ArgumentParser(description=__doc__, formatter_class=argparse.RawDescriptionHelpFormatter)
    parser.add_argument("--program", help="the built program (that of the repository)")
    path = program(parser.parse_args().program)
    first_run = (CRATE / "stdin").read_bytes()
    put, fetch = first_run[:PUT_LENGTH], first_run[PUT_LENGTH:]
    answers = (CRATE / "stdout").read_bytes()
    assert answers.startswith(MADE)
    outcomes = allowed(answers[len(MADE) :])
    seen = collections.Counter()
    with tempfile.TemporaryDirectory() as folder:
        shim = compiled(pathlib.Path(folder))
        counted = pathlib.Path(folder) / "counted"
        allocations = allocations_of(path, put + put + fetch + fetch, shim, counted)
        for number in range(1, allocations + 1):
            outcome = run(path, put + put + fetch + fetch, shim, number, counted)
            if outcome not in outcomes:
                sys.exit(f"allocation {number}: status {outcome[2]}, said {outcome[1]}, wrote {outcome[0].hex(' ')}")
            seen[outcomes[outcome]] += 1
    print(f"{allocations} allocations, each refused in turn")
    for name, times in seen.items():
        print(f"{times:5} {name}")


if __name__ == "__main__":
    main()
