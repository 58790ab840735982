#!/usr/bin/env python3
"""A `flightscan serve` on loopback, seen from outside: by a client that shares nothing with the crates.

    python3 scripts/serving.py [--program PATH] [--seeds N] [CASE..]

The client speaks records, Protocol Buffers, FlatBuffers by position and Arrow's columns by scripts/wire.py and
vectors/arrow/reader.py, and knows from plain lists what has to be answered. The programs `put`, `query`, `tables` and `expire` are
looked at by what they print and how they end. Each case has a server of its own and a line that says what holds; the last
line counts them. It ends with 1 at a difference, and says which. With names, the cases whose names begin so are run.
Build the program first, as for bench/pipe.py.
"""

from __future__ import annotations

import argparse
import pathlib
import sys
import time

sys.dont_write_bytecode = True
ROOT = pathlib.Path(__file__).resolve().parent.parent
sys.path += [str(ROOT / "vectors" / folder) for folder in ("arrow", "flight", "queries", "streams")]

import served.calls  # noqa: E402, F401  (its cases)
import served.connections  # noqa: E402, F401
import served.programs  # noqa: E402, F401
import served.timestamps  # noqa: E402, F401
import wire  # noqa: E402
from built import program  # noqa: E402
from random_calls.answers import Difference  # noqa: E402
from reader import Fault  # noqa: E402
from served.cases import CASES, Case, Run  # noqa: E402


def looked_at(one: Case, run: Run) -> bool:
    """Runs a case and prints its line."""
    began = time.perf_counter()
    try:
        more = one.look(run)
    except (Difference, wire.Unreadable) as found:
        print(f"DIFFERENCE in {one.name} ({one.said}):\n{found}", flush=True)
        return False
    except (Fault, OSError, ValueError, IndexError) as found:
        print(f"DIFFERENCE in {one.name} ({one.said}): an answer that does not read, {found!r}", flush=True)
        return False
    print(f"{one.name}: {one.said}{f' ({more})' if more else ''}, {time.perf_counter() - began:.1f} s", flush=True)
    return True


def main() -> int:
    parser = argparse.ArgumentParser(description=__doc__, formatter_class=argparse.RawDescriptionHelpFormatter)
    parser.add_argument("--program", help="the built program (that of the repository)")
    parser.add_argument("--seeds", type=int, default=40, help="how many interleavings at random (40)")
    parser.add_argument("case", nargs="*", help="cases whose names begin so (all)")
    words = parser.parse_args()
    run = Run(program(words.program), words.seeds)
    wanted = [one for one in CASES if not words.case or one.name.startswith(tuple(words.case))]
    done = sum(looked_at(one, run) for one in wanted)
    print(f"{done} cases of {len(wanted)} as they have to be")
    return 0 if done == len(wanted) else 1


if __name__ == "__main__":
    sys.exit(main())
