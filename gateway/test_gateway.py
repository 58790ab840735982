#!/usr/bin/python3
"""The gateway, seen from outside: by gRPC's own client for Python, with messages by protoc.

    /usr/bin/python3 gateway/test_gateway.py [--program PATH] [--seconds S] [--seeds N] [CASE..]

A case starts a `flightscan serve` and a gateway to it, or a server of its own that answers as it is told, and looks at what
comes back by the readers and the plain lists of scripts/. Each case has a line that says what holds; the last line counts
them. It ends with 1 at a difference, and says which. With names, the cases whose names begin so are run. Many clients at
once go on for S seconds (30). It needs the built program, and Debian's packages python3-grpcio, python3-protobuf and
protobuf-compiler.
"""

from __future__ import annotations

import argparse
import pathlib
import subprocess
import sys
import time

sys.dont_write_bytecode = True
ROOT = pathlib.Path(__file__).resolve().parent.parent
sys.path += [str(ROOT / "gateway"), str(ROOT / "scripts")]
sys.path += [str(ROOT / "vectors" / folder) for folder in ("arrow", "flight", "queries", "streams")]

import grpc  # noqa: E402

import tested.calls  # noqa: E402, F401  (its cases)
import tested.cuts  # noqa: E402, F401
import tested.drivers  # noqa: E402, F401
import tested.ends  # noqa: E402, F401
import tested.floods  # noqa: E402, F401
import tested.safety  # noqa: E402, F401
import tested.streams  # noqa: E402, F401
import wire  # noqa: E402
from built import program  # noqa: E402
from random_calls.answers import Difference  # noqa: E402
from reader import Fault  # noqa: E402
from served.cases import Case  # noqa: E402
from tested.cases import CASES  # noqa: E402
from tested.running import Run  # noqa: E402


def looked_at(one: Case, run: Run) -> bool:
    """Runs a case and prints its line."""
    began = time.perf_counter()
    try:
        more = one.look(run)
    except (Difference, wire.Unreadable) as found:
        print(f"DIFFERENCE in {one.name} ({one.said}):\n{found}", flush=True)
        return False
    except (grpc.RpcError, Fault, OSError, ValueError, IndexError, subprocess.SubprocessError) as found:
        print(f"DIFFERENCE in {one.name} ({one.said}): {found!r}", flush=True)
        return False
    print(f"{one.name}: {one.said}{f' ({more})' if more else ''}, {time.perf_counter() - began:.1f} s", flush=True)
    return True


def main() -> int:
    parser = argparse.ArgumentParser(description=__doc__, formatter_class=argparse.RawDescriptionHelpFormatter)
    parser.add_argument("--program", help="the built program (that of the repository)")
    parser.add_argument("--seconds", type=float, default=30, help="how long many clients go on (30)")
    parser.add_argument("--seeds", type=int, default=10, help="how many interleavings at random (10)")
    parser.add_argument("case", nargs="*", help="cases whose names begin so (all)")
    words = parser.parse_args()
    run = Run(program(words.program), words.seeds, words.seconds)
    wanted = [one for one in CASES if not words.case or one.name.startswith(tuple(words.case))]
    done = sum(looked_at(one, run) for one in wanted)
    print(f"{done} cases of {len(wanted)} as they have to be")
    return 0 if done == len(wanted) else 1


if __name__ == "__main__":
    sys.exit(main())
