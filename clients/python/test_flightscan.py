#!/usr/bin/python3
"""The Python client, tried by vectors of other tools and against running servers.

    /usr/bin/python3 clients/python/test_flightscan.py [--program PATH] [--seeds N] [CASE..]

What has to come out is worked out by numpy, by pandas, by Python's own arithmetic, or by the plain lists of scripts/, and
never by our own answers. A case that needs a package which is not there is passed over, and says so. Each case has a line
that says what holds; the last line counts them. It ends with 1 at a difference, and says which. With names, the cases whose
names begin so are run. It needs numpy and the built program.
"""

from __future__ import annotations

import argparse
import pathlib
import sys
import time
import traceback

sys.dont_write_bytecode = True
HERE = pathlib.Path(__file__).resolve().parent
ROOT = HERE.parent.parent
sys.path += [str(HERE), str(ROOT / "scripts"), str(ROOT / "gateway")]
sys.path += [str(ROOT / "vectors" / folder) for folder in ("arrow", "flight", "queries", "streams")]

import trials.bytes_read  # noqa: E402, F401  (its cases)
import trials.bytes_written  # noqa: E402, F401
import trials.calls  # noqa: E402, F401
import trials.clusters  # noqa: E402, F401
import trials.cursors  # noqa: E402, F401
import trials.frames  # noqa: E402, F401
import trials.gateways  # noqa: E402, F401
import trials.losses  # noqa: E402, F401
import trials.names  # noqa: E402, F401
import trials.pages  # noqa: E402, F401
import trials.several  # noqa: E402, F401
from built import program  # noqa: E402
from random_calls.answers import Difference  # noqa: E402
from trials.cases import CASES, Case, PassedOver, Run  # noqa: E402


def looked_at(one: Case, run: Run) -> bool | None:
    """Runs a case and prints its line. It is None where the case was passed over."""
    began = time.perf_counter()
    try:
        more = one.look(run)
    except PassedOver as lacking:
        print(f"{one.name}: passed over, it wants {lacking}", flush=True)
        return None
    except Difference as found:
        print(f"DIFFERENCE in {one.name} ({one.said}):\n{found}", flush=True)
        return False
    except Exception:  # noqa: BLE001 (whatever it is, it is told)
        print(f"DIFFERENCE in {one.name} ({one.said}):\n{traceback.format_exc()}", flush=True)
        return False
    print(f"{one.name}: {one.said}{f' ({more})' if more else ''}, {time.perf_counter() - began:.1f} s", flush=True)
    return True


def main() -> int:
    parser = argparse.ArgumentParser(description=__doc__, formatter_class=argparse.RawDescriptionHelpFormatter)
    parser.add_argument("--program", help="the built program (that of the repository)")
    parser.add_argument("--seeds", type=int, default=40, help="how many databases at random (40)")
    parser.add_argument("case", nargs="*", help="cases whose names begin so (all)")
    words = parser.parse_args()
    run = Run(program(words.program), words.seeds)
    ran = [looked_at(one, run) for one in CASES if not words.case or one.name.startswith(tuple(words.case))]
    passed_over = f", {ran.count(None)} passed over" if None in ran else ""
    print(f"{ran.count(True)} cases of {len(ran)} as they have to be{passed_over}")
    return 1 if False in ran else 0


if __name__ == "__main__":
    sys.exit(main())
