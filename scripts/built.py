"""Where the built program lies, and with how many workers it is run, for the scripts that run it."""

import pathlib
import sys

ROOT = pathlib.Path(__file__).resolve().parent.parent


def program(named=None):
    """The program's path: as it is named, or where the build leaves it."""
    path = pathlib.Path(named or ROOT / "crates/flightscan/out/flightscan")
    if not path.exists():
        sys.exit("build the program first: cd crates/flightscan && rt run -- pipe < stdin > /dev/null")
    return str(path)


def worker_counts(words):
    """The numbers of workers in words such as `1,2,4,16`."""
    counts = [int(word) for word in words.split(",")]
    if not all(1 <= count <= 16 for count in counts):
        raise ValueError(words)
    return counts
