#!/usr/bin/env python3
"""Measures the memory that `put --format csv` takes, beside the size of the file, and looks whether it is at most so many times that.

    python3 scripts/csv_memory.py [--megabytes 20,100,300] [--shapes narrow,texts,empty] [--spelled] [--most 2.0] [--program PATH]

The files have rows of these shapes, drawn by a fixed seed:

    narrow   six columns of integers of one or two digits
    numbers  four columns of integers of up to 18 digits
    texts    two columns of texts of 40 to 200 bytes, one of them in quotes with commas
    mixed    a number, a town, a date, a truth value, a decimal number and a short text
    empty    twelve columns of integers, in which nine fields of ten are empty

Each file is the input of one `put` on loopback, whose peak is the most memory that was resident, as the system counts it when the
program ends. `--spelled` also puts each file with `--columns`. The count of rows that the put prints has to be that of the file.
It ends with 1 where a peak is above `--most` times the file and 20 MB, which the program and one batch take. Without `--most` it only
measures. Build the program first, as for bench/pipe.py. A file and its server take up to ten times its size in memory.
"""

from __future__ import annotations

import argparse
import os
import pathlib
import random
import subprocess
import sys
import tempfile
import time

sys.dont_write_bytecode = True
ROOT = pathlib.Path(__file__).resolve().parent.parent
sys.path += [str(ROOT / "vectors" / folder) for folder in ("arrow", "flight", "queries", "streams")]

from built import program  # noqa: E402
from loopback import Server  # noqa: E402
from measured import Measured  # noqa: E402

BLOCK_ROWS = 4_096  # rows that are drawn; a file repeats them
BASE = 20_000_000  # bytes that the program and one batch take
TOWNS = ("Utrecht", "Delft", "Leiden", "Gouda", "Den Haag")
WORDS = "the quick brown fox, it says, jumps over a lazy dog and under seven bridges of one long canal".split(" ")


def narrow(draw: random.Random) -> str:
    return ",".join(str(draw.randrange(-9, 99)) for _ in range(6))


def numbers(draw: random.Random) -> str:
    return ",".join(str(draw.randrange(10**18)) for _ in range(4))


def text_of(draw: random.Random, least: int, most: int) -> str:
    length, text = draw.randrange(least, most), ""
    while len(text) < length:
        text += draw.choice(WORDS) + " "
    return text[:length]


def texts(draw: random.Random) -> str:
    return f'"{text_of(draw, 40, 200)}",{text_of(draw, 40, 200).replace(",", ";")}'


def mixed(draw: random.Random) -> str:
    day = f"{draw.randrange(1950, 2026)}-{draw.randrange(1, 13):02}-{draw.randrange(1, 29):02}"
    paid = draw.choice(("true", "false"))
    return f"{draw.randrange(10**6)},{draw.choice(TOWNS)},{day},{paid},{draw.randrange(10**25)},{text_of(draw, 4, 20).replace(',', ';')}"


def empty(draw: random.Random) -> str:
    return ",".join(str(draw.randrange(10)) if draw.random() < 0.1 else "" for _ in range(12))


# a shape's rows, and its columns as `--columns` takes them
SHAPES = {
    "narrow": (narrow, ", ".join(f"c{i}:int64" for i in range(6))),
    "numbers": (numbers, ", ".join(f"c{i}:int64" for i in range(4))),
    "texts": (texts, "a:utf8, b:utf8"),
    "mixed": (mixed, "id:int64, town:utf8, day:date, paid:bool, sum:decimal, note:utf8"),
    "empty": (empty, ", ".join(f"c{i}:int64?" for i in range(12))),
}


def written(path: pathlib.Path, shape: str, size: int) -> int:
    """Writes a file of at least this size, and gives the number of its rows."""
    draw = random.Random(f"{shape} of CSV")
    block = "".join(SHAPES[shape][0](draw) + "\n" for _ in range(BLOCK_ROWS)).encode()
    rows = 0
    with path.open("wb") as file:
        while file.tell() < size:
            file.write(block)
            rows += BLOCK_ROWS
    return rows


def peak_of(command: list[str], path: pathlib.Path) -> tuple[int, float, bytes]:
    """The most memory that a program held, its seconds, and what it printed. Its input is a file."""
    began = time.monotonic()
    with path.open("rb") as file, tempfile.TemporaryFile() as printed, tempfile.TemporaryFile() as faults:
        process = subprocess.Popen(command, stdin=file, stdout=printed, stderr=faults)
        _, status, used = os.wait4(process.pid, 0)
        process.returncode = os.waitstatus_to_exitcode(status)
        seconds = time.monotonic() - began
        faults.seek(0)
        said = faults.read()
        if process.returncode != 0:
            raise SystemExit(f"the put ended with {process.returncode}: {said!r}")
        printed.seek(0)
        return used.ru_maxrss * 1024, seconds, printed.read()


def measure(path: str, shape: str, size: int, spelled: bool, folder: str) -> tuple[float, str]:
    """How many times the file a put held, and a row of the table."""
    file = pathlib.Path(folder) / f"{shape}.csv"
    rows = written(file, shape, size)
    with Server(path) as server:
        command = [path, "put", "--port", str(server.port), "--table", "t", "--mode", "create", "--format", "csv"]
        more = ["--columns", SHAPES[shape][1]] if spelled else []
        peak, seconds, printed = peak_of(command + more, file)
    if printed != b"%d rows\n" % rows:
        raise SystemExit(f"{shape}: {rows} rows were written, and the put printed {printed!r}")
    length = file.stat().st_size
    file.unlink()
    times = (peak - BASE) / length
    how = "spelled" if spelled else "found"
    return times, f"| {shape} | {how} | {length / 1e6:,.0f} | {rows:,} | {peak / 1e6:,.0f} | {peak / length:.2f} | {seconds:.1f} |"


def main() -> int:
    words = argparse.ArgumentParser(description="measures the memory of put --format csv")
    words.add_argument("--megabytes", default="20,100,300")
    words.add_argument("--shapes", default=",".join(SHAPES))
    words.add_argument("--spelled", action="store_true")
    words.add_argument("--most", type=float)
    words.add_argument("--folder", help="where the files are written")
    words.add_argument("--program")
    given = words.parse_args()
    path, measured, worst = program(given.program), Measured(given.program), 0.0
    print("| Rows of | Columns are | File, MB | Rows | Peak, MB | Peak / file | Seconds |")
    print("|---|---|---|---|---|---|---|")
    with tempfile.TemporaryDirectory(dir=given.folder) as folder:
        for shape in given.shapes.split(","):
            for megabytes in given.megabytes.split(","):
                for spelled in (False, True) if given.spelled else (False,):
                    times, row = measure(path, shape, int(megabytes) * 1_000_000, spelled, folder)
                    worst = max(worst, times)
                    print(row, flush=True)
    print(measured.line())
    if given.most is not None and worst > given.most:
        print(f"a put held {worst:.2f} times its file and {BASE:,} bytes; at most {given.most:.2f} times is wanted")
        return 1
    return 0


if __name__ == "__main__":
    sys.exit(main())
