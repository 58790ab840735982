"""The Python of docs/USING.md, run as it is written."""

from __future__ import annotations

import contextlib
import io
import pathlib
import re
from typing import Any

import flightscan
from random_calls.answers import same

from trials.cases import Run, case, wanted_package

PAGE = pathlib.Path(__file__).resolve().parent.parent.parent.parent / "docs/USING.md"


def blocks(heading: str) -> list[str]:
    """The Python of a section."""
    section = PAGE.read_text().partition(f"\n## {heading}")[2].partition("\n## ")[0]
    return re.findall(r"^```python\n(.*?)^```$", section, re.DOTALL | re.MULTILINE)


def look_at(code: str, names: dict[str, Any]) -> int:
    """Runs a block. What it prints is what its comments say."""
    wanted = re.findall(r"^# ?(.*)$", code, re.MULTILINE)
    said = io.StringIO()
    with contextlib.redirect_stdout(said):
        exec(compile(code, str(PAGE), "exec"), names)  # noqa: S102
    same(f"what is printed by\n{code}", wanted, [line.rstrip() for line in said.getvalue().splitlines()])
    return len(wanted)


@case("the Python of USING: each block runs, and prints what its comments say")
def python_of_the_page(run: Run) -> str:
    wanted_package("pandas")
    wanted_package("dask.dataframe")
    lines = 0
    with run.serving("--parts", "3", "--seats", "8") as server:
        with flightscan.connect(server.port) as connection:
            connection.put("trips", {
                "id": [1, 2, 3, 4, 5, 6, 7], "town": ["Utrecht", "Delft", None, "Utrecht", "Leiden", "Delft", "Utrecht"],
                "km": [12, 7, None, 3, 28, 5, 9]}, schema="id:int64, town:dictionary?, km:int64?")
        names: dict[str, Any] = {}
        for code in blocks("10. "):
            lines += look_at(code.replace("4711", str(server.port)), names)
    with run.several(4, "--parts", "2", "--seats", "8") as servers:
        names = {}
        for code in blocks("11. "):
            for number, address in enumerate(servers):
                code = code.replace(f"127.0.0.1:470{number + 1}", address)
            lines += look_at(code, names)
    same("there are lines", True, lines > 0)
    return f"{lines} lines"
