"""What a case is, how servers are run for it, and what cases share."""

from __future__ import annotations

import importlib
import threading
from collections.abc import Callable, Iterator
from contextlib import ExitStack, contextmanager
from dataclasses import dataclass
from typing import Any

import flightscan
import numpy as np
import served.cases
from random_calls.answers import Difference, same

TOWNS = ["Utrecht", "Delft", "Leiden", "Den Haag", "'s-Hertogenbosch", "Jørgensby", ""]


class PassedOver(Exception):
    """A package that is not there."""


class Run(served.cases.Run):
    """How servers are run, and connections to them."""

    @contextmanager
    def connected(self, *options: str) -> Iterator[flightscan.Connection]:
        """A connection to a server of its own."""
        with self.serving(*options) as server, flightscan.connect(server.port) as connection:
            yield connection

    @contextmanager
    def several(self, count: int, *options: str) -> Iterator[list[str]]:
        """The addresses of so many servers."""
        with ExitStack() as stack:
            servers = [stack.enter_context(self.serving(*options)) for _ in range(count)]
            yield [f"127.0.0.1:{server.port}" for server in servers]


@dataclass
class Case:
    name: str
    said: str
    look: Callable[[Run], str | None]  # what it gives is added to its line


CASES: list[Case] = []


def case(said: str) -> Callable[[Callable[[Run], str | None]], Callable[[Run], str | None]]:
    """Keeps a function as a case."""

    def kept(look: Callable[[Run], str | None]) -> Callable[[Run], str | None]:
        CASES.append(Case(look.__name__, said, look))
        return look

    return kept


def wanted_package(name: str) -> Any:
    """A package that this case needs."""
    try:
        return importlib.import_module(name)
    except ImportError:
        raise PassedOver(name) from None


def refused(what: str, kind: type[flightscan.Error] | None, text: str, call: Callable[[], object]) -> flightscan.Error:
    """A call must be refused by this kind of exception, with a text that begins so."""
    try:
        given = call()
    except flightscan.Error as failed:
        same(f"the exception of {what}", kind.__name__ if kind else type(failed).__name__, type(failed).__name__)
        same(f"the text of {what}", text, failed.text[: len(text)])
        return failed
    raise Difference(f"{what} was not refused: it gave {given!r}")


def same_array(what: str, wanted: Any, given: Any) -> None:
    """Two arrays of one dtype and of the same values."""
    wanted, given = np.asarray(wanted), np.asarray(given)
    same(f"the dtype of {what}", str(wanted.dtype), str(given.dtype))
    same(what, wanted.tolist(), given.tolist())


def trips(count: int, seed: int = 1) -> dict[str, Any]:
    """Columns of every type, with nulls and extreme values, by numpy."""
    random = np.random.default_rng(seed)
    nulls = [random.random(count) < share for share in (0.1, 0.3, 0.05, 0.2, 0.5, 0.1)]
    places = random.integers(0, len(TOWNS), count)
    texts = np.array([None if null else TOWNS[place] for null, place in zip(nulls[0], places)], object)
    days = random.integers(-40_000, 60_000, count).astype("datetime64[D]")
    days[nulls[1]] = np.datetime64("NaT")
    moments = np.random.default_rng(seed + 1).integers(-(10**15), 9 * 10**15, count).astype("datetime64[us]")
    moments[nulls[5]] = np.datetime64("NaT")
    powers = random.integers(0, 19, count)
    whole = [int(one) * 10**int(power) for one, power in zip(random.integers(-(2**62), 2**62, count), powers)]
    decimals = np.array([None if null else one for null, one in zip(nulls[2], whole)], object)
    return {
        "id": np.arange(count, dtype=np.int64),
        "town": texts,
        "day": days,
        "at": moments,
        "large": decimals,
        "small": np.ma.MaskedArray(random.integers(-128, 128, count).astype(np.int8), mask=nulls[3]),
        "great": random.integers(0, 2**64, count, dtype=np.uint64),
        "paid": np.ma.MaskedArray(random.random(count) < 0.5, mask=nulls[4]),
        "km": np.ma.MaskedArray(random.integers(0, 500, count).astype(np.int32), mask=nulls[5]),
    }


@contextmanager
def meanwhile(write: Callable[[threading.Event], None]) -> Iterator[None]:
    """A thread that writes until the block ends, whether well or not. What it raises is raised after a block that ended well."""
    stop, failures = threading.Event(), []

    def run() -> None:
        try:
            write(stop)
        except Exception as failed:  # noqa: BLE001 (it is raised below)
            failures.append(failed)

    thread = threading.Thread(target=run, daemon=True)
    thread.start()
    try:
        yield
    finally:
        stop.set()
        thread.join(60)
    same("the writer has ended", False, thread.is_alive())
    if failures:
        raise failures[0]
