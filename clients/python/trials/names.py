"""What the package shows: each public name says what it is, and its types."""

from __future__ import annotations

import functools
import importlib
import inspect
from collections.abc import Iterator
from typing import Any

import flightscan
from random_calls.answers import same

from trials.cases import Run, case

def called(member: Any) -> Any:
    """The function of a method or of a property, if it is one."""
    if isinstance(member, (classmethod, staticmethod)):
        return member.__func__
    if isinstance(member, functools.cached_property):
        return member.func
    return member.fget if isinstance(member, property) else member


def functions_of(name: str, found: Any) -> Iterator[tuple[str, Any, list[Any]]]:
    """A function, or a class with its methods: the name, it, and where it may be documented."""
    if not inspect.isclass(found):
        yield name, found, [found]
        return
    for member in vars(found):
        function = called(vars(found)[member])
        if inspect.isfunction(function) and (not member.startswith("_") or member == "__init__"):
            bases = [called(vars(base)[member]) for base in found.__mro__ if member in vars(base)]
            yield f"{name}.{member}", function, bases if member != "__init__" else [found]


def untyped(function: Any) -> list[str]:
    """The parameters and the answer that have no type."""
    kept = inspect.signature(function).parameters
    names = [one for number, one in enumerate(kept) if not (number == 0 and one in ("self", "cls"))]
    wanted = names if function.__name__ == "__init__" else [*names, "return"]
    return [one for one in wanted if one not in function.__annotations__]


@case("each public name of the package and of flightscan.dask is there, typed and documented")
def names_are_documented(run: Run) -> str:
    modules, lacking, count = [flightscan], [], 0
    try:
        modules.append(importlib.import_module("flightscan.dask"))
    except ImportError:
        pass
    for module in modules:
        for name in module.__all__:
            found = getattr(module, name)
            if not (inspect.isclass(found) or inspect.isfunction(found)) or not found.__module__.startswith("flightscan"):
                continue
            if inspect.isclass(found) and not found.__dict__.get("__doc__"):
                lacking.append(f"{name} has no docstring")
            for called_so, function, places in functions_of(name, found):
                count += 1
                if not any(inspect.getdoc(place) for place in places):
                    lacking.append(f"{called_so} has no docstring")
                if function.__module__.startswith("flightscan") and not function.__qualname__.startswith("__create_fn__"):
                    lacking += [f"{called_so}: {one} has no type" for one in untyped(function)]
    same("what lacks", [], lacking)
    return f"{count} functions"
