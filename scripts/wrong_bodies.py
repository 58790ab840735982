"""Reads wrong bodies: which there are, and whether they still fit the code."""

import pathlib

TOP = pathlib.Path(__file__).resolve().parent.parent


def wrong_bodies():
    """The files of all wrong bodies: those that the gate tries, then the plants."""
    return [*sorted(TOP.glob("crates/*/must-fail/*.edit")), *sorted(TOP.glob("plants/*/*.edit"))]


def misfits(edit):
    """Why a wrong body does not fit the code of its crate. Each old text has to stand once in its
    file, after the changes above it."""
    crate = TOP / "crates" / edit.relative_to(TOP).parts[1]
    sources, path, old, changes = {}, None, None, 0
    for line in edit.read_text().splitlines():
        kind, _, text = line.partition(":")
        text = text.removeprefix(" ")
        if kind == "file":
            path = text.strip()
            if not (crate / path).is_file():
                yield f"no file {path}"
            elif path not in sources:
                sources[path] = (crate / path).read_text()
        elif kind == "old":
            old = text
            count = sources[path].count(old) if path in sources else 1
            if count != 1:
                yield f"its text stands {count} times in {path}: {old.strip()}"
        elif kind == "new" and old:
            changes += old != text
            sources[path] = sources.get(path, "").replace(old, text)
    if not changes:
        yield "it changes nothing"
