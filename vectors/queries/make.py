#!/usr/bin/env python3
"""Writes stdin and stdout of crates/query_cases: a case a line, and what is wanted of it.

The tokens are those of lexer.py and the verdicts those of recogniser.py, which share nothing with the crates; what is
wanted of the cases of worked.py was worked out by hand, and of those of selections.py and skipping.py by the model in truths.py.
"""
import pathlib
import re
import sys

sys.dont_write_bytecode = True
import heavy
import lexer
import recogniser
import selections
import skipping
import table
import worked

CRATE = pathlib.Path(__file__).parent.parent.parent / "crates/query_cases"
ESCAPES = {"\\": "\\\\", "{": "\\[", "\n": "\\n", "\r": "\\r", "\t": "\\t", "\v": "\\v", "\f": "\\f", "\0": "\\z"}
REPEATED = re.compile(r"([^\\]{1,40}?)\1{9,}")


def written(text):
    """The text as a case writes it: what is repeated stands once, behind its number."""
    found, place = "", 0
    for run in REPEATED.finditer(text):
        if ESCAPES.keys() & set(run[0]):
            continue
        found += escaped(text[place : run.start()]) + "{%d:%s}" % (len(run[0]) // len(run[1]), run[1])
        place = run.end()
    return found + escaped(text[place:])


def escaped(text):
    assert "}" not in text
    return "".join(ESCAPES.get(letter, letter) for letter in text)


def cases():
    """Each case, and what is wanted of it."""
    for texts in lexer.GROUPS.values():
        yield from ((f"tokens {written(text)}", lexer.lex(text)) for text in texts)
    yield from ((f"values {written(text)}", lexer.spoken(text)) for text in lexer.SPOKEN)
    yield from ((f"parse {written(query)}", recogniser.answer(query)) for query in recogniser.queries())
    yield from ((put, "None") for put in table.puts())
    yield from worked.cases()
    yield from ((put, "None") for put in selections.puts())
    yield from selections.cases()
    yield from ((put, "None") for put in skipping.puts())
    yield from skipping.cases()
    yield from ((put, "None") for put in heavy.puts())
    yield from heavy.cases()


def main():
    lines, answers = zip(*cases())
    (CRATE / "stdin").write_text("".join(line + "\n" for line in lines), newline="\n")
    (CRATE / "stdout").write_text("".join(answer + "\n" for answer in answers), newline="\n")


if __name__ == "__main__":
    main()
