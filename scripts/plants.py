#!/usr/bin/env python3
"""Tries the wrong bodies of plants/, which the gate leaves out.

    python3 scripts/plants.py [CRATE..]      the plants of these crates, or of all that have any
    python3 scripts/plants.py --oldest N     those of the N crates that are due first
    python3 scripts/plants.py --fit          tries none: says which wrong bodies no longer fit the
                                             code, those of the gate too

With --dry-run it prints what it would try, and why. First due are crates with plants that were
never tried. Then come those whose code or plants changed since their line in plants/README.md, and
then the others. Of each kind those with the oldest line come first.

It clones the last commit into a temporary folder, puts the plants of a crate where `rt must-fail`
looks for them, and has it try them. What was built here of the libraries below is linked into the
clone, so a crate whose libraries are built costs about two checks of it. The script prints each
verdict, and writes what it found into plants/README.md: a line a crate, with the date and the
revision. Lines of other crates stay, and so does that of a crate of which a plant has no verdict.
The script ends with 1 where a plant was not refused, no longer fits, or has no verdict.
"""

import argparse
import functools
import os
import pathlib
import re
import shutil
import subprocess
import sys
import tempfile
import textwrap
import time

sys.dont_write_bytecode = True

from measured import TOP, today  # noqa: E402
from wrong_bodies import misfits, wrong_bodies  # noqa: E402

PAGE = TOP / "plants/README.md"
BEGIN, END = "<!-- made by scripts/plants.py -->", "<!-- end -->"
GOAL, PROOF, NOT_REFUSED, MISFIT = KINDS = (
    "refused by a goal", "only by a proof", "not refused", "no longer fits")
HEAD = (f"| Crate | Date | Revision | Plants | {' | '.join(map(str.capitalize, KINDS))} |\n"
        "|---|---|---|---:|---:|---:|---:|---:|")
NOT_TRIED = ["not tried", "", "", *("" for _ in KINDS)]
VERDICT = re.compile(r"rt: must-fail (\w+)/(\S+)\.edit: (.*)")
# How rt must-fail begins what it says of a plant, and the kind of that. It shows the first message
# of the check. One of a source file names a goal, and one of a proof file a proof that no longer
# fits. A limit of the prover is no verdict.
BEGINNINGS = (
    (r"NOT REFUSED|refused, as it must be \(only by a limit", NOT_REFUSED),
    (r"BAD EDIT", MISFIT),
    (r"refused, as it must be: (note: )?(\./)?src/", GOAL),
    (r"refused", PROOF),
)


def git(*words):
    """What git prints, of the checkout in which this script lies."""
    ran = subprocess.run(["git", "-C", TOP, *words], check=True, capture_output=True, text=True)
    return ran.stdout.rstrip()


@functools.cache
def plants():
    """The names of the plants of each crate, in the last commit."""
    names = {}
    for path in git("ls-tree", "-r", "--name-only", "HEAD", "plants/").splitlines():
        if path.endswith(".edit"):
            _, crate, name = path.removesuffix(".edit").split("/")
            names.setdefault(crate, []).append(name)
    return names


def lines_of_page():
    """The cells of each crate's line in plants/README.md."""
    table = PAGE.read_text().partition(BEGIN)[2].partition(END)[0]
    rows = re.findall(r"(?m)^\| (\w+) \|(.*)\|$", table)
    return {crate: [cell.strip() for cell in row.split("|")] for crate, row in rows}


def write_page(lines):
    """Writes the table of plants/README.md: a line for each crate whose plants were tried, and the
    names of the others that have plants."""
    front, _, rest = PAGE.read_text().partition(BEGIN)
    tried = [crate for crate in sorted(plants()) if lines.get(crate, NOT_TRIED) != NOT_TRIED]
    rows = [" | ".join([crate, *lines[crate]]) for crate in tried]
    table = "\n".join([HEAD, *(re.sub(" +", " ", f"| {row} |") for row in rows)])
    if others := ", ".join(crate for crate in sorted(plants()) if crate not in tried):
        table += "\n\n" + textwrap.fill(f"Not tried yet: {others}.", 100)
    PAGE.write_text(f"{front}{BEGIN}\n\n{table}\n\n{END}{rest.partition(END)[2]}")


def has_changed(crate, date, revision):
    """Whether the code or the plants of a crate changed since a line was written. Where nobody here
    knows the revision of the line, its date tells, and a commit of that day counts as later."""
    parts = ("src", "specs", "proofs")
    paths = [f"plants/{crate}", *(f"crates/{crate}/{part}" for part in parts)]
    look = ["git", "-C", TOP, "cat-file", "-e", f"{revision}^{{commit}}"]
    if subprocess.run(look, capture_output=True).returncode:
        return git("log", "-1", "--format=%cs", "--", *paths) >= date
    return bool(git("diff", "--name-only", revision, "HEAD", "--", *paths))


def rank(crate, cells):
    """How a crate stands among those that are due, least first, and why."""
    date, revision, count, *_ = cells
    if cells == NOT_TRIED:
        return (0, ""), "never tried"
    more = len(plants()[crate]) - int(count)
    if more > 0:
        return (0, date), f"{more} more than its line of {date} counts"
    if has_changed(crate, date, revision):
        return (1, date), f"changed since its line of {date}"
    return (2, date), f"its line is of {date}"


def link(source, target):
    """A link to a file, or a copy where the two folders lie on different disks."""
    try:
        os.link(source, target)
    except OSError:
        shutil.copy2(source, target)


def clone_into(folder):
    """A clone of the last commit, with the libraries that are built here. rt builds those anew that
    do not fit it."""
    subprocess.run(["git", "clone", "--quiet", TOP, folder], check=True)
    for built in TOP.glob("crates/*/out/rlib"):
        target = folder / built.relative_to(TOP)
        if target.parent.parent.exists():
            shutil.copytree(built, target, copy_function=link)


def kind_of(verdict):
    """The kind of what rt must-fail says of a plant, or none where it could not try it."""
    return next((kind for begin, kind in BEGINNINGS if re.match(begin, verdict)), None)


def try_crate(crate, clone):
    """Tries the plants of a crate: the names of those of each kind. The kind of those without a
    verdict is None."""
    edits = clone / "crates" / crate / "must-fail"
    shutil.rmtree(edits, ignore_errors=True)
    shutil.copytree(clone / "plants" / crate, edits)
    kinds = dict.fromkeys(plants()[crate])
    ends = {"stdout": subprocess.PIPE, "stderr": subprocess.STDOUT, "text": True}
    with subprocess.Popen(["rt", "must-fail", crate], cwd=clone, **ends) as trial:
        for line in trial.stdout:
            print(line, end="", flush=True)
            match = VERDICT.match(line)
            if match:
                kinds[match[2]] = kind_of(match[3])
    return {kind: [name for name, its in kinds.items() if its == kind] for kind in (*KINDS, None)}


def summary(names):
    """How many plants are of each kind. Those that need a look are named."""
    counts = [f"{len(some)} {kind or 'without a verdict'}" for kind, some in names.items() if some]
    lists = [f"{kind or 'without a verdict'}: {', '.join(some)}"
             for kind, some in names.items() if some and kind != GOAL]
    return "; ".join([", ".join(counts), *lists])


def try_crates(crates):
    """Tries the plants of these crates and writes their lines. It returns 1 where one of them needs
    a stronger contract, a mended edit or another try."""
    revision, status = git("rev-parse", "--short=8", "HEAD"), 0
    with tempfile.TemporaryDirectory(prefix="plants-") as room:
        clone = pathlib.Path(room) / "clone"
        clone_into(clone)
        for crate in crates:
            begin = time.monotonic()
            names = try_crate(crate, clone)
            if not names[None]:
                counts = [len(plants()[crate]), *(len(names[kind]) for kind in KINDS)]
                cells = [today(), revision, *map(str, counts)]
                write_page({**lines_of_page(), crate: cells})
            print(f"{crate}: {time.monotonic() - begin:.0f} s; {summary(names)}", flush=True)
            status |= any(names[kind] for kind in (NOT_REFUSED, MISFIT, None))
    return status


def tell_misfits():
    """Says which wrong bodies do not fit the code. It returns 1 where there are any."""
    reasons = {edit: list(misfits(edit)) for edit in wrong_bodies()}
    for edit, why in reasons.items():
        print("".join(f"{edit.relative_to(TOP)}: {reason}\n" for reason in why), end="")
    bad = sum(map(bool, reasons.values()))
    print(f"{len(reasons) - bad} wrong bodies fit the code, {bad} do not")
    return int(bad > 0)


def arguments():
    """The arguments of the command line."""
    form = argparse.RawDescriptionHelpFormatter
    parser = argparse.ArgumentParser(description=__doc__, formatter_class=form)
    parser.add_argument("crate", nargs="*", help="a crate whose plants are tried (all)")
    parser.add_argument("--oldest", type=int, metavar="N", help="the N crates that are due first")
    parser.add_argument("--fit", action="store_true", help="say which fit no longer, try none")
    parser.add_argument("--dry-run", action="store_true", help="print what would be tried, and why")
    words = parser.parse_args()
    if bool(words.crate) + (words.oldest is not None) + words.fit > 1:
        parser.error("name crates, or give --oldest, or give --fit")
    unknown = sorted(set(words.crate) - set(plants()))
    if unknown:
        parser.error(f"no plants of {', '.join(unknown)}")
    return words


def main():
    words = arguments()
    if words.fit:
        return tell_misfits()
    lines = lines_of_page()
    ranks = {crate: rank(crate, lines.get(crate, NOT_TRIED))
             for crate in words.crate or sorted(plants())}
    crates = list(ranks)
    if words.oldest is not None:
        crates = sorted(ranks, key=lambda crate: ranks[crate][0])[:words.oldest]
    paths = [f"{top}/{crate}" for crate in crates for top in ("crates", "plants")]
    uncommitted = git("status", "--porcelain", "--", *paths)
    if uncommitted:
        print(f"Not committed, so not tried:\n{uncommitted}", flush=True)
    if not words.dry_run:
        return try_crates(crates)
    for crate in crates:
        names = plants()[crate]
        print(f"{crate}: {len(names)} plants, {ranks[crate][1]}: {', '.join(names)}")
    return 0


sys.exit(main())
