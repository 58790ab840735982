#!/usr/bin/env python3
"""Renews what the pages take from the repository, and looks whether what they name is there.

    python3 scripts/pages.py           writes the parts that are made, and tells what is amiss
    python3 scripts/pages.py --check   writes nothing; ends with 1 where a part is stale or something is amiss

Made: the sentences and the links of the crates in docs/ARCHITECTURE.md, from crates.txt; and the list of files in
docs/PROMISE.md, from what scripts/trusted_base.py counts and what public contracts cite. Looked at: that each crate of
crates.txt has its row in its section, and stands on none of a later one. And in each page: that the files and headings that
links lead to are there; that a name in a link to a source file stands in that file; that files and wrong bodies
named in backticks are there; that each wrong body has its row in the README of its crate, with a link to where it
stands, and fits the code; that plants/README.md names each crate with plants; that code which is shown stands
so in a source file; that the definitions of docs/PROMISE.md leave out no file to believe, and that what a row says of its
files stands in them; that no sentence and no cell of a table has more than 35 words, where a code span is one word and
quotations are left out; that README.md has at most 9,216 bytes; what `page_style.py` says of the words of a page;
and what `names.py` says of names.
"""

import pathlib
import re
import sys

sys.dont_write_bytecode = True

import names as name_rules  # noqa: E402
import trusted_base  # noqa: E402
from page_style import look_at_style, look_at_totals  # noqa: E402
from wrong_bodies import misfits, wrong_bodies  # noqa: E402

TOP = pathlib.Path(__file__).resolve().parent.parent
CRATES = TOP / "crates"
README_BYTES = 9_216
MOST_WORDS = 35  # of a sentence, and of a cell
LINK = re.compile(r"\[([^\]]*)\]\(([^)\s]+)\)")
NAMED_FILE = re.compile(r"`((?:crates/)?(\w+)/(specs|src|proofs|must-fail)/[\w/{}, .-]+)`")
STARTS_ANEW = re.compile(r"([-*>]|[1-9]\d*\.)\s|[|#]|<!--")
SENTENCE_END = re.compile(r"(?<=[.!?])(?<!\.\.)[)*_\"]*\s+")
BEGIN, END = "<!-- made by scripts/pages.py -->", "<!-- end -->"


def sections():
    """By section of crates.txt: the sentence that says what its crates promise together, and what each of them stands on."""
    section = {"says": "", "crates": {}}
    found = {"no section": section}
    for line in (TOP / "crates.txt").read_text().splitlines():
        said = line.lstrip("#").strip()
        if line.startswith("#") and re.fullmatch(r"\w+", said):
            section = found.setdefault(said, {"says": "", "crates": {}})
        elif line.startswith("#"):
            section["says"] = f"{section['says']} {said}".strip()
        elif said:
            name, _, below = line.partition(":")
            section["crates"][name.split()[0]] = below.split()
    return found


def stands_on():
    """What each crate of crates.txt stands on."""
    return {name: below for section in sections().values() for name, below in section["crates"].items()}


def with_sections(text, amiss):
    """ARCHITECTURE with the sentence of each section as crates.txt has it, and the links of the first column."""
    listed, lines, at, rows = sections(), [], None, {}
    for line in text.split("\n"):
        head, row = re.match(r"\*\*(\w+)\*\*: ", line), re.match(r"\| \[?(\w+)[^|]*", line)
        if head and head[1] in listed:
            at = head[1]
            line = head[0] + listed[at]["says"]
        elif line.startswith("#"):
            at = None
        elif at and row and row[1] != "Crate":
            rows.setdefault(row[1], []).append(at)
            line = f"| [{row[1]}](../crates/{row[1]}/README.md) {line[row.end():]}"
        lines.append(line)
    wanted = {name: [at] for at, section in listed.items() for name in section["crates"]}
    for name in sorted(wanted | rows):
        had, want = (" and ".join(found.get(name, ["no section"])) for found in (rows, wanted))
        if rows.get(name) != wanted.get(name):
            amiss.append(f"docs/ARCHITECTURE.md: {name} has its row in {had}, and its line of crates.txt stands in {want}")
    return "\n".join(lines)


def look_at_sections(amiss):
    """Tells which crates stand on one of a later section."""
    place = {name: number for number, section in enumerate(sections().values()) for name in section["crates"]}
    amiss.extend(f"crates.txt: {name} stands on {one}, of a later section" for name, below in stands_on().items()
                 for one in below if place.get(one, 0) > place[name])


def exported(crate):
    """The names of types, traits and functions that other crates can see: those that its root declares or brings out, and
    those of its public modules. Of a program, which no crate sees, those that its modules make public."""
    source = CRATES / crate / "src"
    is_program = not (source / "lib.rt").exists()
    root = source / ("main.rt" if is_program else "lib.rt")
    text, item = root.read_text(), r"(?m)^pub (?:const )?(?:fn|struct|enum|trait) (\w+)"
    names = set(re.findall(item, text))
    for listed, one in re.findall(r"(?m)^pub use crate::[\w:]+::(?:\{([^}]*)\}|(\w+))", text):
        names |= set(re.findall(r"\w+", listed or one))
    for module in re.findall(r"(?m)^(?:pub )?mod (\w+);" if is_program else r"(?m)^pub mod (\w+);", text):
        for path in (source / f"{module}.rt", source / module / "mod.rt"):
            names |= set(re.findall(item, path.read_text())) if path.exists() else set()
    return names


def public_lines(text, names):
    """The lines of a source file that a caller of its crate can see, where these names are exported: contracts of
    functions and methods. What a Model makes of a type's private parts is none of them: a caller sees what it gives."""
    block, taking, found = "", False, []
    for line in trusted_base.IMPORT.sub("", text).split("\n"):
        if line and not line[0].isspace():
            block = line
        head = re.match(r"\s*(pub )?(?:const )?fn (\w+)", line)
        if head:
            owner = re.search(r" for (\w+)", block) or re.match(r"(?:pub )?(?:unsafe )?(?:impl(?:<.*?>)?|trait) (\w+)", block)
            is_method = line[0].isspace()
            is_open = bool(head[1]) or is_method and (" for " in block or "trait " in block)
            taking = is_open and " Model for " not in block and (owner[1] if is_method and owner else head[2]) in names
        if taking:
            found.append(line)
        stripped = line.strip()
        if stripped == "{" or stripped.endswith("{") and (head or stripped.startswith(")")) or line == "}":
            taking = False
    return found


def is_test(path):
    return "tests" in path.parts or path.stem in ("tests", "vectors", "cases")


def public_base(files):
    """All definitions that a public contract of any crate rests on."""
    start = set()
    for crate in stands_on():
        names = exported(crate)
        for path in (CRATES / crate / "src").rglob("*.rt"):
            if not is_test(path):
                text = path.read_text()
                brought, modules = trusted_base.imports_of(text)
                file = {"module": "", "names": brought, "modules": modules, "found": {}, "crate": crate}
                start |= trusted_base.cited(public_lines(text, names), file, files)
    return trusted_base.closure(start, files)[0]


def list_of_files(amiss):
    """The files of each crate's specs: those to believe, and those of other public calls and laws; not those inside."""
    files = trusted_base.read_specs()
    believed, types = trusted_base.base_of_promise(files)
    public = {item.path for item in public_base(files).values()}
    among = {item.path for item in believed.values()}
    rows = ["| What there is to read | How much | Goal |", "|---|---:|---|"]
    rows += [f"| {name} | {count:,} | {goal} |" for name, count, goal in trusted_base.counts(files, believed, types)]
    rows += ["", "| Crate | To believe | For other public calls, and laws |", "|---|---|---|"]
    for crate in stands_on():
        specs = CRATES / crate / "specs"
        kinds = {"believe": [], "stated": []}
        for path in sorted(specs.rglob("*.antt")):
            if not any(file["path"] == path and file["found"] for file in files.values()):
                continue
            is_marked = path.relative_to(specs).parts[0] == "inside" or path.read_text().startswith("-- Inside")
            kind = "believe" if path in among else "stated" if path in public else "inside"
            if kind != "inside":
                kinds[kind].append(path.stem)
            if is_marked and kind != "inside":
                rests = "the promise rests" if kind == "believe" else "a public contract rests"
                amiss.append(f"{path.relative_to(TOP)}: marked as inside, but {rests} on it")
            elif kind == "inside" and not is_marked:
                amiss.append(f"{path.relative_to(TOP)}: inside, but neither in specs/inside nor begun by 'Inside'")
        if any(kinds.values()):
            rows.append(f"| [{crate}](../crates/{crate}/README.md) | "
                        + " | ".join(", ".join(names) for names in kinds.values()) + " |")
    return "\n".join(re.sub(r"\|  (?=\|)", "| ", row) for row in rows)


def with_files(text, amiss):
    """PROMISE with its list of files as the count has it."""
    front, begin, rest = text.partition(BEGIN)
    _, end, behind = rest.partition(END)
    if not begin or not end:
        amiss.append("docs/PROMISE.md: no place for the list of files")
        return text
    return f"{front}{begin}\n\n{list_of_files(amiss)}\n\n{end}{behind}"


def slug(heading):
    """The anchor of a heading."""
    words = re.sub(r"[^\w\- ]", "", heading.strip().lower().replace("`", ""))
    return words.replace(" ", "-")


def headings(path):
    text = re.sub(r"```.*?```", "", path.read_text(), flags=re.S)
    return {slug(found) for found in re.findall(r"(?m)^#+ (.*)$", text)}


def look_at_links(page, text, amiss):
    """Tells which links of a page lead nowhere, or to a source that lacks the name in them."""
    where = page.relative_to(TOP)
    for label, target in LINK.findall(text):
        if "://" in target:
            continue
        path, _, anchor = target.partition("#")
        to = (page.parent / path).resolve() if path else page
        if not to.exists():
            amiss.append(f"{where}: no {target}")
        elif anchor and anchor not in headings(to):
            amiss.append(f"{where}: no heading {target}")
        elif to.suffix in (".antt", ".rt"):
            source = to.read_text()
            for name in re.findall(r"`([^`]+)`", label):
                if not re.search(rf"(?<!\w){re.escape(name.rpartition('::')[2])}(?!\w)", source):
                    amiss.append(f"{where}: {name} does not stand in {target}")


def look_at_names(page, text, amiss):
    """Tells which files named in backticks are not there."""
    for whole, crate, _ in NAMED_FILE.findall(text):
        path = whole.removeprefix("crates/")
        if not (CRATES / crate).exists():
            amiss.append(f"{page.relative_to(TOP)}: no crate {crate}")
        elif "/must-fail/" in path and "." not in path.rpartition("/")[2]:
            if not (CRATES / f"{path}.edit").exists():
                amiss.append(f"{page.relative_to(TOP)}: no wrong body {path}")
        elif not any(char in path for char in "{,") and not (CRATES / path).exists():
            amiss.append(f"{page.relative_to(TOP)}: no file {path}")


def look_at_wrong_bodies(amiss):
    """Tells which wrong bodies have no row in the README of their crate, and which rows have no wrong body. A row links
    to its file, as must-fail/NAME where the gate tries it, and as plants/NAME where a landing does."""
    found = {(path.relative_to(CRATES).parts[0], "must-fail", path.stem) for path in CRATES.glob("*/must-fail/*.edit")}
    found |= {(path.parent.name, "plants", path.stem) for path in TOP.glob("plants/*/*.edit")}
    named = set()
    for page in CRATES.glob("*/README.md"):
        crate = page.parent.name
        row = rf"(?m)^\| \[(must-fail|plants)/(\w+)\]\((?:must-fail|\.\./\.\./plants/{crate})/\2\.edit\) \|"
        named |= {(crate, folder, name) for folder, name in re.findall(row, page.read_text())}
    amiss.extend(f"crates/{crate}/README.md: no row for {folder}/{name}" for crate, folder, name in sorted(found - named))
    amiss.extend(f"crates/{crate}/README.md: no wrong body {folder}/{name}" for crate, folder, name in sorted(named - found))


def look_at_plants(amiss):
    """Tells which crates with plants are not in plants/README.md, and which are there without plants."""
    page = (TOP / "plants/README.md").read_text()
    named = set(re.findall(r"(?m)^\| (\w+) \| \d{4}-", page))
    for untried in re.findall(r"(?ms)^Not tried yet: (.*?)\.$", page):
        named |= set(re.findall(r"\w+", untried))
    crates = {path.parent.name for path in TOP.glob("plants/*/*.edit")}
    amiss.extend(f"plants/README.md: {crate} is not there, not even as not tried" for crate in sorted(crates - named))
    amiss.extend(f"plants/README.md: no plants of {crate}" for crate in sorted(named - crates))


def look_at_edits(amiss):
    """Tells which wrong bodies no longer fit the code."""
    amiss.extend(f"{edit.relative_to(TOP)}: {why}" for edit in wrong_bodies() for why in misfits(edit))


def look_at_definitions(page, text, amiss):
    """Tells which names a row of PROMISE's definitions says that do not stand in the files of the row, and which files to
    believe have no row."""
    where, found = page.relative_to(TOP), set()
    definitions = text.partition("\n## Definitions")[2].partition("\n## ")[0]
    for row, says in re.findall(r"(?m)^\| (\[.*?) \| (.*?) \|$", definitions):
        files = [(page.parent / target).resolve() for _, target in LINK.findall(row)]
        source = "".join(path.read_text() for path in files if path.exists())
        found |= {(path.relative_to(CRATES).parts[0], path.stem) for path in files if CRATES in path.parents}
        amiss.extend(f"{where}: {name} does not stand in {row}" for name in re.findall(r"`([A-Za-z_]\w*)[^`]*`", says)
                     if not re.search(rf"(?<!\w){name}(?!\w)", source))
    for crate, believed in re.findall(r"(?m)^\| \[(\w+)\]\([^|]*\) \| (\w[^|]*) \|[^|]*\|$", text):
        amiss.extend(f"{where}: the definitions leave out {crate}/{name}" for name in believed.split(", ")
                     if (crate, name) not in found)


def look_at_code(page, text, sources, amiss):
    """Tells which contracts and definitions that a page shows stand in no source file so."""
    for kind, shown in re.findall(r"```(rust|antt)\n(.*?)```", text, flags=re.S):
        if not any(" ".join(shown.split()) in source for source in sources[kind]):
            amiss.append(f"{page.relative_to(TOP)}: no source has what begins {shown.splitlines()[0]!r}")


def pieces(text):
    """What a page says, each piece with its line and whether it is a cell: paragraphs, items of lists and cells of tables.
    Code, headings and quotations are left out."""
    text = re.sub(r"```.*?```", lambda code: "\n" * code[0].count("\n"), text, flags=re.S)
    begin, held = 0, []
    for number, line in enumerate([*text.split("\n"), ""], 1):
        stripped = line.strip()
        if held and (not stripped or STARTS_ANEW.match(stripped)):
            yield begin, False, " ".join(held)
            held = []
        if stripped.startswith("|"):
            yield from ((number, True, cell) for cell in re.split(r"(?<!\\)\|", stripped))
        elif stripped and not stripped.startswith(("#", ">", "<!--")) and (held or STARTS_ANEW.match(stripped) or line[:4].strip()):
            begin = begin if held else number
            held.append(stripped)


def words_in(said):
    """How many words a sentence or a cell has: a code span is one, and of a link its label counts."""
    said = re.sub(r"`[^`]*`", "x", LINK.sub(r"\1", said))
    return sum(bool(re.search(r"\w", word)) for word in said.split())


def look_at_lengths(page, text, amiss):
    """Tells which sentences and cells have too many words."""
    for line, is_cell, piece in pieces(text):
        for said in [piece] if is_cell else SENTENCE_END.split(piece):
            count = words_in(said)
            if count > MOST_WORDS:
                kind = "cell" if is_cell else "sentence"
                amiss.append(f"{page.relative_to(TOP)}:{line}: {count} words in a {kind}: {' '.join(said.split()[:8])} ..")


def pages():
    yield from sorted(TOP.glob("*.md"))
    for folder in ("docs", "bench", "clients", "gateway", "plants", "scripts", "vectors", "crates"):
        yield from sorted(path for path in (TOP / folder).rglob("*.md") if "/out/" not in str(path))


def main(words):
    amiss, stale = [], []
    for name, renewed in (("docs/ARCHITECTURE.md", with_sections), ("docs/PROMISE.md", with_files)):
        path = TOP / name
        old = path.read_text()
        new = renewed(old, amiss)
        if new != old:
            stale.append(f"{name} {'is stale' if '--check' in words else 'renewed'}")
            if "--check" not in words:
                path.write_text(new)
    sources = {kind: [" ".join(path.read_text().split()) for path in CRATES.glob(pattern)]
               for kind, pattern in (("rust", "*/src/**/*.rt"), ("antt", "*/specs/**/*.antt"))}
    texts = {}
    for page in pages():
        texts[str(page.relative_to(TOP))] = text = page.read_text()
        look_at_code(page, text, sources, amiss)
        if page.name == "PROMISE.md":
            look_at_definitions(page, text, amiss)
        look_at_links(page, text, amiss)
        look_at_names(page, text, amiss)
        look_at_lengths(page, text, amiss)
        look_at_style(str(page.relative_to(TOP)), text, amiss)
    look_at_totals(texts, amiss)
    look_at_sections(amiss)
    amiss.extend(name_rules.amiss())
    look_at_wrong_bodies(amiss)
    look_at_edits(amiss)
    look_at_plants(amiss)
    listed = stands_on()
    of_kit = {name for below in listed.values() for name in below} - set(listed)
    said = (TOP / "docs/ARCHITECTURE.md").read_text()
    amiss.extend(f"docs/ARCHITECTURE.md: no word of the kit's {name}" for name in sorted(of_kit)
                 if not re.search(rf"(?<![\w]){name}(?![\w])", said))
    size = len((TOP / "README.md").read_bytes())
    if size > README_BYTES:
        amiss.append(f"README.md has {size} bytes, more than {README_BYTES}")
    print("\n".join(stale + amiss) or "nothing amiss")
    return 1 if amiss or stale and "--check" in words else 0


sys.exit(main(sys.argv[1:]))
