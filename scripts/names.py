#!/usr/bin/env python3
"""Looks whether names keep to the rules of CONTRIBUTING. `pages.py` tells what it finds.

    python3 scripts/names.py           tells which names break a rule
    python3 scripts/names.py --count   says how many break each rule

A type is named by a noun: not by a bare participle, and not by an adverb, a preposition or a pronoun. So are a module of
src/ and a file of specs/, which may also be named by an activity. In a section of crates.txt no two types that other
modules can see have one name, and no two public definitions.
ALLOWED has the names that stay, each with its reason.
"""

import collections
import pathlib
import re
import sys

sys.dont_write_bytecode = True

import trusted_base  # noqa: E402

TOP = pathlib.Path(__file__).resolve().parent.parent
CRATES = TOP / "crates"
PARTICIPLES = set("""begun borne bought bound bred brought built caught chosen cut dealt done drawn driven fed felt found
given gone grown heard held hidden kept known laid left lent lost made meant met paid put read run said seen sent set
shown shut sold sought spent split spread sprung stood sworn taken taught thought thrown told torn understood wound woken
written""".split())
# words that say nothing of what they name
VAGUE = set("""above after again ahead all alone among any apart around aside at away back before behind below beneath
beside between beyond both by can different each else every few here in into last many may meanwhile more most much must
near next nothing off on once one other others out outside over own possible ready same several slow still such them
then there these they this those through to together two under up upon us what whole wide with within without wrong
misc stuff thing things utils util helpers common""".split())
# the names that stay: of types, of modules, and of files of specs/
ALLOWED = {
    "Asked": "of `flight_core`: what is asked of it",
    "Any": "the name of `google.protobuf.Any`",
    "Beginning": "a noun: the first bytes of a text",
    "Grouping": "a noun: what GROUP BY makes of rows",
    "Meaning": "a noun",
    "Nothing": "a noun: what the callers of a cell trade",
    "Opening": "a noun: the first part of an answer",
    "Put": "a noun: what a client puts",
    "Run": "a noun: parts one after another",
    "Setting": "a noun: how a server is set up",
    "Split": "what `split` gives",
    "Spelling": "a noun: the bytes of a text where it is written",
    "Told": "a log that another thread is told of: the public name of `version_cell`",
    "any": "its type",
    "put": "its type, or what it does",
}
# activities that have a module of their own
ACTIVITIES = set("""beginning binding building coding connecting counting cutting encoding ending fetching filling grouping joining
keeping matching merging naming opening ordering packing parsing planning printing pruning reading rewriting scanning
sending serving setting sorting spelling splitting streaming writing""".split())
TYPE = re.compile(r"(?m)^(pub(?:\(\w+\))? )?(?:struct|enum|trait|type|union) (\w+)")


def sections():
    """The section of each crate of crates.txt."""
    found, section = {}, None
    for line in (TOP / "crates.txt").read_text().splitlines():
        if re.fullmatch(r"# *\w+", line):
            section = line.lstrip("# ")
        elif line and not line.startswith("#"):
            found[re.match(r"\w+", line)[0]] = section
    return found


def is_vague(word):
    """Whether a word, in small letters, is a bare participle, or no noun."""
    if word in VAGUE or word in PARTICIPLES:
        return True
    if len(word) > 4 and word.endswith("ed") and not word.endswith(("eed", "seed", "bed")):
        return True
    return len(word) > 5 and word.endswith("ing") and word not in ("string", "listing")


def sources():
    """Each file of src/, with its crate and its module."""
    for crate in sections():
        for path in sorted((CRATES / crate / "src").rglob("*.rt")):
            parts = path.relative_to(CRATES / crate / "src").with_suffix("").parts
            yield crate, parts[:-1] if parts[-1] in ("lib", "main", "mod") else parts, path


def vague_types():
    return [f"{path.relative_to(TOP)}: the type {name} is no noun" for _, _, path in sources()
            for _, name in TYPE.findall(path.read_text())
            if re.fullmatch(r"[A-Z][a-z]+", name) and is_vague(name.lower()) and name not in ALLOWED]


def vague_modules():
    return [f"{path.relative_to(TOP)}: the module {module[-1]} is no noun" for _, module, path in sources()
            if module and "_" not in module[-1] and is_vague(module[-1])
            and module[-1] not in ALLOWED and module[-1] not in ACTIVITIES]


def vague_specs():
    return [f"{path.relative_to(TOP)}: {path.stem} is no noun" for crate in sections()
            for path in sorted((CRATES / crate / "specs").rglob("*.antt"))
            if re.fullmatch(r"[A-Z][a-z]+", path.stem) and is_vague(path.stem.lower()) and not path.stem.endswith("ing")
            and path.stem not in ALLOWED]


def doubled(kind, places):
    """What stands twice of places, each a section, a name and where it stands."""
    found = collections.defaultdict(list)
    for section, name, where in places:
        found[section, name].append(where)
    return [f"the {kind} {name} stands more than once in {section}: {', '.join(those)}"
            for (section, name), those in sorted(found.items()) if len(those) > 1]


def doubled_types():
    of = sections()
    return doubled("type", [(of[crate], name, f"{crate}/{'/'.join(module)}") for crate, module, path in sources()
                            for shown, name in TYPE.findall(path.read_text()) if shown])


def doubled_definitions():
    of = sections()
    return doubled("definition", [(of[item.crate], item.name, file["module"].removeprefix("Rattle."))
                                  for file in trusted_base.read_specs().values() for item in file["found"].values()
                                  if "pub" in item.lines[0].split()[:3] and item.crate in of])


RULES = {"types that are no nouns": vague_types, "modules that are no nouns": vague_modules,
         "files of specs that are no nouns": vague_specs,
         "types of one name": doubled_types, "definitions of one name": doubled_definitions}


def amiss():
    """What breaks a rule."""
    return [line for rule in RULES.values() for line in rule()]


def main(words):
    if "--count" in words:
        print("\n".join(f"{len(rule())} {name}" for name, rule in RULES.items()))
        return 0
    found = amiss()
    print("\n".join(found) or "nothing amiss")
    return 1 if found else 0


if __name__ == "__main__":
    sys.exit(main(sys.argv[1:]))
