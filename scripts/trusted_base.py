#!/usr/bin/env python3
"""What a reader of the promise must believe: the definitions that its contracts cite, and those that they cite, by crate.

    python3 scripts/trusted_base.py [--names] [--bare] [SOURCE FUNCTION]

The promise of README.md rests on five contracts: those of `pipe` and `serve`, the two laws that their runs meet the
headline, and what `run` of the program says of a server (STARTS). The script begins at them, or at the contract of FUNCTION in
the file SOURCE, and follows each name through the imports of its file. A ghost member of a trait, as `L.accepts` with `L: Listen`,
leads to all clauses of that trait. So does the record of a trait's ghost members (`Ghosts`).

It counts the nonblank lines of the definitions without their comments, and how many have no comment right above. The clauses of
the contracts and traits themselves are counted apart. So are six more laws (LAWS). Types that the code
declares are named apart, and the kit's own words are not followed. A name counts as cited where it stands in a definition, so the
count errs, if at all, towards more.

--names lists each definition with its lines; --bare those without a comment, and the files above 150 lines.
"""

import argparse
import collections
import pathlib
import re

TOP = pathlib.Path(__file__).resolve().parent.parent
if not (TOP / "crates.txt").exists():
    TOP = pathlib.Path.cwd()

STARTS = (("commands", "pipe"), ("commands", "serve"), ("flight_calls", "served_meets_headline"),
          ("commands", "server_meets_headline"), ("flightscan", "run"))
LEFT_OUT = {"run": {"asks"}}  # clauses of the starts: what is said of a client's request
LAWS = (("commands", "history_is_told"), ("commands", "history_is_marked"), ("commands", "puts_are_told"),
        ("commands", "taken_connections_are_whole"),
        ("flight_calls", "new_connections_are_whole"), ("flight_calls", "seats_meet_joined"))
# (what these define is a standard's, or the grammar's; what all other crates define is our own machine, and what queries mean)
FORMATS = {"proto_wire", "flatbuf", "bitmap", "arrow_types", "arrow_schema", "arrays", "array_buffers", "ipc_batch",
           "ipc_stream", "flight_proto", "sql_text", "grammar", "sql_parse"}
MACHINE_GOAL, FORMATS_GOAL = 1_000, 1_300  # lines
LONGEST_FILE = 150

ITEM = re.compile(r"^(?:unfoldable |opaque )?(?:pub )?(abbrev|record|data|def)?\s*(?:pub )?(\S+)")
HEADS = ("abbrev ", "unfoldable ", "opaque ", "pub record ", "pub data ", "record ", "data ", "pub abbrev ", "pub unfoldable ")
CLAUSE = re.compile(r"\s*(?:requires|ensures) (?:(\w+) )?\{")
BOUNDS = re.compile(r"(?<![\w.:])([A-Z]\w*)\s*:\s*([A-Z]\w*(?:<[^<>]*>)?(?:\s*\+\s*[A-Z]\w*(?:<[^<>]*>)?)*)")
WORD = re.compile(r"[^\s(){}\[\],;.@\\]+")
IMPORT = re.compile(r"^\s*(?:unfoldable )?(?:pub |ghost )?use ([\w.]+?)(?:\.\{([^}]*)\}| as (\w+)|)\s*;?\s*$", re.S | re.M)


class Definition:
    """One definition: where it stands, its lines without comments, and whether a comment stands above."""

    def __init__(self, crate, path, name, commented):
        self.crate, self.path, self.name, self.commented = crate, path, name, commented
        self.lines = []


def name_of(line):
    """The name that a head line defines."""
    words = line.split()
    for word in words:
        if word not in ("abbrev", "pub", "unfoldable", "opaque", "record", "data", "def"):
            return word.split("(")[0] or word
    return None


def imports_of(text):
    """What each name of a file stands for: (module, name), and modules by their other names."""
    names, modules = {}, {}
    for module, listed, other in IMPORT.findall(text):
        if listed:
            for part in listed.split(","):
                part = part.strip()
                if not part:
                    continue
                name, _, renamed = part.partition(" as ")
                names[(renamed or name).strip()] = (module, name.strip())
        elif other:
            modules[other] = module
    return names, modules


def read_file(crate, path, module):
    """The definitions of a file of specs/, with what its imports say."""
    text = path.read_text()
    names, modules = imports_of(text)
    found, current, commented = {}, None, False
    for line in text.split("\n"):
        if not line.strip():
            commented = False
            continue
        if line.lstrip().startswith("--"):
            commented = commented or not line.startswith(" ")
            continue
        if line.startswith(("use ", "pub use ", "unfoldable pub use ", "pub mod", "mod ", "infix", "prefix", "postfix", "syntax")):
            continue
        if line.startswith(HEADS):
            current = Definition(crate, path, name_of(line), commented)
            found[current.name] = current
            commented = False
        if current is not None:
            current.lines.append(line)
    return {"module": module, "path": path, "names": names, "modules": modules, "found": found, "crate": crate}


def read_specs():
    """All files of specs/, by module."""
    files = {}
    for folder in sorted((TOP / "crates").iterdir()):
        specs = folder / "specs"
        for path in sorted(specs.rglob("*.antt")):
            inner = ".".join(path.relative_to(specs).with_suffix("").parts)
            module = f"Rattle.{folder.name}.specs.{inner}"
            files[module] = read_file(folder.name, path, module)
    return files


def operator_parts(name):
    """An infix operator's own sign: of `◌then◌` it is `then`."""
    return [part for part in name.split("◌") if part] if "◌" in name else [name]


def cited(lines, file, files):
    """What lines of this file cite: definitions of the repository, and declared types."""
    known = {}
    for name in file["found"]:
        for part in operator_parts(name):
            known[part] = (file["module"], name)
    for name, (module, original) in file["names"].items():
        for part in operator_parts(name):
            known[part] = (module, original)
    text = "\n".join(re.sub(r"--.*", "", line) for line in lines)
    result = set()
    for alias, name in re.findall(r"([\w']+)\.([^\s(){}\[\],;.]+)", text):
        if alias in file["modules"]:
            result.add((file["modules"][alias], name))
    for word in WORD.findall(text):
        if word in known:
            result.add(known[word])
    return result


class Clauses:
    """The clauses of a contract or of a trait: their lines, with what the imports of their file say, and the traits that they lead to."""

    def __init__(self, path, lines, traits):
        text = path.read_text()
        names, modules = imports_of(text)
        crate = path.relative_to(TOP / "crates").parts[0]
        self.lines, self.traits = lines, traits
        self.file = {"module": "", "names": names, "modules": modules, "found": {}, "crate": crate}


def traits_of_sources():
    """All public traits, by name: the file, and the text of each."""
    return {match[1]: (path, match[0]) for path in (TOP / "crates").glob("*/src/**/*.rt")
            for match in re.finditer(r"(?ms)^pub trait (\w+)[^{;]*\{.*?\n\}", path.read_text())}


TRAITS = traits_of_sources()


def led_to(text, bounds):
    """The traits whose ghost members a text names, where these are bounds of its types: pairs of a type and its traits."""
    members = set(re.findall(r"(?<!\w)([A-Z]\w*)\.(\w+)", text))
    for name, traits in bounds:
        for trait in re.findall(r"\w+", traits):
            if trait in TRAITS and any(name == one and (member == trait or re.search(rf"ghost {member}\b", TRAITS[trait][1]))
                                       for one, member in members):
                yield trait


def clause_lines(text, left_out=()):
    """The lines of a text that say clauses and ghost members, but for the clauses that are left out."""
    found, depth, skipped = [], 0, False
    for line in text.split("\n"):
        clause = CLAUSE.match(line)
        if clause and depth == 0:
            skipped = clause[1] in left_out
        if depth or clause or re.match(r"\s*ghost (?!use )", line):
            depth += line.count("{") - line.count("}")
            found += [] if skipped else [line]
            skipped = skipped and depth > 0
    return found


def contract_of(path, function):
    """The clauses of a function's contract."""
    text = path.read_text()
    start = text.index(f"fn {function}<") if f"fn {function}<" in text else text.index(f"fn {function}(")
    contract = text[start : text.index("\n{", start)]
    lines = clause_lines(contract, LEFT_OUT.get(function, ()))
    return Clauses(path, lines, set(led_to("\n".join(lines), BOUNDS.findall(contract))))


def clauses_of(trait):
    """The clauses of a trait. Its parameters and associated types have bounds of their own, as `Self.Reader.tape` names a member of one."""
    path, text = TRAITS[trait]
    lines = clause_lines(text)
    bounds = BOUNDS.findall(text.partition("{")[0]) + re.findall(r"(?m)^\s*type (\w+): ([^;]*);", text)
    return Clauses(path, lines, set(led_to("\n".join(lines).replace("Self.", ""), bounds)))


def traits_behind(traits):
    """These traits, and all that their clauses lead to."""
    reached, todo = set(), list(traits)
    while todo:
        trait = todo.pop()
        if trait not in reached:
            reached.add(trait)
            todo.extend(clauses_of(trait).traits)
    return reached


def views_of(files, types):
    """What the Models of declared types cite: their ghost lines in the code."""
    result = set()
    for module in types:
        crate = module.split(".")[1]
        source = TOP / "crates" / crate / "src"
        parts = module.split(".specs.declared.")[1].split(".")
        for path in (source / (parts[0] + ".rt"), source / "/".join(parts[:-1]) / "mod.rt"):
            if not path.exists():
                continue
            text = path.read_text()
            for match in re.finditer(r"impl[^{;]*Model for (\w+)[^{]*\{(.*?)\n\}", text, re.S):
                if match.group(1) == parts[-1] or parts[-1] == "TheVariants":
                    # (an invariant is proved of each value, and no reader needs it)
                    view = IMPORT.sub("", match.group(2).partition("ghost invariant")[0])
                    names, modules = imports_of(match.group(2))
                    file = {"module": "", "names": names, "modules": modules, "found": {}, "crate": crate}
                    result |= cited(view.split("\n"), file, files)
    return result


def is_trait(module):
    """Whether a declared module is that of a trait, by the file that declares it."""
    name = module.split(".")[-1]
    return name in TRAITS and TRAITS[name][0].relative_to(TOP / "crates").parts[0] == module.split(".")[1]


def closure(start, files):
    """All definitions reached, and the declared types and traits."""
    reached, types, todo = {}, set(), list(start)
    while todo:
        module, name = todo.pop()
        if ".specs.declared." in module:
            if module not in types and module.split(".")[1] in {path.name for path in (TOP / "crates").iterdir()}:
                types.add(module)
                todo.extend(views_of(files, {module}))
                if is_trait(module):
                    todo.extend(cited_by_traits({module.split(".")[-1]}, files))
            continue
        if module not in files or (module, name) in reached:
            continue
        file = files[module]
        if name not in file["found"]:
            owners = [found for found in file["found"] if name in operator_parts(found)]
            if not owners:
                owners = [found for found, item in file["found"].items()
                          if item.lines[0].startswith(("pub data ", "data ", "pub record ", "record "))
                          and re.search(rf"(?<![\w]){re.escape(name)}\s*:", "\n".join(item.lines))]
            if not owners and name in file["names"]:
                todo.append(file["names"][name])
            if not owners:
                continue
            name = owners[0]
            if (module, name) in reached:
                continue
        item = file["found"][name]
        reached[(module, name)] = item
        todo.extend(cited(item.lines, file, files))
    return reached, types


def start_of(crate, function):
    """Where a crate's public function stands."""
    for path in sorted((TOP / "crates" / crate / "src").rglob("*.rt")):
        if re.search(rf"(?m)^pub fn {function}[<(]", path.read_text()):
            return path, function
    raise SystemExit(f"no public function {function} in {crate}")


def cited_by_traits(traits, files):
    """What the clauses of these traits cite, and of those that they lead to."""
    clauses = [clauses_of(trait) for trait in traits_behind(traits)]
    return set().union(*(cited(one.lines, one.file, files) for one in clauses))


def base_of(starts, files):
    """All definitions that some contracts rest on, and the declared types."""
    found = set()
    for path, function in starts:
        contract = contract_of(path, function)
        found |= cited(contract.lines, contract.file, files) | cited_by_traits(contract.traits, files)
    return closure(found, files)


def clauses_to_read(starts, types):
    """How many lines the clauses of some contracts have, and of the traits that they and the definitions lead to."""
    contracts = [contract_of(*start) for start in starts]
    declared = {module.split(".")[-1] for module in types if is_trait(module)}
    traits = traits_behind(declared.union(*(contract.traits for contract in contracts)))
    texts = [contract.lines for contract in contracts] + [clauses_of(trait).lines for trait in traits]
    return sum(bool(line.strip()) and not line.lstrip().startswith("//") for lines in texts for line in lines), sorted(traits)


def base_of_promise(files):
    """All definitions that the promise rests on, and the declared types."""
    return base_of([start_of(*start) for start in STARTS], files)


def base_with_laws(files):
    """The same with the laws that stand beside the promise."""
    return base_of([start_of(*start) for start in STARTS + LAWS], files)


def size_of(definitions):
    """Lines of our machine and of formats."""
    sizes = collections.Counter()
    for item in definitions:
        sizes[item.crate in FORMATS] += len(item.lines)
    return sizes[False], sizes[True]


def against(size, goal):
    return f"{goal:,}: {'met' if size <= goal else f'missed by {size - goal}'}"


def missed_by_form(definitions):
    """How many definitions have no comment, and how many files of theirs are too long."""
    bare = sum(not item.commented for item in definitions)
    long = sum(len(path.read_text().splitlines()) > LONGEST_FILE for path in {item.path for item in definitions})
    return bare, long


def counts(files, believed, types):
    """What there is to read, each kind with how much it is and its goal, if it has one."""
    machine, formats = size_of(believed.values())
    clauses, traits = clauses_to_read([start_of(*start) for start in STARTS], types)
    laws = sum(size_of(base_with_laws(files)[0].values()))
    bare, long = missed_by_form(believed.values())
    among = len({item.path for item in believed.values()})
    return (("our own machine and the meaning of queries, lines", machine, against(machine, MACHINE_GOAL)),
            ("formats and the grammar, lines", formats, against(formats, FORMATS_GOAL)),
            (f"both: {len(believed)} definitions in {among} files, lines", machine + formats, ""),
            (f"clauses of these {len(STARTS)} contracts and of the traits {', '.join(traits)}, lines", clauses, ""),
            (f"definitions, with those of {len(LAWS)} other laws, lines", laws, ""),
            ("definitions without a comment", bare, "none"),
            (f"files above {LONGEST_FILE} lines", long, "none"))


def print_crates(definitions):
    """The lines and definitions of each crate, and how many have no comment."""
    code, bare, count = collections.Counter(), collections.Counter(), collections.Counter()
    for item in definitions:
        code[item.crate] += len(item.lines)
        count[item.crate] += 1
        bare[item.crate] += not item.commented
    machine, formats = size_of(definitions)
    for title, among, size in (("machine and meaning", False, machine), ("formats and grammar", True, formats)):
        print(f"  {title}: {size} lines of code")
        for crate in sorted((crate for crate in code if (crate in FORMATS) == among), key=lambda crate: -code[crate]):
            uncommented = f", {bare[crate]} without a comment" if bare[crate] else ""
            print(f"    {crate:16} {code[crate]:5} in {count[crate]} definitions{uncommented}")


def summed(reached, types):
    definitions = list(reached.values())
    return (f"{sum(size_of(definitions))} lines, {len(definitions)} definitions, {len({item.path for item in definitions})} files, "
            f"{len({module for module in types if not module.endswith('TheVariants')})} declared types")


def print_long_files():
    for path in sorted((TOP / "crates").glob("*/specs/**/*.antt")):
        size = len(path.read_text().splitlines())
        if size > LONGEST_FILE:
            print(f"  above {LONGEST_FILE} lines: {path.relative_to(TOP)} ({size})")


def main():
    parser = argparse.ArgumentParser(description=__doc__, formatter_class=argparse.RawDescriptionHelpFormatter)
    parser.add_argument("--names", action="store_true", help="list each definition")
    parser.add_argument("--bare", action="store_true", help="list those without a comment")
    parser.add_argument("source", nargs="?", help="a file of src/, from the top of the repository")
    parser.add_argument("function", nargs="?", help="a function of that file")
    words = parser.parse_args()
    if words.source and not words.function:
        parser.error("a source file needs a function")
    starts = [(TOP / words.source, words.function)] if words.source else [start_of(*start) for start in STARTS]
    files = read_specs()
    for start in starts:
        print(f"{start[0].relative_to(TOP)}, {start[1]}: {summed(*base_of([start], files))}")
    reached, types = base_of(starts, files)
    if len(starts) > 1:
        print(f"all of them: {summed(reached, types)}")
        for name, count, goal in counts(files, reached, types):
            print(f"  {name}: {count:,}{f' (goal {goal})' if goal else ''}")
    print_crates(reached.values())
    print_long_files()
    for item in sorted(reached.values(), key=lambda item: (item.crate, str(item.path), item.name)):
        if words.names or words.bare and not item.commented:
            print(f"{item.crate}/{item.path.name}\t{item.name}\t{len(item.lines)}{'' if item.commented else chr(9) + 'no comment'}")


if __name__ == "__main__":
    main()
