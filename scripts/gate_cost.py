#!/usr/bin/env python3
"""What the gate costs, crate by crate and kind by kind, in processor time.

    python3 scripts/gate_cost.py --run LOG        runs the gate (.ci/run), its output into LOG
    python3 scripts/gate_cost.py --watch PID LOG  watches a gate that runs already: PID is the process of `rt ci`
    python3 scripts/gate_cost.py LOG              prints the table, in markdown
    python3 scripts/gate_cost.py --write LOG      sets it into bench/README.md, in the place of the one that is there,
                                                  and writes bench/gate.csv

The gate's own output says which crates were proved, which edits were refused and which programs ran, but no time. So
the first two also look at the gate's processes, three times a second, and write what each cost into LOG.times: first what
was measured, when and where, then a line for each process, with its crate, its kind, its processor seconds, and when it
began and ended. They change nothing of what the gate does. Without that file no seconds are known, and the table says so.

The table has the sum of all crates, and the crates that take most (SHOWN_CRATES). bench/gate.csv has each crate, with how
many functions, test functions and edits it has.

The kinds: `proof` (the crate from nothing), `tests` (the crate once more, with its test functions, and their run),
`wrong bodies` (each edit of must-fail, and the crate once more over what they left), `programs` (compiling and running
what a program's proof admitted).

The budget stands here, and nowhere else (WHOLE_MINUTES and the constants below it); the table says it. It is in seconds of
a quiet machine. A second of a shared core is no fixed measure: the proofs of a few crates that hardly change (YARD) take
YARD_SECONDS on the quiet machine, and what they take in this run says how much slower this run was.
"""

import argparse
import collections
import os
import pathlib
import re
import resource
import subprocess
import sys
import textwrap
import time

sys.dont_write_bytecode = True

from measured import TOP, Measured  # noqa: E402

KINDS = ("proof", "tests", "wrong bodies", "programs")
BEGIN, END = "<!-- made by scripts/gate_cost.py -->", "<!-- end -->"
PAGE_PATH, COSTS, COLUMNS = TOP / "bench/README.md", TOP / "bench/gate.csv", 100
SHOWN_CRATES = 3  # crates that the page shows: those that take most
WHOLE_MINUTES = 120  # with all that is planned; what stands takes 100
PROOF_SECONDS, TEST_SECONDS, MOST_EDITS = 400, 10, 24  # of a crate's proof, of a test function, and wrong bodies in all
# (a gate that took 327 processor minutes beside others proved these in 830 s; on a quiet machine it took 159 minutes)
YARD = ("proto_wire", "flatbuf", "flight_proto", "sql_text", "sql_parse", "endpoint_split")
YARD_SECONDS = 404
PAUSE = 0.33
TICKS = os.sysconf("SC_CLK_TCK")
PAGE = os.sysconf("SC_PAGE_SIZE")


class Process:
    """A process at one moment: its parent, the time it was started, its processor seconds with those of the children
    that it has waited for, and the bytes that it holds."""

    def __init__(self, text):
        fields = text.rpartition(")")[2].split()
        self.parent, self.started = int(fields[1]), int(fields[19])
        self.seconds = sum(int(ticks) for ticks in fields[11:15]) / TICKS
        self.held = int(fields[21]) * PAGE


def processes():
    """All processes of the machine, by number."""
    found = {}
    for name in os.listdir("/proc"):
        if name.isdigit():
            try:
                with open(f"/proc/{name}/stat", errors="replace") as file:
                    found[int(name)] = Process(file.read())
            except OSError:
                pass
    return found


def task_of(number):
    """The crate and the kind of what a process does, or None where it is no task of the gate's by itself."""
    try:
        with open(f"/proc/{number}/cmdline", "rb") as file:
            words = file.read().decode(errors="replace").split("\0")
        folder = os.readlink(f"/proc/{number}/cwd")
    except OSError:
        return None
    line = " ".join(words)
    ran = re.search(r"/rt-run-[^/ ]+/bin/(\w+)", line)
    if ran:
        name = ran[1]
        return (name[: -len("_tests")], "tests") if "rattle-test" in line else (name, "programs")
    crate = re.search(r"--crate-name (\w+)", line)
    if crate and " check " in line:
        return crate[1], "wrong bodies" if "/rt-edit-" in folder else "proof"
    if crate and " build " in line:
        return crate[1], "tests" if " --test" in line else "programs" if "--crate-checked" in line else "proof"
    if "rattle-link" in line or "llvm-nm" in line:
        name = pathlib.Path(folder).name
        made = re.search(r"out/(\w+)", line)
        return (made[1] if made else name).removesuffix("_tests"), "tests" if "_tests" in line else "programs"
    return None


class Watch:
    """What each task of the gate of a checkout cost so far."""

    def __init__(self, root, folder):
        self.root, self.began, self.tasks, self.most_held = root, time.time(), {}, 0
        self.whole, self.measured = 0.0, Measured(folder=folder)

    def look(self):
        """Takes note of the processes that there are below the root. Returns whether the root is there."""
        now, found = time.time() - self.began, processes()
        if self.root not in found:
            return False
        below = collections.defaultdict(list)
        for number, process in found.items():
            below[process.parent].append(number)
        tops, held, whole = {}, 0, 0.0
        todo = [(self.root, None)]
        while todo:
            number, top = todo.pop()
            process = found[number]
            held, whole = held + process.held, whole + process.seconds
            if top is None and number != self.root:
                task = task_of(number)
                if task:
                    top = (number, process.started, *task)
            if top is not None:
                tops[top] = tops.get(top, 0.0) + process.seconds
            todo.extend((child, top) for child in below[number])
        self.most_held, self.whole = max(self.most_held, held), max(self.whole, whole)
        for top, seconds in tops.items():
            first, _, before = self.tasks.get(top, (now, now, 0.0))
            self.tasks[top] = first, now, max(before, seconds)
        return True

    def write(self, path, whole, is_child):
        """Writes what was seen: what was measured, a line for each task, and the sums behind them."""
        lines = [f"measured\t{self.measured.line(0.0 if is_child else whole)}"]
        lines += [f"{crate}\t{kind}\t{seconds:.2f}\t{first:.1f}\t{last:.1f}"
                  for (_, _, crate, kind), (first, last, seconds) in sorted(self.tasks.items(), key=lambda it: it[1][0])]
        lines.append(f"all\t{whole:.2f}\t{time.time() - self.began:.1f}\t{self.most_held}")
        path.write_text("\n".join(lines) + "\n")


def run_gate(log):
    """Runs the gate and watches it. Returns its status."""
    with open(log, "w") as out:
        gate = subprocess.Popen([str(TOP / ".ci/run")], cwd=TOP, stdin=subprocess.DEVNULL, stdout=out, stderr=out)
        watch = Watch(gate.pid, TOP)
        while gate.poll() is None:
            watch.look()
            time.sleep(PAUSE)
    used = resource.getrusage(resource.RUSAGE_CHILDREN)
    watch.write(pathlib.Path(f"{log}.times"), used.ru_utime + used.ru_stime, True)
    return gate.returncode


def watch_gate(number, log):
    """Watches a gate that runs already, until it ends."""
    watch = Watch(number, os.readlink(f"/proc/{number}/cwd"))
    while watch.look():
        time.sleep(PAUSE)
    watch.write(pathlib.Path(f"{log}.times"), watch.whole, False)
    return 0


def counts_of(log):
    """What the gate's output says of each crate: the functions that were proved, its tests, its edits, how many of
    them were refused only because a proof file names what they took away, and its run; and the last line."""
    counts = collections.defaultdict(collections.Counter)
    crate, of_tests, last = "", False, ""
    for line in log.splitlines():
        last = line or last
        head = re.match(r"== (\w+)(: its tests)?$", line)
        if head:
            crate, of_tests = head[1], bool(head[2])
        proved = re.match(r"logic=proved functions=(\d+)", line)
        if proved and not of_tests:
            counts[crate]["functions"] += int(proved[1])
        tests = re.search(r"^logic=proved .*\btests=(\d+)", line)
        if tests:
            counts[crate]["tests"] += int(tests[1])
        edit = re.match(r"rt: must-fail (\w+)/\S+: (refused)?(.*)", line)
        if edit:
            counts[edit[1]]["edits"] += 1
            counts[edit[1]]["not refused"] += not edit[2]
            counts[edit[1]]["only because"] += "only because" in edit[3]
        ran = re.match(r"rt: (\w+) ran, and wrote", line)
        if ran:
            counts[ran[1]]["runs"] += 1
    return counts, last


def times_of(path):
    """The processor seconds of each crate and kind, the sums, and what was measured."""
    seconds, whole, measured = collections.Counter(), None, "Measured: revision, date and machine were not written down."
    for line in path.read_text().splitlines():
        fields = line.split("\t")
        if fields[0] == "all":
            whole = float(fields[1]), float(fields[2]), int(fields[3])
        elif fields[0] == "measured":
            measured = fields[1]
        else:
            seconds[fields[0], fields[1]] += float(fields[2])
    return seconds, whole, measured


def slower_by(seconds):
    """How many seconds of this run are one of the quiet machine."""
    return sum(seconds[name, "proof"] for name in YARD) / YARD_SECONDS or 1.0


def order_of(names):
    """Crates in the order of crates.txt, and any other behind them."""
    listed = [line.partition(":")[0].split()[0] for line in (TOP / "crates.txt").read_text().splitlines()
              if line.strip() and not line.startswith("#")]
    return [name for name in listed if name in names] + sorted(set(names) - set(listed))


def cells_of(seconds, names):
    """What some crates take together, of each kind and in all. Nothing is an empty cell."""
    costs = [sum(seconds[name, kind] for name in names) for kind in KINDS]
    return [f"{cost:.0f}" if cost else "" for cost in (*costs, sum(costs))]


def rows_of(counts, seconds):
    """The rows of the page's table: all crates together, and those that take most."""
    names = order_of(set(counts) | {crate for crate, _ in seconds})
    dearest = sorted(names, key=lambda name: -sum(seconds[name, kind] for kind in KINDS))[:SHOWN_CRATES]
    lines = [f"| CPU seconds | {' | '.join(KINDS)} | all |", "|---" + "|---:" * (len(KINDS) + 1) + "|"]
    for title, among in [("**all crates**", names), *((name, [name]) for name in dearest)]:
        lines.append(re.sub(r"\|  (?=\|)", "| ", f"| {title} | {' | '.join(cells_of(seconds, among))} |"))
    return lines


def csv_of(counts, seconds):
    """Each crate, as CSV: the seconds of each kind and in all, its functions, test functions and wrong bodies."""
    names = order_of(set(counts) | {crate for crate, _ in seconds})
    lines = [",".join(["crate", *(f"{kind} (CPU s)" for kind in (*KINDS, "all")), "functions", "test functions", "edits"])]
    for name in names:
        numbers = [str(counts[name][what] or "") for what in ("functions", "tests", "edits")]
        lines.append(",".join([name, *cells_of(seconds, [name]), *numbers]))
    return "\n".join(lines) + "\n"


def over_budget(counts, seconds, whole, slower):
    """What is more than the budget has."""
    over = [f"{name}'s proof" for name in order_of(counts) if seconds[name, "proof"] > PROOF_SECONDS * slower]
    over += [f"{name}'s tests" for name in order_of(counts)
             if seconds[name, "tests"] > TEST_SECONDS * slower * max(counts[name]["tests"], 1)]
    edits = sum(of_crate["edits"] for of_crate in counts.values())
    over += [f"{edits} wrong bodies"] if edits > MOST_EDITS else []
    return over + (["the whole"] if whole and whole[0] > 60 * WHOLE_MINUTES * slower else [])


def wrapped(said, indent=""):
    """A paragraph in lines of the page."""
    return textwrap.fill(said, COLUMNS, subsequent_indent=indent, break_long_words=False, break_on_hyphens=False)


def notes_of(counts, seconds, whole, last):
    """What stands after the table."""
    notes, slower = [], slower_by(seconds)
    if whole is not None:
        total, wall, held = whole
        notes.append(f"{total / 60:.0f} CPU minutes in {wall / 60:.0f} minutes, and at most {held / 1e9:.1f} GB held at once.")
        notes.append(f"{total - sum(seconds.values()):.0f} seconds of them are in no row: the gate's own reading and layout checks.")
        notes.append(f"This run was {slower:.2f} times as slow as the quiet machine, by the proofs of {len(YARD)} crates. So it "
                     f"takes **{total / 60 / slower:.0f} minutes of the quiet machine**.")
    weak = [f"{name} {counts[name]['only because']}" for name in order_of(counts) if counts[name]["only because"]]
    notes.append(f"The gate's last line: `{last}`.")
    notes += [f"Refused only because a written proof no longer fits: {', '.join(weak)}."] if weak else []
    over = over_budget(counts, seconds, whole, slower)
    notes += [f"Over the budget: {', '.join(over)}."] if over else ["All of it is within the budget."] if whole else []
    return [wrapped(f"- {note}", "  ") for note in notes]


def table_of(log):
    """The part of the page, in markdown: the budget, what was measured, and the table. And each crate, as CSV."""
    counts, last = counts_of(pathlib.Path(log).read_text(errors="replace"))
    path = pathlib.Path(f"{log}.times")
    none = collections.Counter(), None, f"No times: there is no {path}."
    seconds, whole, measured = times_of(path) if path.exists() else none
    budget = (f"The budget, in CPU time of a quiet machine: {WHOLE_MINUTES} minutes for the gate, {PROOF_SECONDS} seconds for the "
              f"proof of a crate, {TEST_SECONDS} for a test function. The gate tries at most {MOST_EDITS} wrong bodies.")
    lines = [wrapped(budget), "", wrapped(measured), "", *rows_of(counts, seconds), "", *notes_of(counts, seconds, whole, last)]
    return "\n".join(lines), csv_of(counts, seconds)


def write_table(log):
    """Sets the table into bench/README.md, and writes bench/gate.csv."""
    made, costs = table_of(log)
    front, begin, rest = PAGE_PATH.read_text().partition(BEGIN)
    _, end, behind = rest.partition(END)
    PAGE_PATH.write_text(f"{front}{begin}\n\n{made}\n\n{end}{behind}")
    COSTS.write_text(costs)


def main():
    parser = argparse.ArgumentParser(description=__doc__, formatter_class=argparse.RawDescriptionHelpFormatter)
    how = parser.add_mutually_exclusive_group()
    how.add_argument("--run", action="store_true", help="run the gate, its output into LOG")
    how.add_argument("--watch", type=int, metavar="PID", help="watch the gate that runs as PID")
    how.add_argument("--write", action="store_true", help="set the table into bench/README.md, and write bench/gate.csv")
    parser.add_argument("log", metavar="LOG", help="the gate's output")
    words = parser.parse_args()
    if words.run:
        return run_gate(words.log)
    if words.watch:
        return watch_gate(words.watch, words.log)
    return write_table(words.log) if words.write else print(table_of(words.log)[0])


if __name__ == "__main__":
    sys.exit(main())
