"""The line above a table of measurements: which revision was measured, when, on what machine, and how much of the machine
other processes took."""

import datetime
import os
import pathlib
import re
import resource
import subprocess
import time

TOP = pathlib.Path(__file__).resolve().parent.parent
TICKS = os.sysconf("SC_CLK_TCK")
LEAST_SHARE = 0.1  # of a core: what others take below that is called nothing


def git(folder, *words):
    return subprocess.run(["git", "-C", folder, *words], check=True, capture_output=True, text=True).stdout.strip()


def revision(folder):
    """The last commit of the checkout in which a folder lies, and whether its crates have changes that are not committed."""
    try:
        top = git(folder, "rev-parse", "--show-toplevel")
    except subprocess.CalledProcessError:
        return "of a program outside any checkout"
    changed = git(top, "status", "--porcelain", "--", "crates", "crates.txt")
    return git(top, "rev-parse", "--short=8", "HEAD") + (" with changes" if changed else "")


def today():
    return datetime.datetime.now(datetime.timezone.utc).date().isoformat()


def machine():
    """The cores of this machine, the name of its processor, and its memory."""
    model = re.search(r"model name\s*: (.*)", pathlib.Path("/proc/cpuinfo").read_text())
    held = re.search(r"MemTotal:\s*(\d+)", pathlib.Path("/proc/meminfo").read_text())
    name = " ".join(model[1].replace("(R)", "").replace("(TM)", "").split()) if model else "a processor without a name"
    return f"{os.cpu_count()} cores of {name}, {int(held[1]) * 1024 / 1e9:.0f} GB"


def busy():
    """The processor seconds that the machine has spent on anything so far."""
    first, *_ = pathlib.Path("/proc/stat").read_text().splitlines()
    user, nice, system, _, _, hard, soft, *_ = (int(word) for word in first.split()[1:])
    return (user + nice + system + hard + soft) / TICKS


def own():
    """The processor seconds of this process and of the children that it has waited for."""
    used = [resource.getrusage(who) for who in (resource.RUSAGE_SELF, resource.RUSAGE_CHILDREN)]
    return sum(it.ru_utime + it.ru_stime for it in used)


class Measured:
    """A measurement that begins now. Children that are still running when it is told are counted as others."""

    def __init__(self, program=None, folder=TOP):
        """A program that is named by its path has the revision of the checkout in which it lies."""
        self.revision = revision(pathlib.Path(program).resolve().parent if program else folder)
        self.began, self.busy, self.own = time.monotonic(), busy(), own()

    def line(self, watched=0.0):
        """The line. Some processor seconds may be those of a process that is no child but is measured."""
        seconds = max(time.monotonic() - self.began, 0.01)
        others = (busy() - self.busy - (own() - self.own) - watched) / seconds
        load = f"others took {others:.1f} cores" if others >= LEAST_SHARE else "nothing else running"
        return f"Measured: revision {self.revision}, {today()}, {machine()}, {load}."
