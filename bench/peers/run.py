#!/usr/bin/env python3
"""The same queries over the same tables, asked of our server, ClickHouse, PostgreSQL and SQLite in turns.

    python3 bench/peers/run.py [--program PATH] [--rows N] [--rounds N] [--peers A,B] [--no-install] [--results PATH]

It makes the tables (tables.py), starts each server on loopback (servers.py), and gives it the tables by its own binary form
(clients.py). First each answer is read: all peers have to give the same rows, whatever their order. Then each peer is asked in
turn, N rounds long (7), by one client on one connection, which throws the answer away. A turn asks for a twentieth of a second
at least, and its figure is the mean. Told are the seconds by the client's clock and the processor seconds of the server; of
SQLite, which runs in the process that asks, the clock alone. A put is all rows of t as a new table. Two queries are of ours
alone: of a dictionary, and of an Int32 column of as many rows.

Peers are picked by the beginnings of their names, which end in the threads of a query. The figures go into
bench/peers/results.json, from which page.py makes the table and the picture of bench/README.md. It installs nothing: where a
package of Debian's is missing it says which, and ends with 2, or with --no-install goes on without the peers that need it.
It ends with 1 where answers differ. Build the program first, as for bench/pipe.py.
"""

import argparse
import json
import shutil
import signal
import subprocess
import sys
import tempfile
from contextlib import ExitStack
from functools import partial
from pathlib import Path

sys.dont_write_bytecode = True
ROOT = Path(__file__).resolve().parent.parent.parent
sys.path[:0] = [str(ROOT / folder) for folder in ("bench", "scripts", "vectors/arrow")]

import page  # noqa: E402
import servers  # noqa: E402
from built import program  # noqa: E402
from clients import ClickHouse, Ours, Peer, Postgres, Refused, Sqlite  # noqa: E402
from loopback import Server  # noqa: E402
from measured import Measured  # noqa: E402
from tables import middle_of_c, write_tables  # noqa: E402
from workers import LARGE  # noqa: E402

PEERS = ["ours-1", "ours-4", "clickhouse-1", "clickhouse-4", "sorted-1", "postgresql-1", "sqlite-1"]
QUERIES = {
    "Q1": "SELECT * FROM t",
    "Q1d": "SELECT e FROM w",
    "Q1k": "SELECT k FROM w",
    "Q2": LARGE["Q2"],
    "Q3": LARGE["Q3"],
    "Q4": "SELECT a, k FROM t WHERE k IN (3, 77, 141, 222, 314, 450, 555, 678, 811, 999)",
    "Q5": "SELECT k FROM t WHERE s = 'delta'",
    "Q5d": "SELECT k FROM w WHERE e = 'delta'",
    "Q6": LARGE["Q6"],
    "Q7": LARGE["Q7"],
    "Q7d": "SELECT e, COUNT(*), SUM(k) FROM w GROUP BY e",
    "Q8": LARGE["Q8"],
    "Q9": "SELECT a, c FROM t WHERE c BETWEEN {} AND {}",
}
# ClickHouse of Debian 12 joins by a form of its own. Its keys are all different, so that ANY gives the same rows.
OF_CLICKHOUSE = {"Q8": "SELECT a, k, v FROM t ANY INNER JOIN u ON j = key"}
OURS_ALONE = ["Q1d", "Q1k"]  # a column of a dictionary beside one of Int32, which are indices of as many bytes
PUT_ROUNDS = 3  # our server keeps each version
TURN_SECONDS, PEER_SECONDS, LEAST_ROUNDS = 0.05, 20, 3


def missing_packages(wanted):
    """Of each peer the packages that it lacks."""
    has_sqlite = Path("/usr/include/sqlite3.h").exists()
    lacks = {
        "clickhouse": [] if servers.clickhouse_program() else ["clickhouse-server"],
        "postgresql": [] if servers.postgres_folder() else ["postgresql"],
        "sqlite": [*([] if has_sqlite else ["libsqlite3-dev"]), *([] if shutil.which("g++") else ["g++"])],
    }
    lacks["sorted"] = lacks["clickhouse"]
    return {name: lacks.get(name.partition("-")[0], []) for name in wanted}


def sqlite_program(folder):
    target, source = folder / "sqlite", Path(__file__).with_name("sqlite.cpp")
    subprocess.run(["g++", "-O3", "-std=c++17", "-o", target, source, "-lsqlite3"], check=True)
    return target


class Bench:
    """The servers, each started when its first client is made, and the clients."""

    def __init__(self, stack, folder, path):
        self.stack, self.folder, self.path, self.started, self.loaded = stack, folder, path, {}, set()

    def server(self, kind):
        if kind not in self.started:
            self.started[kind] = self.stack.enter_context(getattr(servers, kind)(self.folder / kind))
        return self.started[kind]

    def client(self, name) -> Peer:
        """The client of a peer, whose tables are there."""
        kind, _, threads = name.partition("-")
        tables = name if kind in ("ours", "sqlite") else kind
        peer = self.new_client(kind, int(threads))
        if tables not in self.loaded:
            peer.load()
        self.loaded.add(tables)
        return peer

    def new_client(self, kind, threads) -> Peer:
        if kind == "ours":
            options = ["--workers", str(threads), "--idle", "0"]  # a connection waits while others are asked
            server = self.stack.enter_context(Server(self.path, *options))
            said = subprocess.run([self.path, "--version"], check=True, capture_output=True, text=True).stdout
            return Ours(server, self.folder, said.split()[-1])
        if kind == "sqlite":
            command = [sqlite_program(self.folder), self.folder / "t.binary", self.folder / "u.binary"]
            child = subprocess.Popen(command, stdin=subprocess.PIPE, stdout=subprocess.PIPE)
            return Sqlite(self.stack.enter_context(child))
        if kind == "postgresql":
            return Postgres(self.server("postgres"), self.folder, threads)
        return ClickHouse(*self.server("clickhouse"), self.folder, threads, kind)


# ---- asking


def query_for(name, query, peer):
    """A query in a peer's words, or none where it has no such table, or is not asked it."""
    if " w " in f"{query} " and not peer.has_dictionaries or name in OURS_ALONE and not isinstance(peer, Ours):
        return None
    return OF_CLICKHOUSE.get(name, query) if isinstance(peer, ClickHouse) else query


def compare(name, words, peers):
    """How many rows the answers have. They have to be the same, whatever their order: their number and a sum are compared."""
    found = {}
    for who, query in words.items():
        sums = [hash(line) for line in peers[who].lines(query)]
        found.setdefault((len(sums), sum(sums)), []).append(who)
    if len(found) != 1:
        raise Refused(f"{name}: other rows: {'; '.join(f'{rows} of {who}' for (rows, _), who in found.items())}")
    return next(iter(found))[0]


def turn_of_query(peer, query):
    """A turn: the seconds of an answer, those of the processors, and its bytes."""
    before, seconds, count = processor(peer), 0.0, 0
    while seconds < TURN_SECONDS:
        took, size = peer.time_of(query)
        seconds, count = seconds + took, count + 1
    used = (processor(peer) - before) / count if peer.process else None
    return {"seconds": round(seconds / count, 9), "processor": used and round(used, 9), "bytes": size}


def turn_of_put(peer):
    """A turn of a put, of which the clock's seconds are known alone: what comes before it is no part of it."""
    return {"seconds": round(peer.seconds_of_put(), 9), "processor": None, "bytes": 0}


def processor(peer):
    return servers.processor_seconds(peer.process) if peer.process else 0.0


def turns(tasks, rounds):
    """The turns of each peer, which go on in another order each round. One that has taken long has as few as can be."""
    found, order = {who: [] for who in tasks}, list(tasks)
    for number in range(rounds):
        for who in order[number % len(order) :] + order[: number % len(order)]:
            if number < LEAST_ROUNDS or sum(one["seconds"] for one in found[who]) < PEER_SECONDS:
                found[who].append(tasks[who]())
    return found


def figures(peers, rows, rounds):
    """Of each query, and of the put, its rows and the turns of the peers."""
    for name, text in QUERIES.items():
        text = text.format(*middle_of_c(rows))
        words = {who: query for who, peer in peers.items() if (query := query_for(name, text, peer))}
        if not words:
            continue
        count = compare(name, words, peers)
        tasks = {who: partial(turn_of_query, peers[who], query) for who, query in words.items()}
        yield {"name": name, "query": text, "rows": count, "turns": turns(tasks, rounds)}
    tasks = {who: partial(turn_of_put, peer) for who, peer in peers.items()}
    yield {"name": "put", "query": "", "rows": rows, "turns": turns(tasks, min(rounds, PUT_ROUNDS))}


def main():
    parser = argparse.ArgumentParser(description=__doc__, formatter_class=argparse.RawDescriptionHelpFormatter)
    parser.add_argument("--program", help="the built program (that of the repository)")
    parser.add_argument("--rows", type=int, default=8_000_000, help="of the larger tables (8000000)")
    parser.add_argument("--rounds", type=int, default=7, help="turns of each peer for each query (7)")
    parser.add_argument("--peers", default="", help=f"peers whose names begin so (all): {','.join(PEERS)}")
    parser.add_argument("--no-install", action="store_true", help="go on without peers whose packages are missing")
    parser.add_argument("--results", type=Path, default=page.RESULTS, help="the file of the figures (bench/peers/results.json)")
    words = parser.parse_args()
    wanted = [name for name in PEERS if name.startswith(tuple(words.peers.split(",")))]
    lacks = missing_packages(wanted)
    if missing := sorted({package for packages in lacks.values() for package in packages}):
        print(f"missing: apt-get install --no-install-recommends {' '.join(missing)}", file=sys.stderr)
        if not words.no_install:
            return 2
    path = program(words.program) if any(name.startswith("ours") for name in wanted) else None
    measured = Measured(words.program)
    signal.signal(signal.SIGTERM, lambda *_: sys.exit(143))  # so that the servers end too
    with tempfile.TemporaryDirectory() as name, ExitStack() as stack:
        write_tables(Path(name), words.rows)
        bench = Bench(stack, Path(name), path)
        peers = {name: bench.client(name) for name in wanted if not lacks[name]}
        queries = list(figures(peers, words.rows, words.rounds))
        versions = {who: peer.version for who, peer in peers.items()}
    results = {"measured": measured.line(), "rows": words.rows, "rounds": words.rounds, "versions": versions}
    lines = ",\n".join(map(json.dumps, queries))
    words.results.write_text(f'{json.dumps(results)[:-1]}, "queries": [\n{lines}\n]}}\n')
    print(page.table_of(results | {"queries": queries}))
    return 0


if __name__ == "__main__":
    try:
        sys.exit(main())
    except Refused as found:
        sys.exit(str(found))
