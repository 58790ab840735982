#!/usr/bin/env python3
"""Makes the table and the picture of the comparison from the figures of run.py, and sets them into bench/README.md.

    /usr/bin/python3 bench/peers/page.py [RESULTS]     needs Debian's python3-matplotlib, for the Python of Debian

It reads bench/peers/results.json, draws bench/peers/peers.svg, which README.md shows too, and sets table and picture into
their place in bench/README.md. A ratio is the median of the ratios of the rounds, each of the peer's seconds by the clock to
those of the first peer in the same round. The picture has the same ratios.
"""

import json
import statistics
import sys
import textwrap
from pathlib import Path

HERE = Path(__file__).resolve().parent
RESULTS, PICTURE = HERE / "results.json", HERE / "peers.svg"
COLUMNS = 100  # of a line of a page
BEGIN, END = "<!-- made by bench/peers/page.py -->", "<!-- end -->"
SHOWN = "![Next to other databases](peers/peers.svg)\n"
NAMES = {"ours": "ours", "clickhouse": "ClickHouse", "sorted": "sorted ClickHouse", "postgresql": "PostgreSQL", "sqlite": "SQLite"}
SAID = {"Q1": "all rows", "Q1d": "a dictionary's column", "Q1k": "an Int32 column", "Q2": "1 row in 100", "Q3": "half of the rows", "Q4": "IN of ten numbers", "Q5": "by a text",
        "Q5d": "by a dictionary's text", "Q6": "1,000 groups", "Q7": "10 groups by a text", "Q7d": "10 groups by a dictionary",
        "Q8": "a join", "Q9": "one batch of all", "put": "all rows"}
COLORS = {"ours": "#0b6e4f", "clickhouse": "#d08c00", "sorted": "#8a5a00", "postgresql": "#31648c", "sqlite": "#7d4f9e"}


def label(peer, versions):
    """A peer as a reader knows it."""
    kind, _, threads = peer.partition("-")
    said = f"{NAMES[kind]} {versions[peer]}"
    return said if kind == "sqlite" else f"{said}, {threads} thread{'' if threads == '1' else 's'}"


def title(query):
    return f"{query['name']}: {SAID[query['name']]}"


def ratio(query, peer, base):
    """The median of a peer's times by those of the base, round by round."""
    pairs = zip(query["turns"].get(peer, []), query["turns"].get(base, []))
    found = [one["seconds"] / other["seconds"] for one, other in pairs if one["seconds"] and other["seconds"]]
    return statistics.median(found) if found else None


def base_cell(query, base):
    """The median milliseconds of the base."""
    seconds = statistics.median(one["seconds"] for one in query["turns"][base]) if query["turns"].get(base) else None
    return "-" if seconds is None else f"{1e3 * seconds:.3g}"


def cell(query, peer, base):
    times = ratio(query, peer, base)
    return "-" if times is None else f"{times:.2g}" if times < 10 else f"{times:.0f}"


def table_of(results):
    """What was measured, the base's times, and the ratios of the others."""
    base, *others = results["versions"]
    shown = [label(peer, results["versions"]) for peer in (base, *others)]
    shown[0] += ", ms"
    lines = [textwrap.fill(results["measured"], COLUMNS), "", f"| | {' | '.join(shown)} |", f"|---|{'---:|' * len(shown)}"]
    for query in results["queries"]:
        cells = [base_cell(query, base), *(cell(query, peer, base) for peer in others)]
        lines.append(f"| {title(query)} | {' | '.join(cells)} |")
    return "\n".join(lines)


def draw(results):
    """A row for each query, and in it a point for each peer, by how many times as long as the first one it takes."""
    import matplotlib

    matplotlib.use("svg")
    matplotlib.rcParams.update({"svg.hashsalt": "peers", "svg.fonttype": "none", "font.size": 9})
    from matplotlib import pyplot

    base, *others = results["versions"]
    queries = results["queries"]
    figure, axes = pyplot.subplots(figsize=(8, 4.6), layout="constrained")
    axes.axvline(1, color=COLORS["ours"], label=label(base, results["versions"]))
    for peer in others:
        found = [(ratio(query, peer, base), place) for place, query in enumerate(queries)]
        kind, _, threads = peer.partition("-")
        points = [pair for pair in found if pair[0]]
        axes.plot(*zip(*points), "o" if threads == "1" else "D", color=COLORS[kind], label=label(peer, results["versions"]),
                  fillstyle="full" if threads == "1" else "none", markersize=6)
    axes.set_xscale("log")
    axes.xaxis.set_major_formatter("{x:g}")
    axes.set_yticks(range(len(queries)), [title(query) for query in queries])
    axes.invert_yaxis()
    axes.grid(axis="both", color="#dddddd")
    axes.set_axisbelow(True)
    axes.set_xlabel(f"times as long as {label(base, results['versions'])} ({results['rows']:,} rows; less is faster)")
    axes.legend(loc="lower center", bbox_to_anchor=(0.5, 1), ncols=3, frameon=False)
    figure.savefig(PICTURE, metadata={"Date": None})


def write_page(results):
    page = HERE.parent / "README.md"
    front, begin, rest = page.read_text().partition(BEGIN)
    _, end, behind = rest.partition(END)
    page.write_text(f"{front}{begin}\n\n{SHOWN}\n{table_of(results)}\n\n{end}{behind}")


def main(words):
    path = Path(words[0]) if words else RESULTS
    if not path.exists():
        sys.exit("there are no figures yet: python3 bench/peers/run.py")
    results = json.loads(path.read_text())
    draw(results)
    write_page(results)
    return 0


if __name__ == "__main__":
    sys.exit(main(sys.argv[1:]))
