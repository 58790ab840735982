"""The rooms of crates/call_cases: puts, streams of a client, connections, and checks. The script of a room writes its rows,
and leaves those of the other rooms as they are. No script writes the rows of checks, which are names."""
import pathlib

PROGRAM = pathlib.Path(__file__).resolve().parent.parent / "crates/call_cases"
ROOMS = ("puts", "streams", "connections", "checks")


def rooms_of(text):
    """The lines of each room. They stand after a line with its name."""
    found = {}
    for line in text.removesuffix("\n").split("\n"):
        if line.startswith("## "):
            lines = found[line.removeprefix("## ")] = []
        else:
            lines.append(line)
    return found


def write(room, rows, answers):
    """Writes the rows of a room into stdin, and their answers into stdout."""
    for name, own in (("stdin", rows), ("stdout", answers)):
        path = PROGRAM / name
        lines = rooms_of(path.read_bytes().decode()) | {room: own}
        path.write_bytes("".join(f"{line}\n" for known in ROOMS for line in (f"## {known}", *lines[known])).encode())
