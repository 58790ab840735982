#!/usr/bin/env python3
"""Writes the headers, the bodies and index.txt of cases.py. Needs flatc (Debian: flatbuffers-compiler)."""
import json
import pathlib
import shutil
import subprocess
import sys
import tempfile

sys.dont_write_bytecode = True
import cases
import layout

HERE = pathlib.Path(__file__).parent


def run_flatc(folder, *words):
    done = subprocess.run(["flatc", *words], cwd=folder, capture_output=True, text=True)
    if done.returncode != 0:
        raise SystemExit(f"flatc {words}: {done.stdout}{done.stderr}")


def compiled(folder, tree, *options):
    """What flatc writes of a tree."""
    (folder / "m.json").write_text(json.dumps(tree))
    run_flatc(folder, "--binary", *options, str(HERE / "Message.fbs"), "m.json")
    return (folder / "m.bin").read_bytes()


def told(folder, data):
    """The text that flatc reads from a buffer."""
    (folder / "m.bin").write_bytes(data)
    run_flatc(folder, "--json", "--raw-binary", "--strict-json", "--defaults-json", str(HERE / "Message.fbs"), "--", "m.bin")
    return json.loads((folder / "m.json").read_text())


def header(folder, message):
    if message.layout == "flatc":
        data = compiled(folder, message.tree)
    elif message.layout == "defaults":
        data = compiled(folder, message.tree, "--force-defaults")
    else:
        data = layout.written("Message", message.tree, message.layout)
        if message.compared:
            assert told(folder, data) == told(folder, compiled(folder, message.tree)), message.name
    if message.patch:
        place, new = message.patch
        data = data[:place] + new + data[place + len(new) :]
    return data[: message.cut] if message.cut is not None else data


def main():
    if not shutil.which("flatc"):
        raise SystemExit("flatc is not here, so nothing is made")
    for old in [*HERE.glob("*.header"), *HERE.glob("*.body")]:
        old.unlink()
    with tempfile.TemporaryDirectory() as name:
        folder = pathlib.Path(name)
        for message in cases.MESSAGES.values():
            (HERE / f"{message.name}.header").write_bytes(header(folder, message))
            if message.body:
                (HERE / f"{message.name}.body").write_bytes(message.body)
    lines = ["\t".join(line) for line in cases.INDEX]
    (HERE / "index.txt").write_text("\n".join(lines) + "\n")
    print(f"{len(cases.MESSAGES)} messages, {len(lines)} cases")


if __name__ == "__main__":
    main()
