#!/usr/bin/env python3
"""Reads every case of index.txt with reader.py and compares."""
import json
import pathlib
import sys

sys.dont_write_bytecode = True
from reader import Fault, Reader

HERE = pathlib.Path(__file__).parent


def answer(reader, name):
    body = HERE / f"{name}.body"
    try:
        return reader.message((HERE / f"{name}.header").read_bytes(), body.read_bytes() if body.exists() else b"")
    except Fault as fault:
        return str(fault)


def main():
    wrong, lines = 0, (HERE / "index.txt").read_text().splitlines()
    for line in lines:
        name, wanted, before, _ = line.split("\t")
        reader = Reader()
        for one in before.split():
            answer(reader, one)
        found = answer(reader, name)
        if wanted.startswith("total "):
            found = "total " + json.dumps(reader.total)
        if found != wanted:
            wrong += 1
            print(f"{name} behind [{before}]\n  wanted {wanted[:200]}\n  found  {found[:200]}")
    print(f"{len(lines)} cases, {wrong} wrong")
    sys.exit(wrong != 0)


if __name__ == "__main__":
    main()
