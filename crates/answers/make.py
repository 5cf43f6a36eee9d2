#!/usr/bin/env python3
"""Writes data/document.txt, data/runs.txt and data/files.txt, which the program `answers` replays, and stdout, what it must print.

    python3 crates/answers/make.py

Every answer comes from the model of documents 01 and 02 in the folder model, which shares nothing with the code. data/rust.txt, which stdout
counts too, is written by `differential/run --record crates/answers/data`. FORMAT.md says how the lines are written."""
import os
import sys

HERE = os.path.dirname(os.path.abspath(__file__))
sys.path.insert(0, os.path.join(HERE, os.pardir, os.pardir))

import from_document
import from_files
import from_runs
from model import replay
from model.recorded import Tally

HEADS = {
    "document.txt": (from_document, "Each sentence of document 01 from both sides, with the answers of the model in model/."),
    "runs.txt": (from_runs, "Whole small runs from a fresh allocator, drawn by a seed, with the answers of the model in model/."),
    "files.txt": (from_files, "Loads and saves of program files, W1 of document 02, with the answers of the model in model/."),
}
FILES = (*HEADS, "rust.txt")
LONGEST_LINE = 20_000


def write(name, lines):
    assert max(map(len, lines)) <= LONGEST_LINE, name
    with open(os.path.join(HERE, name), "w") as out:
        out.writelines(line + "\n" for line in lines)


def expected():
    """What the program prints: a line for each file, one for each call, and how many answers there are. The model is held to all lines,
    the Rust's answers too."""
    whole, rows = Tally(), []
    for name in FILES:
        with open(os.path.join(HERE, "data", name)) as file:
            lines = file.read().splitlines()
        replay.check(name, lines)
        tally = Tally()
        tally.add(lines)
        whole.add(lines)
        rows.append("%s: %d cases, %d calls" % (name, tally.cases, tally.calls))
    return [*rows, *whole.rows(), "%d answers compared" % whole.calls]


def main():
    for name, (source, head) in HEADS.items():
        write(os.path.join("data", name), ["# " + head, "# Written by crates/answers/make.py; FORMAT.md says how to read it.", *source.lines()])
    write("stdout", expected())


if __name__ == "__main__":
    main()
