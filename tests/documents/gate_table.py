#!/usr/bin/env python3
"""Writes the times of the last `./test` into the table of docs/GATE.md."""
import glob
import os
import sys

sys.path += glob.glob(os.path.join(os.path.dirname(os.path.dirname(os.path.realpath(__file__))), "*", ""))
from mutant_checks import read, write

TOP = os.path.dirname(os.path.dirname(os.path.dirname(os.path.realpath(__file__))))
# The cells of a row that a run fills: its wall and its processor time, in seconds.
COLUMNS = 2, 3
# The line of the table above its first row.
RULE = "\n|---|---|---|---|\n"


def parts_of(path):
    """The parts of a run, each with its wall and processor time; the last one is the total."""
    rows = [line.split("\t") for line in read(path).splitlines()]
    found = {name: (float(wall), float(processor)) for name, wall, processor in rows}
    return {**found, "all": tuple(map(sum, zip(*found.values())))}


def filled(line, parts):
    """The row of a part with its times of a run in the cells, or – if the run had no such part."""
    cells = line.strip("|").split("|")
    times = parts.pop(cells[0].strip(), None)
    for at, column in enumerate(COLUMNS):
        cells[column] = f" {times[at]:.0f} " if times else " – "
    return f"|{'|'.join(cells)}|"


def main():
    path = os.path.join(TOP, "docs", "GATE.md")
    parts = parts_of(os.path.join(TOP, "build", "parts.tsv"))
    head, rule, rows = read(path).partition(RULE)
    lines = [filled(line, parts) if line.startswith("|") else line for line in rows.split("\n")]
    write(path, head + rule + "\n".join(lines))
    for name in parts:
        print(f"no row of docs/GATE.md is of the part {name}")
    return bool(parts)


if __name__ == "__main__":
    sys.exit(main())
