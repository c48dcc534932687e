"""The cost of keys at the end of a line of plain text: the built program, its display and lines thrown away.

Called by `bench/run ends` with the built program. The line is pasted, and ends in the middle of a row, so that no key draws
the whole line. So a key costs the same in a line of any size. Each is pressed two hundred times in lines of two sizes, less a
session with a hundred, counted like in `bench/run clusters`.
"""
import shutil
import sys

from clusters import ENTER, KEYS, instructions, microseconds, pasted

BACKSPACE, LEFT, END = b"\x7f", b"\x1b[D", b"\x05"
SIZES = (1_500, 1_000_500)

CASES = [
    ("a letter typed", b"a"),
    ("Backspace", BACKSPACE),
    ("Left", LEFT),
    ("Backspace, Left and End", BACKSPACE + LEFT + END),
]


def main(program):
    cost, unit = (instructions, "instructions") if shutil.which("valgrind") else (microseconds, "microseconds")
    command = [program, "--columns=1000"]
    for name, key in CASES:
        costs = []
        for size in SIZES:
            line = pasted(b"a" * size)
            more = cost(command, line + 2 * KEYS * key + ENTER) - cost(command, line + KEYS * key + ENTER)
            costs.append(f"{size} characters: {more / KEYS:,.0f}")
        print(f"{name}: {', '.join(costs)} {unit} a key", flush=True)


if __name__ == "__main__":
    main(sys.argv[1])
