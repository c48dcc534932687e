"""The cost of one more line: the built program, its display and lines thrown away.

Called by `bench/run lines` with the built program. The cost is the difference between a session and a longer one, at two
sizes, as in `bench/run clusters`. So the fixed cost of a session isn't counted, and a cost that grows with the lines shows.
"""
import shutil
import sys

from clusters import ENTER, instructions, microseconds
from session import lines_typed, pasted

MORE = 410
SIZES = (410, 4_100)


def empty_lines(keys):
    """Empty lines, each accepted."""
    return ENTER * keys


CASES = [
    ("Enter on an empty line", empty_lines),
    ("a key in lines of 40 characters, their Enter among them", lines_typed),
    ("a pasted byte", pasted),
]


def main(program):
    cost, unit = (instructions, "instructions") if shutil.which("valgrind") else (microseconds, "microseconds")
    for name, keys in CASES:
        costs = []
        for size in SIZES:
            more = cost([program], keys(size + MORE)) - cost([program], keys(size))
            costs.append(f"after {size}: {more / MORE:,.2f}")
        print(f"{name}: {', '.join(costs)} {unit}", flush=True)


if __name__ == "__main__":
    main(sys.argv[1])
