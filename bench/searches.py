"""The cost of keys of a search in the history: sessions over memory, by the built `sessions_program`.

Called by `bench/run searches` with that program. The history has entries of 44 bytes, and no entry has what is looked for, so
that each key looks through all of them. Ctrl-R goes to the entry before. Each key is pressed two hundred times over histories
of two sizes, less a session with a hundred, counted like in `bench/run clusters`.
"""
import shutil
import sys

from clusters import KEYS, instructions, microseconds

SIZES = (1_000, 10_000)

# The keys before, and the key, in the notation of that program's rows.
CASES = [
    ("a letter of a query that no entry has", "C-R", "z"),
    ("Backspace in one", "C-R " + "z" * (2 * KEYS + 1), "Backspace"),
    ("Ctrl-R to the entry before", "C-R e", "C-R"),
    ("Up on a line that begins no entry", "z", "Up"),
]


def session(size, keys):
    """A row of a session with these keys, and its settings."""
    entries = "".join(f"entry␠number␠{number:05}␠of␠a␠history,␠of␠44␠bytes␊" for number in range(size))
    return f": modal columns:1000 size:{size} loaded:#V2␊{entries}\n{keys} Enter = nothing\n".encode()


def main(program):
    cost, unit = (instructions, "instructions") if shutil.which("valgrind") else (microseconds, "microseconds")
    for name, before, key in CASES:
        costs = []
        for size in SIZES:
            rows = [session(size, f"{before} {f'{key} ' * count}") for count in (KEYS, 2 * KEYS)]
            more = cost([program, "each"], rows[1]) - cost([program, "each"], rows[0])
            costs.append(f"{size} entries: {more / KEYS:,.0f}")
        print(f"{name}: {', '.join(costs)} {unit} a key", flush=True)


if __name__ == "__main__":
    main(sys.argv[1])
