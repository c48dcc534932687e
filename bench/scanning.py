"""The cost of a byte of a history's text that is written, and of a line that is validated by its brackets.

Called by `bench/run scanning` with its program. The cost is the difference between two sizes of a text, less what making the
text, and the history, costs; counted like in `bench/run clusters`.
"""
import shutil
import sys

from clusters import instructions, microseconds

SIZES = (100_000, 1_000_000)
ROW = "the quick brown fox jumps over two dogs"
# What is done, and what else the program does without it; the start of the text and what it repeats.
CASES = [
    ("a byte of an entry written", "save", "entry", "", ROW + " "),
    ("the same in rows of 40", "save", "entry", "", ROW + "\n"),
    ("with a backslash in eight bytes", "save", "entry", "", "abcdefg\\"),
    ("of backslashes", "save", "entry", "", "\\"),
    ("a byte validated by its brackets, in an open one", "brackets", "text", "(", ROW + " "),
    ("with a pair in a row of 40", "brackets", "text", "(", ROW.replace("over", "() o") + "\n"),
    ("with a pair around each word", "brackets", "text", "(", "(the) [quick] {brown} (fox) [jumps] "),
    ("of brackets", "brackets", "text", "(", "([]){}"),
]


def main(program):
    cost, unit = (instructions, "instructions") if shutil.which("valgrind") else (microseconds, "microseconds")
    for name, what, less, start, part in CASES:
        small, large = (
            cost([program, what, start, part, str(size)], b"") - cost([program, less, start, part, str(size)], b"")
            for size in SIZES
        )
        print(f"{name}: {(large - small) / (SIZES[1] - SIZES[0]):.2f} {unit}", flush=True)


if __name__ == "__main__":
    main(sys.argv[1])
