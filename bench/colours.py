"""What a key costs in a line with colours, in instructions and in bytes of the display, beside the same key without them.

Called by `bench/run colours` with the built program and the built SQL console. A line is pasted, and fills no row. Then a key
is pressed once, or twice: the second is counted, so that the line has the length that its name says. In a hundred such lines
it is counted like in `bench/run clusters`, and in one its bytes. A session without keys is what a program costs to its first
prompt, and to its end.
"""
import os
import shutil
import subprocess
import sys

from clusters import ENTER, instructions, microseconds, pasted

BACKSPACE, LEFT, INTERRUPT = b"\x7f", b"\x1b[D", b"\x03"
LINES = 100

# Settings: their name, the arguments, and the value of NO_COLOR.
PROFILES = [
    ("by default", [], ""),
    ("with --extended and NO_COLOR", ["--extended"], "1"),
    ("with --extended", ["--extended"], ""),
]
CONSOLE = [
    ("with NO_COLOR", [], "1"),
    ("with colours", [], ""),
]

# The pasted line, the keys before, and the key. In the third the bracket at the cursor has a match.
CASES = [
    ("a letter at the end of a line of 40", b"the quick brown fox jumps over two dogs", b"", b"a"),
    ("Backspace there", b"the quick brown fox jumps over two dogs.,", b"", BACKSPACE),
    ("Left there", b"the quick brown fox jumps over two dogs.", b"", LEFT),
    ("a letter before a bracket at the end of such a line", b"the quick brown (fox jumps over two do)", LEFT, b"s"),
    ("a bracket that closes at the end of one", b"the quick ((brown fox jumps over two do", b"", b")"),
]
# Three keywords, a string and a number.
STATEMENTS = [
    ("a digit at the end of a statement of 60", b"SELECT title, writer FROM note WHERE title < 'harbour' + 15", b"", b"0"),
    ("Backspace there", b"SELECT title, writer FROM note WHERE title < 'harbour' + 1500", b"", BACKSPACE),
    ("a letter in its string", b"SELECT title, writer FROM note WHERE title < 'harbou' + 15", LEFT * 6, b"r"),
    ("a letter behind its first keyword", b"SELECT title, writer FROM note WHERE title < 'harbour' + 15", LEFT * 53, b"s"),
    ("Left there", b"SELECT title, writer FROM note WHERE title < 'harbour' + 150", b"", LEFT),
]


def display(command, keys):
    """The number of bytes that the display gets."""
    return len(subprocess.run(command, input=keys, stdout=subprocess.DEVNULL, stderr=subprocess.PIPE, check=True).stderr)


def costs(command, cost, text, before, key, ending):
    """The cost of the second of two keys in a line, and its bytes. The line ends by the last keys, and for its bytes it is left."""
    once, twice = (pasted(text) + before + key * times for times in (1, 2))
    more = cost(command, (twice + ending) * LINES) - cost(command, (once + ending) * LINES)
    return more / LINES, display(command, twice) - display(command, once)


def report(command, settings, cases, ending):
    cost, unit = (instructions, "instructions") if shutil.which("valgrind") else (microseconds, "microseconds")
    for setting, words, no_colour in settings:
        os.environ["NO_COLOR"] = no_colour
        print(f"a session without keys, {setting}: {cost(command + words, b''):,.0f} {unit}", flush=True)
    for name, text, before, key in cases:
        for setting, words, no_colour in settings:
            os.environ["NO_COLOR"] = no_colour
            more, sent = costs(command + words, cost, text, before, key, ending)
            print(f"{name}, {setting}: {more:,.0f} {unit}, {sent} bytes", flush=True)


def main(program, console):
    os.environ["COLUMNS"] = "120"
    report([program, "--columns=120"], PROFILES, CASES, ENTER)
    report([console], CONSOLE, STATEMENTS, INTERRUPT)


if __name__ == "__main__":
    main(*sys.argv[1:])
