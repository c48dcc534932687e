"""The cost of keys that examine clusters, words or rows: the built program, its display and lines thrown away.

Called by `bench/run clusters` with the built program. Each key is pressed a hundred times in lines of two sizes, less a
session with only the line. Rows have 1,000 columns, and 10 where the keys are to go over row breaks. The cost is counted in
instructions if valgrind is installed, and otherwise in processor time.
"""
import os
import re
import shutil
import subprocess
import sys
import tempfile

HOME, LEFT, RIGHT, TRANSPOSE, ESCAPE, ENTER = b"\x01", b"\x1b[D", b"\x1b[C", b"\x14", b"\x1b", b"\r"
BACKSPACE, END, BACK_WORD, NEXT_WORD = b"\x7f", b"\x05", b"\x1bb", b"\x1bf"
KILL_WORD, YANK = b"\x17", b"\x19"
SENTENCE = b"some words, and 17 more. "
PATH = b"/usr/x-y.d"
HAN = "漢".encode()
CYRILLIC = "я".encode()
LATIN = "é".encode()
EMOJI = "👍".encode()
KEYS = 100


def pasted(text):
    """Sent as a paste, so that the line is drawn once."""
    return b"\x1b[200~" + text + b"\x1b[201~"


WIDE = "--columns=1000"
EMACS, VI, PART = ["--mode=emacs", WIDE], ["--mode=vi", WIDE], ["--mode=emacs", "--extended", WIDE]
NARROW = ["--mode=emacs", "--extended", "--columns=10"]
# The keys, the program's arguments, the characters of the line, the text before the keys, each key, and the line's sizes.
CASES = [
    ("Ctrl-T at the front of a line", EMACS, b"a", HOME + RIGHT, TRANSPOSE, (1_000, 10_000)),
    ("Vi's r and a character there", VI, b"a", ESCAPE + b"0", b"rb", (1_000, 10_000)),
    ("Vi's x there", VI, b"a", ESCAPE + b"0", b"x", (1_000, 10_000)),
    ("M-b and M-f over one word", EMACS, b"a", b"", BACK_WORD + NEXT_WORD, (10_000, 100_000)),
    ("M-b over a word of sentences", EMACS, SENTENCE, b"", BACK_WORD, (40, 400)),
    ("M-b over a word of Cyrillic", EMACS, "яблоко и груша ".encode(), b"", BACK_WORD, (40, 400)),
    ("Ctrl-W and Ctrl-Y of a path", EMACS, PATH, b"", KILL_WORD + YANK, (1_000, 10_000)),
    ("Home and End of a row behind another", EMACS, b"a", HOME + pasted(b"a\r") + END, HOME + END, (10_000, 100_000)),
    ("a letter typed after Han", EMACS, HAN, b"", b"b", (300, 3_000)),
    ("Han typed after Han", EMACS, HAN, b"", HAN, (300, 3_000)),
    ("a letter typed after Cyrillic", EMACS, CYRILLIC, b"", b"b", (300, 3_000)),
    ("Left over Han", EMACS, HAN, LEFT, LEFT, (300, 3_000)),
    ("Left over emoji", EMACS, EMOJI, LEFT, LEFT, (300, 3_000)),
    ("--extended: a letter typed after Han", PART, HAN, b"", b"b", (300, 3_000)),
    ("--extended: Han typed after Han", PART, HAN, b"", HAN, (300, 3_000)),
    ("--extended: Cyrillic typed after Cyrillic", PART, CYRILLIC, b"", CYRILLIC, (300, 3_000)),
    ("--extended: an emoji typed after emoji", PART, EMOJI, b"", EMOJI, (300, 3_000)),
    ("--extended: Backspace after Han", PART, HAN, b"", BACKSPACE, (300, 3_200)),
    ("--extended: Backspace over a row break after é", NARROW, LATIN, b"", BACKSPACE, (100, 100_000)),
    ("--extended: Backspace over a row break after Han", NARROW, HAN, b"", BACKSPACE, (100, 100_000)),
]


def instructions(command, keys):
    """The number of instructions of a session, by callgrind."""
    made = subprocess.run(
        ["valgrind", "--tool=callgrind", "--callgrind-out-file=/dev/null", *command],
        input=keys, stdout=subprocess.DEVNULL, stderr=subprocess.PIPE, check=True,
    )
    return int(re.findall(rb"Collected : (\d+)", made.stderr)[-1])


def microseconds(command, keys):
    """The processor time of a session, the shortest of five."""
    return min(once(command, keys) for _ in range(5))


def once(command, keys):
    with tempfile.TemporaryFile() as source:
        source.write(keys)
        source.seek(0)
        with subprocess.Popen(command, stdin=source, stdout=subprocess.DEVNULL, stderr=subprocess.DEVNULL) as session:
            _, status, used = os.wait4(session.pid, 0)
            session.returncode = os.waitstatus_to_exitcode(status)
    if session.returncode != 0:
        sys.exit(f"bench/clusters.py: the program ended with status {session.returncode}")
    return 1e6 * (used.ru_utime + used.ru_stime)


def main(program):
    cost, unit = (instructions, "instructions") if shutil.which("valgrind") else (microseconds, "microseconds")
    for name, arguments, character, before, key, sizes in CASES:
        costs = []
        for size in sizes:
            command = [program, *arguments]
            line = pasted(character * size) + before
            more = cost(command, line + KEYS * key + ENTER) - cost(command, line + ENTER)
            costs.append(f"{size} characters: {more / KEYS:,.0f}")
        print(f"{name}: {', '.join(costs)} {unit} a key", flush=True)


if __name__ == "__main__":
    main(sys.argv[1])
