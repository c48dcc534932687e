#!/usr/bin/env python3
"""Commands that go on over several keys, on a terminal: tmux types into ./keyline, and reports its cells and cursor. A search in a
history of 1,000 rows, a list of 30 candidates, a quoted key, and the same keys with --plain.

`rt ci` builds the program first.
"""
import contextlib
import glob
import os
import pathlib
import shlex
import sys
import tempfile

sys.path += glob.glob(os.path.join(os.path.dirname(os.path.dirname(os.path.realpath(__file__))), "*", ""))
from checks import HUNG, placed_script, run_all
from drawings import Terminal
from shown import deed, expect, until_taken

COLUMNS = 40


@contextlib.contextmanager
def in_window(*arguments, history=(), words=(), rows=8):
    """A window with ./keyline in it, which has these entries, completes these words, and shows only the prompt."""
    with tempfile.TemporaryDirectory() as folder:
        pathlib.Path(folder, "history").write_text("".join(f"{entry}\n" for entry in ("#V2", *history)), encoding="utf-8")
        pathlib.Path(folder, "words").write_text("".join(f"{word}\n" for word in words), encoding="utf-8")
        run = " ".join(map(shlex.quote, [SCRIPT, "--history=history", "--words=words", *arguments]))
        terminal = Terminal(folder, COLUMNS, f"cd {shlex.quote(folder)}; {run}; echo ended $?; exec sleep {HUNG}")
        try:
            terminal.ask("resize-window", "-x", str(COLUMNS), "-y", str(rows))
            until_taken(terminal)
            expect(terminal, "before the first key", ([">"], (0, 2)))
            yield terminal
        finally:
            terminal.close()


def plays(terminal, *steps):
    """Types the keys of each step, and compares what is shown then."""
    for keys, rows, cursor in steps:
        deed(keys)(terminal)
        expect(terminal, keys, (rows, cursor))


def searched(text, line, heading="(reverse-i-search)"):
    """The rows in which a search shows a line, and its cursor's place, at the text."""
    shown = f"{heading}`{text}': {line}"
    cursor = len(shown) - len(line) + line.index(text)
    return [shown[at:at + COLUMNS] for at in range(0, len(shown), COLUMNS)], divmod(cursor, COLUMNS)


def a_search_in_a_thousand_rows():
    with in_window(history=[f"step {number:03}" for number in range(1000)]) as terminal:
        found, other = searched("90", "step 990"), searched("90", "step 909")
        plays(
            terminal,
            ("C-r", ["(reverse-i-search)`':"], (0, 22)),
            ("9", *searched("9", "step 999")),
            ("0", *found),
            ("C-r", *other),
            ("C-s", *searched("90", "step 990", "(i-search)")),
            ("C-s", *searched("90", "step 990", "(failed i-search)")),
            ("C-g", [">"], (0, 2)),
            ("C-r C-r", *found),
            ("End !", ["> step 990!"], (0, 11)),
            ("Enter", ["> step 990!", "step 990!", ">"], (2, 2)),
            ("C-r C-r", ["> step 990!", "step 990!", *searched("90", "step 990!")[0]], (2, 30)),
        )


def a_list_of_thirty_candidates():
    """It stands below the line, from its first row on, until the next key."""
    words = [f"name{number:02}" for number in range(1, 31)]
    with in_window(words=words, rows=40) as terminal:
        plays(
            terminal,
            ("n Tab", ["> name"], (0, 6)),
            ("Tab", ["> name", *words], (0, 6)),
            ("Tab", ["> name", *words], (0, 6)),
            ("0", ["> name0"], (0, 7)),
            ("Tab", ["> name0"], (0, 7)),
            ("Tab", ["> name0", *words[:9]], (0, 7)),
            ("Left", ["> name0"], (0, 6)),
            ("End 7 Tab", ["> name07"], (0, 8)),
            ("C-u n␠y Left Left Tab Tab", ["> name y", *words], (0, 6)),
            ("Enter", ["> name y", "name y", ">"], (2, 2)),
        )


def a_list_that_is_cut_off():
    """Of more than a hundred candidates the first ones. A list taller than the window scrolls the line away until the next key."""
    words = [f"w{number:03}" for number in range(150)]
    with in_window(words=words, rows=120) as terminal:
        plays(terminal, ("w Tab Tab", ["> w", *words[:100], "(50 more)"], (0, 3)), ("1", ["> w1"], (0, 4)))
    with in_window(words=words[:12], rows=8) as terminal:
        plays(terminal, ("w Tab Tab", words[4:12], (0, 4)), ("1 Tab", ["> w01"], (0, 5)))


def a_quoted_tab():
    with in_window() as terminal:
        plays(terminal, ("a C-v Tab b", ["> a     b"], (0, 9)), ("Enter", ["> a     b", "a       b", ">"], (2, 2)))


def up_by_the_beginning():
    with in_window(history=["make one", "list", "make two", "end"]) as terminal:
        plays(terminal, ("m Up", ["> make two"], (0, 3)), ("Up", ["> make one"], (0, 3)), ("Down Down", ["> m"], (0, 3)))


def plain():
    """With --plain these keys do what they do by default, nothing, except for Up, and a tab is a question mark."""
    with in_window("--plain", history=["make one", "end"], words=["word1", "word2"]) as terminal:
        plays(
            terminal,
            ("C-r C-s C-v m", ["> m"], (0, 3)),
            ("Paste ␉n Pasted", ["> m?n"], (0, 5)),
            ("C-v Up", ["> end"], (0, 5)),
            ("C-u w Tab Tab", ["> word"], (0, 6)),
        )


if __name__ == "__main__":
    os.environ["LC_ALL"] = "C.UTF-8"
    SCRIPT = placed_script()
    run_all([a_search_in_a_thousand_rows, a_list_of_thirty_candidates, a_list_that_is_cut_off, a_quoted_tab, up_by_the_beginning,
             plain])
