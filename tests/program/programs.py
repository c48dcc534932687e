#!/usr/bin/env python3
"""The small programs over the library, on pipes: the columns of the environment, and a history that lasts from one run to the
next. Run it by ./test, or alone once `rt ci` has built them.
"""
import glob
import os
import subprocess
import sys
import tempfile

sys.path += glob.glob(os.path.join(os.path.dirname(os.path.dirname(os.path.realpath(__file__))), "*", ""))
from checks import CTRL_D, HUNG, PROGRAM, built, run_all, same

FIRST, HISTORY = built("first_program"), built("history_program")
CTRL_C, CTRL_P = b"\x03", b"\x10"

# A row of more than 80 cells, with a cell in the middle that is typed last.
LONG = b"x" * 100 + b"\x01y\r" + CTRL_D

# The value of COLUMNS, and the columns for which lines are drawn then.
COLUMNS = [
    (None, 80),
    (b"2", 2),
    (b"10", 10),
    (b"0010", 10),
    (b"81", 81),
    (b"1000", 1000),
    (b"", 80),
    (b"0", 80),
    (b"1", 80),
    (b"1001", 80),
    (b"99999999999999999999", 80),
    (b"+10", 80),
    (b"-10", 80),
    (b" 10", 80),
    (b"10 ", 80),
    (b"10.0", 80),
    (b"ten", 80),
    ("٣٠".encode(), 80),
    (b"\xff", 80),
]


def columns_of_the_environment():
    """A program draws like `keyline --extended` for the columns in COLUMNS, and for 80 if there is no number."""
    for text, columns in COLUMNS:
        others = {name: value for name, value in os.environb.items() if name != b"COLUMNS"}
        environment = others if text is None else {**others, b"COLUMNS": text}
        found = subprocess.run([FIRST], input=LONG, capture_output=True, timeout=HUNG, env=environment)
        wanted = subprocess.run([PROGRAM, "--extended", "--columns", str(columns)], input=LONG, capture_output=True, timeout=HUNG)
        same(f"line of COLUMNS={text}", found.stdout, b"y" + b"x" * 100 + b"\n")
        same(f"display of COLUMNS={text}", found.stderr, wanted.stderr)
        same(f"status of COLUMNS={text}", found.returncode, 0)


def run(folder, keys, said, status=0, words=b"", path="history"):
    """A run over a history in this folder: the lines that it repeats, its status and its message."""
    ran = subprocess.run([HISTORY, *([path] if path else [])], input=keys, capture_output=True, timeout=HUNG, cwd=folder)
    same("what was said", ran.stdout, said)
    same("status", ran.returncode, status)
    same("last words", ran.stderr[len(ran.stderr) - len(words) :], words)


def text_of(folder, name="history"):
    with open(os.path.join(folder, name), "rb") as file:
        return file.read()


def lines_last():
    """Each run keeps the lines of those before it, and one without a new line leaves the file alone."""
    with tempfile.TemporaryDirectory() as folder:
        run(folder, b"one\r" + CTRL_D, b"one\n")
        same("after the first run", text_of(folder), b"#V2\none\n")
        run(folder, b"two\rlost" + CTRL_C + b"three\r" + CTRL_D, b"two\nthree\n")
        same("after the second run", text_of(folder), b"#V2\none\ntwo\nthree\n")
        before = os.stat(os.path.join(folder, "history"))
        run(folder, CTRL_D, b"")
        run(folder, CTRL_P + b"\r", b"three\n")
        after = os.stat(os.path.join(folder, "history"))
        same("the file", (after.st_ino, after.st_mtime_ns), (before.st_ino, before.st_mtime_ns))
        same("after runs with nothing new", text_of(folder), b"#V2\none\ntwo\nthree\n")
        run(folder, CTRL_P * 3 + b"\r" + CTRL_D, b"one\n")
        same("after the last run", text_of(folder), b"#V2\none\ntwo\nthree\none\n")
        same("files", os.listdir(folder), ["history"])


def a_file_that_no_argument_names():
    with tempfile.TemporaryDirectory() as folder:
        run(folder, b"one\r", b"one\n", path=None)
        run(folder, CTRL_P + b"!\r", b"one!\n", path=None)
        same("the file", text_of(folder, "lines.history"), b"#V2\none\none!\n")


def a_save_that_fails():
    """The error is printed, and ends the program with status 1; the lines before were printed."""
    with tempfile.TemporaryDirectory() as folder:
        told = b"Error: the history is not saved\n\nCaused by:\n    entity not found\n"
        run(folder, b"one\r", b"one\n", 1, told, path="none/history")
        same("files", os.listdir(folder), [])
        run(folder, CTRL_D, b"", path="none/history")


def a_history_that_does_not_load():
    with tempfile.TemporaryDirectory() as folder:
        told = b"Error: the history does not load\n\nCaused by:\n    invalid input parameter\n"
        run(folder, b"one\r", b"", 1, told, path="/dev/null")
        with open(os.path.join(folder, "history"), "wb") as file:
            file.write(b"\xff\n")
        run(folder, b"one\r", b"one\n")
        same("the file", text_of(folder), b"#V2\n\xff\none\n")


def input_that_fails():
    """Lines that were read before a fault are kept, and the fault is printed."""
    with tempfile.TemporaryDirectory() as folder:
        run(folder, b"one\r\xff", b"one\n", 1, b"Error: input is not UTF-8\n")
        same("the file", text_of(folder), b"#V2\none\n")


if __name__ == "__main__":
    run_all([
        columns_of_the_environment,
        lines_last,
        a_file_that_no_argument_names,
        a_save_that_fails,
        a_history_that_does_not_load,
        input_that_fails,
    ])
