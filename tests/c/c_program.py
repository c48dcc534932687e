#!/usr/bin/env python3
"""Lines for programs in C: `libkeyline_c.a`, with crates/keyline_c/c/keyline.h, under tests/c/c_calls.c, and the console of
crates/keyline_c/c/console.c over c/line.c. It runs on pipes, compared with the program `keyline` for the same keys, on a
terminal with signals, on tmux in windows of several widths, and under valgrind. So does the second example, c/complete.c.

`rt ci` proves the crate, but builds no static library. It is built here from the libraries that `rt ci` leaves, since `rt lib`
would prove them all again. `--archive` only builds it, and `--built` uses it as it is.
"""
import contextlib
import glob
import os
import pathlib
import re
import shlex
import shutil
import signal
import subprocess
import sys
import tempfile
import time

sys.path += glob.glob(os.path.join(os.path.dirname(os.path.dirname(os.path.realpath(__file__))), "*", ""))
import terminal
from checks import CTRL_D, ENTER, HUNG, LEFT, NEW_ROW, PROGRAM, TOP, Failed, drawing, run_all, same, shim
from drawings import Terminal
from mutants import Checker
from shown import expect, key, until_taken
from windows import WIDTHS, edited_in_its_middle, rows_of, type_bytes
from mutant_checks import below, crates_of

CRATE = os.path.join(TOP, "crates", "keyline_c")
ARCHIVE = os.path.join(CRATE, "out", "libkeyline_c.a")
CONSOLE = os.path.join(TOP, "build", "console")
COMPLETE = os.path.join(TOP, "build", "complete")
CALLS = os.path.join(TOP, "build", "c_calls")
KIT = os.path.dirname(os.path.dirname(os.path.realpath(shutil.which("rt") or "/")))
REFUSED = b"console: out of memory\n"
# What the console draws below its line before a signal acts, and before the message at its end.
BELOW = b"\n\x1b[J"
VALGRIND = ["valgrind", "--quiet", "--leak-check=full", "--show-leak-kinds=all", "--errors-for-leak-kinds=all", "--error-exitcode=99"]

# Keys in both modes: editing, a kill that the next line yanks, earlier lines, texts of several rows, a paste, undo, a key and a
# character cut off by the end, several lines in one read.
EMACS = [
    b"",
    b"ab\r",
    b"ab\rcd\r\x04",
    b"one two\x1b[D\x1b[D\x0b\r\x19\x19\r\x10\x10\r",
    b"a\x17b c\x17\x19\x1by\r\x19\r",
    "h\u00e9llo \u6f22\u5b57\x01\x1bf\x1bd\x1f\x1f\r".encode(),
    b"\x1b[200~two\rrows\x1b[201~\x01\x0b\r\x19\r",
    b"x" * 200 + b"\x01\x0b\x19\x19\r",
    b"open(\rclosed)\r",
    b"cut \x1b[",
    b"cut \xc3",
    b"\x04left over\r",
    b"bad \xff\r",
]
VI = [b"ab\rcd\r", b"one two\x1bbdwu0x3p\r", b"a b c\x1bcWx\x1b.\r\x1bpk\r", b"dd\x1bdd\ri\x1bP\r"]


def build_archive():
    """Proves the crate with the libraries that `rt ci` has left, and builds it."""
    uses = crates_of(TOP)
    rlib = Checker(TOP, uses).rlib
    words = [os.path.join(KIT, "bin", "rattle"), "build", "--crate-name", "keyline_c", "src/lib.rt", "--crate-type", "staticlib"]
    for name in ["std", *uses["keyline_c"]]:
        words += ["--extern", f"{name}={rlib(name)}"]
    for folder in [os.path.join(KIT, "rlibs"), *(os.path.dirname(rlib(it)) for it in below(uses, "keyline_c"))]:
        words += ["-L", f"dependency={folder}"]
    words += ["--antt-project", os.path.join(KIT, "rattle", "logic", "antt-project.json")]
    words += ["--logic-built", os.path.join(KIT, "logic_built"), "--links", "keyline_c=", "--jobs", "2"]
    words += ["--toolchain", os.path.join(KIT, "toolchain"), "--backend", "llvm", "-o", ARCHIVE]
    os.makedirs(os.path.dirname(ARCHIVE), exist_ok=True)
    subprocess.run(words, cwd=CRATE, check=True, stdout=subprocess.DEVNULL)


def made():
    """The programs, linked with the archive."""
    if "--built" not in sys.argv:
        build_archive()
    os.makedirs(os.path.dirname(CONSOLE), exist_ok=True)
    console = [os.path.join(CRATE, "c", name) for name in ("console.c", "line.c")]
    complete = [os.path.join(CRATE, "c", "complete.c")]
    for program, sources in ((CONSOLE, console), (COMPLETE, complete), (CALLS, [os.path.join(TOP, "tests", "c", "c_calls.c")])):
        words = ["gcc", "-std=c11", "-Wall", "-Wextra", "-Wpedantic", "-Werror", "-O2", "-g", "-o", program]
        subprocess.run([*words, *sources, ARCHIVE, os.path.join(KIT, "c", "liblibc_c.a")], check=True)


def run(words, keys, **settings):
    return subprocess.run(words, input=keys, capture_output=True, timeout=HUNG, check=False, **settings)


def as_the_program(mode, keys, **settings):
    """The console sends, accepts and ends like the program for these keys, which have no Ctrl-C and no newline."""
    program = run([PROGRAM, "--mode", mode, "--prompt", "c> "], keys)
    console = run([CONSOLE, mode], keys, **settings)
    same("the lines", re.sub(b"^got: ", b"", console.stdout, flags=re.M), program.stdout)
    if program.returncode == 0:
        same("the display", console.stderr, program.stderr)
    same("the status", console.returncode, min(program.returncode, 1))


def the_header_in_cpp():
    """keyline.h compiles as C++, if there is a compiler for it."""
    if shutil.which("g++"):
        words = ["g++", "-fsyntax-only", "-Wall", "-Wextra", "-Wpedantic", "-Werror", "-I", os.path.join(CRATE, "c"), "-x", "c++", "-"]
        subprocess.run(words, input=b'#include "keyline.h"\n', check=True)


def on_pipes():
    """In one piece, and one byte at a time."""
    a_byte = {"env": {**os.environ, "LD_PRELOAD": shim("one_byte")}}
    for mode, rows in (("emacs", EMACS), ("vi", VI)):
        for keys in rows:
            as_the_program(mode, keys)
            as_the_program(mode, keys, **a_byte)


def after_ctrl_c():
    console = run([CONSOLE], b"one two\x17\x03\x19\r\x10\r")
    same("what is told", console.stdout, b"(given up)\ngot: two\ngot: two\n")
    same("the status", console.returncode, 0)


def calls():
    done = run([CALLS], b"")
    last = done.stdout.decode().split("\n")[-2]
    if not re.fullmatch(r"[1-9][0-9]* passed, 0 failed", last) or done.returncode:
        raise Failed(done.stdout.decode())


def under_valgrind():
    for words, keys in (([CALLS], b""), ([CONSOLE], EMACS[3] + EMACS[4] + EMACS[6]), ([CONSOLE, "vi"], b"".join(VI)), ([COMPLETE], b"cl\t\r\x04")):
        done = run([*VALGRIND, *words], keys)
        if done.returncode:
            raise Failed(f"valgrind at {words}: {done.returncode}, {done.stderr[-3000:].decode(errors='replace')}")


def keys_in_one_read():
    """A line whose display is larger than the buffers were, and more lines than fit into a buffer."""
    for keys in (b"x" * 13000 + b"\r", b"ab\x01c\r" * 3000):
        as_the_program("emacs", keys)


def arguments():
    """Any other argument than a mode is rejected, and no line is read."""
    for words in (["nano"], ["--help"], [""], ["vi", "vi"]):
        console = run([CONSOLE, *words], b"ab\r")
        same(f"{words}", (console.returncode, console.stdout, console.stderr), (2, b"", b"usage: console [emacs|vi]\n"))


def ends_with(console, words):
    """Whether it failed with this message."""
    same("the status", console.returncode, 1)
    same("the last words", console.stderr[-len(words) :], words)


def what_fails():
    """Invalid keys end it with the cause in a row of its own. So do keys that can't be read, and lines that can't be written; a
    display that fails has no place for a message."""
    for keys, cause in ((b"ab\xff", b"input is not UTF-8"), (b"ab\x18\x1b[200~c\x1b[201~", b"paste out of place")):
        ends_with(run([CONSOLE], keys), BELOW + b"console: " + cause + b"\n")
    for redirected, words in (
        ("<&-", BELOW + b"console: input failed: Bad file descriptor\n"),
        ("</", BELOW + b"console: input failed: Is a directory\n"),
        (">/dev/full", b"console: standard output: No space left on device\n"),
        ("2>/dev/full", b""),
    ):
        ends_with(run(["sh", "-c", f"{shlex.quote(CONSOLE)} {redirected}"], b"ab\r"), words)


def failed_allocations():
    """Each allocation failing in turn, including that of a display for the new row at a line's end."""
    for keys in (b"one two\x17\r\x19\x19\r\x10\x10 three\r", *(b"a" * count + b"\r" for count in range(16))):
        each_refused(keys)


def each_refused(keys):
    """With these keys each allocation fails in turn: the console's status says so, and the lines before it are written."""
    whole = run([CONSOLE], keys).stdout
    with tempfile.TemporaryDirectory() as folder:
        number, report = 0, os.path.join(folder, "report")
        while number == 0 or os.path.exists(report):
            if number:
                os.unlink(report)
            number += 1
            setting = {"LD_PRELOAD": shim("fail_alloc"), "FAIL_ALLOCATION": str(number), "FAIL_ALLOCATION_REPORT": report}
            done = run([CONSOLE], keys, env={**os.environ, **setting})
            if done.returncode:
                ends_with(done, REFUSED)
                same(f"the lines, allocation {number}", done.stdout, whole[: len(done.stdout)])
            else:
                same(f"the lines, allocation {number}", done.stdout, whole)
    if number < 10:
        raise Failed(f"only {number - 1} allocations failed")


def drawn(text, back=0):
    return drawing(text, back).replace(b"> ", b"c> ", 1)


@contextlib.contextmanager
def in_mid_line():
    """The console on a terminal, with `abc` typed and the cursor before its last letter."""
    with terminal.Terminal(40, command=[CONSOLE]) as it:
        it.expect(drawn(b""))
        it.expect_taken()
        it.type(b"abc" + LEFT)
        it.expect(b"abc\x1b[1D")
        yield it


def a_line_on_a_terminal():
    """Pasted text comes between marks while a line is read. Between two lines the terminal is as it was."""
    with in_mid_line() as it:
        it.type(b"\x1b[200~X\rY\x1b[201~")
        it.expect(drawn(b"abX\r\nYc", 1).replace(b"\r\n", NEW_ROW))
        it.type(ENTER)
        it.expect(b"\x1b[1C" + NEW_ROW + terminal.UNMARKED + b"got: abX\nYc\n" + terminal.MARKED + drawn(b""))
        it.type(CTRL_D)
        it.expect_ended(0, NEW_ROW)


def signals_that_end_it():
    """The terminal is restored, and then the signal acts."""
    for number in (signal.SIGHUP, signal.SIGINT, signal.SIGQUIT, signal.SIGTERM):
        with in_mid_line() as it:
            os.kill(it.job, number)
            it.expect_ended(-number, BELOW)
    with in_mid_line() as it:
        it.type(b"\x1c")
        it.expect_ended(-signal.SIGQUIT, BELOW)


def a_window_that_is_closed():
    """The console may find that no more keys come before the signal comes."""
    with in_mid_line() as it:
        it.close_window()
        it.expect_gone(0, 1, -signal.SIGHUP)


def stopped_and_continued():
    """When it stops, the terminal is restored, and when it continues, the line is drawn again. In the background it stops."""
    for places in ([terminal.IN_FRONT], [terminal.BEHIND, terminal.IN_FRONT]):
        with in_mid_line() as it:
            it.type(b"\x1a")
            for place in places:
                same("report", it.next_report(), "stopped")
                it.go_on(place)
            it.expect(BELOW + terminal.UNMARKED)
            it.wait_until_taken()
            it.expect(drawn(b"") + b"abc\x1b[1D")
            it.type(b"X")
            it.expect(drawn(b"abXc", 1))
            it.type(CTRL_D + CTRL_D + b"\r\x04")
            it.expect_gone(0)


@contextlib.contextmanager
def on_tmux(columns, redirected="", program=CONSOLE, prompt="c>"):
    """A program in a window with so many columns, its folder, and after it the terminal's settings compared."""
    with tempfile.TemporaryDirectory() as folder:
        run_it = f"stty -g >before; {shlex.quote(program)} {redirected}; echo status $?; stty -g >after"
        pane = Terminal(folder, columns, f"cd {shlex.quote(folder)}; {run_it}; exec sleep {HUNG}")
        try:
            until_taken(pane)
            expect(pane, "before the first key", ([prompt], (0, len(prompt) + 1)))
            yield pane, pathlib.Path(folder)
            before, after = (pathlib.Path(folder, name) for name in ("before", "after"))
            wait_for("its end", lambda: after.exists() and after.read_text(encoding="utf-8").endswith("\n"))
            same("the terminal's settings", after.read_text(encoding="utf-8"), before.read_text(encoding="utf-8"))
        finally:
            pane.close()


def wait_for(what, holds):
    end = time.monotonic() + HUNG
    while not holds():
        if time.monotonic() > end:
            raise Failed(f"hung before {what}")
        time.sleep(0.02)


def type_keys(pane, *words):
    type_bytes(pane, b"".join(map(key, words)))


def lines_on_tmux():
    with on_tmux(40) as (pane, _):
        type_keys(pane, "abd", "Left", "c")
        expect(pane, "typed", (["c> abcd"], (0, 6)))
        type_keys(pane, "Enter")
        expect(pane, "a line", (["c> abcd", "got: abcd", "c>"], (2, 3)))
        type_keys(pane, "x\u2420y", "C-w", "C-c")
        expect(pane, "Ctrl-C", (["c> abcd", "got: abcd", "c> x", "(given up)", "c>"], (4, 3)))
        type_keys(pane, "C-l", "C-y", "Up")
        expect(pane, "the line before", (["c> abcd"], (0, 7)))
        type_keys(pane, "Down", "Enter", "C-d")
        expect(pane, "the end", (["c> y", "got: y", "c>", "status 0"], (4, 0)))


def words_on_pipes():
    """Tab completes a word in the line's end and in its middle, and Alt-? changes no line."""
    keys = b"cl\to\t\r" + b"x q\t\r" + b"op now" + LEFT * 4 + b"\t\r" + b"he\x1b?\t\r" + b"zz\t\r" + b"ab\x03quit\r\x04"
    done = run([COMPLETE], keys)
    same("the lines", done.stdout, b"got: close\ngot: x quit\ngot: open now\ngot: help\ngot: zz\ngot: quit\n")
    same("the status", done.returncode, 0)
    ends_with(run([COMPLETE], b"ab\xff"), b"\ncomplete: the keys are not UTF-8\n")


def words_on_tmux():
    """The candidates stand below the line, and a new width draws the line anew on an empty screen."""
    with on_tmux(40, program=COMPLETE, prompt=">") as (pane, _):
        type_keys(pane, "c", "l", "Tab")
        expect(pane, "candidates", (["> cl", "clear  close", "> cl"], (2, 4)))
        type_keys(pane, "o", "Tab", "Left")
        expect(pane, "a word", (["> cl", "clear  close", "> close"], (2, 6)))
        pane.ask("resize-window", "-x", "20")
        expect(pane, "another width", (["> close"], (0, 6)))
        type_bytes(pane, b"x" * 14)
        expect(pane, "a line of two rows", (["> closxxxxxxxxxxxxxx", "e"], (1, 0)))
        type_keys(pane, "Enter", "C-d")
        expect(pane, "the end", (["> closxxxxxxxxxxxxxx", "e", "got: closxxxxxxxxxxx", "xxxe", ">", "status 0"], (6, 0)))


def windows():
    """A line is as wide as its window, and after the window changes so is the next one."""
    for columns, other in zip(WIDTHS, WIDTHS[1:] + WIDTHS[:1]):
        with on_tmux(columns) as (pane, _):
            line = edited_in_its_middle(pane, "c> ", columns)
            type_keys(pane, "Enter")
            shown = rows_of(f"c> {line}", columns) + rows_of(f"got: {line}", columns)
            expect(pane, "it is accepted", ([*shown, "c>"], (len(shown), 3)))
            pane.ask("resize-window", "-x", str(other))
            with open(pane.ask("display-message", "-p", "#{pane_tty}").strip(), "rb") as tty:
                wait_for("the new width", lambda: os.get_terminal_size(tty.fileno()).columns == other)
            type_keys(pane, "Enter", "C-l")
            expect(pane, "a new line", (["c>"], (0, 3)))
            edited_in_its_middle(pane, "c> ", other)
            type_keys(pane, "C-c", "C-d")


def a_long_paste_is_one_text():
    """All of its 70,000 characters, in a thousand rows, are in the line, and none is left."""
    text = "\n".join(f"{row:069}" for row in range(1000))
    with on_tmux(80, ">lines") as (pane, folder):
        pasted, lines = folder / "pasted", folder / "lines"
        pasted.write_text(text, encoding="utf-8")
        pane.ask("load-buffer", str(pasted))
        pane.ask("paste-buffer", "-p")
        type_keys(pane, "Enter")
        wait_for("the line", lambda: lines.read_text(encoding="utf-8").endswith("\n"))
        same("whether the text is the line", lines.read_text(encoding="utf-8") == f"got: {text}\n", True)
        type_keys(pane, "C-d")


def main():
    os.environ["LC_ALL"] = "C.UTF-8"
    if "--archive" in sys.argv:
        return build_archive()
    made()
    return run_all([
        calls,
        the_header_in_cpp,
        on_pipes,
        keys_in_one_read,
        after_ctrl_c,
        arguments,
        what_fails,
        failed_allocations,
        a_line_on_a_terminal,
        signals_that_end_it,
        a_window_that_is_closed,
        stopped_and_continued,
        lines_on_tmux,
        words_on_pipes,
        words_on_tmux,
        windows,
        a_long_paste_is_one_text,
        under_valgrind,
    ])


if __name__ == "__main__":
    sys.exit(main())
