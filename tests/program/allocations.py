#!/usr/bin/env python3
"""The program with each of its allocations failing in turn. Run it by ./test, or alone once `rt ci` or ./keyline --prove has built it.

A session is run once for each call that allocates in the C library, and that call fails. Such a run ends with status 1 and
the message for it; what it wrote before is a prefix of what a run with enough memory writes. A failure that the program
gets over, such as that of shrinking a block, must leave the run whole. The count ends with the first run in which no call
fails; its result must be that of an ordinary run.
"""
import glob
import os
import subprocess
import sys
import tempfile

sys.path += glob.glob(os.path.join(os.path.dirname(os.path.dirname(os.path.realpath(__file__))), "*", ""))
from checks import ENTER, HUNG, NEW_ROW, PROGRAM, Failed, compile_shim, drawing, run_all, same, shim

WORDS = b"keyline: out of memory\n"
# The message if the history's text doesn't fit into memory, after everything else was done.
NO_TEXT = b"keyline: history text failed\n"
MOST = 10000
TAB = ord("\t")
BELL = b"\a"


class Session:
    """The keys of these lines, printable ASCII or Tab, and what a whole run with them writes, with these words to complete.
    Each line fits into one row."""

    def __init__(self, *lines, words=()):
        self.words = words
        self.keys = b"".join(line + ENTER for line in lines)
        self.lines = []
        # The display's parts in order: drawings, characters and row breaks, and which of them end an accepted line.
        self.parts = [drawing(b"")]
        self.breaks = []
        for line in lines:
            self.lines.append(self.typed(line) + b"\n")
            self.breaks.append(len(self.parts))
            self.parts += [NEW_ROW, drawing(b"")]
        self.parts.append(NEW_ROW)
        self.got_over = 0

    def typed(self, keys):
        """The line of the keys; their parts of the display are appended to the others."""
        line = b""
        for key in keys:
            completed = self.completed(line) if key == TAB else None
            if key != TAB:
                line += bytes([key])
                self.parts.append(bytes([key]))
            elif completed is None:
                self.parts.append(BELL)
            else:
                line = completed
                self.parts.append(drawing(line))
        return line

    def completed(self, line):
        """The line after a Tab at its end, or None if the bell rings."""
        word = line.rpartition(b" ")[2]
        candidates = [it for it in self.words if it.startswith(word)]
        shared = os.path.commonprefix(candidates)
        return line[: len(line) - len(word)] + shared if len(candidates) == 1 or len(shared) > len(word) else None

    def check_whole(self, ran):
        same("lines", ran.stdout, b"".join(self.lines))
        same("display", ran.stderr, b"".join(self.parts))
        same("status", ran.returncode, 0)

    def check_refused(self, ran):
        if ran.returncode == 0:
            self.got_over += 1
            return self.check_whole(ran)
        same("status", ran.returncode, 1)
        words = NO_TEXT if ran.stderr.endswith(NO_TEXT) else WORDS
        same("the end of standard error", ran.stderr[-len(words) :], words)
        display = ran.stderr[: -len(words)]
        if words == NO_TEXT:
            same("display", display, b"".join(self.parts))
        begun = [b"".join(self.parts[:count]) for count in range(len(self.parts) + 1)]
        if display not in begun:
            raise Failed(f"the display is no prefix of the whole one, part by part: {display!r}")
        sent = begun.index(display)
        # A line is written after its row break, and before the next line's first drawing.
        at_least = sum(at + 2 <= sent for at in self.breaks)
        at_most = sum(at + 1 <= sent for at in self.breaks)
        if ran.stdout not in [b"".join(self.lines[:count]) for count in range(at_least, at_most + 1)]:
            raise Failed(f"expected {at_least} to {at_most} lines, found {ran.stdout!r}")

    def arguments(self, folder):
        """The program's arguments; the words are in a file of the folder."""
        if not self.words:
            return []
        path = os.path.join(folder, "words")
        with open(path, "wb") as file:
            file.write(b"".join(word + b"\n" for word in self.words))
        return ["--words", path]

    def refuse_each(self):
        with tempfile.TemporaryDirectory() as folder:
            report = os.path.join(folder, "refused")
            arguments = self.arguments(folder)
            for number in range(1, MOST):
                told = {"LD_PRELOAD": shim("fail_alloc"), "FAIL_ALLOCATION": str(number), "FAIL_ALLOCATION_REPORT": report}
                ran = subprocess.run([PROGRAM, *arguments], input=self.keys, capture_output=True, timeout=HUNG, env=told)
                try:
                    if not os.path.exists(report):
                        self.check_whole(ran)
                        break
                    self.check_refused(ran)
                except Failed as fault:
                    raise Failed(f"call {number}: {fault}") from fault
                os.remove(report)
            else:
                raise Failed(f"{MOST} calls, and no end")
        print(f"allocations that failed in turn: {number - 1}, got over: {self.got_over}", flush=True)
        same("whether any call was met", number > 1, True)


def the_shim_compiles():
    try:
        same("what gcc says", compile_shim("fail_alloc")[1], b"")
    except FileNotFoundError:
        raise Failed("gcc is not on PATH") from None
    except subprocess.CalledProcessError as fault:
        raise Failed(f"gcc ends with status {fault.returncode}: {fault.output}") from fault


def two_short_lines():
    Session(b"ab", b"cd").refuse_each()


def a_line_that_grows_again_and_again():
    Session(b"0123456789" * 7, b"ab").refuse_each()


def words_that_are_read():
    Session(b"ab", words=[b"alpha", b"x" * 40, b"alpine" * 20]).refuse_each()


def words_that_are_completed():
    """By their common prefix, by the single one that begins so, and by none."""
    Session(b"al\t", b"x alph\t!", b"zz\t", words=[b"alpha", b"alpine"]).refuse_each()


def words_that_are_longer_than_the_line_had_room():
    long = b"al" + b"x" * 68
    Session(b"b al\t\t", words=[long + b"1", long + b"2"]).refuse_each()


def three_lines_and_an_empty_one():
    Session(b"x" * 20, b"", b"y" * 40, b"z" * 60).refuse_each()


if __name__ == "__main__":
    run_all([
        the_shim_compiles,
        two_short_lines,
        a_line_that_grows_again_and_again,
        words_that_are_read,
        words_that_are_completed,
        words_that_are_longer_than_the_line_had_room,
        three_lines_and_an_empty_one,
    ])
