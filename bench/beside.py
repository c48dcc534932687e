"""The built program beside loops over other line editors, on the same keys, their lines thrown away.

Called by `bench/run beside` with the folder of keyline and of a loop over each installed editor, and with the way in which all
are run. With `terminal` each reads its keys from its own terminal, since most don't edit what comes over a pipe, and its
display is thrown away. With `drawn` the terminal takes the display too. The others are `pipe`, and `instructions`: that is
`terminal` under callgrind, which doesn't count the system's work.

The editors take turns. The time is processor time, the program's own and the system's for it, less that of a session without
the keys that are counted; the median of the rounds counts. It is followed by its ratio to keyline's. An editor that accepts
other lines than keyline lacks some of the keys, and has no figure.
"""
import fcntl
import functools
import os
import pty
import re
import select
import statistics
import struct
import subprocess
import sys
import tempfile
import termios
import time
from dataclasses import dataclass

from session import BACKSPACE, END, ENTER, HOME, LEFT, RIGHT, edits, lines_typed, one_line, pasted

EDITORS = ["keyline", "readline", "libedit", "tecla", "rustyline"]
# Where the display counts, keyline runs a second time, with lines drawn in part.
DRAWN = ["keyline", "keyline --extended", *EDITORS[1:]]
# Editors that edit what comes over a pipe.
PIPED = ["keyline", "readline"]
TYPED = b"the quick brown fox jumps over two dogs."
ESCAPE, END_OF_INPUT, KILL, YANK, UP = b"\x1b", b"\x04", b"\x0b", b"\x19", b"\x10"
WORD_LEFT, WORD_RIGHT = b"\x1bb", b"\x1bf"
ROUNDS = 9
# The most bytes that a terminal buffers at once.
ROOM = 4096
# After this many seconds without a byte a program is taken to be stuck.
PATIENCE = 300


def before(text, keys):
    """Keys before a line of this many characters."""
    return b"a" * text + HOME + b"b" * keys + ENTER


def after(text, keys):
    """The same keys with this many characters before them."""
    return b"a" * text + b" " + keys


def moves(keys):
    """In a line of forty characters, ten keys at a time."""
    some = LEFT + LEFT + RIGHT + HOME + RIGHT + RIGHT + WORD_RIGHT + END + LEFT + WORD_LEFT
    return TYPED + some * (keys // 10) + ENTER


def kills(keys):
    """Moves and kills without an undo, which some editors lack, ten keys at a time."""
    some = LEFT + LEFT + b"x" + BACKSPACE + HOME + RIGHT + RIGHT + KILL + YANK + END
    return TYPED + some * (keys // 10) + ENTER


def commands(keys):
    """Vi's keys, ten at a time."""
    return TYPED + ESCAPE + b"hl0web$hxu" * (keys // 10) + ENTER


@dataclass
class Case:
    """Keys, those of them that aren't counted, and how many entries a history has that is loaded before them."""

    what: str
    keys: bytes
    less: bytes = b""
    mode: str = "emacs"
    entries: int = 0

    def words(self, editor, folder, entries):
        """The program's arguments."""
        mode = [f"--mode={self.mode}"]
        return mode + [f"--history={history_file(editor, folder, entries)}"] * (self.entries > 0)


CASES = [
    Case("100,000 keys in lines of 40 characters", lines_typed(100_000)),
    Case("10,000 keys at the end of their line", one_line(10_000)),
    Case("100,000 keys at the end of their line", one_line(100_000)),
    Case("1,000 keys before a line of 1,000", before(1_000, 1_000), before(1_000, 0)),
    Case("1,000 keys before a line of 10,000", before(10_000, 1_000), before(10_000, 0)),
    Case("100,000 moves in a line of 40", moves(100_000), moves(0)),
    Case("1,000 moves at the end of a line of 10,000", after(10_000, moves(1_000)), after(10_000, moves(0))),
    Case("100,000 moves and kills in a line of 40", kills(100_000), kills(0)),
    Case("100,000 moves, kills and undos in a line of 40", edits(100_000), edits(0)),
    Case("1,000 of them at the end of a line of 10,000", after(10_000, edits(1_000)), after(10_000, edits(0))),
    Case("100,000 of Vi's commands in a line of 40", commands(100_000), commands(10), mode="vi"),
    Case("a paste of a megabyte", pasted(1_000_000)),
    Case("a history of 100,000 entries loaded", UP + ENTER, UP + ENTER, entries=100_000),
]


@functools.cache
def history_file(editor, folder, entries):
    """A file of this many entries of 44 bytes, as the editor writes it."""
    rows = [f"entry {it:06} of a history, as it was typed." for it in range(entries)]
    if editor == "libedit":
        rows = ["_HiStOrY_V2_", *(row.replace(" ", r"\040") for row in rows)]
    elif editor == "tecla":
        rows = [f"# 20260101000000 0\n{row}" for row in rows]
    elif editor != "readline":
        rows = ["#V2", *rows]
    path = f"{folder}/{editor}.{entries}"
    with open(path, "w", encoding="ascii") as file:
        file.write("\n".join(rows) + "\n")
    return path


def set_keys(terminal, echoes):
    """Each key's bytes reach the program at once, as they are typed."""
    settings = termios.tcgetattr(terminal)
    settings[0] &= ~(termios.ICRNL | termios.IXON)
    settings[3] &= ~(termios.ICANON | termios.ISIG | termios.IEXTEN)
    if not echoes:
        settings[3] &= ~termios.ECHO
    termios.tcsetattr(terminal, termios.TCSANOW, settings)
    fcntl.ioctl(terminal, termios.TIOCSWINSZ, struct.pack("HHHH", 24, 80, 0, 0))


def wait_for_editor(display):
    """Waits until the editor turns the terminal's echo off: keys typed before that may be lost."""
    end = time.monotonic() + PATIENCE
    while termios.tcgetattr(display)[3] & termios.ECHO and time.monotonic() < end:
        time.sleep(0.0005)


def is_typed(display, keys):
    """Sends keys as the terminal takes them, and reads its display, until the program has ended. Returns whether it has."""
    left = memoryview(keys)
    while True:
        readable, writable, _ = select.select([display], [display] if left else [], [], PATIENCE)
        if not readable and not writable:
            return False
        try:
            if readable:
                os.read(display, 1 << 16)
            if writable:
                left = left[os.write(display, left[:ROOM]) :]
        except OSError:
            return True


def used_by(process):
    """The seconds of processor time, once a process has ended."""
    _, status, used = os.wait4(process.pid, 0)
    process.returncode = os.waitstatus_to_exitcode(status)
    return used.ru_utime + used.ru_stime


def from_terminal(command, keys, echoes, lines=subprocess.DEVNULL, drawn=subprocess.DEVNULL):
    """The seconds of a session whose keys come from a terminal. Readline draws nothing if a terminal doesn't echo."""
    display, terminal = pty.openpty()
    set_keys(terminal, echoes)
    os.set_blocking(display, False)
    session = subprocess.Popen(command, stdin=terminal, stdout=lines, stderr=drawn or terminal)
    os.close(terminal)
    wait_for_editor(display)
    if not is_typed(display, keys + END_OF_INPUT):
        session.kill()
    os.close(display)
    return used_by(session)


def on_terminal(command, keys, echoes, lines=subprocess.DEVNULL):
    """The seconds of one that is also drawn on the terminal."""
    return from_terminal(command, keys, echoes, lines, drawn=None)


def over_pipe(command, keys, _, lines=subprocess.DEVNULL):
    """The seconds of one whose keys come over a pipe."""
    with tempfile.TemporaryFile() as source:
        source.write(keys)
        source.seek(0)
        with subprocess.Popen(["cat"], stdin=source, stdout=subprocess.PIPE) as pipe:
            return used_by(subprocess.Popen(command, stdin=pipe.stdout, stdout=lines, stderr=subprocess.DEVNULL))


def instructions(command, keys, echoes, lines=subprocess.DEVNULL):
    """The instructions of one whose keys come from a terminal."""
    with tempfile.NamedTemporaryFile() as told:
        counted = ["valgrind", "--tool=callgrind", "--callgrind-out-file=/dev/null", f"--log-file={told.name}"]
        from_terminal(counted + command, keys, echoes, lines)
        return int(re.findall(rb"Collected : (\d+)", told.read())[-1])


# How an editor is run, which of them can be run so, how often, and the unit of the result.
WAYS = {
    "terminal": (from_terminal, EDITORS, ROUNDS, "ms", 1e3),
    "drawn": (on_terminal, DRAWN, ROUNDS, "ms", 1e3),
    "pipe": (over_pipe, PIPED, ROUNDS, "ms", 1e3),
    "instructions": (instructions, EDITORS, 1, "M", 1e-6),
}


class Beside:
    """The installed editors, and a way in which they are run."""

    def __init__(self, programs, way, folder):
        self.run, able, self.rounds, self.unit, self.scale = WAYS[way]
        self.editors = [it for it in able if os.path.exists(f"{programs}/{it.split()[0]}")]
        self.programs, self.folder = programs, folder

    def session(self, editor, case, keys, entries, **more):
        program, *words = editor.split()
        command = [f"{self.programs}/{program}", *words, *case.words(program, self.folder, entries)]
        return self.run(command, keys, program != "keyline", **more)

    def lines(self, editor, case):
        """The lines that an editor accepts."""
        with tempfile.TemporaryFile() as lines:
            self.session(editor, case, case.keys, case.entries, lines=lines)
            lines.seek(0)
            return lines.read()

    def counted(self, editor, case):
        """The cost of the keys that are counted."""
        return self.session(editor, case, case.keys, case.entries) - self.session(editor, case, case.less, 1)

    def cells(self, case):
        """The medians of the costs, and of their ratios to keyline's."""
        accepted = {it: self.lines(it, case) for it in self.editors}
        able = [it for it in self.editors if accepted[it] == accepted["keyline"]]
        rounds = [{it: self.counted(it, case) for it in able} for _ in range(self.rounds)]
        for editor in self.editors:
            yield self.cell(editor, rounds) if editor in able else ""

    def cell(self, editor, rounds):
        cost = self.scale * statistics.median(it[editor] for it in rounds)
        times = statistics.median(it[editor] / it["keyline"] for it in rounds)
        told = f"{cost:.{1 if cost < 10 else 0}f} {self.unit}"
        return told if editor == "keyline" else f"{told}, {times:.{1 if times < 10 else 0}f}"


def main(programs, way="terminal", only=""):
    os.environ.update(TERM="xterm", INPUTRC="/dev/null", LC_ALL="C.UTF-8")
    with tempfile.TemporaryDirectory() as folder:
        os.environ["HOME"] = folder
        beside = Beside(programs, way, folder)
        print(f"| What | {' | '.join(beside.editors)} |\n|{'---|' * (len(beside.editors) + 1)}", flush=True)
        for case in CASES:
            if only in case.what:
                print(f"| {case.what} | {' | '.join(beside.cells(case))} |", flush=True)


if __name__ == "__main__":
    main(*sys.argv[1:])
