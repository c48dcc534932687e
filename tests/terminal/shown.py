#!/usr/bin/env python3
"""What a terminal shows after each key of whole sessions: tmux runs ./keyline, and reports its cells and cursor.

The sessions are in tests/terminal/shown.txt. `rt ci` builds the program first. The texts are ones whose widths tmux counts like the
editor. Each session is ended by Ctrl-C, and then the terminal's settings must be as they were.
"""
import glob
import os
import pathlib
import shlex
import subprocess
import sys
import tempfile
import termios
import time
import unicodedata

sys.path += glob.glob(os.path.join(os.path.dirname(os.path.dirname(os.path.realpath(__file__))), "*", ""))
from checks import Failed, placed_script, run_all, same
from drawings import Terminal

ROWS = pathlib.Path(__file__).with_name("shown.txt")

# A key must be shown within this many seconds.
PATIENCE = 60

NAMED = {
    "Enter": b"\r", "Tab": b"\t", "Backspace": b"\x7f", "Esc": b"\x1b", "Left": b"\x1b[D", "Right": b"\x1b[C",
    "Up": b"\x1b[A", "Down": b"\x1b[B", "Home": b"\x1b[H", "End": b"\x1b[F", "Delete": b"\x1b[3~",
    "Paste": b"\x1b[200~", "Pasted": b"\x1b[201~",
}


def meant(text):
    """A text in which a control character or a blank may be written as its picture."""
    return "".join(chr(ord(c) - 0x2400) if 0x2400 <= ord(c) <= 0x2420 else c for c in text)


def key(word):
    if word in NAMED:
        return NAMED[word]
    if word.startswith("C-") and len(word) == 3:
        return bytes([ord(word[2]) & 0x1F])
    if word.startswith("M-") and len(word) > 2:
        return b"\x1b" + meant(word[2:]).encode()
    return meant(word).encode()


def deed(words):
    """An action on a terminal: keys are sent to it, or it pastes a text."""
    word, _, text = words.partition(" ")
    if word == "paste:":
        return lambda terminal: paste(terminal, meant(text))
    keys = b"".join(map(key, words.split()))
    return lambda terminal: terminal.ask("send-keys", "-H", *(f"{byte:02x}" for byte in keys))


def paste(terminal, text):
    """Makes tmux paste, as its user does: between marks if the program asked for them, each newline as a Return."""
    terminal.ask("set-buffer", "--", text)
    terminal.ask("paste-buffer", "-p")


def width(text):
    """The columns of a text."""
    return sum(0 if unicodedata.combining(c) else 2 if unicodedata.east_asian_width(c) in "WF" else 1 for c in text)


def pictured(shown):
    """The rows of a row of the file, and the row and column of its bar."""
    rows, cursor = [], None
    for number, row in enumerate(shown.split(" / ")):
        before, bar, after = meant(row).partition("|")
        if bar:
            cursor = (number, width(before))
        rows.append((before + after).rstrip())
    while rows and not rows[-1]:
        rows.pop()
    return rows, cursor


class Session:
    """A session of the file: its name, the program's arguments, and the rows below them."""

    def __init__(self, words):
        self.name, *self.arguments = shlex.split(words)
        self.steps, self.words, self.before, self.saved, self.lines = [], [], None, None, None

    def add(self, line):
        word, _, rest = line.partition(" ")
        if word == "history:":
            self.before = meant(rest)
        elif word == "entries:":
            self.before = "".join(f"entry {number}\n" for number in range(int(rest)))
        elif word == "saves:":
            self.saved = meant(rest)
        elif word == "words:":
            self.words = rest.split()
        elif word == "writes:":
            self.lines = "".join(f"{meant(text)}\n" for text in rest.split())
        elif " = " in line:
            keys, shown = line.split(" = ", 1)
            self.steps.append((line, deed(keys), pictured(shown)))

    def argument(self, name, default):
        return self.arguments[self.arguments.index(name) + 1] if name in self.arguments else default

    def plays(self, terminal):
        until_taken(terminal)
        prompt = self.argument("--prompt", "> ")
        expect(terminal, "before the first key", pictured(f"{prompt}|"))
        for line, does, wanted in self.steps:
            does(terminal)
            expect(terminal, line, wanted)
        terminal.ask("send-keys", "-H", "03")

    def left(self, folder):
        """Compares what the session left."""
        read = lambda name: pathlib.Path(folder, name).read_text(encoding="utf-8")
        end = time.monotonic() + PATIENCE
        while not (os.path.exists(os.path.join(folder, "after")) and read("after")):
            if time.monotonic() > end:
                raise Failed("hung: it has not ended")
            time.sleep(0.02)
        same("the terminal's settings", read("after"), read("before"))
        same("status", read("status"), "130\n")
        if self.lines is not None:
            same("lines", read("lines"), self.lines)
        if self.saved is not None:
            same("the history's file", read("history"), self.saved)


def sessions():
    found = []
    for line in ROWS.read_text(encoding="utf-8").splitlines():
        if line.startswith(":"):
            found.append(Session(line[1:]))
        elif found and not line.startswith("#"):
            found[-1].add(line)
    return found


def until_taken(terminal):
    """Waits until keys reach the program as they are."""
    end = time.monotonic() + PATIENCE
    tty = os.open(terminal.ask("display-message", "-p", "#{pane_tty}").strip(), os.O_RDONLY | os.O_NOCTTY)
    try:
        while termios.tcgetattr(tty)[3] & termios.ICANON:
            if time.monotonic() > end:
                raise Failed("hung: the terminal is not taken")
            time.sleep(0.02)
    finally:
        os.close(tty)


def expect(terminal, line, wanted):
    end = time.monotonic() + PATIENCE
    while (got := terminal.shown()) != wanted:
        if time.monotonic() > end:
            raise Failed(f"{line}: wanted {wanted}, shown {got}")
        time.sleep(0.02)


def test_of(session):
    """A test that types a session's keys, and compares what is shown after each row."""

    def plays():
        with tempfile.TemporaryDirectory() as folder:
            if session.before is not None:
                pathlib.Path(folder, "history").write_text(session.before, encoding="utf-8")
            pathlib.Path(folder, "words").write_text("".join(f"{word}\n" for word in session.words), encoding="utf-8")
            run = " ".join(map(shlex.quote, [SCRIPT, *session.arguments]))
            around = f"cd {shlex.quote(folder)}; stty -g > before; {run} > lines; echo $? > status; stty -g > after"
            terminal = Terminal(folder, int(session.argument("--columns", "80")), f"{around}; exec sleep 120")
            try:
                session.plays(terminal)
                session.left(folder)
            finally:
                terminal.close()

    plays.__name__ = session.name.replace("-", "_")
    return plays


def typed_before_the_end(terminal, above):
    """Types a letter that isn't ASCII ten times before a line's end, so that the line is redrawn ten times, or drawn from there
    on; returns how many rows tmux then keeps above the window."""
    until_taken(terminal)
    for count, keys in enumerate(["a c Left", *"é" * 10]):
        deed(keys)(terminal)
        expect(terminal, keys, ([*above, f"> a{'é' * count}c"], (len(above), 3 + count)))
    return int(terminal.ask("display-message", "-p", "#{history_size}"))


def copies_that_tmux_keeps():
    """tmux scrolls up what is erased from the window's first cell on. So it keeps a copy of each whole drawing of a line that
    begins in the first row, unless it is configured not to."""
    plain = f"{shlex.quote(SCRIPT)} --plain"
    for run, above, setting, copies in (
        (plain, [], None, 10), (shlex.quote(SCRIPT), [], None, 0), (plain, ["above"], None, 0), (plain, [], "off", 0)
    ):
        with tempfile.TemporaryDirectory() as folder:
            terminal = Terminal(folder, 80, "".join(f"echo {it}; " for it in above) + f"{run}; exec sleep 120")
            try:
                if setting:
                    terminal.ask("set-option", "-g", "scroll-on-clear", setting)
                same(f"copies of {run} under {above}, {setting}", typed_before_the_end(terminal, above), copies)
            except subprocess.CalledProcessError as fault:
                same("what this tmux, which has no such option, says", "invalid option" in fault.stderr, True)
            finally:
                terminal.close()


if __name__ == "__main__":
    os.environ["LC_ALL"] = "C.UTF-8"
    SCRIPT = placed_script()
    chosen = [session for session in sessions() if not sys.argv[1:] or session.name in sys.argv[1:]]
    run_all([test_of(session) for session in chosen] + [copies_that_tmux_keeps] * (not sys.argv[1:]))
