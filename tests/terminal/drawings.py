#!/usr/bin/env python3
"""Drawings on a terminal: what tmux shows of the drawings of crates/sessions_program, the cells and the cursor.

`rt ci` builds the program first. The texts are ones whose widths tmux counts like the editor.
"""
import contextlib
import glob
import os
import pathlib
import shlex
import signal
import subprocess
import sys
import tempfile
import time

sys.path += glob.glob(os.path.join(os.path.dirname(os.path.dirname(os.path.realpath(__file__))), "*", ""))
from checks import built

PROGRAM = built("sessions_program")
PATIENCE = 10  # seconds that a pane's processes get to end by themselves

# name, columns, the rows shown, the cursor's row and column
CASES = [
    ("wrapped", 10, ["> abcdefgh", "ij"], (1, 2)),
    ("full", 10, ["> abcdefgh"], (1, 0)),
    ("shorter", 10, ["> ab"], (0, 4)),
    ("wide", 9, ["> \u6f22\u5b57\u6f22", "\u5b57"], (1, 2)),
    ("control", 20, ["> a?b"], (0, 5)),
    ("tabs", 20, ["> a     b", "                c"], (1, 17)),
    ("tab-at-the-margin", 10, ["> abcdef", "x"], (1, 1)),
    ("accent", 20, ["> e\u0301x"], (0, 3)),
    ("message", 20, ["> ]unpaired"], (0, 3)),
    ("rows", 20, ["> one", "two", "three"], (0, 5)),
]


def running_in(sessions):
    """The processes of these sessions (a pane's first process leads its session) that haven't ended."""
    found = []
    for place in glob.glob("/proc/[0-9]*/stat"):
        with contextlib.suppress(OSError):
            state, _, _, session = pathlib.Path(place).read_text(errors="replace").rpartition(")")[2].split()[:4]
            if session in sessions and state not in "ZX":
                found.append(int(place.split("/")[2]))
    return found


class Terminal:
    """A tmux server with one pane that runs a command."""

    def __init__(self, folder, columns, command):
        config = os.path.join(folder, "tmux.conf")
        pathlib.Path(config).write_text("set -g status off\n")
        self.start = ["tmux", "-u", "-S", os.path.join(folder, "socket"), "-f", config]
        self.ask("new-session", "-d", "-x", str(columns), "-y", "8", command)

    def ask(self, *words):
        return subprocess.run([*self.start, *words], check=True, capture_output=True, text=True).stdout

    def shown(self):
        rows = [row.rstrip() for row in self.ask("capture-pane", "-p").split("\n")]
        while rows and not rows[-1]:
            rows.pop()
        row, col = self.ask("display-message", "-p", "#{cursor_y} #{cursor_x}").split()
        return rows, (int(row), int(col))

    def close(self):
        """Ends the server, and waits until no process of its panes runs: one that ends could still write into the folder."""
        panes = subprocess.run([*self.start, "list-panes", "-a", "-F", "#{pane_pid}"], check=False, capture_output=True, text=True)
        subprocess.run([*self.start, "kill-server"], check=False, capture_output=True)
        deadline = time.monotonic() + PATIENCE
        while left := running_in(set(panes.stdout.split())):
            if time.monotonic() > deadline:
                for process in left:
                    with contextlib.suppress(ProcessLookupError):
                        os.kill(process, signal.SIGKILL)
            time.sleep(0.01)


def shows(name, columns, rows, cursor):
    with tempfile.TemporaryDirectory() as folder:
        terminal = Terminal(folder, columns, f"{shlex.quote(PROGRAM)} {name}; exec sleep 120")
        try:
            end = time.monotonic() + 100
            while True:
                got = terminal.shown()
                if got == (rows, cursor):
                    return True
                if time.monotonic() > end:
                    print(f"FAILED: {name}: expected {(rows, cursor)}, shown {got}")
                    return False
                time.sleep(0.05)
        finally:
            terminal.close()


def main():
    os.environ["LC_ALL"] = "C.UTF-8"
    results = [shows(*case) for case in CASES]
    print(f"{results.count(True)} passed, {results.count(False)} failed")
    return 0 if all(results) else 1


if __name__ == "__main__":
    sys.exit(main())
