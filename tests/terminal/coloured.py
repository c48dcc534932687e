#!/usr/bin/env python3
"""Styles and tabs on a terminal: what tmux shows after each drawing of the rows of `colours.txt` and `tabs.txt`, and of those with
styles in `partial.txt`, cell by cell with its style, is what the display of tests/shared/display.py shows. So is what libvterm shows, by its program `unterm`; without it that part is
skipped with a word.

The rows have the bytes, so nothing is built for this: sessions_program and the program play the same rows.
"""
import glob
import itertools
import os
import shlex
import shutil
import subprocess
import sys
import tempfile
import time

sys.path += glob.glob(os.path.join(os.path.dirname(os.path.dirname(os.path.realpath(__file__))), "*", ""))
from checks import Failed, run_all, same
from display import Display, Meaningless
from drawings import Terminal
from sessions import rows_of
from styled import FLAGS, attributes, captured, trimmed

# A drawing must be shown within this many seconds.
PATIENCE = 60

# The flags that libvterm need not show, and why.
UNSHOWN = {2: "faint: a cell of libvterm 0.1.4 has no such attribute"}
# The rows of its screen: more than any row of the tables takes, with one for a dot.
SCREEN_ROWS = 8
FEWEST_DRAWINGS = 400

# A drawing of two rows of 8 columns.
RIGHT = "\r\x1b[J\x1b[m> \x1b[m\x1b[0;44mabcdef\x1b[m\r\n\x1b[0;44mg\x1b[mh\x1b[m\x1b[m"
# Slips of it, each with what the display shows: something else, or nothing, as it has no meaning.
SLIPS = ((RIGHT.replace("44", "45"), "other"), (RIGHT.replace("f\x1b[m", "f"), "none"), (RIGHT.replace("g\x1b[m", "g"), "other"),
         (RIGHT.replace("\x1b[0;44mg", "g"), "other"))


def judged(shown):
    """What a display shows, as `captured` has it."""
    rows, styled = [], shown.styled()
    for number, cells in enumerate(shown.rows):
        styles = styled.get(number, {})
        columns = [col for col in range(max(cells, default=-1) + 1) if cells.get(col) is not shown.INSIDE]
        rows.append([(cells.get(col, " "), attributes({}, f"0{styles.get(col, '')}")) for col in columns])
    return trimmed(rows)


def read(data, columns):
    """A display that has read bytes, after which no style stands."""
    shown = Display(columns)
    for _ in shown.read(data):
        pass
    if shown.pen:
        raise Failed(f"the style {shown.pen} stands after {data!r}")
    return shown


class Shown:
    """A terminal that shows bytes as they are sent."""

    def __init__(self, folder, columns):
        self.pipe, self.sent, self.columns = os.path.join(folder, f"pipe{columns}"), b"", columns
        os.mkfifo(self.pipe)
        place = os.path.join(folder, str(columns))
        os.mkdir(place)
        self.terminal = Terminal(place, columns, f"stty -opost; exec cat {shlex.quote(self.pipe)}")
        self.into = open(self.pipe, "wb", buffering=0)

    def clear(self):
        self.into.write(b"\x1b[m\x1b[H\x1b[2J")
        self.sent = b""

    def send(self, data):
        self.into.write(data)
        self.sent += data

    def seen(self):
        row, col = self.terminal.ask("display-message", "-p", "#{cursor_y} #{cursor_x}").split()
        return captured(self.terminal.ask("capture-pane", "-p", "-e", "-N")), (int(row), int(col))

    def agrees(self, what):
        shown, end = read(self.sent, self.columns), time.monotonic() + PATIENCE
        expected = judged(shown), shown.cursor
        while (seen := self.seen()) != expected:
            if time.monotonic() > end:
                raise Failed(f"{what}: after {self.sent!r} the judge shows {expected}, and tmux {seen}")
            time.sleep(0.02)

    def close(self):
        self.into.close()
        self.terminal.close()


def rows():
    """The rows of the tables, each with its columns, and what to call it."""
    for name in ("colours.txt", "tabs.txt", "partial.txt"):
        for row in (it for it in rows_of(name) if name != "partial.txt" or "colours" in it.settings):
            yield row, int(row.value("columns:", "80")), f"{name}:{row.number}"


def expect_drawings(count):
    print(f"drawings: {count}")
    if count < FEWEST_DRAWINGS:
        raise Failed(f"only {count} drawings")


def rows_with_styles():
    """After each drawing of each row."""
    terminals, drawings = {}, 0
    with tempfile.TemporaryDirectory() as folder:
        try:
            for row, columns, name in rows():
                terminal = terminals.get(columns) or terminals.setdefault(columns, Shown(folder, columns))
                terminal.clear()
                for piece in row.pieces:
                    terminal.send(piece)
                    terminal.agrees(name)
                    drawings += 1
        finally:
            for terminal in terminals.values():
                terminal.close()
    expect_drawings(drawings)


def on_libvterm(data, columns):
    """What libvterm shows of bytes, as `captured` has it. A cell that nothing was written to is left out."""
    command = ["unterm", "-f", "sgr", "-l", str(SCREEN_ROWS), "-c", str(columns), "/dev/stdin"]
    return captured(subprocess.run(command, input=data, check=True, capture_output=True, timeout=PATIENCE).stdout.decode())


def unshown():
    """The flags that libvterm doesn't show: each has its reason in the table."""
    found = [flag for flag in FLAGS if on_libvterm(b"\x1b[0;%dm.\x1b[m" % flag, 1) == [[(".", {})]]]
    for flag in found:
        if flag not in UNSHOWN:
            raise Failed(f"libvterm doesn't show {flag}")
        print(f"not compared: {UNSHOWN[flag]}")
    return found


def without(flags, rows):
    """Rows without these flags."""
    def kept(known):
        return {it: value for it, value in known.items() if it not in flags}

    return trimmed([[(cluster, kept(known)) for cluster, known in row] for row in rows])


def libvterm_agrees(what, data, columns, flags, sent=None):
    """Fails if libvterm, sent these bytes or others, doesn't show the cells and styles of the display that read these, flags left
    out, or has another cursor: of dots from there to the row's end and one more, only the last is in the next row."""
    shown, sent = read(data, columns), sent or data
    same(f"{what}: on libvterm, after {sent!r}", on_libvterm(sent, columns), without(flags, judged(shown)))
    dots = b"." * (columns - shown.cursor[1])
    dotted = read(data + b"\x1b[J" + dots + b"\r\n.", columns)
    same(f"{what}: on libvterm, after {sent!r} and dots", on_libvterm(sent + b"\x1b[J" + dots + b".", columns),
         without(flags, judged(dotted)))


def libvterm_tells_a_wrong_style():
    """libvterm shows the right drawing, and something else of each slip with a meaning, also if only the cursor is elsewhere."""
    libvterm_agrees("the right drawing", RIGHT.encode(), 8, ())
    for slip in (*(slip for slip, kind in SLIPS if kind == "other"), f"{RIGHT}\x1b[1D", f"{RIGHT}\x1b[1A"):
        try:
            libvterm_agrees("a slip", RIGHT.encode(), 8, (), slip.encode())
        except Failed:
            continue
        raise Failed(f"of {slip!r} libvterm shows the same")


def rows_on_libvterm():
    """After each drawing of each row."""
    flags, drawings = unshown(), 0
    for row, columns, name in rows():
        for sent in itertools.accumulate(row.pieces):
            libvterm_agrees(name, sent, columns, flags)
            drawings += 1
    expect_drawings(drawings)


def judge_tells_a_wrong_style():
    """Of each kind of slip the judge says something else, or finds no meaning."""
    shown = drawn(RIGHT)
    for slip, kind in SLIPS:
        found = drawn(slip)
        told = "none" if found is None else "same" if found == shown else "other"
        if told != kind:
            raise Failed(f"of {slip!r} it says: {told}")


def drawn(text):
    shown = Display(8)
    try:
        for _ in shown.read(text.encode()):
            pass
    except Meaningless:
        return None
    return judged(shown), shown.pen


if __name__ == "__main__":
    os.environ["LC_ALL"] = "C.UTF-8"
    tests = [judge_tells_a_wrong_style, rows_with_styles]
    if shutil.which("unterm"):
        tests += [libvterm_tells_a_wrong_style, rows_on_libvterm]
    else:
        print("skipped rows on libvterm: unterm isn't there")
    run_all(tests)
