#!/usr/bin/env python3
"""The session that README shows, and the console that the guide shows: tmux runs ./keyline and crates/sql_console, is sent
keys, and is asked for what it shows.

    tests/terminal/picture.py            compares README's session, docs/session.svg and docs/console.svg with what tmux shows
    tests/terminal/picture.py --write    types README's keys, and writes what tmux shows into README and docs/session.svg; writes
                                docs/console.svg
    tests/terminal/picture.py --console  writes docs/console.svg alone

README has the session under "## What it looks like": first the commands of a shell, of which the last runs ./keyline.
Then each row has keys, and beside them what is shown after them, from the line's first row on; a bar is the cursor.
`rt ci` builds the programs first.
"""
import glob
import os
import re
import shlex
import sys
import tempfile
import time
import xml.sax.saxutils

sys.path += glob.glob(os.path.join(os.path.dirname(os.path.dirname(os.path.realpath(__file__))), "*", ""))
from checks import HUNG, ON_TERMINAL, TOP, Failed, built, placed_script, run_all, same
from drawings import Terminal
from shown import PATIENCE, expect, key, pictured, until_taken
from styled import captured, runs
from windows import rows_of, type_bytes

README = os.path.join(TOP, "README.md")
PICTURE = os.path.join(TOP, "docs", "session.svg")
CONSOLE = os.path.join(TOP, "docs", "console.svg")
BLOCK = re.compile(r"(?<=^## What it looks like\n).*?^```text\n(.*?)^```$", re.M | re.S)
PROMPT = "> "
COLUMNS, ROWS = 56, 8
# Where what is shown begins in a row of the session.
MARGIN = 18

# The statement in the console, in windows of these columns: the row that is typed, and those that are pasted, with tabs. After each
# comes Enter, so the last row is empty.
TYPED = "SELECT title, stars -- the best ones, by name"
PASTED = ["FROM note", "WHERE\ttitle <> 'it''s me'", "\tAND stars > 4.5"]
STATEMENT = b"\x0c%s\r\x1b[200~%s\x1b[201~\r" % (TYPED.encode(), "\n".join(PASTED).encode())
WINDOWS = (40, 120)
HINT = "(; ends the statement)"

# The colours of a picture for those of a terminal, by their numbers.
HUES = {1: "#ff7b72", 2: "#7ee787", 3: "#e3b341", 4: "#79c0ff", 5: "#d2a8ff", 6: "#56d4dd"}
BOLD, FAINT = 1, 2

# Of the picture, in pixels and seconds.
CELL, ROW, LEFT, TOP_ROW, FRAME = 8.4, 19, 16, 62, 1.8

STYLE = """  <style>
    text {{ font: 14px "DejaVu Sans Mono", Menlo, Consolas, monospace; white-space: pre }}
    .keys {{ fill: #9ecbff }} .shown {{ fill: #e6edf3 }} .cursor {{ fill: #7ee787; opacity: 0.55 }}
    .frame {{ animation: shown {cycle:g}s step-end infinite }}
    @keyframes shown {{ 0% {{ opacity: 1 }} {share:.3f}% {{ opacity: 0 }} 100% {{ opacity: 0 }} }}
  </style>
"""


def read(path):
    with open(path, encoding="utf-8") as it:
        return it.read()


def write(path, text):
    with open(path, "w", encoding="utf-8") as it:
        it.write(text)


def key_bytes(words):
    """What is sent for a row's keys: the bytes of keys that have a name, or else the text as it is typed."""
    named = [word.replace("Ctrl-", "C-") for word in words.split()]
    codes = [key(word) for word in named]
    is_named = all(len(word) > 1 and code != word.encode() for word, code in zip(named, codes))
    return b"".join(codes) if is_named else words.encode()


def parted(block):
    """The shell's commands, and the steps: keys with the rows that are shown after them."""
    commands, steps = [], []
    for line in block.splitlines():
        if line.startswith("$ "):
            commands.append(line[2:])
        elif line.strip():
            keys, row = line[:MARGIN].strip(), line[MARGIN:]
            if keys:
                steps.append((keys, []))
            steps[-1][1].append(row)
    return commands, steps


class Play:
    """The session on a terminal, and the screens that it has shown so far: each as its rows and the cursor's cell."""

    def __init__(self, terminal):
        self.terminal, self.screens = terminal, []
        self.top = 0

    def show(self, wanted):
        """Waits until the terminal shows these rows from the line's top on, if they are known, and else for its rest."""
        end = time.monotonic() + PATIENCE
        while True:
            rows, (row, column) = screen = self.terminal.shown()
            if wanted is None:
                time.sleep(1)
                if screen == self.terminal.shown():
                    break
            elif (rows[self.top:], (row - self.top, column)) == wanted:
                break
            elif time.monotonic() > end:
                raise Failed(f"wanted {wanted}, shown {screen}")
            else:
                time.sleep(0.02)
        self.screens.append(screen)
        return with_bar(screen, self.top)

    def step(self, keys, wanted):
        self.top = last_prompt(self.screens[-1][0])
        self.terminal.ask("send-keys", "-H", *(f"{byte:02x}" for byte in key_bytes(keys)))
        return self.show(wanted)


def last_prompt(rows):
    """The row in which the line that is open begins."""
    return max(at for at, row in enumerate(rows) if row.startswith(PROMPT.strip()))


def with_bar(screen, top):
    """The rows of a screen from one on, with a bar where the cursor stands."""
    rows, (row, column) = screen
    rows = rows + [""] * (row + 1 - len(rows))
    rows[row] = f"{rows[row][:column]:{column}}|{rows[row][column:]}"
    return rows[top:]


def play(commands, steps, known):
    """Plays the session, and answers what each step shows and all screens."""
    *before, run = commands
    script = placed_script()
    with tempfile.TemporaryDirectory() as folder:
        run = run.replace("./keyline", shlex.quote(script), 1)
        shell = "; ".join([f"cd {shlex.quote(folder)}", *before, f"exec {run}"])
        terminal = Terminal(folder, COLUMNS, f"sh -c {shlex.quote(shell)}")
        try:
            until_taken(terminal)
            shows = Play(terminal)
            shows.show(pictured(f"{PROMPT}|"))
            rows = [(keys, shows.step(keys, pictured(" / ".join(wanted)) if known else None)) for keys, wanted in steps]
        finally:
            terminal.close()
    return rows, shows.screens


def block_of(commands, steps):
    """The text of the session, as README has it."""
    lines = [*(f"$ {command}" for command in commands), ""]
    for keys, rows in steps:
        lines += [f"{heading:{MARGIN}}{row}" for heading, row in zip([keys, *[""] * len(rows)], rows)]
    return "".join(f"{line}\n" for line in lines)


def frame(number, count, keys, screen):
    """One screen of the picture, shown for its share of a cycle. A viewer without animations shows the last one."""
    rows, (row, column) = screen
    y = lambda at: TOP_ROW + ROW * at
    cells = [f'    <text class="keys" x="{LEFT}" y="28">{xml.sax.saxutils.escape(keys)}</text>\n']
    cells += [
        f'    <text class="shown" x="{LEFT}" y="{y(at)}" textLength="{CELL * len(text):g}">{xml.sax.saxutils.escape(text)}</text>\n'
        for at, text in enumerate(rows) if text
    ]
    cells.append(f'    <rect class="cursor" x="{LEFT + CELL * column:g}" y="{y(row) - 14}" width="{CELL}" height="{ROW}"/>\n')
    opacity = 1 if number == count - 1 else 0
    return f'  <g class="frame" opacity="{opacity}" style="animation-delay: {(number - count) * FRAME:g}s">\n{"".join(cells)}  </g>\n'


def picture_of(captions, screens):
    """The session as an SVG: what tmux showed, one screen after the other."""
    width, height = 2 * LEFT + CELL * COLUMNS, TOP_ROW + ROW * (ROWS - 1) + 12
    style = STYLE.format(cycle=FRAME * len(screens), share=100 / len(screens))
    frames = "".join(frame(at, len(screens), *it) for at, it in enumerate(zip(captions, screens)))
    return (
        f'<svg xmlns="http://www.w3.org/2000/svg" viewBox="0 0 {width:g} {height:g}" width="{width:g}" height="{height:g}">\n'
        "  <title>A session of keyline: the keys, and what the terminal shows after them</title>\n"
        f'{style}  <rect width="100%" height="100%" rx="8" fill="#0d1117"/>\n'
        f'  <line x1="0" y1="40" x2="{width:g}" y2="40" stroke="#30363d"/>\n{frames}</svg>\n'
    )


def console_in(columns):
    """Types the statement into the console in a window, and returns the rows with their styles, and the cursor's cell."""
    with tempfile.TemporaryDirectory() as folder:
        run = f"{shlex.quote(ON_TERMINAL)} {shlex.quote(built('sql_console'))}; exec sleep {HUNG}"
        terminal = Terminal(folder, columns, run)
        try:
            until_taken(terminal)
            type_bytes(terminal, STATEMENT)
            rows = [*rows_of(f"sql> {TYPED}", columns), *(row.expandtabs(8) for row in PASTED), HINT]
            cursor = (len(rows) - 1, 0)
            expect(terminal, f"the statement in {columns} columns", ([it.rstrip() for it in rows], cursor))
            return captured(terminal.ask("capture-pane", "-p", "-e", "-N")), cursor
        finally:
            terminal.close()


def drawn_run(column, text, style, y):
    """A run of one style in a row of a picture, without the blanks at its ends."""
    column += len(text) - len(text.lstrip())
    text = text.strip()
    looks = [f' fill="{HUES[style["text"][1]]}"'] if "text" in style else []
    looks += [' font-weight="bold"'] if style.get(BOLD) else []
    looks += [' opacity="0.5"'] if style.get(FAINT) else []
    place = f'x="{LEFT + CELL * column:g}" y="{y}" textLength="{CELL * len(text):g}"'
    return f'  <text {place}{"".join(looks)}>{xml.sax.saxutils.escape(text)}</text>\n'


def window_of(columns, rows, cursor, top):
    """A window of a picture, from a height on."""
    y = lambda at: top + 22 + ROW * at
    frame = f'  <rect x="{LEFT - 8}" y="{top}" width="{CELL * columns + 16:g}" height="{ROW * len(rows) + 16}" rx="6" fill="#161b22"/>\n'
    texts = "".join(drawn_run(*run, y(at)) for at, cells in enumerate(rows) for run in runs(cells) if run[1].strip())
    place = f'x="{LEFT + CELL * cursor[1]:g}" y="{y(cursor[0]) - 14}" width="{CELL}" height="{ROW}"'
    return f'{frame}{texts}  <rect {place} fill="#7ee787" opacity="0.55"/>\n'


def console_picture():
    """The console in each window, one below the other, as an SVG."""
    windows, top = [], LEFT
    for columns in WINDOWS:
        rows, cursor = console_in(columns)
        windows.append(window_of(columns, rows, cursor, top))
        top += ROW * len(rows) + 16 + LEFT
    width = 2 * LEFT + CELL * max(WINDOWS)
    return (
        f'<svg xmlns="http://www.w3.org/2000/svg" viewBox="0 0 {width:g} {top}" width="{width:g}" height="{top}" fill="#e6edf3">\n'
        "  <title>A statement in the SQL console, pasted with tabs in part, and a hint, as tmux shows it at "
        f"{' and '.join(map(str, WINDOWS))} columns</title>\n"
        '  <style>text { font: 14px "DejaVu Sans Mono", Menlo, Consolas, monospace; white-space: pre }</style>\n'
        f'  <rect width="100%" height="100%" rx="8" fill="#0d1117"/>\n{"".join(windows)}</svg>\n'
    )


def guide_shows_what_tmux_shows():
    same("docs/console.svg", read(CONSOLE), console_picture())


def readme_shows_what_tmux_shows():
    commands, steps = parted(BLOCK.search(read(README))[1])
    _, screens = play(commands, steps, True)
    same("docs/session.svg", read(PICTURE), picture_of([commands[-1], *(keys for keys, _ in steps)], screens))


def renew():
    readme = read(README)
    block = BLOCK.search(readme)
    commands, steps = parted(block[1])
    steps, screens = play(commands, steps, False)
    write(README, readme[: block.start(1)] + block_of(commands, steps) + readme[block.end(1) :])
    write(PICTURE, picture_of([commands[-1], *(keys for keys, _ in steps)], screens))


if __name__ == "__main__":
    os.environ["LC_ALL"] = "C.UTF-8"
    os.environ.pop("NO_COLOR", None)
    if sys.argv[1:] == ["--write"]:
        renew()
    if sys.argv[1:] in (["--write"], ["--console"]):
        write(CONSOLE, console_picture())
    else:
        run_all([readme_shows_what_tmux_shows, guide_shows_what_tmux_shows])
