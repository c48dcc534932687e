#!/usr/bin/env python3
"""The sessions of `crates/sessions_program/data/` through the built program. Run it by ./test, or alone once `rt ci` or
./keyline --prove has built the program.

Each row is played twice: its bytes in one piece, and one byte per read. Only rows that the program's arguments allow are
played; those with a bound key, or with a hint, are for `sessions_program` alone.
"""
import glob
import os
import re
import subprocess
import sys
import tempfile

sys.path += glob.glob(os.path.join(os.path.dirname(os.path.dirname(os.path.realpath(__file__))), "*", ""))
from checks import HUNG, PROGRAM, TOP, Failed, built, run_all, same, shim

DATA = os.path.join(TOP, "crates", "sessions_program", "data")
STATUS = {"Eof": 0, "Interrupted": 130, "NotUtf8": 3, "PasteOutOfPlace": 4}
NAMED = {
    "nothing": b"", "Enter": b"\r", "Tab": b"\t", "S-Tab": b"\x1b[Z", "Backspace": b"\x7f", "Esc": b"\x1b", "Left": b"\x1b[D",
    "Right": b"\x1b[C", "Up": b"\x1b[A", "Down": b"\x1b[B", "Home": b"\x1b[H", "End": b"\x1b[F",
    "Delete": b"\x1b[3~", "Paste": b"\x1b[200~", "Pasted": b"\x1b[201~",
}


def meant(text):
    """The bytes of a text with pictures: a picture for a control character, `␠` for a blank, and in `‹›` hexadecimal digits, or
    a number and the text to repeat so often."""
    held = b""
    for part in re.split("(‹[^›]+›)", text):
        if part.startswith("‹"):
            count, _, again = part[1:-1].rpartition("*")
            held += int(count) * meant(again) if count else bytes.fromhex(again)
            continue
        for char in part:
            code = ord(char)
            pictured = 0x2400 <= code <= 0x2420
            held += bytes([code - 0x2400]) if pictured else b"\x7f" if code == 0x2421 else char.encode()
    return held


def key(word):
    if word in NAMED:
        return NAMED[word]
    if word.startswith("C-") and len(word) == 3:
        return bytes([ord(word[2]) & 0x1F])
    if word.startswith("M-") and len(word) > 2:
        return b"\x1b" + meant(word[2:])
    return meant(word)


# What stands before the query of a search, by the sign of its drawing.
HEADINGS = {"'": "(reverse-i-search)`", "!'": "(failed reverse-i-search)`", ">'": "(i-search)`", "!>'": "(failed i-search)`"}
SEARCHED = re.compile("(!?>?')([^']*)'(.*)")


def piece_drawn(piece):
    """The bytes of a piece of a display: `{` begins a drawing, up to the line, and `}` ends one without anything after the line.
    A piece `'xy'ab}` is a drawing after the prompt of a search for `xy`."""
    found = SEARCHED.fullmatch(piece)
    if found:
        return b"\r\x1b[J\x1b[m" + b"".join(map(meant, (HEADINGS[found[1]], found[2], "': ␛[m"))) + piece_drawn(found[3])
    pieces = [meant(part) for part in re.split("[{}]", piece)]
    signs = [b"\r\x1b[J\x1b[m> \x1b[m" if sign == "{" else b"\x1b[m\x1b[m" for sign in re.findall("[{}]", piece)]
    return b"".join(part + sign for part, sign in zip(pieces, [*signs, b""]))


class Row:
    """A row with its settings, and the number of its line in the file."""

    def __init__(self, settings, text, number):
        self.settings = settings.split()
        self.text, self.number = text, number
        keys, wanted = text.split(" = ", 1)
        self.keys = b"".join(key(word) for word in keys.split())
        first, *others = wanted.split(" | ")
        self.accepted = [b"" if word == '""' else meant(word) for word in first.split() if first != "nothing"]
        self.lines = b"".join(line + b"\n" for line in self.accepted)
        said = dict(part.split(" ", 1) for part in others)
        self.ends = said.get("ends", "Eof").strip()
        self.saves = said.get("saves")
        shows = said.get("shows")
        self.pieces = [*map(piece_drawn, (shows or "").split())]
        self.display = None if shows is None else b"".join(self.pieces)
        self.loaded = meant(self.value("loaded:", ""))
        self.prompt = meant(self.value("prompt:", "" if "bare" in self.settings else "> "))

    def value(self, name, default):
        found = [word[len(name):] for word in self.settings if word.startswith(name)]
        return found[0] if found else default

    def asks_highlighter(self):
        """Whether a row may show that there is the standard highlighter: a bracket is at the cursor, a message is told, or a
        helper that has no words is asked for candidates."""
        words = self.value("words:", "").encode()
        texts = re.sub(rb"\x1b\[[0-9;]*[A-Z~]", b"", self.keys) + self.loaded + words
        return re.search(rb"[][(){}]", texts) is not None or not words and b"\t" in self.keys

    def has_tab(self):
        """Whether a row may show a tab: it is in a text that is accepted, loaded or the prompt, or it is pasted or quoted."""
        return b"\t" in self.lines + self.loaded + self.prompt or re.search(rb"\x1b\[200~.*\t|[\x11\x16]\t", self.keys) is not None

    def is_drawn_in_part(self):
        """Whether a row shows a change that `--extended` draws in part: a text is pasted, a character that isn't ASCII is typed,
        a line fills its row, or has a style."""
        if self.display is None:
            return False
        if "colours" in self.settings and self.asks_highlighter():
            return True
        return NAMED["Paste"] in self.keys or not self.keys.isascii() or b"\r\n\x1b[m\x1b[m" in self.display

    def is_played(self):
        """Whether the program can play the row: it binds no key, gives no hint, keeps a hundred lines, lists candidates, and
        has styles, tabs as blanks, and changes drawn in part, only with the commands that go on over several keys."""
        words = self.value("words:", "")
        if ("colours" in self.settings) != ("modal" in self.settings) and self.asks_highlighter():
            return False
        if ("tabs" in self.settings) != ("modal" in self.settings) and self.has_tab():
            return False
        if "partial" in self.settings and "modal" not in self.settings:
            return False
        if "modal" in self.settings and "partial" not in self.settings and self.is_drawn_in_part():
            return False
        own = any(word.startswith(("bind:", "size:", "limit:", "at-once", "advised", "ends:", "stop:", "clusters:"))
                  for word in self.settings)
        hinted = ("helped" in self.settings or words) and self.value("loaded:", "")
        in_turn = "modal" in self.settings and words and "listed" not in self.settings
        return not (own or hinted or in_turn or "" in words.split(",")[1:] or words.startswith(","))

    def arguments(self, folder):
        """The program's arguments; the words to complete are in a file of the folder."""
        given = ["--mode", "vi" if "vi" in self.settings else "emacs", "--columns", self.value("columns:", "80")]
        given += [b"--prompt=" + self.prompt]
        if self.value("words:", ""):
            path = os.path.join(folder, "words")
            with open(path, "w", encoding="utf-8") as file:
                file.write(self.value("words:", "").replace(",", "\n"))
            given += ["--words", path]
        given += ["--extended"] if "modal" in self.settings else []
        return given + (["--brackets"] if "helped" in self.settings else [])

    def run(self, folder, environment):
        """A run of the program, and its history file."""
        path = os.path.join(folder, "history")
        if self.loaded:
            with open(path, "wb") as file:
                file.write(self.loaded)
        ran = subprocess.run([PROGRAM, *self.arguments(folder), "--history", path], input=self.keys, timeout=HUNG,
                             capture_output=True, env=environment)
        if not os.path.exists(path):
            return ran, b""
        with open(path, "rb") as file:
            return ran, file.read()

    def play(self, one_byte):
        environment = dict(os.environ, LD_PRELOAD=shim("one_byte")) if one_byte else None
        with tempfile.TemporaryDirectory() as folder:
            ran, saved = self.run(folder, environment)
        same("lines", ran.stdout, self.lines)
        same("status", ran.returncode, STATUS[self.ends])
        if self.display is not None:
            same("display", ran.stderr, self.display)
        if self.saves is not None and "adding" in self.settings:
            same("history", saved, self.loaded if self.saves.strip() == "nothing" else meant(self.saves.strip()))


def rows_of(name):
    settings = ""
    with open(os.path.join(DATA, name), encoding="utf-8") as file:
        for number, line in enumerate(file.read().splitlines(), 1):
            if line.startswith(":"):
                settings = line[1:]
            elif " = " in line and not line.startswith("#"):
                yield Row(settings, line, number)


def played(name, one_byte):
    """Plays the rows of a file that the program can play; there must be some, and each must be as it says."""
    count = 0
    faults = []
    for row in rows_of(name):
        if not row.is_played():
            continue
        count += 1
        try:
            row.play(one_byte)
        except Failed as fault:
            faults.append(f"{row.text}: {fault}")
    if faults:
        raise Failed("\n  ".join([f"{len(faults)} of {count} rows", *faults]))
    if count < 10:
        raise Failed(f"only {count} rows of {name}")


def worked_rows():
    played("rows.txt", False)


def worked_rows_one_byte_a_read():
    played("rows.txt", True)


def keys_of_emacs():
    played("emacs.txt", False)


def keys_of_emacs_one_byte_a_read():
    played("emacs.txt", True)


def keys_of_vi():
    played("vi.txt", False)


def keys_of_vi_one_byte_a_read():
    played("vi.txt", True)


def worked_sessions():
    played("worked.txt", False)


def worked_sessions_one_byte_a_read():
    played("worked.txt", True)


def commands_over_several_keys():
    played("modal.txt", False)


def commands_over_several_keys_one_byte_a_read():
    played("modal.txt", True)


def candidates():
    played("candidates.txt", False)


def candidates_one_byte_a_read():
    played("candidates.txt", True)


def changes_in_their_row():
    played("partial.txt", False)


def changes_in_their_row_one_byte_a_read():
    played("partial.txt", True)


def tabs():
    played("tabs.txt", False)


def tabs_one_byte_a_read():
    played("tabs.txt", True)


def styles():
    """The rows of `colours.txt` that --extended has: too few for `played`."""
    rows = [row for row in rows_of("colours.txt") if row.is_played()]
    for row in rows:
        row.play(False)
        row.play(True)
    if len(rows) < 3:
        raise Failed(f"only {len(rows)} rows")


def sizes():
    """Sessions that are too large to be played with each run of `sessions_program`."""
    count = len(list(rows_of("sizes.txt")))
    ran = subprocess.run([built("sessions_program"), "sizes.txt"], cwd=DATA, capture_output=True, timeout=HUNG)
    same("what is told", [ran.stdout[:1000], ran.stderr, ran.returncode], [b"sizes.txt: %d sessions\n" % count, b"", 0])


if __name__ == "__main__":
    run_all([worked_rows, worked_rows_one_byte_a_read, keys_of_emacs, keys_of_emacs_one_byte_a_read, keys_of_vi,
             keys_of_vi_one_byte_a_read, worked_sessions, worked_sessions_one_byte_a_read, commands_over_several_keys,
             commands_over_several_keys_one_byte_a_read, candidates,
             candidates_one_byte_a_read, tabs, tabs_one_byte_a_read, changes_in_their_row,
             changes_in_their_row_one_byte_a_read, styles, sizes])
