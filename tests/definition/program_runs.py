"""Runs of the program, held against what the definition of a session gives for the same keys: for ./by_definition, and for
its test.
"""
import os
import subprocess
import tempfile

from claims import Claim, agrees, differs, is_shown, isnt_shown
from row_terms import record, some, term, within, wrapped

# What is told of a run: the statuses of ./by_definition.
AGREES, DIFFERS, MISTAKE, TOO_LONG, NOT_CHECKED = range(5)
# How a session ends by its status, and the words of it on standard error.
ENDINGS = {0: ("Eof", b""), 130: ("Interrupted", b""), 3: ("NotUtf8", b"keyline: input is not UTF-8\n"),
           4: ("PasteOutOfPlace", b"keyline: paste out of place\n")}
# Definitions that runs are written with.
HEAD = """-- Runs of the program.
use Rattle.std.specs.Prelude.{List, [], ◌∷◌, ◌++◌, None, Some, true, false, codes, encode_utf8_all, replicate}
use Rattle.line_config.specs.declared.errors.ReadlineError.TheVariants.{Eof, Interrupted, NotUtf8, PasteOutOfPlace}
use Rattle.line_config.specs.declared.settings.EditMode.TheVariants.{Emacs, Vi}
use Rattle.worked_rows.specs.Playing.{Row, row}
use Rattle.worked_rows.specs.Settings.{by_options}

"""


class NoSession(Exception):
    """The program ended with no session."""


def text_of(path):
    """What a file has; None where it isn't there."""
    if path is None or not os.path.exists(path):
        return None
    with open(path, "rb") as it:
        return it.read()


class Run:
    """What the program was given, and what it did with it."""

    def __init__(self, keys, mode="emacs", columns=80, prompt="> ", brackets=False, history=None, words=None,
                 extended=False):
        self.keys, self.mode, self.columns, self.prompt = keys, mode, columns, prompt
        self.brackets, self.history, self.words, self.extended = brackets, history, words, extended

    def with_keys(self, keys):
        return Run(keys, self.mode, self.columns, self.prompt, self.brackets, self.history, self.words, self.extended)

    def play(self, program):
        """Runs the program in a folder of its own, over copies of the files."""
        with tempfile.TemporaryDirectory(prefix="by_definition-") as folder:
            path, listed = os.path.join(folder, "history"), os.path.join(folder, "words")
            words = [program, f"--mode={self.mode}", f"--columns={self.columns}", f"--prompt={self.prompt}", f"--history={path}"]
            words += ["--brackets"] * self.brackets + ["--extended"] * self.extended
            if self.history is not None:
                write(path, self.history)
            if self.words is not None:
                write(listed, self.words)
                words += [f"--words={listed}"]
            before = seen(path)
            ran = subprocess.run(words, input=self.keys, capture_output=True)
            self.saved = b"" if seen(path) == before else text_of(path)
        self.ending, said = ENDINGS.get(ran.returncode, (None, b""))
        if self.ending is None or not ran.stderr.endswith(said):
            raise NoSession(f"status {ran.returncode}: {ran.stderr[-200:].decode(errors='replace')}")
        self.lines, self.display = ran.stdout, ran.stderr[:len(ran.stderr) - len(said)]
        return self

    def __repr__(self):
        given = {"keys": self.keys, "mode": self.mode, "columns": self.columns, "prompt": self.prompt, "brackets": self.brackets,
                 "history": self.history, "words": self.words, "extended": self.extended}
        return f"Run({', '.join(f'{name}={value!r}' for name, value in given.items() if value not in (None, False))})"

    def sizes(self):
        return f"{len(self.keys)} bytes of keys, {len(self.lines)} of lines, {len(self.display)} of display"

    def definition(self, number):
        """The run as a row."""
        given = [self.mode.capitalize(), str(self.columns), within(term(self.prompt.encode())), str(self.brackets).lower(),
                 "None" if self.words is None else within(some(self.words)), within(term(self.history or b""))]
        settings = f"by_options {str(self.extended).lower()} {' '.join(given)}"
        told = f"row {number} ({settings}) {within(term(self.keys))} {within(term(self.lines))}"
        fields = {"ends": self.ending, "saves": some(self.saved), "shows": some(self.display)}
        return wrapped(f"abbrev pub row_{number} : Row\nrow_{number} = {record(told, fields)}\n")


def write(path, text):
    with open(path, "wb") as it:
        it.write(text)


def seen(path):
    """Which file a path leads to, and when it was written: a history that is saved is another one."""
    if not os.path.exists(path):
        return None
    found = os.stat(path)
    return found.st_ino, found.st_mtime_ns


def files_of(runs):
    """The file of definitions that has these runs as rows, by their numbers from 1 on."""
    return {"Runs": HEAD + "\n".join(run.definition(number) for number, run in enumerate(runs, 1))}


ROW = "runs_row_1"
TEXTS = ("lines", "history", "display")


class Difference:
    """In which parts a run and the definition differ, and after how many bytes of each text."""

    def __init__(self, parts, places):
        self.parts, self.places = parts, places

    def told(self, run):
        texts = {"lines": run.lines, "history": run.saved, "display": run.display}
        for part in self.parts:
            if part in texts:
                place, text = self.places[part], texts[part]
                yield f"  {part}: the first {place} bytes agree: {text[max(0, place - 20):place]!r}, then {text[place:place + 20]!r}"
            else:
                yield f"  {part}: the program ended with {run.ending}"


def difference(kernel, run):
    """Where a run and the definition differ; None where that isn't computed. A place is found bit by bit, all at once."""
    texts = {"lines": run.lines, "history": run.saved, "display": run.display}
    claims = {"differs": differs(ROW, 1)}
    claims.update({f"other_{part}": Claim(f"other_{part} {ROW} ≡ true") for part in [*texts, "ending"]})
    for part, text in texts.items():
        for bit in range(len(text).bit_length()):
            claims[f"bit_{part}_{bit}"] = Claim(f"(same_{part} {ROW} / {2 ** bit}) % 2 ≡ 1")
    granted = kernel.granted(files_of([run]), claims)
    if not granted["differs"]:
        return None
    parts = [part for part in [*texts, "ending"] if granted[f"other_{part}"]]
    place = lambda part: sum(2 ** bit for bit in range(len(texts[part]).bit_length()) if granted[f"bit_{part}_{bit}"])
    return Difference(parts, {part: place(part) for part in parts if part in texts})


def longest(kernel, run, program):
    """How many of its first bytes of keys can be computed, of a half, a quarter and so on."""
    counts = sorted({len(run.keys) >> shift for shift in range(1, 5)})
    runs = [run.with_keys(run.keys[:count]).play(program) for count in counts]
    granted = kernel.granted(files_of(runs), {f"agrees_{it}": agrees(f"runs_row_{it} ∷ []") for it in range(1, len(runs) + 1)})
    return max((count for it, count in enumerate(counts, 1) if granted[f"agrees_{it}"]), default=0)


def judged(kernel, run, program, shown):
    """The status, and what is said of a run."""
    claims = {"agrees": agrees(f"{ROW} ∷ []"), **({"shown": is_shown(f"{ROW} ∷ []"), "unshown": isnt_shown(ROW, 1)} if shown else {})}
    granted = kernel.granted(files_of([run]), claims)
    if not granted["agrees"]:
        found = difference(kernel, run) if granted["agrees"] is False else None
        if found:
            return DIFFERS, "\n".join([f"differs in {', '.join(found.parts)}: {run.sizes()}", *found.told(run)])
        count = longest(kernel, run, program)
        return TOO_LONG, f"too long to compute: {run.sizes()}; the first {count} bytes of keys can be computed, and agree"
    if shown and granted["unshown"]:
        return DIFFERS, f"differs: the same bytes, but at a moment the display doesn't show prompt and line: {run.sizes()}"
    if shown and not granted["shown"]:
        return TOO_LONG, f"agrees: {run.sizes()}; what the display shows at each moment takes too long to compute"
    return AGREES, f"agrees: {run.sizes()}" + ("; at each moment the display shows prompt and line" if shown else "")
