#!/usr/bin/env python3
"""The rows of `crates/sessions_program/data/` as theorems: what of `crates/worked_rows` is written from them, and which row is
wrong.

The same files are played by `sessions_program` and by the program (tests/program/sessions.py). Here each row becomes a record of
`crates/worked_rows/specs/`, of which the kernel computes whether the definition of a session gives what the row says.

    tests/definition/worked_rows.py            whether the records, the list of names that are unfolded, and the proofs of tables that
                                    are computed in parts are what the files give
    tests/definition/worked_rows.py --write    writes them
    tests/definition/worked_rows.py --tell [TABLE..]
                                    tells of each row whether it is given, isn't, or can't be computed
    tests/definition/worked_rows.py --spoil    changes a byte in one row of each table: that row must be named, and the table rejected
"""
import glob
import os
import subprocess
import sys
import tempfile

sys.path += glob.glob(os.path.join(os.path.dirname(os.path.dirname(os.path.realpath(__file__))), "*", ""))
from claims import Kernel, agrees, differs
from names import TOP
from row_parts import proofs
from row_terms import imports, listed, record, row_term, settings_fields, wrapped
from sessions import rows_of
from sources import RATTLE
from unfolding import Library, unfolding_text
from mutant_checks import read, write

CRATE = os.path.join(TOP, "crates", "worked_rows")
KIT = os.path.join(os.path.dirname(os.path.dirname(RATTLE)), "rattle")
TABLES = ("emacs", "vi", "rows", "refusals", "faults", "worked", "modal", "candidates", "colours", "tabs", "partial")
# The tables that are computed in parts, and how many rows a part has.
PARTS = {"emacs": 6, "vi": 6, "refusals": 6, "modal": 1, "candidates": 7, "colours": 7, "tabs": 4, "partial": 5}
# Files of definitions that are written by hand: what they mention is unfolded.
BY_HAND = ("Calls", "Comparing", "Playing", "Prompts", "Settings", "Showing", "Splitting")
# What no definition of a session speaks of: devices that fail, and a helper of the tests.
LEFT_OUT = ("advised", "display@", "lines@", "text@")


class Table:
    """The rows of a file, less those that are left out."""

    def __init__(self, name):
        self.name, self.module = name, name.capitalize()
        everything = [*rows_of(f"{name}.txt")]
        self.rows = [row for row in everything if not any(word.startswith(LEFT_OUT) for word in row.settings)]
        self.left_out = len(everything) - len(self.rows)

    def text(self):
        """The file of definitions that has its rows."""
        parts, known = [], {"": "plain"}
        for row in self.rows:
            words = " ".join(row.settings)
            if words not in known:
                known[words] = f"settings_{row.number}"
                parts.append(definition(known[words], "Settings", record("plain", settings_fields(row)), words))
            parts.append(definition(f"row_{row.number}", "Row", row_term(row, known[words]), row.text))
        parts.append(definition(f"{self.name}_rows", "List Row", listed(f"row_{row.number}" for row in self.rows)))
        text = "\n".join(parts)
        about = f"-- The rows of {self.name}.txt; tests/definition/worked_rows.py writes them."
        return f"{about}\n{imports(text)}\n{wrapped(text)}"


def definition(name, kind, value, about=None):
    comment = "" if about is None else f"-- {about}\n"
    return f"{comment}abbrev pub {name} : {kind}\n{name} = {value}\n"


def computing_text():
    found = Library(KIT).unfolded([f"Rattle.worked_rows.specs.{name}" for name in BY_HAND])
    return unfolding_text(found, "computing", "All that rows are computed with, as one name; tests/definition/worked_rows.py writes it.")


def laid_out(text):
    """A text as `rt fmt` lays it out."""
    with tempfile.TemporaryDirectory(prefix="rows-") as folder:
        path = os.path.join(folder, "text.antt")
        write(path, text)
        return subprocess.run([RATTLE, "fmt", path], check=True, capture_output=True, text=True).stdout


def written():
    """The files that are written, each with its text."""
    tables = {name: Table(name) for name in TABLES}
    yield os.path.join(CRATE, "proofs", "Computing.antt"), laid_out(computing_text())
    for name, table in tables.items():
        yield os.path.join(CRATE, "specs", f"{table.module}.antt"), laid_out(table.text())
    for name, size in PARTS.items():
        table = tables[name]
        yield os.path.join(CRATE, "proofs", name, "Answers.antt"), proofs(name, table.module, len(table.rows), size)


def check():
    failed = 0
    for path, text in written():
        if not os.path.exists(path) or read(path) != text:
            failed += 1
            print(f"FAILED {os.path.relpath(path, TOP)}: it isn't what the files give; tests/definition/worked_rows.py --write makes it anew")
    print(f"{len(TABLES) + len(PARTS) + 1 - failed} passed, {failed} failed")
    return failed > 0


def claims_of(table, rows):
    """The claims by which it is told what is wrong with rows, if anything."""
    for row in rows:
        name = f"{table.name}_row_{row.number}"
        yield f"agrees_{name}", agrees(f"{name} ∷ []")
        yield f"differs_{name}", differs(name, row.number)


def verdict(table, row, granted):
    """What is wrong with a row: nothing, or in words."""
    name = f"{table.name}_row_{row.number}"
    if granted[f"agrees_{name}"]:
        return None
    return "the definition gives something else" if granted[f"differs_{name}"] else "the kernel can't compute it"


def tell(names):
    """Tells which rows are wrong: of all tables, and then of the rows of those that are rejected."""
    kernel, tables = Kernel(), [Table(name) for name in names or TABLES]
    whole = kernel.granted({it.module: it.text() for it in tables}, {f"agrees_{it.name}": agrees(f"{it.name}_rows") for it in tables})
    wrong = [it for it in tables if not whole[f"agrees_{it.name}"]]
    claims = dict(claim for it in wrong for claim in claims_of(it, it.rows))
    granted = kernel.granted({it.module: it.text() for it in wrong}, claims) if wrong else {}
    failed = 0
    for table in wrong:
        told = {row.number: verdict(table, row, granted) for row in table.rows}
        for number, words in told.items():
            failed += words is not None
            if words:
                print(f"FAILED {table.name}.txt:{number}: {words}")
        if not any(told.values()):
            failed += 1
            print(f"FAILED {table.name}.txt: each row is given, and all of them in one theorem are not")
    print(f"{sum(len(it.rows) for it in tables) - failed} passed, {failed} failed")
    return failed > 0


def spoil(row):
    """Changes a byte of what a row tells: the last one of its display, or else of its lines."""
    if row.display:
        row.display = row.display[:-1] + bytes([row.display[-1] ^ 1])
    else:
        row.lines = row.lines[:-1] + b"\0"


def tell_spoilt():
    """Whether of each table with a wrong byte in one row the theorem is rejected, and that row is named and no other one."""
    kernel, tables = Kernel(), [Table(name) for name in TABLES]
    chosen = {it: [it.rows[len(it.rows) // 2], it.rows[0]] for it in tables}
    for wrong, _ in chosen.values():
        spoil(wrong)
    claims = {f"agrees_{it.name}": agrees(f"{it.name}_rows") for it in tables}
    claims.update(claim for it in tables for claim in claims_of(it, chosen[it]))
    granted = kernel.granted({it.module: it.text() for it in tables}, claims)
    failed = 0
    for table, (wrong, right) in chosen.items():
        words = verdict(table, wrong, granted)
        print(f"{table.name}.txt:{wrong.number}, with another byte: {words}")
        rejected = not granted[f"agrees_{table.name}"] and words == "the definition gives something else"
        if not rejected or verdict(table, right, granted):
            failed += 1
            print(f"FAILED {table.name}.txt: a wrong byte in row {wrong.number} isn't told, or another row is")
    print(f"{len(TABLES) - failed} passed, {failed} failed")
    return failed > 0


def main(words):
    if words == ["--write"]:
        for path, text in written():
            write(path, text)
        return 0
    if words[:1] == ["--tell"]:
        return tell(words[1:])
    return tell_spoilt() if words == ["--spoil"] else check()


if __name__ == "__main__":
    sys.exit(main(sys.argv[1:]))
