"""Claims of rows of sessions, which the kernel accepts or rejects: theorems of a crate that is written for them, over the
libraries that are built in crates/*/out.
"""
import os
import re
import shutil
import tempfile
import types

from mutants import Checker
from names import TOP
from mutant_checks import below, crates_of, read, write

NAME = "worked_rows"
SPECS = ("Comparing", "Playing", "Settings", "Showing", "Splitting")
PROOFS = ("Computing", "ShownLemmas")
# What claims say, and a claim's answer.
CITED = """use Rattle.std.specs.Prelude.{◌≡◌, ◌/◌, ◌%◌, ◌^◌, true, [], ◌∷◌}
use Rattle.worked_rows.specs.Comparing.{other_display, other_ending, other_history, other_lines, same_display, same_history, same_lines}
use Rattle.worked_rows.specs.Playing.{differing}
use Rattle.worked_rows.specs.Showing.{AllShown, unshown}
"""
ANSWER = """use Rattle.std.specs.Prelude.{{refl, [], ◌∷◌}}
use Rattle.worked_rows.proofs.Computing.{{computing}}
use Rattle.worked_rows.proofs.ShownLemmas.{{all_shown}}
{uses}use Rattle.worked_rows.proofs.{name}.Goals as goal

pub returns : goal.returns
unfolding computing
returns c = {answer}
"""


class NotChecked(Exception):
    """A check didn't come to the claims, or ended without a word on each."""


class Claim:
    """A statement of rows. Of what is shown the answer is a lemma's, and else both sides are computed."""

    def __init__(self, statement, rows=None):
        self.statement = statement
        self.answer = f"all_shown ({rows}) refl" if rows else "refl"


def agrees(rows):
    return Claim(f"differing ({rows}) ≡ []")


def differs(row, number):
    return Claim(f"differing ({row} ∷ []) ≡ {number} ∷ []")


def is_shown(rows):
    return Claim(f"AllShown ({rows})", rows)


def isnt_shown(row, number):
    return Claim(f"unshown ({row} ∷ []) ≡ {number} ∷ []")


class Kernel:
    """Checks claims, and counts the seconds of a processor that this takes. Some libraries may be unused."""

    def __init__(self, without=()):
        self.uses = crates_of(TOP)
        self.uses[NAME] = [it for it in self.uses[NAME] if it not in without]
        self.checker = Checker(TOP, self.uses)
        self.spent = 0.0

    def lacking(self):
        """The libraries that aren't built."""
        return [it for it in below(self.uses, NAME) if not os.path.isdir(self.checker.rlib(it))]

    def granted(self, files, claims):
        """Of each claim whether it is granted: None where that takes more steps than a theorem may take.

        The files are those of definitions, by their modules, that have the rows, each with its text.
        """
        with tempfile.TemporaryDirectory(prefix="claims-") as top:
            room, kept = os.path.join(top, "crate"), os.path.join(top, "kept")
            furnish(room, files, claims)
            crate = types.SimpleNamespace(name=NAME, sources=types.SimpleNamespace(texts=()))
            paths = [f"{NAME}::{name}" for name in claims]
            spent, said, _ = self.checker.ran(self.checker.words(crate, kept, paths), room)
            write(os.path.join(TOP, "build", "claims.log"), said)
        self.spent += spent
        if re.search(r"(?m)^\./(specs/|proofs/\w+\.antt).*error", said):
            raise NotChecked("the definitions are rejected; build/claims.log says why")
        return {name: word_on(name, said) for name in claims}


def word_on(name, said):
    """What a check says of a claim."""
    line = re.search(rf"(?m)^fn {NAME}::{name}: (.*)$", said)
    if not line:
        raise NotChecked(f"the check did not end; build/claims.log has what it said: {said[-300:]}")
    if line[1].startswith(("no holes", "proved")):
        return True
    return None if "could not tell" in line[1] else False


def furnish(room, files, claims):
    """Writes the crate into a folder."""
    own = os.path.join(TOP, "crates", NAME)
    for part, names in (("specs", SPECS), ("proofs", PROOFS)):
        os.makedirs(os.path.join(room, part))
        for it in names:
            shutil.copy(os.path.join(own, part, f"{it}.antt"), os.path.join(room, part))
    uses = "".join(f"use Rattle.{NAME}.specs.{it}.{{{', '.join(rows_in(it, text))}}}\n" for it, text in files.items())
    stated = [f"abbrev pub {name.capitalize()} : Type 0\n{name.capitalize()} = {it.statement}\n" for name, it in claims.items()]
    files = {**files, "Claims": "\n".join([CITED + uses, *stated])}
    for it, text in files.items():
        write(os.path.join(room, "specs", f"{it}.antt"), text)
    write(os.path.join(room, "specs", "Lib.antt"), "".join(f"pub mod {it}\n" for it in sorted([*SPECS, *files])))
    write(os.path.join(room, "proofs", "Lib.antt"), "".join(f"pub mod {it}\n" for it in PROOFS))
    functions = [f"pub fn {name}() ensures {{ {name.capitalize()} }} {{}}\n" for name in claims]
    cited = f"ghost use Rattle.{NAME}.specs.Claims.{{{', '.join(it.capitalize() for it in claims)}}};\n"
    write(os.path.join(room, "src", "lib.rt"), "\n".join(["//! Claims.\n#![tactic(auto)]\n", cited, *functions]))
    for name, it in claims.items():
        answer = ANSWER.format(name=name, uses=uses, answer=it.answer)
        write(os.path.join(room, "proofs", name, "Answers.antt"), answer)


def rows_in(module, text):
    """The names of the rows and lists of rows that a file of definitions has; a row's is told apart by the file's."""
    names = re.findall(r"(?m)^abbrev pub (\w+) : (?:List )?Row$", text)
    return [f"{it} as {module.lower()}_{it}" if it.startswith("row_") else it for it in names]
