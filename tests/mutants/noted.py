"""The mutants that the repository notes as rejected, by checksums of what decides whether a clause is false of one."""
import os

from mutant_checks import below, public_sum, read, sum_of, write

COMMENT = """\
# The mutants that the prover has rejected, as `tests/mutants/mutants.py --note` writes them. CRATE/NAME: a checksum of what
# decides whether a clause is false of it: its body and its case, and the definitions, types and contracts that these name.
"""


class Noted:
    """A file with a line for each rejected mutant. The mutants of some names are tried all the same."""

    def __init__(self, top, uses, path, lines, tried=()):
        self.top, self.uses, self.path, self.lines, self.tried, self.seen = top, uses, path, lines, {*tried}, {}

    def sum_of(self, crate, edit):
        """What a line has of a mutant."""
        libraries = below(self.uses, crate.name)
        for it in libraries:
            if it not in self.seen:
                self.seen[it] = public_sum(self.top, it)
        return sum_of([self.seen[it] for it in libraries], crate.claim_sum(edit))[:16]

    def has(self, crate, edit):
        """Whether a mutant needn't be tried: it was rejected, and nothing of what decides that has changed."""
        name = f"{crate.name}/{edit.name}"
        return name not in self.tried and self.lines.get(name) == self.sum_of(crate, edit)

    def note(self, trials):
        """Writes the lines of crates that were tried: their rejected mutants, and no others."""
        names = {it.crate.name for it in trials}
        lines = {name: it for name, it in self.lines.items() if name.split("/")[0] not in names}
        for trial in trials:
            well = {name for passes, name, _ in trial.found if passes}
            named = {f"{trial.crate.name}/{it.name}": it for it in trial.edits}
            lines.update({name: self.sum_of(trial.crate, it) for name, it in named.items() if name in well})
        write(self.path, COMMENT + "\n" + "".join(f"{name}: {lines[name]}\n" for name in sorted(lines)))


def noted(path):
    """The lines of a file about mutants, each after its crate and name."""
    lines = read(path).split("\n") if os.path.exists(path) else []
    return dict(it.strip().split(": ", 1) for it in lines if it.strip() and not it.startswith("#"))
