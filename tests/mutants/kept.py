"""What earlier runs on this machine found about killed mutants, by checksums of everything that their checks read."""
import os
import tempfile

from mutant_checks import below, read, seen_sum, sum_of

# The scripts that say what a check is made of and how it is judged.
SCRIPTS = ("functions.py", "judging.py", "mutant_checks.py")
# At most this many are kept: those that were unused for the longest time go.
MOST = 20_000


class Kept:
    """A folder with a file for each killed mutant, named by its checksum."""

    def __init__(self, top, uses, kit, folder, anew=False):
        self.top, self.uses, self.folder, self.anew, self.seen = top, uses, folder, anew, {}
        scripts = [read(os.path.join(os.path.dirname(os.path.realpath(__file__)), it)) for it in SCRIPTS]
        self.tools = sum_of(kit_texts(kit), scripts)

    def name(self, crate, edit):
        """The checksum of everything that a check of an edit reads, and of how it is judged."""
        libraries = below(self.uses, crate.name)
        for it in libraries:
            if it not in self.seen:
                self.seen[it] = seen_sum(self.top, it, self.uses)
        return sum_of(self.tools, self.uses[crate.name], [self.seen[it] for it in libraries], crate.sum_of(edit))

    def found(self, name):
        """What was found about the body with that checksum, and why; None if none tried it, or all are to be tried again."""
        if self.anew:
            return None
        try:
            path = os.path.join(self.folder, name)
            os.utime(path)
            kind, _, why = read(path).partition("\n")
            return kind, why
        except OSError:
            return None

    def keep(self, name, kind, why):
        """Keeps what was found about the body with that checksum, if the folder can be written."""
        try:
            os.makedirs(self.folder, 0o700, exist_ok=True)
            with tempfile.NamedTemporaryFile("w", dir=self.folder, prefix="new-", delete=False, encoding="utf-8") as it:
                it.write(f"{kind}\n{why}")
            os.replace(it.name, os.path.join(self.folder, name))
        except OSError as fault:
            print(f"note: the result of a mutant is not kept: {fault}", flush=True)

    def shrink(self):
        """Removes what was unused for the longest time, beyond the most that is kept."""
        try:
            found = sorted(os.scandir(self.folder), key=lambda it: it.stat().st_mtime, reverse=True)
            for it in found[MOST:]:
                os.remove(it.path)
        except OSError:
            pass


def folder_beside(kit):
    """Where they are kept on this machine: beside what `rt ci` keeps."""
    return os.path.join(os.path.dirname(kit), "rattle-kept", "wrong-bodies")


def kit_texts(kit):
    """What distinguishes kits: the name, and the sizes and times of commands and libraries."""
    files = [os.path.join(kit, "bin", it) for it in sorted(os.listdir(os.path.join(kit, "bin")))]
    rlibs = os.path.join(kit, "rlibs")
    files += [os.path.join(rlibs, it, "format") for it in sorted(os.listdir(rlibs))]
    found = [(os.path.relpath(it, kit), os.stat(it)) for it in files if os.path.isfile(it)]
    return read(os.path.join(kit, "KIT-ID")), [(it, said.st_size, said.st_mtime_ns) for it, said in found]
