"""The libraries that a check reads: as they are built, or as source whose bodies and proofs are assumed."""
import os
import shutil

from functions import Sources
from mutant_checks import Crate, below, read


def read_as_source(checker, uses, crate, changed=()):
    """The libraries below a crate that aren't built, or are to be taken as changed, and those above such."""
    assumed = []
    for name in below(uses, crate):
        if name in changed or not os.path.isdir(checker.rlib(name)) or {*uses[name]} & {*assumed}:
            assumed.append(name)
    return assumed


def write_assumed(top, name, folder):
    """Writes a library with every body and every proof assumed. A file that stays the same keeps its time."""
    crate = Crate(top, name)
    crate.sources = Sources(crate.folder, name)
    fresh = f"{folder}.new"
    shutil.rmtree(fresh, ignore_errors=True)
    crate.edits = []
    crate.furnish(fresh, [])
    for at, _, files in os.walk(fresh):
        for file in (os.path.join(at, it) for it in files):
            old = os.path.join(folder, os.path.relpath(file, fresh))
            if os.path.exists(old) and read(old) == read(file):
                shutil.copystat(old, file)
    shutil.rmtree(folder, ignore_errors=True)
    os.rename(fresh, folder)


def words(checker, uses, crate, assumed, folder):
    """The words of `rattle check` for the libraries below a crate; those that are assumed are in a folder, as source."""
    needed = {"std"}.union(uses[crate], *(uses[it] for it in assumed)).difference(assumed)
    said = [word for name in sorted(needed) for word in ("--extern", f"{name}={checker.rlib(name)}")]
    built = [it for it in below(uses, crate) if it not in assumed]
    for place in [os.path.join(checker.kit, "rlibs"), *(os.path.dirname(checker.rlib(it)) for it in built)]:
        said += ["-L", f"dependency={place}"]
    for name in assumed:
        said += ["--lib", f"{name}:{','.join(['std', *uses[name]])}={os.path.join(folder, name, 'src', 'lib.rt')}"]
    return said
