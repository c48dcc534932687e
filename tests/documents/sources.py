#!/usr/bin/env python3
"""Whether each source reads, so that none fails for that after an hour of proofs.

Each script and each C file must be free of slips that its language sees, and each file of the crates must have the layout of
`rt fmt`, since `rt ci` proves no crate with a file that hasn't.
"""
import glob
import os
import shutil
import subprocess
import sys

sys.path += glob.glob(os.path.join(os.path.dirname(os.path.dirname(os.path.realpath(__file__))), "*", ""))
from mutant_checks import crates_of

TOP = os.path.dirname(os.path.dirname(os.path.dirname(os.path.realpath(__file__))))
RATTLE = os.path.join(os.path.dirname(os.path.realpath(shutil.which("rt"))), "rattle")
FOLDERS = ("answers", "bench", "crates/keyline_c/c", "tests")
# Where C files find the headers of this repository.
HEADERS = ("crates/keyline_c/c", "crates/keyline_c/c/readline/include")
SHELL = (".ci/run", "bench/run", "keyline", "test")
PYTHON = ("by_definition", "on_terminal", "try_on_terminal")
# What a check of a file raises.
SLIPS = (SyntaxError, OSError, subprocess.CalledProcessError)


def ran(*words):
    subprocess.run(words, check=True, capture_output=True, text=True, errors="replace")


def python(path):
    with open(path, encoding="utf-8") as it:
        compile(it.read(), path, "exec")


def shell(path):
    ran("bash", "-n", path)


def c(path):
    headers = [f"-I{os.path.join(TOP, it)}" for it in HEADERS]
    ran("gcc", "-fsyntax-only", "-Wall", "-Wextra", "-Werror", *headers, path)


def crate(path):
    """Whether `rt fmt` would change no file of a crate."""
    ran(RATTLE, "fmt", "--check", *files_under(path, ".rt", ".antt"))


def files_under(folder, *endings):
    for at, folders, names in os.walk(folder):
        folders[:] = sorted(it for it in folders if it != "out")
        yield from (os.path.join(at, it) for it in sorted(names) if it.endswith(endings))


def checks():
    """Each check, with the path of what it is of."""
    for folder in FOLDERS:
        yield from ((python if it.endswith(".py") else c, it) for it in files_under(os.path.join(TOP, folder), ".py", ".c"))
    yield from ((shell, os.path.join(TOP, it)) for it in SHELL)
    yield from ((python, os.path.join(TOP, it)) for it in PYTHON)
    yield from ((crate, os.path.join(TOP, "crates", it)) for it in crates_of(TOP))


def main():
    passed = failed = 0
    for reads, path in checks():
        try:
            reads(path)
            passed += 1
        except SLIPS as fault:
            failed += 1
            advice = "run rt fmt in its folder: " if reads is crate else ""
            print(f"FAILED {os.path.relpath(path, TOP)}: {advice}{getattr(fault, 'stderr', None) or fault}")
    print(f"{passed} passed, {failed} failed")
    return failed > 0


if __name__ == "__main__":
    sys.exit(main())
