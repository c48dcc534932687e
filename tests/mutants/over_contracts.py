#!/usr/bin/env python3
"""Checks a crate over the contracts of the libraries below it, whose bodies are assumed.

A change in a library asks for new proofs in each crate above it. With this, those crates can be checked before the library
is proved again: a library that isn't built is read as source, with its contracts, definitions and lemmas, each body `loop {}`
and each proof a hole. The check passes holes, so it gives no verdict: `rt ci` does. A function of the crate is proved if its
line reads `no holes`, or if it depends only on holes of libraries below.

    tests/mutants/over_contracts.py CRATE                     all functions of a crate
    tests/mutants/over_contracts.py CRATE --only PATH ..      these functions; '' is the front end alone
    tests/mutants/over_contracts.py CRATE --changed LIB ..    reads these libraries as source though they are built, and those above
                                                      them
    --test                                            with the crate's tests
    --jobs N                                          with N processes

A library that has been built is taken from crates/NAME/out/rlib, as `rt lib` or `rt ci` left it, whatever was changed since.
What the check finds is kept in crates/CRATE/out/over/, so a second check asks only what changed.
"""
import argparse
import os
import subprocess
import sys

import libraries
from mutants import Checker
from mutant_checks import crates_of, read

TOP = os.path.dirname(os.path.dirname(os.path.dirname(os.path.realpath(__file__))))


def main(words):
    given = argparse.ArgumentParser(description="Checks a crate over the contracts of the libraries below it.")
    given.add_argument("crate")
    given.add_argument("--only", nargs="*", default=[])
    given.add_argument("--changed", nargs="*", default=[])
    given.add_argument("--test", action="store_true")
    given.add_argument("--jobs", default="1")
    told = given.parse_args(words)
    uses = crates_of(TOP)
    if told.crate not in uses:
        sys.exit(f"crates.txt has no crate {told.crate}")
    checker = Checker(TOP, uses)
    assumed = libraries.read_as_source(checker, uses, told.crate, told.changed)
    room = os.path.join(TOP, "crates", told.crate, "out", "over")
    for name in assumed:
        libraries.write_assumed(TOP, name, os.path.join(room, name))
    words = command(checker, uses, told.crate, assumed, room, told.test)
    words += ["--jobs", told.jobs] + [word for path in told.only for word in ("--only", path)]
    print(f"read as source: {' '.join(assumed) or 'none'}", flush=True)
    return ran(words, os.path.join(TOP, "crates", told.crate), assumed)


def command(checker, uses, crate, assumed, room, with_tests):
    """The words of `rattle check` for a crate, with these libraries as source."""
    root = "src/main.rt" if os.path.exists(os.path.join(TOP, "crates", crate, "src", "main.rt")) else "src/lib.rt"
    words = [os.path.join(checker.kit, "bin", "rattle"), "check", "--crate-name", crate, root]
    words += libraries.words(checker, uses, crate, assumed, room)
    words += ["--antt-project", os.path.join(checker.kit, "rattle", "logic", "antt-project.json")]
    words += ["--logic-built", os.path.join(checker.kit, "logic_built"), "--links", f"{crate}="]
    if with_tests:
        words += ["--test"]
    elif is_static(crate):
        words += ["--crate-type", "staticlib"]
    kept = os.path.join(room, "kept-tests" if with_tests else "kept")
    return words + ["--incremental", kept, "--allow-holes"]


def is_static(crate):
    """Whether crates.txt says that a crate is a static library."""
    rows = read(os.path.join(TOP, "crates.txt")).splitlines()
    return any(it.partition(":")[0].split() == [crate, "staticlib"] for it in rows)


def ran(words, folder, assumed):
    """Runs a check, and prints what it says of the crate itself."""
    named = tuple(f"{kind} {it}::" for it in assumed for kind in ("fn", "impl", "struct", "enum", "trait"))
    places = tuple(os.path.join(folder, "out", "over", it) + os.sep for it in assumed)
    how = {"stdin": subprocess.DEVNULL, "stdout": subprocess.PIPE, "stderr": subprocess.STDOUT, "text": True}
    is_below = False
    with subprocess.Popen(words, cwd=folder, **how) as it:
        for line in it.stdout:
            # (the lines of a goal are indented, below the line with its place)
            is_below = line.startswith((*named, *places)) or is_below and line.startswith(" ")
            if not (is_below or ": modules loaded=" in line):
                print(line, end="", flush=True)
    return it.returncode


if __name__ == "__main__":
    sys.exit(main(sys.argv[1:]))
