#!/usr/bin/env python3
"""./try_on_terminal with a stand-in for `rt try`: which program it runs, what it says, and what it leaves."""
import glob
import os
import shutil
import subprocess
import sys
import tempfile

sys.path += glob.glob(os.path.join(os.path.dirname(os.path.dirname(os.path.realpath(__file__))), "*", ""))
from checks import HUNG, ON_TERMINAL, TOP, run_all, same

# It makes its program where `rt try` does, runs it on the keys, and removes it.
BUILDS = """#!/bin/sh
mkdir -p "$TMPDIR/try/native" && cd "$TMPDIR/try/native" || exit
cp "$(command -v cat)" program
./program >/dev/null && sleep 0.3
rm -r "$TMPDIR/try"
"""
FAILS = "#!/bin/sh\necho 'no such function'\nexit 1\n"
SAID = b"building small without proofs, which takes about a minute\n"


def path_with(folder, stand_in):
    """PATH with this `rt` before any other; without one, with python3 alone."""
    commands = os.path.join(folder, "bin")
    os.mkdir(commands)
    if stand_in is None:
        os.symlink(sys.executable, os.path.join(commands, "python3"))
        return commands
    rt = os.path.join(commands, "rt")
    with open(rt, "w", encoding="utf-8") as it:
        it.write(stand_in)
    os.chmod(rt, 0o755)
    return f"{commands}:{os.environ['PATH']}"


def tried(stand_in, words, keys=b""):
    """Runs a copy of the script in a folder of its own, which has one crate. Answers what came of it, and what is left."""
    with tempfile.TemporaryDirectory() as folder:
        script = shutil.copy(os.path.join(TOP, "try_on_terminal"), folder)
        shutil.copy(ON_TERMINAL, folder)
        os.makedirs(os.path.join(folder, "crates", "small"))
        path = path_with(folder, stand_in)
        ran = subprocess.run([script, *words], input=keys, capture_output=True, timeout=HUNG, env={**os.environ, "PATH": path})
        build = os.path.join(folder, "build")
        return ran, sorted(os.listdir(build)) if os.path.isdir(build) else None


def the_program_is_caught_and_run():
    ran, left = tried(BUILDS, ["small"], b"ab\n")
    same("output", ran.stdout, b"ab\n")
    same("what is said", ran.stderr, SAID + b"this build was not proved\n")
    same("status", ran.returncode, 0)
    same("what is left", left, ["small.unproved"])


def arguments_are_passed_on():
    ran, _ = tried(BUILDS, ["small", "--number", "-"], b"ab\n")
    same("output", ran.stdout, b"     1\tab\n")


def what_rt_says_is_told():
    ran, left = tried(FAILS, ["small"])
    same("what is said", ran.stderr, SAID + b"no such function\n\n")
    same("status", ran.returncode, 126)
    same("what is left", left, [])


def a_crate_has_to_be_named():
    for words in ([], ["large"]):
        ran, left = tried(BUILDS, words)
        same("what is said", ran.stderr, b"usage: try_on_terminal CRATE ARGUMENT..\n")
        same("status", ran.returncode, 2)
        same("what is left", left, None)


def without_the_toolchain_the_readme_is_named():
    ran, left = tried(None, ["small"])
    same("whether the toolchain is named", b"Rattle toolchain is not on PATH; README.md" in ran.stderr, True)
    same("status", ran.returncode, 127)
    same("what is left", left, None)


if __name__ == "__main__":
    run_all([the_program_is_caught_and_run, arguments_are_passed_on, what_rt_says_is_told, a_crate_has_to_be_named,
             without_the_toolchain_the_readme_is_named])
