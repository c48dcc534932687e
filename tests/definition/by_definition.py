#!/usr/bin/env python3
"""./by_definition on inputs that nobody writes, and on a program with a slip in it. Run it by ./test, or alone once `rt ci` or
./keyline has built the program and its libraries.
"""
import glob
import hashlib
import os
import subprocess
import sys
import tempfile

sys.path += glob.glob(os.path.join(os.path.dirname(os.path.dirname(os.path.realpath(__file__))), "*", ""))
from checks import HUNG, PROGRAM, TOP, Failed, run_all, same
from claims import Kernel, agrees
from hostile import read, session_of
from program_runs import DIFFERS, NoSession, Run, files_of

COUNT = 20
# Longer ones take the kernel more than some seconds each.
MOST_KEYS, MOST_DISPLAY = 150, 4000
# A program in which Ctrl-W kills the word before the cursor as Alt-Backspace does: up to a sign, and not up to a blank.
SLIP = """#!/usr/bin/env python3
import subprocess, sys
ran = subprocess.run([{program!r}, *sys.argv[1:]], input=sys.stdin.buffer.read().replace(b"\\x17", b"\\x1b\\x7f"), capture_output=True)
sys.stdout.buffer.write(ran.stdout)
sys.stderr.buffer.write(ran.stderr)
sys.exit(ran.returncode)
"""


def hostile_runs(seed):
    """Short runs on inputs of the hunt, which the program's sum chooses."""
    runs, session_at, number = [], session_of(seed), 0
    while len(runs) < COUNT:
        number += 1
        _, it = session_at(number)
        if len(it.keys) > MOST_KEYS:
            continue
        try:
            run = Run(it.keys, it.mode, it.columns, it.prompt, it.brackets, it.history, it.words, it.extended).play(PROGRAM)
        except NoSession:
            continue
        if len(run.display) <= MOST_DISPLAY:
            runs.append(run)
    return runs


def inputs_that_nobody_writes():
    runs = hostile_runs(hashlib.sha256(read(PROGRAM)).hexdigest()[:16])
    claims = {f"agrees_{it}": agrees(f"runs_row_{it} ∷ []") for it in range(1, COUNT + 1)}
    granted = Kernel(without=["stand_ins"]).granted(files_of(runs), claims)
    left = [run for it, run in enumerate(runs, 1) if not granted[f"agrees_{it}"]]
    if left:
        raise Failed("\n  ".join(["the definition gives something else, or it isn't computed", *map(repr, left)]))


def a_program_with_a_slip():
    with tempfile.TemporaryDirectory(prefix="keyline-slip-") as folder:
        slip = os.path.join(folder, "slip")
        with open(slip, "w", encoding="utf-8") as it:
            it.write(SLIP.format(program=PROGRAM))
        os.chmod(slip, 0o755)
        words = [os.path.join(TOP, "by_definition"), "--program", slip]
        ran = subprocess.run(words, input=b"ab one,two\x17\r", capture_output=True, timeout=10 * HUNG)
    told = ran.stdout.decode().split("\n")
    same("the status", ran.returncode, DIFFERS)
    same("in what it differs", told[0].split(":")[0], "differs in lines, history, display")
    same("where", told[1], "  lines: the first 3 bytes agree: b'ab ', then b'one,\\n'")


if __name__ == "__main__":
    run_all([inputs_that_nobody_writes, a_program_with_a_slip])
