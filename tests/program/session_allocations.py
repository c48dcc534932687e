#!/usr/bin/env python3
"""The sessions of crates/sessions_program/data/refusals.txt, with each of their allocations failing in turn. Run it by ./test,
or alone once `rt ci` has built the programs.

`sessions_program` plays each of them twice, over devices that take no memory. It compares a session that a failed
allocation cut short with the other one, and checks that a next one continues from the returned devices: `refused`. If an
allocation fails in the other one, or before or after both, the result is "not judged". The program plays those that its
arguments allow, over the streams and the file of a process: lines, display and history are then a prefix of those of a
whole run.
"""
import glob
import os
import re
import subprocess
import sys
import tempfile

sys.path += glob.glob(os.path.join(os.path.dirname(os.path.dirname(os.path.realpath(__file__))), "*", ""))
from checks import HUNG, Failed, built, run_all, same, shim
from hunting import appended_after, saved_after
from sessions import DATA, rows_of

SESSIONS = "refusals.txt"
WORDS = b"keyline: out of memory\n"
# The message if the history's text doesn't fit into memory, after everything else was done.
NO_TEXT = b"keyline: history text failed\n"
UNREAD = b"Error: out of memory\n"
# What a run that appends to its history says of a row: it is appended with the next one, or lost.
TOLD = re.compile(rb"keyline: history file [^\n]*: out of memory; (the next line tries again|a line is not saved)\n")
MOST = 10000


def refused_in_turn(play):
    """Plays with each allocation failing in turn, until none fails. Returns how many there were."""
    with tempfile.TemporaryDirectory() as folder:
        report = os.path.join(folder, "refused")
        for number in range(1, MOST):
            environment = {"LD_PRELOAD": shim("fail_alloc"), "FAIL_ALLOCATION": str(number), "FAIL_ALLOCATION_REPORT": report}
            try:
                play(environment, lambda: os.path.exists(report))
            except Failed as fault:
                raise Failed(f"call {number}: {fault}") from fault
            if not os.path.exists(report):
                return number - 1
            os.remove(report)
    raise Failed(f"{MOST} calls, and no end")


def words_of(ran):
    """The result of each session, by its settings and its row."""
    if (ran.returncode, ran.stderr) == (1, UNREAD):
        return {}
    same("standard error", ran.stderr, b"")
    same("status", ran.returncode, 0)
    return dict(row.rsplit(": ", 1) for row in ran.stdout.decode().splitlines())


def over_devices_that_take_no_memory():
    all_rows, refused = set(), set()

    def play(environment, was_refused):
        ran = subprocess.run([built("sessions_program"), "failed-allocations"], cwd=DATA, env=environment, capture_output=True, timeout=HUNG)
        said = words_of(ran)
        others = sorted(word for word in said.values() if word != "done")
        if others and (not was_refused() or others not in (["refused"], ["not judged"])):
            raise Failed(f"{said}")
        all_rows.update(said)
        refused.update(row for row, word in said.items() if word == "refused")

    print(f"allocations that failed in turn: {refused_in_turn(play)}", flush=True)
    same("sessions of which no allocation failed", sorted(all_rows - refused), [])
    same("whether all sessions were played", len(all_rows), len(list(rows_of(SESSIONS))))


def check_cut(row, ran, saved, whole):
    """Compares a run that a failed allocation ended with a whole one: the history has the lines that were written, or one
    more."""
    words = NO_TEXT if ran.stderr.endswith(NO_TEXT) else WORDS
    same("status", ran.returncode, 1)
    same("the end of standard error", ran.stderr[-len(words):], words)
    if not whole.stderr.startswith(ran.stderr[:-len(words)]):
        raise Failed(f"the display is no prefix of {whole.stderr!r}: {ran.stderr!r}")
    begun = [b"".join(line + b"\n" for line in row.accepted[:count]) for count in range(len(row.accepted) + 1)]
    if ran.stdout not in begun:
        raise Failed(f"the lines are no prefix of {row.accepted}: {ran.stdout!r}")
    lines = [line.decode() for line in row.accepted[:begun.index(ran.stdout) + 1]]
    held = [lines, lines[:begun.index(ran.stdout)]]
    kept = [row.loaded] if words == NO_TEXT else [saved_after(row.loaded or None, some) or row.loaded for some in held]
    if saved not in kept:
        raise Failed(f"expected one of the histories {kept}, found {saved!r}")


def is_lost(told):
    return told.group(1) == b"a line is not saved"


def check_told(row, ran, saved, told, whole, all_saved):
    """Compares a run that said that memory ran out for a row of its history with a whole one: only a row that is said to be
    lost isn't in the file, and then the status is 1."""
    same("lines and display", [ran.stdout, TOLD.sub(b"", ran.stderr)], [whole.stdout, whole.stderr])
    same("status", ran.returncode, 1 if is_lost(told) else whole.returncode)
    lines = [line.decode() for line in row.accepted]
    fewer = [lines[:index] + lines[index + 1:] for index in range(len(lines))]
    kept = [appended_after(row.loaded, some) for some in fewer] if is_lost(told) else [all_saved]
    if saved not in kept:
        raise Failed(f"expected one of the histories {kept}, found {saved!r}")


def by_the_program():
    for row in rows_of(SESSIONS):
        if not row.is_played():
            continue
        with tempfile.TemporaryDirectory() as folder:
            whole, all_saved = row.run(folder, None)

        def play(environment, was_refused):
            with tempfile.TemporaryDirectory() as folder:
                ran, saved = row.run(folder, environment)
            told = TOLD.search(ran.stderr)
            if told and was_refused():
                check_told(row, ran, saved, told, whole, all_saved)
            elif ran.returncode == whole.returncode:
                same("lines, display and history", [ran.stdout, ran.stderr, saved], [whole.stdout, whole.stderr, all_saved])
            elif was_refused():
                check_cut(row, ran, saved, whole)
            else:
                raise Failed(f"status {ran.returncode}, and no error")

        try:
            print(f"allocations that failed in turn: {refused_in_turn(play)}, of {row.text}", flush=True)
        except Failed as fault:
            raise Failed(f"{row.text}: {fault}") from fault


if __name__ == "__main__":
    run_all([over_devices_that_take_no_memory, by_the_program])
