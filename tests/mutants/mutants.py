#!/usr/bin/env python3
"""Mutants, many per check: crates/NAME/mutants/*.edit give functions bodies that their contracts must reject.

Such a file is written like those of must-fail/: a line `file: src/lib.rt` and pairs of lines `old: TEXT` and `new: TEXT`.
Each old text must be in the file once. Many mutants share a check of their crate, over the libraries that `rt ci` left in
crates/*/out. Each is a function beside the original, with another name. It ensures only the clause with which its case in
tests/mutants/mutants-by-hand.txt begins. The originals are assumed to meet their contracts: a check proves none of them, since
`rt ci` has.

A mutant is killed if each function that it changes is rejected for its own sake, and rattle knows values for which an
open goal of it is false, or tests/mutants/mutants-by-hand.txt has a case for which a clause is. An open goal alone isn't enough,
since the search may have given up at it. A mutant fails if a function is proved all the same, and if the mutant no longer
fits or changes nothing. It is a failure too if a function or a file of lemmas is rejected though nothing is wrong with it.

The result of a killed mutant is kept on this machine, beside what `rt ci` keeps, by the checksums of everything that its
check read. A later run, in any clone, tries only the mutants for which something changed (tests/mutants/kept.py).

The repository notes the killed ones too, by a checksum of what decides whether a clause is false of each
(tests/mutants/mutants-rejected.txt). A noted one is not tried again until that changes. Of those of
tests/mutants/mutants-named.txt one crate's are tried all the same; the notes choose the crate.

    tests/mutants/mutants.py [CRATE..]          all crates, or these
    tests/mutants/mutants.py --all [CRATE..]    tries the noted ones again, too
    tests/mutants/mutants.py --anew [CRATE..]   tries the noted and the kept ones again, too
    tests/mutants/mutants.py --note [CRATE..]   writes tests/mutants/mutants-rejected.txt again for these crates
    tests/mutants/mutants.py --fit [CRATE..]    says in a second which mutants no longer fit, and tries none
    tests/mutants/mutants.py --over-contracts ..    reads each library that isn't built as source, and assumes its bodies and proofs
    tests/mutants/mutants.py --right ..         the control: tries the right bodies in place of the mutants, under the same
                                        assumptions, and each must be proved
    tests/mutants/mutants.py --all-goals ..     asks every goal, writes tests/mutants/mutants-unasked.txt again for these crates,
                                        and then tries the right bodies
    rt ci | tests/mutants/mutants.py --beside   begins with a crate as soon as the lines of `rt ci` show that it has proved the
                                        libraries below it, one check at a time until `rt ci` has ended; tries no more
                                        if that was broken off, so that its last line doesn't count

One false goal is enough to kill a mutant, and each goal costs: the search for the proof of one that is open, and the proof of
one that isn't. So the goals in tests/mutants/mutants-unasked.txt are assumed; if no other one is open, the mutant is tried
again with all of them. A goal stands there if it is proved with the mutant, so that it isn't the false one; or if another one is
known to be false, by values or by the mutant's case, which may name it in backquotes. If the crate stands there too, its lemmas
are assumed. Nothing of a crate stands there if a right body isn't proved under these assumptions.

The output of a check is in build/mutants/ afterwards.
"""
import glob
import json
import os
import re
import shutil
import signal
import subprocess
import sys
import tempfile
import time
from concurrent.futures import FIRST_COMPLETED, ThreadPoolExecutor, wait
from threading import Thread

import libraries
from judging import FALSE, FAULT, OPEN, Said, judged
from kept import Kept, folder_beside
from mutant_checks import LEMMAS, Crate, below, crates_of, joined, read, sum_of, write
from noted import Noted, noted

TOP = os.path.dirname(os.path.dirname(os.path.dirname(os.path.realpath(__file__))))
# The memory limit of a check, in bytes.
NEED = 2_500_000_000
BY_HAND = os.path.join(TOP, "tests", "mutants", "mutants-by-hand.txt")
UNASKED = os.path.join(TOP, "tests", "mutants", "mutants-unasked.txt")
NAMED = os.path.join(TOP, "tests", "mutants", "mutants-named.txt")
REJECTED = os.path.join(TOP, "tests", "mutants", "mutants-rejected.txt")
# What a kept file says of a module, and the names of goals that may be dear.
INTERFACE = re.compile(rb"(?m)^--@ interface (.*)$")
DEAR = re.compile(r"(?!lives-|drop-|branch-|from_residual-)(?:returns|invariant_of|.*-requires)")
OPTIONS = ("--all", "--anew", "--note", "--fit", "--all-goals", "--right", "--over-contracts", "--beside")


class Checker:
    """Checks crates of a repository with the libraries that were built in their out/."""

    def __init__(self, top, uses, names_goals=False):
        self.top, self.uses, self.names_goals = top, uses, names_goals
        self.kit = os.path.dirname(os.path.dirname(os.path.realpath(shutil.which("rt"))))
        self.assumed = None

    def assume(self, crates):
        """Reads the libraries below these crates as source if they aren't built, with their bodies and proofs assumed."""
        self.assumed = tempfile.TemporaryDirectory(prefix="mutants-assumed-")
        for name in {it for crate in crates for it in libraries.read_as_source(self, self.uses, crate.name)}:
            libraries.write_assumed(self.top, name, os.path.join(self.assumed.name, name))

    def rlib(self, name):
        own = os.path.join(self.top, "crates", name, "out", "rlib", f"{name}.rlib")
        return own if name in self.uses else os.path.join(self.kit, "rlibs", f"{name}.rlib")

    def lacking(self, crate, proofs):
        """The libraries below a crate that aren't built, or that `rt ci`, if its output is read, hasn't proved."""
        if self.assumed:
            return []
        return [it for it in below(self.uses, crate.name) if not (proofs.has(it) and os.path.isdir(self.rlib(it)))]

    def words(self, crate, kept, paths):
        """The command that checks these functions of a crate, over what is kept in a folder, if there is one; other functions
        are taken by their contracts."""
        root = "src/main.rt" if "src/main.rt" in crate.sources.texts else "src/lib.rt"
        words = [os.path.join(self.kit, "bin", "rattle"), "check", "--crate-name", crate.name, root]
        assumed = libraries.read_as_source(self, self.uses, crate.name) if self.assumed else []
        words += libraries.words(self, self.uses, crate.name, assumed, self.assumed and self.assumed.name)
        words += ["--antt-project", os.path.join(self.kit, "rattle", "logic", "antt-project.json")]
        words += ["--logic-built", os.path.join(self.kit, "logic_built"), "--links", f"{crate.name}="]
        words += ["--jobs", "1", "--allow-holes", *(["--incremental", kept] if kept else [])]
        return words + [word for path in sorted(paths) for word in ("--only", path.partition("::")[2])]

    def check(self, crate, group, brief, shared):
        """What a check of the functions that a group changes costs, what rattle says about them (about some in brief), and how
        it ends.

        If a folder is shared by the crate's checks, the first one keeps there what serves the others. Each of these has a copy,
        since rattle can't share such a folder.
        """
        with tempfile.TemporaryDirectory(prefix="mutants-") as top:
            room, own = os.path.join(top, "crate"), os.path.join(top, "kept")
            if shared and crate.checks:
                shutil.copytree(shared, own)
            kept = shared if shared and not crate.checks else own
            crate.furnish(room, group)
            crate.shorten(room, group, brief)
            paths = {path for edit in group for path in edit.paths()}
            cost, said, status = self.ran(self.words(crate, kept if shared or self.names_goals else None, paths), room)
            return cost, said + "".join(goals_in(kept, crate, it) for it in paths if self.names_goals), status

    def ran(self, words, room):
        """The processor time of a command, its output, and its status."""
        with tempfile.TemporaryFile("w+", errors="replace") as said:
            how = {"stdin": subprocess.DEVNULL, "stdout": said, "stderr": subprocess.STDOUT}
            with subprocess.Popen(words, cwd=room, **how) as it:
                _, status, used = os.wait4(it.pid, 0)
                it.returncode = os.waitstatus_to_exitcode(status)
            said.seek(0)
            return used.ru_utime + used.ru_stime, said.read(), it.returncode


def goals_in(kept, crate, path):
    """A line with the goals of a function that may be dear, by what a check kept; nothing, if it kept nothing."""
    module = crate.module(path).replace(".", "-", 2)
    [file, *_] = glob.glob(os.path.join(kept, "*", f"{module}.Proof.oantt")) or [None]
    if file is None:
        return ""
    with open(file, "rb") as it:
        names = [it["name"] for it in json.loads(INTERFACE.search(it.read())[1])["globals"]]
    dear = [it for it in names if DEAR.match(it) and not any(other.startswith(f"{it}-clause-") for other in names)]
    return f"goals of {path}: {' '.join(dear)}\n"


class Proofs:
    """What `rt ci` has proved so far or taken as kept, as its lines say; everything, if its output isn't read."""

    PROVED = re.compile(r"rt: (\w+) (?:proved\n|is kept: )")
    COUNT = re.compile(r"\d+ passed, \d+ failed\n")

    def __init__(self, lines=None):
        self.is_heard, self.ended, self.names = lines is not None, lines is None, set()
        self.was_broken_off = False
        self.hearing = Thread(target=self.hear, args=[lines or ()], daemon=True)
        if self.is_heard:
            self.hearing.start()

    def hear(self, lines):
        last = ""
        try:
            for last in lines:
                self.names.update(self.PROVED.findall(last))
        finally:
            self.was_broken_off = not self.COUNT.fullmatch(last)
            self.ended = True

    def hear_out(self):
        """Waits until `rt ci` has ended, so that its output is read to the end."""
        if self.is_heard:
            self.hearing.join()

    def has(self, name):
        return not self.is_heard or name in self.names


class Trial:
    """A crate's mutants as they are tried: what was found about them, and the groups that are still to be tried.

    Of several checks the first one keeps what serves the others, of which each has a copy; so these begin when it has ended.
    """

    def __init__(self, crate, checker, by_hand, kept, of_right_bodies=False, noted=()):
        self.crate, self.checker, self.by_hand, self.kept = crate, checker, by_hand, kept
        self.is_of_right_bodies, self.edits = of_right_bodies, crate.controls if of_right_bodies else crate.edits
        self.noted = {it for it in noted if it in self.edits}
        self.found = [(False, f"{crate.name}/{name}", f"it no longer fits: {why}") for name, why in crate.unfit.items()]
        self.sums = {it: kept.name(crate, it) for it in self.edits if it not in self.noted}
        known = {it: (FALSE, "noted as rejected") for it in self.edits if it in self.noted}
        known |= {it: found for it in self.sums for found in [kept.found(self.sums[it])] if found}
        self.found += [self.settled(kind, f"{crate.name}/{it.name}", why) for it, (kind, why) in known.items()]
        self.known, self.full, self.killed, self.running, self.spared = len(known) - len(self.noted), set(), set(), 0, {}
        self.left = crate.groups([it for it in self.edits if it not in known])
        self.folder = tempfile.TemporaryDirectory(prefix="mutants-kept-") if len(self.left) > 1 else None

    def settled(self, kind, name, why):
        """Whether a mutant with this finding passes, with its name and what to print."""
        if kind == OPEN and name not in self.by_hand:
            return False, name, f"no values are known for which an open goal is false, and no case is written out: {why}"
        return kind != FAULT, name, why

    def ready(self, proofs):
        """The groups that may be tried now; none ever, if a library that they need will not come."""
        lacking = self.left and self.checker.lacking(self.crate, proofs)
        if lacking and proofs.ended:
            self.left = []
            why = f"no library of {', '.join(lacking)} is built: run rt ci first"
            self.found.append((False, self.crate.name, why))
        is_first = self.folder and not self.crate.checks
        if lacking or is_first and self.running:
            return []
        groups = self.left[:1] if is_first else self.left
        self.left = self.left[len(groups) :]
        self.running += len(groups)
        return groups

    def check(self, group):
        """Tries a group: the cost of its check, its output, and how the check ended."""
        brief = self.crate.brief([it for it in group if it not in self.full and not it.is_right])
        cost, said, status = self.checker.check(self.crate, group, brief, self.folder and self.folder.name)
        return cost, Said(self.crate, group, said, brief), status

    def take(self, group, cost, said, status):
        """Takes the output for a group: what was found about its mutants, and which need another check."""
        self.running -= 1
        if status < 0 or not said.text:
            self.take_killed(group, status)
            return
        self.crate.checks.append((cost, [it.name for it in group]))
        kind = "-right" if self.is_of_right_bodies else ""
        save(self.checker.top, f"{self.crate.name}{kind}-{len(self.crate.checks)}.log", said.text)
        if said.lines:
            self.take_told(group, said)
        else:
            self.take_unread(group, said)

    def take_killed(self, group, status):
        """Tries a group again if its check was killed; the second time it fails, with its status."""
        if self.killed.issuperset(group):
            why = f"its check was killed twice, with status {status}"
            self.found += [(False, f"{self.crate.name}/{it.name}", why) for it in group]
        else:
            self.killed.update(group)
            self.left.append(group)

    def take_unread(self, group, said):
        """Takes an error of the front end: the mutants that it names fail, and the others are tried again."""
        culprits = refused_unread(said, group)
        for edit, why in culprits.items():
            self.found.append((False, f"{self.crate.name}/{edit.name}", f"it did not reach the prover: {why}"))
        self.left += [[it for it in group if it not in culprits]] * (len(culprits) < len(group))

    def take_told(self, group, said):
        """Takes the prover's output for a group."""
        # If a callee in the same check is rejected too, some goals are not tried: such mutants get another check.
        waiting = [it for it in group if len(group) > 1 and {*it.paths()} & said.waiting]
        # If nothing is open, the mutant is checked in full: its body is proved, or rejected in another way.
        silent = [it for it in group if it not in waiting and said.silent(it)]
        self.full.update(silent)
        lacking = self.without_goals_of_mutants(group, said)
        again = [*dict.fromkeys([*waiting, *silent, *lacking])]
        self.left += joined([], again) if lacking or len(again) < len(group) else [[it] for it in again]
        self.spared.update({it: said.to_spare(it) for it in group if it not in again})
        names = {f"{self.crate.name}/{it.name}" for it in again}
        found = [it for it in judged(self.crate, group, said) if it[1] not in names]
        self.found += [self.settled(*it) for it in found]
        self.keep(group, found)

    def without_goals_of_mutants(self, group, said):
        """The right bodies that are tried again, without the goals that only their mutants have."""
        found = {it: said.missing(it) for it in group if it.is_right}
        for it, missing in found.items():
            it.unasked = [goal for goal in it.unasked if goal not in missing]
        return [it for it, missing in found.items() if missing]

    def keep(self, group, found):
        """Keeps what was found about the killed mutants of a group, unless the check shows another fault."""
        sums = {f"{self.crate.name}/{it.name}": self.sums[it] for it in group}
        if all(name in sums for _, name, _ in found):
            for kind, name, why in found:
                if kind != FAULT:
                    self.kept.keep(sums[name], kind, why)


def tried(trials, lanes, proofs):
    """Tries the mutants of crates, the dearest first, with several checks side by side; yields each trial as it ends.

    While `rt ci` is running there is one check at a time, if there is memory for it, and a crate waits until its libraries
    are proved.
    """
    running, ready, left = {}, [], list(trials)
    with ThreadPoolExecutor(lanes) as pool:
        while left:
            is_alone = proofs.ended
            if proofs.was_broken_off:
                sys.exit("rt ci was broken off, so no more mutants are tried")
            ready += [(trial, group) for trial in left for group in trial.ready(proofs)]
            ready.sort(key=lambda it: it[0].crate.weight(), reverse=True)
            room = lanes if is_alone else min(1, free() // NEED)
            for trial, group in ready[: max(0, room - len(running))]:
                ready.remove((trial, group))
                running[pool.submit(trial.check, group)] = trial, group
            for ended in [it for it in left if not it.running and (is_alone or not it.left)]:
                left.remove(ended)
                yield ended
            for check in ended_of(running):
                trial, group = running.pop(check)
                trial.take(group, *check.result())


def ended_of(running):
    """The running checks that have ended, after a second or as soon as there is one."""
    if not running:
        time.sleep(1)
    return wait(running, timeout=1, return_when=FIRST_COMPLETED).done


def refused_unread(said, group):
    """The mutants for which the front end rejected the crate, each with its error; all of them if it doesn't say."""
    errors = {said.at(file, int(line)): why for file, line, why in said.FRONT.findall(said.text)}
    found = {it: errors[path] for it in group for path in it.paths() if path in errors}
    return found or dict.fromkeys(group, " ".join(said.text.split("\n")[:3])[:300])


def save(top, name, text):
    """Stores the output of a check, to look into a failure."""
    write(os.path.join(top, "build", "mutants", name), text)


def named():
    """The mutants that stand for a rule of the design, each by its crate and name."""
    rows = [line.split(" | ") for line in read(NAMED).split("\n") if not line.startswith("#")]
    return {f"{crate}/{name.strip()}" for _, crate, name in (it for it in rows if len(it) == 3)}


def tried_again():
    """Those of them that are tried though they are noted: those of one crate, which the notes choose."""
    names = sorted(named())
    crate, _, _ = names[int(sum_of(read(REJECTED)), 16) % len(names)].partition("/")
    return {it for it in names if it.startswith(f"{crate}/")}


def noted_unasked():
    """The goals that need not be asked of a mutant, by its crate and name."""
    return {name: it.split(", ") for name, it in noted(UNASKED).items()}


def note_unasked(path, trials, unsafe=()):
    """Writes which goals need not be asked of these crates' mutants, as the trials showed, and that their lemmas are assumed;
    nothing of crates for which that is unsafe."""
    names = {it.crate.name for it in trials}
    told = {name: goals for name, goals in noted(path).items() if name.split("/")[0] not in names}
    for it in (it for it in trials if it.crate.name not in unsafe):
        told[it.crate.name] = LEMMAS
        told.update({f"{it.crate.name}/{edit.name}": ", ".join(goals) for edit, goals in it.spared.items() if goals})
    comment = [line for line in read(path).split("\n") if line.startswith("#")]
    write(path, "\n".join([*comment, "", *(f"{name}: {told[name]}" for name in sorted(told)), ""]))


def free():
    """The free memory, in bytes."""
    with open("/proc/meminfo", encoding="ascii") as it:
        return 1024 * int(re.search(r"MemAvailable:\s+(\d+)", it.read())[1])


def processors():
    """How many checks fit side by side: a processor for each, and the memory."""
    return max(1, min(len(os.sched_getaffinity(0)), free() // NEED))


def mistake(words, crates):
    """What is wrong with the words of the command line, if something is."""
    unknown = [it for it in words if it not in crates and it not in OPTIONS]
    if not unknown:
        return None
    return f"{unknown[0]} is no crate of crates.txt, and none of {' '.join(OPTIONS)}"


def main(words):
    uses = crates_of(TOP)
    wrong = mistake(words, uses)
    if wrong:
        print(f"tests/mutants/mutants.py: {wrong}", file=sys.stderr)
        return 2
    names = [it for it in words if it not in OPTIONS]
    by_hand = noted(BY_HAND)
    unasked = {} if "--all-goals" in words else noted_unasked()
    crates = [Crate(TOP, name, unasked, by_hand) for name in uses if not names or name in names]
    crates = [it for it in crates if it.sources]
    known = {f"{it.name}/{name}" for it in crates for name in [*it.unfit, *(edit.name for edit in it.edits)]}
    failed = 0
    for name in by_hand:
        if name not in known and (not names or name.split("/")[0] in names):
            print(f"FAILED {name}: tests/mutants/mutants-by-hand.txt names it, and there is no such mutant", flush=True)
            failed += 1
    if "--fit" in words:
        unfit = [(f"{it.name}/{name}", why) for it in crates for name, why in it.unfit.items()]
        for name, why in unfit:
            print(f"FAILED {name}: it no longer fits: {why}")
        return finished(len(known) - len(unfit), failed + len(unfit))
    checker = Checker(TOP, uses, "--all-goals" in words)
    if "--over-contracts" in words:
        checker.assume(crates)
    anew = not {"--anew", "--all-goals"}.isdisjoint(words)
    kept = Kept(TOP, uses, checker.kit, folder_beside(checker.kit), anew)
    crates.sort(key=Crate.weight, reverse=True)
    rejected = Noted(TOP, uses, REJECTED, noted(REJECTED), tried_again())
    is_noted = lambda crate, edit: not (anew or {"--all", "--right"} & {*words}) and rejected.has(crate, edit)
    trials = [Trial(it, checker, by_hand, kept, "--right" in words, [edit for edit in it.edits if is_noted(it, edit)])
              for it in crates]
    proofs = Proofs(open(0, encoding="utf-8", errors="replace") if "--beside" in words else None)
    found = told(trials, proofs)
    proofs.hear_out()
    if "--all-goals" in words:
        note_unasked(UNASKED, trials)
        controls = [Trial(Crate(TOP, it.name, noted_unasked(), by_hand), checker, by_hand, kept, True) for it in crates]
        found += told(controls, proofs)
        note_unasked(UNASKED, trials, [it.crate.name for it in controls if not all(well for well, _, _ in it.found)])
    if "--note" in words:
        rejected.note(trials)
    kept.shrink()
    return finished(sum(found), failed + found.count(False))


def told(trials, proofs):
    """Tries mutants, or the right bodies, and tells of them: whether each passes."""
    found = []
    for trial in tried(trials, processors(), proofs):
        tell(trial)
        found += [well for well, _, _ in trial.found]
    return found


def tell(trial):
    """Prints the cost and the result of a trial."""
    crate = trial.crate
    kind, well = ("right bodies", "proved") if trial.is_of_right_bodies else ("mutants", "killed")
    cost = f"checks {len(crate.checks)}, {sum(cost for cost, _ in crate.checks):.0f} s of processor"
    known = f"noted {len(trial.noted)}, kept {trial.known}"
    print(f"-- {crate.name}: {kind} {len(trial.edits)}, of them {known}, {cost}", flush=True)
    for at, (cost, names) in enumerate(crate.checks, 1):
        of = ", ".join(names[:8]) + " .." * (len(names) > 8)
        print(f"   check {at}: {cost:.0f} s, {kind} {len(names)}: {of}", flush=True)
    for passes, name, text in trial.found:
        print(f"{well if passes else 'FAILED'} {name}: {text[:400]}", flush=True)


def finished(passed, failed):
    print(f"{passed} passed, {failed} failed", flush=True)
    return 1 if failed else 0


if __name__ == "__main__":
    # (ended so, the folders of its checks go with it)
    signal.signal(signal.SIGTERM, lambda *_: sys.exit(143))
    sys.exit(main(sys.argv[1:]))
