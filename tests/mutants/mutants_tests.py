#!/usr/bin/env python3
"""What tests/mutants/mutants.py says about mutants, and about functions that are none, in a small crate.

    tests/mutants/mutants_tests.py             with a stand-in for the prover, in a second
    tests/mutants/mutants_tests.py --prover    with rattle itself
"""
import glob
import os
import re
import sys
import tempfile
import time
from threading import Barrier, Event

sys.path += glob.glob(os.path.join(os.path.dirname(os.path.dirname(os.path.realpath(__file__))), "*", ""))
import judging
import mutants
import mutant_checks
from checks import run_all, same
from functions import Sources
from kept import Kept
from noted import Noted, noted

SOURCE = """//! Numbers, for mutants.
#![tactic(auto)]

ghost use Rattle.std.specs.Prelude.{\u25cc\u2261\u25cc, \u25cc+\u25cc};

/// The crate's type.
pub struct Pair {
    pub one: u16,
    pub other: u16,
}

impl Pair {
    pub fn first(&self) -> u16
        ensures { result \u2261 self.now.one }
    {
        self.one
    }
}

pub fn doubled(n: u8) -> u16
    ensures { result \u2261 n + n }
{
    u16::from(n) + u16::from(n)
}

pub fn fourfold(n: u8) -> u16
    ensures { result \u2261 n + n + (n + n) }
{
    doubled(n) + doubled(n)
}

pub fn silent(n: u8) -> u8 {
    n // said of nothing
}

pub const fn four() -> u8 {
    4
}

pub fn trebled(n: u8) -> u16
    ensures { result \u2261 n + n + n }
{
    doubled(n)
}

impl From<&Pair> for u16 {
    fn from(pair: &Pair) -> u16 {
        pair.other // taken from a pair
    }
}

pub fn twice(n: u8) -> (u8, u8)
    ensures one { result.0 \u2261 n }
    ensures other { result.1 \u2261 n }
{
    (n, n)
}
"""
EDITS = {
    "added-once": ("u16::from(n) + u16::from(n)", "u16::from(n)"),
    "nothing-said": ("n // said of nothing", "n / 2"),
    "other-for-one": ("self.one", "self.other"),
    "half-of-it": ("doubled(n) + doubled(n)", "doubled(n)"),
    "same-sum": ("doubled(n) + doubled(n)", "{ let sum = doubled(n) + doubled(n); sum }"),
    "neither": ("(n, n)", "(0, 0)"),
    "one-of-two": ("(n, n)", "(n, 0)"),
    "does-not-compile": ("self.one", "self.none"),
    "gone": ("u16::from(n) * 2", "u16::from(n)"),
    "twice-there": ("doubled(n)", "0"),
    "same-text": ("u16::from(n) + u16::from(n)", "u16::from(n) + u16::from(n)"),
    "clause": ("n + n + n }", "n + n }"),
    "from-one": ("pair.other //", "pair.one //"),
    "from-none": ("pair.other //", "0 //"),
    "from-other": ("doubled(n) + doubled(n)", "u16::from(&Pair { one: 0, other: 0 })"),
}
DOUBLED = "small::doubled_added_once"
DOUBLED_RIGHT = "small::doubled_right_of_added_once"
# What is said about it: an open goal, and one that is known to be false.
OPEN = "note: src/lib.rt:27:1: it is not proved that what the function ensures holds when it returns (`returns`)\n"
FALSE = OPEN.replace("\n", "; the facts known there allow values at which this goal is false\n")
REFUSED = f"fn {DOUBLED}: no proof: `search` did not prove `returns`\n"
CASE = {"small/added-once": "a case"}


class Small:
    """A repository with one small crate and some of its mutants."""

    def __init__(self, *names):
        self.folder = tempfile.TemporaryDirectory(prefix="mutants-tests-")
        self.write("crates.txt", "small:\n")
        self.write("crates/small/src/lib.rt", SOURCE)
        for name in names:
            old, new = EDITS[name]
            self.write(f"crates/small/mutants/{name}.edit", f"file: src/lib.rt\nold: {old}\nnew: {new}\n")

    def write(self, path, text):
        path = os.path.join(self.folder.name, path)
        os.makedirs(os.path.dirname(path), exist_ok=True)
        with open(path, "w", encoding="utf-8") as it:
            it.write(text)

    def crate(self, unasked=None, cases=None):
        return mutant_checks.Crate(self.folder.name, "small", unasked, cases)

    def uses(self):
        return mutant_checks.crates_of(self.folder.name)

    def trial(self, unasked=None, of_right_bodies=False):
        return self.tried_by(mutants.Checker(self.folder.name, self.uses()), {}, unasked, of_right_bodies)

    def tried_by(self, checker, by_hand, unasked=None, of_right_bodies=False):
        """A trial that keeps its findings in the repository's own folder."""
        kit = mutants.Checker(self.folder.name, self.uses()).kit
        kept = Kept(self.folder.name, self.uses(), kit, os.path.join(self.folder.name, "kept"))
        return mutants.Trial(self.crate(unasked), checker, by_hand, kept, of_right_bodies)

    def judged(self, said, by_hand=()):
        trial = self.tried_by(None, by_hand)
        [group] = trial.left
        found = judging.judged(trial.crate, group, judging.Said(trial.crate, group, said))
        return {name: (well, text) for well, name, text in (trial.settled(*it) for it in found)}


def tried(trial):
    """The findings of a trial about its mutants, each with what was said about it."""
    [ended] = mutants.tried([trial], 2, mutants.Proofs())
    return {name: (well, text) for well, name, text in ended.found}


def expect(found, name, well, words):
    same(f"whether {name} is reported", name in found, True)
    same(f"whether {name} passes", found[name][0], well)
    same(f"whether `{found[name][1]}` says `{words}`", words in found[name][1], True)


def what_the_prover_says():
    small = Small("added-once", "nothing-said", "half-of-it", "other-for-one", "does-not-compile", "same-sum")
    found = tried(small.trial())
    expect(found, "small/added-once", True, DOUBLED)
    expect(found, "small/half-of-it", True, "small::fourfold_half_of_it")
    expect(found, "small/other-for-one", True, "small::Pair::first_other_for_one")
    expect(found, "small/nothing-said", False, "small::silent_nothing_said is NOT KILLED")
    expect(found, "small/same-sum", False, "small::fourfold_same_sum is NOT KILLED")
    expect(found, "small/does-not-compile", False, "did not reach the prover")
    same("how many are reported", len(found), 6)


def goals_that_go_unasked():
    trial = Small("neither", "one-of-two").trial({
        "small/neither": ["returns-clause-other", "gone"], "small/one-of-two": ["returns-clause-other"],
    })
    found = tried(trial)
    said = "small::twice_neither: not proved: `search` did not prove `returns-clause-one`"
    same("what is said about one that has another goal open", found["small/neither"], (True, said))
    expect(found, "small/one-of-two", True, "returns-clause-other")
    same("checks", [names for _, names in trial.crate.checks], [["neither", "one-of-two"], ["one-of-two"]])


def right_bodies_under_the_assumptions_of_mutants():
    trial = Small("neither", "one-of-two", "from-none").trial({
        "small/neither": ["returns-clause-other", "gone"], "small/one-of-two": ["returns-clause-other", "returns-clause-one"],
    }, True)
    same("right bodies", [(it.name, it.paths(), it.unasked) for it in trial.edits], [
        ("right-of-from-none", ["small::U16FromRefPair::from"], []),
        ("right-of-neither", ["small::twice_right_of_neither"], ["returns-clause-other"]),
    ])
    found = tried(trial)
    expect(found, "small/right-of-from-none", True, "")
    expect(found, "small/right-of-neither", True, "")


def right_bodies_without_goals_that_only_their_mutants_have():
    trial = Small("neither").trial({"small/neither": ["returns-clause-other", "gone"]}, True)
    expect(tried(trial), "small/right-of-neither", True, "")
    same("what is assumed", trial.edits[0].unasked, ["returns-clause-other"])
    same("checks", [names for _, names in trial.crate.checks], [["right-of-neither"], ["right-of-neither"]])


def a_right_body_that_is_rejected():
    for said, well, words in (
        ("depends on a hole in `Rattle.small.proofs.doubled_right_of_added_once.Answers.assumed`", True, ""),
        ("no holes", True, ""),
        ("no proof: `search` did not prove `returns`", False, "is rejected with the right body"),
        ("could not tell", False, "could not tell"),
    ):
        small = Small("added-once")
        trial = small.tried_by(Told(small.folder.name, {"right-of-added-once": f"fn {DOUBLED_RIGHT}: {said}\n"}), {}, None, True)
        expect(tried(trial), "small/right-of-added-once", well, words)
        same("what is kept", len(small.tried_by(None, {}, None, True).left), 0 if well else 1)


def answers_of_a_body_beside_the_right_one():
    small = Small("neither")
    use = "use Rattle.small.proofs.{}.Goals as "
    answer = "\npub returns-clause-one : goal.returns-clause-one\nreturns-clause-one g c = it_is g\n"
    for stored, name in (("", "unasked"), (f"{use.format('twice')}goal\n{answer}", "goal")):
        small.write("crates/small/proofs/twice/Answers.antt", stored)
        crate, room = small.crate({"small/neither": ["returns-clause-one"]}), os.path.join(small.folder.name, name)
        crate.furnish(room, crate.edits)
        crate.shorten(room, crate.edits, {"small::twice_neither"})
        text = mutant_checks.read(os.path.join(room, "proofs/twice_neither/Answers.antt"))
        same("whether its answers name its goals so", text.startswith(f"{use.format('twice_neither')}{name}\n"), True)
        same("how often the goals are brought in", text.count("Goals as "), 1)
        same("whether the goal is assumed",
             f"\npub returns-clause-one : {name}.returns-clause-one\nreturns-clause-one = assumed\n" in text, True)
        same("whether its stored answer goes", "it_is" in text, False)


def goals_that_need_not_be_asked():
    small = Small("neither")
    trial = small.trial()
    [blaming] = small.crate(None, {"small/neither": "its clauses (`returns-clause-one`): of 1 it answers 0"}).edits
    note = "note: src/lib.rt:59:1: it is not proved that what the function ensures holds when it returns (`{}`){}\n"
    false = "; the facts known there allow values at which this goal is false"
    said = note.format("returns-clause-one", "") + note.format("returns-clause-other", false)
    said += "fn small::twice_neither: not proved\n"
    group = trial.crate.edits
    trial.take(group, 1, judging.Said(trial.crate, group, said, {"small::twice_neither"}), 0)
    same("what need not be asked", trial.spared, {group[0]: ["returns-clause-one"]})
    for more, edit, known, spared in (
        ("", group[0], false, ["id-requires", "returns-clause-one"]),
        # (if none is known to be false, each may be it that is open or has a rejected answer)
        ("", group[0], "", ["id-requires"]),
        ("proofs/twice_neither/Answers.antt:1:1: error: `id-requires`: differs\n", group[0], "", []),
        ("proofs/twice_neither/Answers.antt:1:1: error: `gone`: `goal.gone`: module `Goals`\n", group[0], "",
         ["id-requires", "gone"]),
        ("", blaming, "", ["id-requires", "returns-clause-other"]),
    ):
        said = note.format("returns-clause-one", "") + note.format("returns-clause-other", known) + more
        said += "fn small::twice_neither: not proved\n"
        said += "goals of small::twice_neither: id-requires returns-clause-one returns-clause-other\n"
        told = judging.Said(trial.crate, [edit], said, {"small::twice_neither"})
        same("what need not be asked where goals are proved", told.to_spare(edit), spared)
    file = os.path.join(trial.checker.top, "unasked.txt")
    mutant_checks.write(file, "# Told.\n\nother/one: a, b\nsmall/gone: c\n")
    mutants.note_unasked(file, [trial])
    mine = "small: lemmas\nsmall/neither: returns-clause-one\n"
    same("what is written", mutant_checks.read(file), f"# Told.\n\nother/one: a, b\n{mine}")
    mutants.note_unasked(file, [trial], ["small"])
    same("what is written if a right body is rejected", mutant_checks.read(file), "# Told.\n\nother/one: a, b\n")


class Told:
    """A checker with a fixed output for a check, by the names of the mutants."""

    def __init__(self, top, said):
        self.top, self.said = top, said

    def lacking(self, _crate, proofs):
        return [] if proofs.has("low") else ["low"]

    def check(self, _crate, group, _brief, _shared):
        return 1, self.said[" ".join(it.name for it in group)], 1


def trial_of(small, said, by_hand=CASE):
    """A trial of a crate whose mutants are all reported in full, by a checker with this output."""
    trial = small.tried_by(Told(small.folder.name, said), by_hand)
    trial.full = {*trial.crate.edits}
    return trial


def a_body_that_waits_for_its_callee_is_tried_again():
    small = Small("from-none", "from-other")
    refused = "fn small::U16FromRefPair::from: no proof: `search` did not prove `returns`\n"
    waits = "note: `search` has not tried the goals of `small::fourfold_from_other`, which wait for a callee's proof\n"
    caller = "fn small::fourfold_from_other: no proof: it calls `small::U16FromRefPair::from`, which is not proved\n"
    alone = "fn small::fourfold_from_other: no proof: `search` did not prove `returns`\n"
    said = {"from-none from-other": refused + waits + caller, "from-other": alone}
    trial = trial_of(small, said, {"small/from-none": "a case", "small/from-other": "a case"})
    trial.left = [trial.crate.edits]
    found = tried(trial)
    expect(found, "small/from-none", True, "small::U16FromRefPair::from")
    expect(found, "small/from-other", True, "small::fourfold_from_other")
    same("checks", [names for _, names in trial.crate.checks], [["from-none", "from-other"], ["from-other"]])


def heard(lines, ended):
    """What is known of `rt ci` after these lines of its output."""
    proofs = mutants.Proofs(())
    proofs.hear(lines)
    proofs.ended = ended
    return proofs


def a_crate_waits_for_its_libraries():
    small = Small("added-once", "from-none", "from-one")
    made = lambda: trial_of(small, {})
    said = ["== low\n", "rt: lower NOT PROVED\n", "rt: low: its tests are proved\n", "rt: low is keptless\n"]
    for lines, ended, ready, faults in (
        (said, False, 0, []),
        ([*said, "rt: low proved\n"], False, 1, []),
        ([*said, "rt: low is kept: an earlier run on this machine proved the same\n"], False, 1, []),
        ([*said, "rt: low proved\n"], True, 1, []),
        (said, True, 0, ["no library of low is built: run rt ci first"]),
    ):
        trial = made()
        same("the first checks", len(trial.ready(heard(lines, ended))), ready)
        same("what is left for later", bool(trial.left), not faults)
        same("what fails", [why for _, _, why in trial.found], faults)
    stream = iter(["rt: low proved\n", "1 passed, 0 failed\n"])
    trial = made()
    group = [it for it in trial.crate.edits if it.name == "added-once"]
    trial.left, trial.checker.said = [group], {"added-once": REFUSED}
    [ended] = mutants.tried([trial], 2, mutants.Proofs(stream))
    same("the results", [(well, name) for well, name, _ in ended.found], [(True, "small/added-once")])


class Paced(Told):
    """A checker with which `rt ci` ends as soon as its first check has; the two checks after it wait for each other."""

    def __init__(self, top, said):
        super().__init__(top, said)
        self.first, self.others, self.running, self.beside = Event(), Barrier(2), 0, []

    def lines(self):
        yield "rt: low proved\n"
        self.first.wait()
        yield "1 passed, 0 failed\n"

    def check(self, *of):
        self.running += 1
        self.beside.append(self.running)
        if len(self.beside) == 1:
            # (the others have time enough to begin when they shouldn't)
            time.sleep(3)
            self.first.set()
        else:
            self.others.wait(30)
        self.running -= 1
        return super().check(*of)


def one_check_at_a_time_beside_the_proofs():
    small = Small("added-once")
    paced = Paced(small.folder.name, {"added-once": REFUSED})
    trials = [small.tried_by(paced, CASE) for _ in range(3)]
    for it in trials:
        it.full = {*it.crate.edits}
    ended = [*mutants.tried(trials, 2, mutants.Proofs(paced.lines()))]
    same("checks beside one another", paced.beside, [1, 1, 2])
    same("the results", [well for it in ended for well, _, _ in it.found], [True] * 3)


def nothing_is_tried_once_the_proofs_are_broken_off():
    trial = trial_of(Small("added-once"), {})
    proofs = mutants.Proofs(iter(["rt: low proved\n"]))
    proofs.hear_out()
    try:
        [*mutants.tried([trial], 1, proofs)]
        said = "nothing"
    except SystemExit as why:
        said = str(why)
    same("the message", said, "rt ci was broken off, so no more mutants are tried")


def edits_that_no_longer_fit():
    crate = Small("gone", "twice-there", "same-text", "clause").crate()
    same("those that are tried", [it.name for it in crate.edits], [])
    for name, words in (
        ("gone", "0 times, and not once"),
        ("twice-there", "3 times, and not once"),
        ("same-text", "it changes nothing"),
        ("clause", "more of src/lib.rt than the bodies"),
    ):
        same(f"whether `{crate.unfit[name]}` says `{words}`", words in crate.unfit[name], True)


def unknown_words_are_a_mistake():
    same("a crate and options", mutants.mistake(["--anew", "small"], {"small": []}), None)
    for word in ("--help", "smal", "-"):
        told = mutants.mistake(["small", word], {"small": []})
        same(f"what is said of {word}", told.partition(" and ")[0], f"{word} is no crate of crates.txt,")


def groups_of(crate):
    return crate.groups(crate.edits)


def named(groups):
    return [[it.name for it in group] for group in groups]


def mutants_that_share_a_check():
    small = Small("added-once", "half-of-it", "same-sum", "nothing-said")
    same("all mutants that are beside their originals", named(groups_of(small.crate())),
         [["added-once", "half-of-it", "nothing-said", "same-sum"]])
    small = Small("from-one", "from-none", "from-other", "nothing-said")
    same("a body of a trait's impl replaces the original, and may be called there", named(groups_of(small.crate())),
         [["from-none", "from-other", "nothing-said"], ["from-one"]])
    for count, size in ((1, 1), (3, 3), (4, 2), (5, 3), (7, 3)):
        same(f"the size of groups of {count}, of at most 3 each", mutant_checks.size_of_groups(count, 3), size)
    crate = Small("from-one", "from-none", "from-other", "nothing-said").crate()
    crate.MOST = 2
    same("groups of one size, in which no two bodies replace one", named(groups_of(crate)),
         [["from-none", "from-other"], ["from-one", "nothing-said"]])


def what_is_not_changed_is_taken_at_its_word():
    small = Small("added-once")
    small.write("crates/small/proofs/fourfold/Answers.antt", "pub returns : goal.returns\n")
    small.write("crates/small/proofs/fourfold/Words.antt", "-- of its own\n")
    small.write("crates/small/proofs/doubled/Answers.antt", "pub returns : goal.returns\n")
    crate, room = small.crate(), os.path.join(small.folder.name, "room")
    crate.furnish(room, crate.edits)
    text = crate.texts(crate.edits)["src/lib.rt"]
    whole = [it.strip() for it in text.split("\n") if "loop" in it or it.strip() in ("u16::from(n)", "4")]
    same("bodies", whole, [
        "{ loop {}", "{ loop {}", "u16::from(n)", "{ loop {}", "pub fn silent(n: u8) -> u8 { loop {}", "4", "{ loop {}",
        "fn from(pair: &Pair) -> u16 { loop {}", "{ loop {}",
    ])
    beside = "}\n\npub fn doubled_added_once(n: u8) -> u16\n    ensures { result \u2261 n + n }\n{\n    u16::from(n)\n}"
    same("whether the mutant has the original's head and another name", beside in text, True)
    files = {os.path.relpath(os.path.join(at, it), room) for at, _, names in os.walk(room) for it in names}
    same("files", files, {
        "src/lib.rt", "proofs/Pair/first/Proof.antt", "proofs/doubled/Proof.antt", "proofs/fourfold/Proof.antt",
        "proofs/fourfold/Words.antt", "proofs/silent/Proof.antt", "proofs/four/Proof.antt", "proofs/trebled/Proof.antt",
        "proofs/twice/Proof.antt", "proofs/U16FromRefPair/from/Proof.antt", "proofs/doubled_added_once/Answers.antt",
    })
    with open(os.path.join(room, "proofs/Pair/first/Proof.antt"), encoding="utf-8") as it:
        same("a hole", it.read(), "use Rattle.small.proofs.Pair.first.Statement.{statement}\n"
             f"{mutant_checks.ASSUMED}pub first_spec : {{M : Type 1}} \u2192 statement M\nfirst_spec = assumed\n")


LEMMAS = """use Words.{N}

-- what it says
lemma : (n : N) \u2192
    n \u2261 n
unfolding opened
lemma zero = refl
lemma (suc n) = by n
  where
    by : N
    by = n

opened : N \u2192 N
opened n = n

abbrev pub open : N
open = zero

module _ (n : N) where
  -- of n
  pub inner : n \u2261 n
  inner = record {
    at = n;
  }

record Two : Type 0 where
  one : N

◌!◌ : N \u2192 N
a ! b = a
"""
ASSUMED = f"""use Words.{{N}}

-- what it says
{mutant_checks.ASSUMED}lemma : (n : N) \u2192
    n \u2261 n
lemma = assumed

opened : N \u2192 N
opened n = n

abbrev pub open : N
open = zero

module _ (n : N) where
  pub inner : n \u2261 n
  inner = assumed

record Two : Type 0 where
  one : N

◌!◌ : N \u2192 N
a ! b = a
"""


def lemmas_are_taken_at_their_word():
    small = Small("added-once")
    small.write("crates/small/proofs/Words.antt", LEMMAS)
    for unasked, text in (({}, LEMMAS), ({"small": ["lemmas"]}, ASSUMED)):
        crate, room = small.crate(unasked), os.path.join(small.folder.name, f"room{len(unasked)}")
        crate.furnish(room, crate.edits)
        same("lemmas", mutant_checks.read(os.path.join(room, "proofs/Words.antt")), text)


def a_body_ensures_what_its_case_is_of():
    small = Small("neither", "one-of-two")
    answers = [f"pub returns-clause-{it} : goal.returns-clause-{it}\nreturns-clause-{it} g c = {it}_is g\n\n"
               for it in ("one", "other")]
    lemma = "one_is : (g : Ghosts) \u2192 g.one \u2261 g.one\none_is g = refl\n\n"
    between = "between : N\nbetween = zero\n\n"
    answers[0] += between
    small.write("crates/small/proofs/twice/Answers.antt", lemma + "".join(answers))
    cases = {"small/neither": "other: of 1 it answers 0", "small/one-of-two": "its one clause: of 1 it answers 0"}
    crate, room = small.crate(cases=cases), os.path.join(small.folder.name, "room")
    crate.furnish(room, crate.edits)
    heads = re.findall(r"fn (twice_\w+)[^\n]*\n(.*?)\n\{", mutant_checks.read(os.path.join(room, "src/lib.rt")), re.DOTALL)
    one, other = (f"    ensures {it} {{ result.{at} \u2261 n }}" for at, it in enumerate(("one", "other")))
    same("what each ensures", dict(heads), {"twice_neither": other, "twice_one_of_two": f"{one}\n{other}"})
    alone = "pub returns : goal.returns\nreturns g c = record {\n  other = (other_is g);\n}\n\n"
    for name, kept in (("neither", lemma + between + alone), ("one_of_two", lemma + "".join(answers))):
        same(f"the answers of {name}", mutant_checks.read(os.path.join(room, f"proofs/twice_{name}/Answers.antt")), kept)
    same("which goals of its clause have answers", crate.answered("small::twice_neither"), {"returns"})
    sums = [{it.name: its.sum_of(it) for it in its.edits} for its in (crate, small.crate())]
    same("whose sum its case is of", [it for it in sums[0] if sums[0][it] != sums[1][it]], ["neither"])


def a_caller_is_not_blamed_for_its_callee():
    small = Small("added-once")
    callee = f"fn {DOUBLED}: no proof: `search` did not prove `returns`\n"
    caller = f"fn small::fourfold: no proof: it calls `{DOUBLED}`, which is not proved\n"
    same("what is reported", [*small.judged(callee + caller)], ["small/added-once"])
    caller = caller.replace("it calls", "`search` did not prove `returns`; it calls")
    expect(small.judged(callee + caller), "small::fourfold", False, "nothing is wrong with it")


def a_refused_lemma_is_told_of():
    small = Small("added-once")
    for line, told in (
        ("./proofs/fourfold/Proof.antt:3:5: `fourfold_spec` is not admitted: has-holes\n", False),
        (f"./proofs/doubled_added_once/Answers.antt:2:1: error: `{mutant_checks.UNREAD}`: it is not in scope\n", False),
        ("./proofs/Sums.antt:2:1: error: `twice` is not in scope\n", True),
        ("./proofs/Sums.antt:2:1: `sums` is not admitted: has-errors\n", True),
    ):
        found = small.judged(line + FALSE + REFUSED)
        expect(found, "small/added-once", True, DOUBLED)
        same("whether the lemma is reported", "small/proofs/Sums.antt" in found, told)


def a_function_told_of_in_brief():
    crate = Small("added-once").crate()
    group = crate.groups(crate.edits)[0]
    refused = f"fn {DOUBLED}: not proved\n"
    answers = "./proofs/doubled_added_once/Answers.antt:2:1: error: `"
    for text, silent in (
        (OPEN + refused, False),
        ("note: src/lib.rt:27:1: `search` found no proof (`invariant_of-result`); it gave up\n" + refused, False),
        (refused, True),
        (OPEN.replace(":27:", ":33:") + refused, True),
        (f"{answers}{mutant_checks.UNREAD}`: `NoLinesWanted` is not in scope\n{refused}", True),
        (f"{answers}returns`: `c.none` is not in scope\n{refused}", False),
    ):
        said = judging.Said(crate, group, text, crate.brief(group))
        same("whether nothing of it is open", said.silent(group[0]), silent)
        same("how often it is rejected", len(said.refusals(DOUBLED)), 0 if silent else 1)
    same("whether it is silent if it is reported in full",
         judging.Said(crate, group, refused).silent(group[0]), False)


def a_body_joins_the_first_group_that_it_may_stand_in():
    once, half, nothing, other = Small("added-once", "nothing-said", "other-for-one", "half-of-it").crate().edits
    groups = mutant_checks.joined([[once], [half]], [once, nothing, other])
    same("groups", named(groups), [["added-once", "nothing-said", "other-for-one"], ["half-of-it", "added-once"]])


def attributes_are_lines_of_their_function():
    small = Small()
    small.write("crates/small/src/at.rt", """
fn one() {}

/// Told of.
#[tactic(auto, using(crate::proofs::At::lemma))]
#[cycle(at)]
pub(crate) fn other(a: [u8; 2]) -> u8 {
    a[0]
}
""")
    sources = Sources(small.crate().folder, "small")
    same("lines", judging.spans(sources, "src/at.rt", sources.texts["src/at.rt"]),
         [("small::at::one", 2, 2), ("small::at::other", 5, 9)])


def paths_as_rattle_prints_them():
    small = Small()
    small.write("crates/small/src/at/place.rt", """
impl crate::Pair { fn other(&self) -> u16 { let c = '{'; /* } */ self.other } }
impl<'a, T: Fn(u8) -> bool, const N: usize> From<Vec<&'a T>> for Kept<T, N> where T: Drop {
    fn from(v: Vec<&T>) -> Self { "}" }
}
impl Show for (u8, u16) { fn show(&self) {} }
impl Show for () { fn show(&self) {} }
impl Show for &str { fn show(&self) {} }
impl<T: Drop> Show for T { fn show(&self) {} }
impl<'a, T, const N: usize> Kept<'a, T, N> { fn own(&self) {} }
impl<T> Kept<T, crate::Pair> { fn made() {} }
pub trait Show {
    ghost seen : { ℕ }
    fn show(&self) ensures { { a } ≡ { b } };
    fn shown(&self) -> [u8; 2] { [0; 2] }
}
mod inner { fn f() { fn g() {} } }
""")
    sources = Sources(small.crate().folder, "small")
    found = [sources.path(it).removeprefix("small::") for it in sources.found["src/at/place.rt"]]
    same("paths", found, [
        "Pair::other", "at::place::KeptFromVecRef::from", "at::place::Tuple2Show::show", "at::place::UnitShow::show",
        "at::place::RefStrShow::show", "at::place::AnyShow::show", "at::place::Kept::own", "at::place::Kept+T+Pair::made",
        "at::place::Show::shown", "at::place::inner::f",
    ])


def an_open_goal_alone_shows_nothing():
    small = Small("added-once")
    for stored in ("", "pub returns-clause-sum : goal.returns-clause-sum\n"):
        if stored:
            small.write("crates/small/proofs/doubled/Answers.antt", stored)
        for said, well in (
            ("", False),
            (OPEN, False),
            (OPEN.replace("returns`", "returns-then-n-clause-sum`"), False),
            (FALSE.replace("returns`", "returns-then-n-clause-sum`"), True),
            (FALSE.replace("returns`", "loop-n-preserved`"), False),
        ):
            refused = f"{said}fn {DOUBLED}: not proved\n"
            expect(small.judged(refused), "small/added-once", well, "" if well else "no case is written out")
            expect(small.judged(refused, CASE), "small/added-once", True, DOUBLED)


class Killed(Told):
    """A checker whose first checks are killed, this many of them."""

    def __init__(self, top, said, times):
        super().__init__(top, said)
        self.times = times

    def check(self, *of):
        self.times -= 1
        return (1, "half a", -9) if self.times >= 0 else super().check(*of)


def a_check_that_is_killed_is_tried_once_more():
    for times, why in ((1, f"{DOUBLED}: no proof: `search` did not prove `returns`"),
                       (2, "its check was killed twice, with status -9")):
        small = Small("added-once")
        trial = small.tried_by(Killed(small.folder.name, {"added-once": REFUSED}, times), CASE)
        trial.full = {*trial.crate.edits}
        same("the results", tried(trial), {"small/added-once": (times == 1, why)})


LOW = """//! Numbers, for numbers.
/// What numbers come from.
pub trait Origin {
    fn given(&self) -> u8 {
        0
    }
}

pub const fn none() -> u8 {
    1 - 1
}

pub fn one() -> u8
    ensures { result \u2261 1 }
{
    2 - 1
}
"""

NUMBERS = "pub zero : Nat\n"


def what_is_refused_is_kept_until_something_that_its_check_read_changes():
    small = Small("added-once")
    small.write("crates.txt", "low:\nsmall: low\n")
    small.write("crates/low/src/lib.rt", LOW)
    known = lambda: small.tried_by(None, CASE).known
    same("what is known at first", known(), 0)
    tried(trial_of(small, {"added-once": REFUSED}))
    same("what is known then", known(), 1)
    same("whether it passes with no case of it", [well for well, _, _ in small.tried_by(None, {}).found], [False])
    kept = trial_of(small, {})
    same("whether it passes without a check", tried(kept)["small/added-once"][0], True)
    same("checks", kept.crate.checks, [])
    for file, old, new, count in (
        ("small/src/lib.rt", "n // said of nothing", "n + 0", 1),
        ("small/src/lib.rt", "pair.other // taken", "\n\npair.other // taken", 1),
        ("small/src/lib.rt", "{ result \u2261 n + n }", "{ result \u2261 n + n + 0 }", 0),
        ("small/src/lib.rt", "pub other: u16", "pub other: u32", 0),
        ("small/mutants/added-once.edit", "new: u16", "new: 0 + u16", 0),
        ("low/src/lib.rt", "2 - 1", "1 + 0", 1),
        ("low/src/lib.rt", "1 - 1", "0 + 0", 0),
        ("low/src/lib.rt", "        0", "        1", 0),
        ("low/src/lib.rt", "result \u2261 1", "result \u2261 1 + 0", 0),
    ):
        path = f"crates/{file}"
        whole = mutant_checks.read(os.path.join(small.folder.name, path))
        same(f"how often {old} is in {file}", whole.count(old), 1)
        small.write(path, whole.replace(old, new))
        same(f"what is known with {new} in {file}", known(), count)
        small.write(path, whole)
    for file, count in (
        ("small/specs/Numbers.antt", 0), ("small/proofs/Sums.antt", 0), ("small/proofs/doubled/Answers.antt", 0),
        ("small/proofs/fourfold/Answers.antt", 1), ("low/specs/Numbers.antt", 0), ("low/proofs/Sums.antt", 0),
        ("low/proofs/one/Answers.antt", 1),
    ):
        small.write(f"crates/{file}", "-- new\n")
        same(f"what is known with a new {file}", known(), count)
        os.remove(os.path.join(small.folder.name, "crates", file))
    same("what is known in the end", known(), 1)


def what_is_noted_is_not_tried_until_what_decides_it_changes():
    small = Small("added-once", "half-of-it")
    small.write("crates.txt", "low:\nsmall: low\n")
    small.write("crates/low/src/lib.rt", LOW)
    small.write("crates/low/specs/Numbers.antt", NUMBERS)
    file = os.path.join(small.folder.name, "rejected.txt")
    of_file = lambda tried=(): Noted(small.folder.name, small.uses(), file, noted(file), tried)
    crate = lambda case: small.crate(None, {"small/added-once": case})
    known = lambda case="a case", tried=(): [of_file(tried).has(it, edit) for it in [crate(case)] for edit in it.edits]
    same("what is noted without a file", known(), [False, False])
    small.write("rejected.txt", "other/one: 0\nsmall/gone: 1\n")
    trial = small.tried_by(None, CASE)
    trial.crate = crate("a case")
    trial.edits = trial.crate.edits
    trial.found = [(True, "small/added-once", ""), (False, "small/half-of-it", "")]
    of_file().note([trial])
    same("the lines that are left", [*noted(file)], ["other/one", "small/added-once"])
    same("what is noted then", known(), [True, False])
    same("what is noted with another case", known("another case"), [False, False])
    same("whether a named mutant is tried all the same", known(tried=["small/added-once"]), [False, False])
    for path, old, new, count in (
        ("small/src/lib.rt", "n // said of nothing", "n + 0", True),
        ("small/src/lib.rt", "/// The crate's type.", "/// A type.", True),
        ("small/src/lib.rt", "{ result \u2261 n + n }", "{ result \u2261 n + n + 0 }", False),
        ("small/src/lib.rt", "{ result \u2261 n + n + (n + n) }", "{ result \u2261 n + n + n + n }", True),
        ("small/src/lib.rt", "pub other: u16", "pub other: u32", False),
        ("small/src/lib.rt", "Prelude.{\u25cc\u2261\u25cc, ", "Prelude.{unused, \u25cc\u2261\u25cc, ", True),
        ("small/src/lib.rt", "std.specs.Prelude.{\u25cc\u2261\u25cc, ", "low.specs.Numbers.{\u25cc\u2261\u25cc, ", False),
        ("small/mutants/added-once.edit", "new: u16", "new: 0 + u16", False),
        ("low/src/lib.rt", "2 - 1", "1 + 0", True),
        ("low/src/lib.rt", "1 - 1", "0 + 0", False),
        ("low/src/lib.rt", "pub fn one", "pub fn two", False),
        ("low/src/lib.rt", "result \u2261 1", "result \u2261 1 + 0", False),
        ("low/src/lib.rt", "pub fn one", "fn of_its_own() {}\n\npub fn one", True),
    ):
        whole = mutant_checks.read(os.path.join(small.folder.name, "crates", path))
        same(f"how often {old} is in {path}", whole.count(old), 1)
        small.write(f"crates/{path}", whole.replace(old, new))
        same(f"what is noted with {new} in {path}", known()[0], count)
        small.write(f"crates/{path}", whole)
    for path, text, count in (
        ("low/specs/Numbers.antt", "-- Numbers.\npub zero : Nat\n", True), ("low/specs/Numbers.antt", "pub one : Nat\n", False),
        ("small/specs/Numbers.antt", "pub one : Nat\n", False), ("small/proofs/Sums.antt", "pub one : Nat\n", True),
        ("small/proofs/doubled/Answers.antt", "pub one : Nat\n", True), ("low/proofs/Sums.antt", "pub one : Nat\n", True),
    ):
        small.write(f"crates/{path}", text)
        same(f"what is noted with `{text.strip()}` in {path}", known()[0], count)
        os.remove(os.path.join(small.folder.name, "crates", path))
        small.write("crates/low/specs/Numbers.antt", NUMBERS)
    trial = small.trial()
    again = mutants.Trial(trial.crate, trial.checker, CASE, trial.kept, False, trial.crate.edits[:1])
    same("which mutants are left to try", [it.name for group in again.left for it in group], ["half-of-it"])
    same("what passes without a check", [(well, name) for well, name, _ in again.found], [(True, "small/added-once")])


def what_shares_a_check_with_another_fault_is_not_kept():
    small = Small("added-once")
    caller = "fn small::fourfold: no proof: `search` did not prove `returns`\n"
    tried(trial_of(small, {"added-once": REFUSED + caller}))
    same("what is known", small.tried_by(None, CASE).known, 0)


PROVER = [
    what_the_prover_says,
    goals_that_go_unasked,
    right_bodies_under_the_assumptions_of_mutants,
    right_bodies_without_goals_that_only_their_mutants_have,
]
STAND_INS = [
    edits_that_no_longer_fit,
    unknown_words_are_a_mistake,
    mutants_that_share_a_check,
    what_is_not_changed_is_taken_at_its_word,
    lemmas_are_taken_at_their_word,
    a_body_ensures_what_its_case_is_of,
    a_caller_is_not_blamed_for_its_callee,
    a_refused_lemma_is_told_of,
    a_function_told_of_in_brief,
    a_body_joins_the_first_group_that_it_may_stand_in,
    attributes_are_lines_of_their_function,
    paths_as_rattle_prints_them,
    an_open_goal_alone_shows_nothing,
    a_check_that_is_killed_is_tried_once_more,
    what_is_refused_is_kept_until_something_that_its_check_read_changes,
    what_is_noted_is_not_tried_until_what_decides_it_changes,
    what_shares_a_check_with_another_fault_is_not_kept,
    a_body_that_waits_for_its_callee_is_tried_again,
    a_crate_waits_for_its_libraries,
    one_check_at_a_time_beside_the_proofs,
    nothing_is_tried_once_the_proofs_are_broken_off,
    a_right_body_that_is_rejected,
    answers_of_a_body_beside_the_right_one,
    goals_that_need_not_be_asked,
]


if __name__ == "__main__":
    run_all(PROVER if "--prover" in sys.argv else STAND_INS)
