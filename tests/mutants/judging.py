"""When a contract kills a mutant: what rattle says in a check, and how that is judged."""
import re

from functions import functions
from mutant_checks import UNREAD, head

# What a check finds about a mutant: values are known for which an open goal is false, so no proof can be written in any form;
# or goals are open, which shows nothing if the search has given up; or neither. And that a right body is proved.
FALSE, OPEN, FAULT, RIGHT = "false", "open", "fault", "right"


class Said:
    """The output of a check for each function."""

    FUNCTION = re.compile(r"(?m)^fn (\S+): (proved|not proved|no proof|could not tell|no holes|depends on a hole)(.*)$")
    # If a callee, or a block that is passed on, isn't proved, that is no fault of its caller.
    CALLS = re.compile(r"\bit (?:calls|passes the block) .*?, which (?:is|are) not proved")
    UNPROVED = re.compile(r"(?s).*?did not prove (.*?)(?:; it calls.*|\Z)")
    OPEN = re.compile(
        r"(?m)^note: (src/\S+?):(\d+):\d+: (?:it is not proved that .*?|`search` found no proof )\(`([^`]+)`\)(.*)$"
    )
    WAITS = re.compile(r"(?m)^note: `search` has not tried the goals of `([^`]+)`, which wait for a callee's proof")
    ANTT = re.compile(r"(?m)^(?:\./)?((?:specs|proofs)/[^\s:]+):\d+:\d+: (?:error|`\S+` is not admitted: (?!has-h))")
    GOALS = re.compile(r"(?m)^goals of (\S+): (.*)$")
    FRONT = re.compile(r"(?m)^(?:\./)?(src/[^\s:]+):(\d+):\d+: error\S* (.*)$")

    def __init__(self, crate, group, said, brief=()):
        self.crate, self.text, self.brief = crate, said, brief
        self.unasked = {path: it.unasked for it in group for path in it.paths()}
        self.lines = {it[1]: (it[2], it[3].strip(": ")) for it in self.FUNCTION.finditer(said)}
        self.waiting = {*self.WAITS.findall(said)}
        self.named = {path: goals.split() for path, goals in self.GOALS.findall(said)}
        self.places = {file: spans(crate.sources, file, text) for file, text in crate.texts(group).items()}
        self.open = {}
        for file, line, goal, more in self.OPEN.findall(said):
            self.open.setdefault(self.at(file, int(line)), {})[goal] = "values at which this goal is false" in more

    def at(self, file, line):
        """The function around a line of the checked text."""
        return next((path for path, first, last in self.places.get(file, ()) if first <= line <= last), None)

    def why(self, path):
        """Why a function is rejected for its own sake; None if it isn't."""
        kind, why = self.lines[path]
        own = self.CALLS.sub("", why).strip("; ")
        if kind == "not proved" or kind == "no proof" and own:
            return f"{kind}{': ' if own else ''}{own}"
        return None

    def of(self, path):
        """The paths of a function and of the closures in it."""
        return [it for it in self.lines if it == path or it.replace("::fn::", "::", 1).startswith(f"{path}::")]

    def refusals(self, path):
        """Why a function or a closure in it is rejected for its own sake; for one reported in brief, its open goals."""
        if path in self.brief:
            goals = [f"`{it}`" for it in self.open.get(path, {})]
            told = f": `search` did not prove {', '.join(goals)}" if goals else ""
            return [f"not proved{told}"] * bool(goals or self.misfits(path))
        return [why for why in map(self.why, self.of(path)) if why]

    def misfits(self, path):
        """Whether a stored answer of a function doesn't fit its body."""
        folder = re.escape(self.crate.answers(path))
        own = "|".join([UNREAD, *self.unasked.get(path, ())])
        return bool(re.search(rf"(?m)^(?:\./)?{folder}/.*: error(?!: `(?:{own})`)", self.text))

    def strays(self, paths):
        """The files of definitions and lemmas that are rejected, except for the proofs of these functions."""
        own = tuple(f"{self.crate.answers(path)}/" for path in paths)
        return sorted({it for it in self.ANTT.findall(self.text) if not it.startswith(own)})

    def silent(self, edit):
        """Whether a brief report of a mutant doesn't show that it is killed, so that it is checked again."""
        return not all(self.refusals(path) for path in edit.paths() if path in self.brief) and not edit.is_right

    def goals(self, path):
        """The open goals of a function except for those of invariants, and whether values are known for which each is false."""
        unproved = self.UNPROVED.match(self.why(path) or "")
        found = dict.fromkeys(re.findall(r"`([^`]+)`", unproved[1]) if unproved else [], False)
        found.update(self.open.get(path, {}))
        return {it: false for it, false in found.items() if not re.match(r"loop|invariant|decreases|iterator", it)}

    def is_false(self, path):
        """Whether values are known for which an open goal is false."""
        return any(self.goals(path).values())

    def suspects(self, path):
        """The goals of a function of which one is false if no proof can be written: those that are open, and those whose stored
        answers are rejected."""
        unproved = self.UNPROVED.match(self.why(path) or "")
        found = dict.fromkeys(re.findall(r"`([^`]+)`", unproved[1]) if unproved else [])
        rejected = [it for it, has_goal in self.rejected_answers(path).items() if has_goal]
        return {**found, **dict.fromkeys(self.open.get(path, ())), **dict.fromkeys(rejected)}

    def rejected_answers(self, path):
        """The stored answers of a function that are rejected, and whether its body has such a goal."""
        folder = re.escape(self.crate.answers(path))
        found = re.findall(rf"(?m)^(?:\./)?{folder}/.*: error: `([^`]+)`(: `\w+\.\1`: module )?", self.text)
        return {it: not gone for it, gone in found if it not in (UNREAD, *self.unasked.get(path, ()))}

    def to_spare(self, edit):
        """The goals of a mutant's function that need not be asked: those that are proved. If values are known for which one is
        false, or its case names one, that one is enough. Nor need answers be read to goals that its body doesn't have."""
        [path, *more] = edit.paths()
        if more or path not in self.lines or not self.refusals(path):
            return []
        suspects = self.suspects(path)
        known = [it for it, is_false in self.goals(path).items() if is_false] or [it for it in edit.blamed if it in suspects]
        asked = {*known[:1]} or suspects
        # (a goal with several clauses is answered as a whole, or clause by clause)
        stored = self.crate.answered(path) or ()
        wholes = tuple(f"{it}-clause-" for it in stored)
        named = [it for it in self.named.get(path, self.open.get(path, ())) if it not in asked and not it.startswith(wholes)]
        named = [it for it in named if not any(other.startswith(f"{it}-clause-") for other in stored)]
        return named + [it for it, has_goal in self.rejected_answers(path).items() if not has_goal]

    def missing(self, edit):
        """The goals that go unasked of a right body, and that it doesn't have: they are of mutants."""
        folders = "|".join(re.escape(self.crate.answers(path)) for path in edit.paths())
        found = re.findall(rf"(?m)^(?:\./)?(?:{folders})/.*: error: `([^`]+)`: `\w+\.\1`: module ", self.text)
        return [it for it in found if it in edit.unasked]


def spans(sources, file, text):
    """The functions of a text of a file, each with its first line, where its attributes begin, and its last."""
    line = lambda place: text.count("\n", 0, place) + 1
    found = functions(text, sources.module_of(file))
    return [(sources.path(it), line(head(text, it)[0]), line(it.body[1])) for it in found]


def found_of(edit, said):
    """What a check finds about a mutant, or about a right body in place of mutants, and what to print."""
    faults, told, known = [], [], []
    for path in edit.paths():
        why = said.refusals(path) if path in said.lines else []
        if path not in said.lines:
            faults.append(f"rattle names no function {path}")
        elif said.lines[path][0] == "could not tell":
            faults.append(f"{path}: could not tell")
        elif edit.is_right:
            faults += [f"{path} is rejected with the right body under the assumptions of its mutants' checks: {it}" for it in why]
        elif not why:
            faults.append(f"{path} is NOT KILLED: it is proved with this body")
        else:
            known.append(said.is_false(path))
        told += [f"{path}: {it}" for it in why]
    kind = FAULT if faults else RIGHT if edit.is_right else FALSE if all(known) else OPEN
    return kind, "; ".join(faults or told)


def judged(crate, group, said):
    """What was found about each mutant of a group, with its name and what to print; then the other rejected functions."""
    for edit in group:
        kind, told = found_of(edit, said)
        yield kind, f"{crate.name}/{edit.name}", told
    meant = {it for edit in group for path in edit.paths() for it in said.of(path)}
    for path in said.lines:
        if path not in meant and said.why(path):
            yield FAULT, path, f"rejected, though nothing is wrong with it: {said.why(path)}"
    for file in said.strays(path for edit in group for path in edit.paths()):
        yield FAULT, f"{crate.name}/{file}", "rejected, though nothing is wrong with it"
