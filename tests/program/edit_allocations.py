#!/usr/bin/env python3
"""Each edit of a line, with each of its allocations failing in turn: text, cursor and events must agree after it. The same for
each call of the undo record and of the kill ring, and for each call of a history. For each edit of `line_edits` and each
command of `execute` the tables of tests/program/edit_allocations.txt say what may be left.

`rt ci` builds crates/sessions_program first. With the argument `calls` the program makes one call per row, and checks the
result itself. It prints WRONG for a wrong one, "not begun" if an allocation failed before the call, and "not judged" if one
failed after it. With `edits` or `commands` it makes the steps that follow, and prints the state after each of them. Here each
allocation of such a run fails once.
"""
import glob
import os
import re
import subprocess
import sys
import tempfile

sys.path += glob.glob(os.path.join(os.path.dirname(os.path.dirname(os.path.realpath(__file__))), "*", ""))
from checks import HUNG, TOP, Failed, built, run_all, same, shim
from display import Display, Drawing

PROGRAM = built("sessions_program")
TABLES = os.path.join(TOP, "tests", "program", "edit_allocations.txt")
MOST = 10000

# Rows of calls that allocate, so each of them must have failed at least once.
GROWING = {
    "insert", "update", "yank", "indent",
    "letter recorded", "letter joined", "paste recorded", "replacement joined",
    "update recorded", "edit_word recorded", "transpose_words recorded", "indent recorded",
    "kill in the ring", "kill joined in the ring", "kill over the oldest",
    "undo", "undo of all", "redo of all", "last_insert", "copy of the record",
    "history add", "history add where full", "history add_owned", "history load_from", "history save_to",
    "history append_to", "history hint",
}

# The number of the program's rows for calls.
ROWS = 48

COLUMNS = 20
PROMPT = "> "
# More items than any row records.
ALL = 8
# The message if the arguments don't fit into memory.
UNREAD = b"Error: out of memory\n"
# How a step ends that neither failed nor was unknown.
ANSWERED = {"done", "Submit", "Interrupted", "Eof"}


def run_program(arguments, number, report):
    told = {"LD_PRELOAD": shim("fail_alloc"), "FAIL_ALLOCATION": str(number), "FAIL_ALLOCATION_REPORT": report}
    return subprocess.run([PROGRAM, *arguments], capture_output=True, timeout=HUNG, env=told)


def rows_of(ran):
    """The rows that a run prints; none if the allocation of its arguments failed."""
    if (ran.returncode, ran.stderr) == (1, UNREAD):
        return []
    same("standard error", ran.stderr, b"")
    same("status", ran.returncode, 0)
    return [tuple(row.split(": ")) for row in ran.stdout.decode().splitlines()]


def each_allocation_failed():
    refused, begun = set(), False
    with tempfile.TemporaryDirectory() as folder:
        report = os.path.join(folder, "refused")
        for number in range(1, MOST):
            rows = rows_of(run_program(["calls"], number, report))
            words = [word for _, word in rows if word != "done"]
            if not os.path.exists(report):
                same("rows that were told", len(rows), ROWS)
                same("rows of a run with ample memory that are not done", words, [])
                break
            os.remove(report)
            begun = begun or words != []
            # (a block shrunk for the arguments may stay as it is)
            if begun and (len(words) != 1 or words[0] not in ("refused", "not begun", "not judged")):
                raise Failed(f"call {number}: {rows}")
            refused.update(name for name, word in rows if word == "refused")
        else:
            raise Failed(f"{MOST} allocations, and no end")
    print(f"allocations that failed in turn: {number - 1}; calls that failed at least once: {', '.join(sorted(refused))}", flush=True)
    same("rows of calls that allocate and never failed", sorted(GROWING - refused), [])


def pictured(text):
    shown = text.replace("\n", "␊")
    return re.sub(r"^ | $", "␠", shown)


def meant(shown):
    return shown.replace("␊", "\n").replace("␠", " ")


class State:
    """The state that the program prints after a step: how it ended, and what the line and its record are."""

    def __init__(self, told, entries):
        self.word, text, place, *rest = told.split("\t")
        self.line = text
        raw = text.encode()
        self.bar = pictured(raw[:int(place)].decode() + "|" + raw[int(place):].decode())
        *rest, slots, present = self.ring_of(rest, entries)
        self.ring = [("*" if at == int(present) and len(slots) > 1 else "") + slot for at, slot in enumerate(slots)]
        self.hint, self.place, self.layout, self.mark = "", None, None, None
        if entries is None:
            (self.mark,) = rest
        else:
            self.hint, index, layout = rest
            self.place = int(index) if int(index) != entries else None
            self.layout = [int(number) for number in layout.split()]

    @staticmethod
    def ring_of(rest, entries):
        """The fields before the ring's, its slots, and the current one."""
        count = 1 if entries is None else 3
        return (*rest[:count], rest[count:-1], rest[-1])

    def shown(self, *more):
        """How the step ended if the line doesn't continue, and the state, in the tables' words."""
        words = [self.word] if self.word not in ("done", "refused") else []
        words += [self.bar + (f"{{{pictured(self.hint)}}}" if self.hint else "")]
        words += ["ring:" + ",".join(map(pictured, self.ring))] if self.ring else []
        words += [f"place:{self.place}"] if self.place is not None else []
        return " ".join([*words, *more])


class Ran:
    """The states of a run after its first steps, in order, with the display's bytes before each."""

    def __init__(self, ran, entries, count):
        self.begun = ran.stderr not in (b"not begun\n", UNREAD)
        same("status", ran.returncode, 1 if ran.stderr == UNREAD else 0)
        parts = [part.partition(b"\x1d") for part in ran.stderr.split(b"\x1e")[:count]] if self.begun else []
        self.states = [State(told.decode(), entries) for _, mark, told in parts if mark]
        self.bytes = [shown for shown, mark, _ in parts if mark]


class Row:
    """A row of the tables."""

    def __init__(self, kind, settings, text):
        self.kind, self.settings, self.text = kind, settings, text
        said, _, wanted = text.partition(" = ")
        line, _, steps = said.partition(": ")
        self.line = meant(line.replace("|", ""))
        self.start = self.begun(*map(meant, line.split("|")))
        *self.before, self.last = steps.split("; ")
        self.done, *left = wanted.split(" / ")
        self.left = [tuple(pair.split(" > ")) for pair in left]
        self.at = len(self.start) + len(self.before) + 1
        self.entries = None if kind == "edits" else len([it for it in settings["history"].split(",") if it])

    def begun(self, before, behind):
        """The steps that set the line, and draw it."""
        if self.kind == "edits":
            return [f"insert_text 0 {before + behind}", f"at {len(before.encode())}"]
        return [f"put {before}", "Move EndOfBuffer", f"put {behind}", "Repaint"]

    def name(self):
        return self.last.partition(" ")[0].replace("AtEnd", "")

    def run(self, after, number, report):
        """A run with further steps. All runs of a row have as many, so that they need the same memory for them."""
        steps = [*self.start, *self.before, "tighten", self.last, *after]
        settings = [] if self.kind == "edits" else [self.settings["history"], self.settings["words"]]
        rest = ["nothing"] * (2 * ALL - len(after))
        return Ran(run_program([self.kind, *settings, *steps, *rest], number, report), self.entries, len(steps))

    def undoing(self):
        """Steps that undo everything, and then show the line saved on leaving the history's end, or redo everything."""
        if self.kind == "edits":
            return ["undo 1"] * ALL + ["redo"] * ALL
        return ["Undo 1"] * ALL + ["restore"]

    def grouping(self):
        """Two characters typed and transposed in a group, which is undone: then all groups are closed."""
        if self.kind == "edits":
            return ["insert_char 1 q", "insert_char 1 r", "transpose_chars", "undo 1"]
        return ["SelfInsert 1 q", "SelfInsert 1 r", "TransposeChars", "Undo 1"]

    def is_undo(self):
        return self.name().lower() == "undo"


class Judge:
    """Plays a row with each allocation failing in turn."""

    def __init__(self, row, report):
        self.row, self.report, self.seen = row, report, set()

    def play(self, after, number, is_drawn=True):
        """The states of a run, and whether an allocation failed in it. Text typed into a line that wasn't drawn needn't be
        shown."""
        if os.path.exists(self.report):
            os.remove(self.report)
        ran = self.row.run(after, number, self.report)
        for state in ran.states:
            if state.mark is not None:
                is_plain = re.fullmatch(r"[ -~\n]*", state.line) is not None
                same(f"the mark of a plain line at {state.bar}", state.mark, "plain" if is_plain else "")
        if is_drawn and self.row.kind == "commands" and self.is_begun(ran):
            self.check_display(ran)
        return ran, os.path.exists(self.report)

    def is_begun(self, ran):
        """Whether all steps before the last one were made."""
        return ran.begun and ANSWERED.issuperset(state.word for state in ran.states[:self.row.at])

    def check_display(self, ran):
        """Checks that the display's cursor is where the layout has it after each step, and that the line was drawn."""
        display = Display(COLUMNS)
        for shown, state in zip(ran.bytes, ran.states):
            for _ in display.read(shown):
                pass
            same(f"the cursor at {state.bar}", list(display.cursor), state.layout[:2])
            if shown.strip(b"\a") and state.word == "done":
                drawing = Drawing(COLUMNS, PROMPT, state.line, state.hint)
                same(f"the display at {state.bar}", display.below(0), drawing.below(0))

    def whole(self):
        """The run with enough memory."""
        ran, refused = self.play([], 0)
        if refused or ran.states[-1].word not in ANSWERED:
            raise Failed(f"it ends with {ran.states[-1].word}")
        back, _ = self.play(self.row.undoing(), 0)
        self.texts = {state.line for state in back.states}
        self.done, self.drawn = ran.states[-1].shown(*self.saved(back)), ran.bytes[-1]
        self.shown = ran.states[-1].shown()

    def each(self):
        for number in range(1, MOST):
            ran, refused = self.play([], number)
            if not refused:
                return number - 1
            if not self.is_begun(ran) or ran.states[-1].word == "unread":
                continue
            if ran.states[-1].word == "refused":
                self.judge(ran, number)
            else:
                same("the state after a failure that it gets over", ran.states[-1].shown(), self.shown)
        raise Failed(f"{MOST} calls, and no end")

    def judge(self, ran, number):
        """Checks the state after a failed step: it is one that the row names, the same step continues from it, and nothing is
        lost."""
        left = ran.states[-1]
        if not self.drawn.startswith(ran.bytes[-1]):
            raise Failed(f"allocation {number}: the drawing is no prefix of {self.drawn}: {ran.bytes[-1]}")
        again, _ = self.play([self.row.last], number)
        back, _ = self.play(self.row.undoing(), number)
        grouped, _ = self.play(self.row.grouping(), number, is_drawn=False)
        self.seen.add((left.shown(*self.saved(back), *self.opened(grouped)), again.states[-1].shown()))
        self.check_record(left, back)

    def saved(self, back):
        """The line saved on leaving the history's end, if there is one."""
        bar = back.states[-1].bar if self.row.kind == "commands" else "|"
        return [] if bar == "|" else [f"saved:{bar}"]

    @staticmethod
    def opened(grouped):
        """Whether a group was left open, which is undone with a later one."""
        typed, _, undone = grouped.states[-3:]
        return [] if undone.line == typed.line else ["open"]

    def check_record(self, left, back):
        """Checks that undoing everything passes texts that the line had, to the one on which the record begins, and that
        everything can be redone. After a failed undo the record may be empty."""
        undone = [state.line for state in back.states[self.row.at + 1:self.row.at + 1 + ALL]]
        if self.row.is_undo() and set(undone) == {left.line}:
            return
        same("texts that the line never had", sorted(set(undone) - self.texts - {left.line}), [])
        same("the text after undoing everything", undone[-1], "")
        if self.row.kind == "edits":
            same("the text after redoing everything", back.states[-1].line, left.line)

    def compare(self):
        is_named = self.seen <= set(self.row.left) and bool(self.seen) == bool(self.row.left)
        if self.done != self.row.done or not is_named:
            raise Failed(" / ".join([f"found {self.done}", *sorted(f"{left} > {after}" for left, after in self.seen)]))


def rows_of_tables():
    kind, settings = None, None
    with open(TABLES, encoding="utf-8") as tables:
        for line in tables:
            words = line.split()
            if words and words[0] == ":":
                kind = words[1]
                settings = {"history": "", "words": "", **dict(word.split(":") for word in words[2:])}
            elif words and words[0] != "#":
                yield Row(kind, settings, line.strip())


def play_table(kind):
    count = 0
    with tempfile.TemporaryDirectory() as folder:
        for row in rows_of_tables():
            if row.kind != kind:
                continue
            judge = Judge(row, os.path.join(folder, "refused"))
            try:
                judge.whole()
                count += judge.each()
                judge.compare()
            except Failed as fault:
                raise Failed(f"{row.text}: {fault}") from fault
    print(f"allocations that failed in turn: {count}", flush=True)


def source(*path):
    with open(os.path.join(TOP, "crates", *path), encoding="utf-8") as text:
        return text.read()


def each_edit_leaves_what_its_row_names():
    play_table("edits")
    rooms = [source("line_edits", "src", name) for name in os.listdir(os.path.join(TOP, "crates", "line_edits", "src"))]
    edits = {name for text in rooms for name in re.findall(r"pub fn (\w+)\(\s*&mut self\b", text)}
    played = {row.name() for row in rows_of_tables() if row.kind == "edits"}
    same("edits without a row", sorted(edits - played), [])


def each_command_leaves_what_its_row_names():
    play_table("commands")
    body = re.search(r"pub enum Cmd \{(.*?)\n\}", source("line_keys", "src", "command.rt"), re.S)
    commands = set(re.findall(r"(?m)^    ([A-Z]\w+)", body[1]))
    played = {row.name() for row in rows_of_tables() if row.kind == "commands"}
    same("commands without a row", sorted(commands - played), [])


if __name__ == "__main__":
    run_all([each_allocation_failed, each_edit_leaves_what_its_row_names, each_command_leaves_what_its_row_names])
