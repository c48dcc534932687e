"""A session in which the history is searched or words are completed, key by key: the tables of docs/COMMANDS.md once more, for
the hunts.

It is independent of the program. A line is a list of copies, so it doesn't know how the program takes a step back. It knows the
keys of a search, of completion and few others, and texts in which each character is a cluster; of any other session it says nothing.
"""
import dataclasses
import os
import random
import re

from checks import Failed
from display import Display
from hunting import drawing, entries_of, is_text, same, tell

ESC = "\x1b"
NAMED = {
    "\r": "accept", "\x12": "backward", "\x13": "forward", "\x07": "abort", "\x7f": "erase", "\x08": "erase", "\x01": "row start",
    "\x05": "row end", "\x02": "back", "\x06": "on", "\x04": "drop", "\x0b": "kill", "\x10": "previous", "\x0e": "next",
    "\x1f": "undo", "\x03": "interrupt", "\x0c": "clear", ESC + "[99~": "noop", ESC + "[A": "up", ESC + "[B": "down",
    "\x16": "quote", "\x11": "quote", "\t": "tab", ESC + "[Z": "back tab",
}
# What Vi's insert mode knows of these.
BOTH = {"accept", "backward", "forward", "erase", "abort", "undo", "interrupt", "noop", "up", "down", "quote", "tab", "back tab"}
TOKEN = re.compile("\x1b\\[200~(?P<paste>.*?)\x1b\\[201~|\x1b\\[(99~|A|B|Z)|[^\x1b]", re.S)
# Characters that are clusters by themselves, beside each other too.
PLAIN = re.compile(r"[\x00-\x0c\x0e-~à-öØ-öø-ÿЖλ漢字あ]*")
# Of these, the ones between words.
BLANKS = " \t\n\x0b\x0c"


class Unknown(Exception):
    """A session of which the model says nothing."""


class Line:
    """A text with its cursor, and the steps of its record: each a list of changes, and whether a change may join it."""

    def __init__(self, text="", cursor=0, steps=()):
        self.text, self.cursor, self.steps = text, cursor, list(steps)

    def copy(self):
        return Line(self.text, self.cursor, self.steps)

    def put(self, at, text):
        self.text, self.cursor = self.text[:at] + text + self.text[at:], at + len(text)
        return ("put", at, text)

    def take(self, at, end):
        gone, self.text, self.cursor = self.text[at:end], self.text[:at] + self.text[end:], at
        return ("take", at, gone)

    def newest(self, kind):
        """The newest change, if it is of a kind and may be joined."""
        if self.steps and self.steps[-1][1] and self.steps[-1][0][0][0] == kind:
            return self.steps[-1][0][0]
        return None

    def step(self, joinable, *changes):
        changes = [change for change in changes if change[2]]
        if changes:
            self.steps.append((changes, joinable))

    def join(self, change):
        self.steps[-1] = ([change], True)

    def type(self, char):
        last, at = self.newest("put"), self.cursor
        change = self.put(at, char)
        if last and char.isalnum() and last[1] + len(last[2]) == at:
            self.join(("put", last[1], last[2] + char))
        else:
            self.step(True, change)

    def insert(self, text):
        self.step(True, self.put(self.cursor, text))

    def delete(self, at, end):
        last, change = self.newest("take"), self.take(at, end)
        gone = change[2]
        if last and len(gone) == 1 and gone.isalnum() and last[1] in (at, end):
            self.join(("take", at, last[2] + gone if last[1] == at else gone + last[2]))
        else:
            self.step(True, change)

    def replace(self, text):
        """Another text in one step, to which nothing is joined."""
        self.step(False, self.take(0, len(self.text)), self.put(0, text))

    def complete(self, start, text):
        """Another text from a place to the cursor, in one step."""
        self.step(False, self.take(start, self.cursor), self.put(start, text))

    def undo(self):
        if not self.steps:
            return
        for kind, at, text in reversed(self.steps.pop()[0]):
            if kind == "put":
                self.take(at, at + len(text))
            else:
                self.put(at, text)

    def row(self):
        """Where the cursor's row begins and ends."""
        end = self.text.find("\n", self.cursor)
        return self.text.rfind("\n", 0, self.cursor) + 1, len(self.text) if end < 0 else end


@dataclasses.dataclass
class Search:
    """A search that stands: the line before it, and where in the history it began and is."""

    before: Line
    start: int
    at: int
    way: int
    query: str = ""
    is_fresh: bool = True
    fails: bool = False

    def prompt(self):
        kind = ("failed " if self.fails else "") + ("reverse-" if self.way < 0 else "")
        return f"({kind}i-search)`{self.query}': "


@dataclasses.dataclass(frozen=True)
class Completes:
    """A completer of these words, if there is one, and what it makes of several of them."""

    words: list = None
    lists: bool = True
    limit: int = 100
    at_once: bool = False

    def found(self, line):
        """Where the word before the cursor begins, and the words that begin so."""
        begun = re.search(f"[^{BLANKS}]*\\Z", line.text[:line.cursor])
        return begun.start(), [word for word in self.words if word.startswith(begun[0])]

    def listing(self, found):
        more = [f"({len(found) - self.limit} more)"] if self.limit < len(found) else []
        return "".join("\n" + row for row in [*found[:self.limit], *more])


@dataclasses.dataclass
class Cycle:
    """A candidate that stands in the line, or the word as it was: the line before it, and its number."""

    before: Line
    at: int = 0


class Played:
    """A session after its keys: the accepted lines, how it ended, and what of the last line is shown."""

    def __init__(self, mode, prompt, entries, adds, keys, completes, kept):
        self.mode, self.own_prompt, self.entries, self.adds, self.kept = mode, prompt, list(entries), adds, kept
        self.completes, self.cycle, self.is_tabbed, self.listed = completes, None, False, ""
        self.lines, self.ending, self.last_query = [], None, ""
        self.is_quoting = False
        self.begin()
        for found in tokens(keys):
            self.press(found)
            if self.ending:
                return
        self.ending = "Eof"

    def begin(self):
        self.line, self.search, self.place, self.saved, self.is_prefixed = Line(), None, len(self.entries), None, False
        self.cycle, self.is_tabbed, self.listed = None, False, ""

    @property
    def prompt(self):
        return self.search.prompt() if self.search else self.own_prompt

    def press(self, found):
        text, quoted, self.is_quoting = found[0], self.is_quoting, False
        if found["paste"] is not None:
            name, text = "paste", re.sub("\r\n?", "\n", found["paste"])
        elif quoted:
            name = "type" if len(text) == 1 else "noop"
        else:
            name = NAMED.get(text, "type" if text >= " " else None)
        if not name or not PLAIN.fullmatch(text if name in ("type", "paste") else ""):
            raise Unknown(text)
        if self.mode == "vi" and name not in (*BOTH, "type", "paste", "abort"):
            raise Unknown(text)
        if name == "quote":
            self.is_quoting = True
        elif self.search:
            self.search_on(name, text)
        else:
            self.rest(name, text)

    # ---- a search

    def search_on(self, name, text):
        search = self.search
        if name == "type":
            search.query = text if search.is_fresh else search.query + text
            self.look(search.way, search.at)
        elif name == "erase":
            search.query = "" if search.is_fresh else search.query[:-1]
            search.at, search.is_fresh = search.start, False
            if search.query:
                self.look(search.way, search.start)
            else:
                self.line, search.fails = search.before.copy(), False
        elif name in ("backward", "forward"):
            way = -1 if name == "backward" else 1
            first = search.is_fresh
            search.query = self.last_query if first else search.query
            self.look(way, search.at if first else search.at + way)
        elif name == "abort":
            self.line, self.search = search.before, None
        else:
            self.search = None
            self.rest(name, text)
        if not search.is_fresh:
            self.last_query = search.query

    def look(self, way, start):
        """Looks for the query from an entry on; without one nothing is found, and nothing fails."""
        search = self.search
        search.way, search.is_fresh = way, False
        places = range(start, -1, -1) if way < 0 else range(start, len(self.entries))
        hits = [at for at in places if search.query and search.query in self.entries[at]]
        search.fails = not hits and search.query != ""
        if hits:
            search.at, self.line = hits[0], search.before.copy()
            self.line.replace(self.entries[hits[0]])
            self.line.cursor = self.entries[hits[0]].index(search.query)

    # ---- a key where no search stands

    def rest(self, name, text):
        line, was_prefixed, self.is_prefixed = self.line, self.is_prefixed, False
        was_tabbed, self.is_tabbed, self.listed = self.is_tabbed, False, ""
        cycle, self.cycle = self.cycle, None
        if name in ("tab", "back tab"):
            self.complete(name, was_tabbed, cycle)
        elif name == "abort" and cycle:
            self.line = cycle.before
        elif name in ("up", "down"):
            self.go(name, was_prefixed)
        elif name == "accept":
            self.accept()
        elif name in ("backward", "forward"):
            if self.entries:
                start = min(self.place, len(self.entries) - 1)
                self.search = Search(line.copy(), start, start, -1 if name == "backward" else 1)
        elif name == "type":
            line.type(text)
        elif name == "paste":
            line.insert(text)
        elif name == "erase" and line.cursor:
            line.delete(line.cursor - 1, line.cursor)
        elif name == "undo":
            line.undo()
        elif name == "interrupt":
            self.ending = "Interrupted"
        else:
            self.move(name, line)

    # ---- completion

    def complete(self, name, was_tabbed, cycle):
        """Tab, and Shift-Tab: whether the last key was a Tab that left several candidates, or which of them stands in the line."""
        if self.completes.words is None or name == "back tab" and not cycle:
            return
        if cycle:
            self.put(cycle.before, cycle.at + (1 if name == "tab" else -1))
            return
        start, found = self.completes.found(self.line)
        common = os.path.commonprefix(found)
        if len(found) > 1 and not self.completes.lists:
            self.put(self.line, 0)
        elif found and (len(found) == 1 or len(common) > self.line.cursor - start):
            self.line.complete(start, common)
            self.is_tabbed = len(found) > 1
        elif found:
            self.is_tabbed = True
            self.listed = self.completes.listing(found) if was_tabbed or self.completes.at_once else ""

    def put(self, before, at):
        """The candidate with a number in place of the word; the number after the last one, and before the first, is the word's."""
        start, found = self.completes.found(before)
        self.cycle, self.line = Cycle(before.copy(), at % (len(found) + 1)), before.copy()
        if self.cycle.at < len(found) and found[self.cycle.at]:
            self.line.complete(start, found[self.cycle.at])

    def move(self, name, line):
        start, end = line.row()
        if name == "row start":
            line.cursor = start
        elif name == "row end":
            line.cursor = end
        elif name in ("back", "on"):
            line.cursor = min(max(line.cursor + (1 if name == "on" else -1), 0), len(line.text))
        elif name == "drop" and not line.text:
            self.ending = "Eof"
        elif name == "drop" and line.cursor < len(line.text):
            line.delete(line.cursor, line.cursor + 1)
        elif name == "kill":
            line.delete(line.cursor, end if line.cursor < end else min(end + 1, len(line.text)))
        elif name == "previous" and self.place:
            self.recall(self.place - 1)
        elif name == "next" and self.place < len(self.entries):
            self.recall(self.place + 1)

    def go(self, name, was_prefixed):
        """Up and Down: among the entries that begin with the line, if its end is where they were first pressed."""
        line, count = self.line, len(self.entries)
        is_own = self.place == count and line.text and line.cursor == len(line.text) and "\n" not in line.text
        if was_prefixed or name == "up" and is_own:
            places = range(self.place - 1, -1, -1) if name == "up" else range(self.place + 1, count)
            prefix = line.text[:line.cursor]
            hits = [at for at in places if self.entries[at].startswith(prefix)]
            self.is_prefixed = was_prefixed if name == "up" and not hits else bool(hits)
            if hits or name == "down":
                self.recall(hits[0] if hits else count)
                line.cursor = len(prefix) if hits else line.cursor
        else:
            self.go_one(name)

    def go_one(self, name):
        """The entry before or after, of lines without rows."""
        if "\n" in self.line.text:
            raise Unknown(name)
        self.move("previous" if name == "up" else "next", self.line)

    def recall(self, place):
        line, count = self.line, len(self.entries)
        if self.place == count:
            self.saved = (line.text, line.cursor)
        self.place = place
        if place < count:
            line.replace(self.entries[place])
        else:
            line.delete(0, len(line.text))
            line.insert(self.saved[0])
            line.cursor = self.saved[1]

    def accept(self):
        text = self.line.text
        self.lines.append(text)
        if self.adds and text and text not in self.entries[-1:]:
            self.entries = [*self.entries, text][-self.kept:]
        self.begin()


def tokens(keys):
    """The keys, and the pastes, of a session."""
    text, at = keys.decode(), 0
    while at < len(text):
        found = TOKEN.match(text, at)
        if not found:
            raise Unknown(text[at:])
        yield found
        at = found.end()


def entries_loaded(saved, most):
    """The entries that a history of so many has once its text is loaded: none that is empty or equals the one before it."""
    kept = []
    for entry in entries_of(saved) if saved else []:
        if entry and entry not in kept[-1:]:
            kept.append(entry)
    return kept[-most:]


def played(session, adds):
    """A session by the model, or None if it says nothing of it."""
    saved = session.history or b""
    if not (session.is_searched() and is_text(session.keys) and is_text(saved) and PLAIN.fullmatch(session.drawn_prompt)):
        return None
    entries, completes = entries_loaded(saved, session.kept), session.completes()
    if not all(map(PLAIN.fullmatch, [*entries, *(completes.words or ())])):
        return None
    try:
        return Played(session.mode, session.drawn_prompt, entries, adds, session.keys, completes, session.kept)
    except Unknown:
        return None


def judge_search(session, adds, ending, lines, display):
    """Compares a session with the model, if it says something of it: its ending, its lines, and what it shows at the end."""
    model = played(session, adds)
    if model is None:
        return
    same("ending by the model", ending, model.ending)
    same("lines by the model", lines, "".join(line + "\n" for line in model.lines).encode())
    if ending == "Eof":
        judge_shown(session, model, display)


def judge_shown(session, model, display):
    """Whether a display shows prompt and line of the model, with its cursor, before the row that ends a session."""
    shown = Display(session.columns, session.clusters)
    for _ in shown.read(display.removesuffix(b"\r\n")):
        shown.top = shown.cursor[0]
    line, texts = model.line, (model.prompt, model.line.text, model.listed)
    drawn = drawing(session, *texts)
    if shown.below(shown.top) != drawn.below(0):
        tell("cells by the model", f"{texts!r} isn't shown, but {shown.text(shown.top, 0)!r}")
    row, col = drawing(session, model.prompt, line.text[:line.cursor]).place
    same("cursor by the model", shown.cursor, (shown.top + row, col))


def most_are_known(*kinds):
    """A test that fails if the model says nothing of many sessions of these kinds."""

    def most_are_known_of_each():
        for kind in kinds:
            some = [kind(random.Random(f"{kind.__name__} {number}")) for number in range(100)]
            known = sum(played(session, True) is not None for session in some)
            if known < 50:
                raise Failed(f"of {kind.__name__} the model knows {known} of 100")

    return most_are_known_of_each
