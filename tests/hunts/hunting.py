"""Shared by the hunts: what a session must show and store, how a failing one is made smaller, and parallel processes."""
import collections
import itertools
import os
import pickle
import re
import sys
import time
import traceback

from checks import Failed
from display import REDRAWN, Display, Drawing, Meaningless, Unjudged

COUNT = re.compile(r"\(arg: -?\d+\) ")
# The prompt of a search: how it begins, and what ends it.
SEARCH, SEARCHED = re.compile(r"\((failed )?(reverse-)?i-search\)"), re.compile("': ")
# The most lines that a history stores.
KEPT = 100
# Why a session that is too large isn't judged.
MUCH = "more than there is space for"
# How many faults end a hunt, for how many seconds one is made smaller, and of how many sessions at most one isn't judged.
ENOUGH, CUTTING, FEW = 3, 60, 50
# In how many ways the written bytes may be split into lines that look alike.
ALIKE = 1000


class Fault(Exception):
    """What is wrong with a session; the first argument is its kind."""

    def __str__(self):
        return f"{self.args[0]}: {self.args[1]}"


def tell(kind, what):
    raise Fault(kind, what if len(what) < 2000 else what[:1000] + " .. " + what[-1000:])


def same(kind, found, expected):
    if found != expected:
        tell(kind, f"expected {expected!r}, found {found!r}")


def same_as_one(kind, found, expected):
    if found not in expected:
        tell(kind, f"expected {expected[0]!r}, found {found!r}")


def is_text(data):
    try:
        data.decode()
    except UnicodeDecodeError:
        return False
    return True


def drawing(session, *texts, spans=()):
    """The drawing of texts by a session."""
    return Drawing(session.columns, *texts, clusters=session.clusters, spans=spans, stop=session.stop)


def shown_lines(session, display, lines, is_drawn=True):
    """In which ways the written bytes are split into lines, as the display shows them, each where it ends, and what it shows at
    the end; everything else on it is as it must be. The first drawing of a line may be missing if a helper failed."""
    if lines and not (lines.endswith(b"\n") and is_text(lines)):
        tell("lines", f"not whole: {lines[-60:]!r}")
    text, ways, ends = lines.decode(), {0: [[]]}, display.count(b"\r\n" + REDRAWN)
    shown = Display(session.columns, session.clusters)
    try:
        for number, _ in enumerate(shown.read(display), 1):
            ways = with_one_more(session, shown, text, ways, number == ends)
            shown.top = shown.cursor[0]
    except Meaningless as fault:
        tell("display", str(fault))
    if len(text) not in ways:
        tell("lines", f"the display shows the end of none of {text[min(ways):]!r}")
    if is_drawn and not shows_prompt(session, shown):
        tell("display", f"at the end it shows no prompt, but {pictured(shown)}")
    return ways[len(text)], shown


def with_one_more(session, shown, text, ways, is_last):
    """The ways to split a text into lines up to each place, with one more line, which the display shows."""
    found = {}
    for begun, before in ways.items():
        for end in shown_ends(session, shown, text, begun, is_last):
            found.setdefault(end + 1, []).extend([*way, text[begun:end]] for way in before)
    if sum(map(len, found.values())) > ALIKE:
        raise Unjudged("lines that look alike in too many ways")
    if not found:
        tell("cells", f"of {text[min(ways):][:200]!r} the display shows no line, but {pictured(shown)}")
    return found


def shown_ends(session, shown, text, begun, is_last):
    """Where the lines end that begin at a place in a text and that the display shows: at its first newline, or at a later one,
    since some lines contain newlines. If two drawings look alike, there are several."""
    drawn, drawn_to = drawing(session, session.drawn_prompt), begun
    for end in [len(text) - 1] if is_last else (found.start() for found in re.compile("\n").finditer(text, begun)):
        if end < begun:
            return
        drawn.draw(text[drawn_to:end])
        drawn_to = end
        if is_shown(session, shown, text[begun:end], drawn):
            yield end
        if shown.top + drawn.place[0] + 1 >= shown.cursor[0]:
            return


def is_shown(session, shown, line, drawn):
    """Whether the display shows the drawing of prompt and line from its top on, and at most a message, with the cursor in the
    row below, and with the styles of an accepted line."""
    for message, each in ((None, drawn), *session.with_message(shown, line, drawn.place)):
        if shown.below(shown.top) == each.below(0) and shown.cursor == (shown.top + each.place[0] + 1, 0):
            expected = [*session.styled(line, message)]
            if shown.styled(shown.top) not in expected:
                tell("styles", f"of {line!r}: expected {expected}, found {shown.styled(shown.top)}")
            return True
    return False


def styled(session, line, message, spans):
    """The columns with styles of a drawing, by the spans of prompt, line and message."""
    return drawing(session, session.drawn_prompt, line, message or "", spans=spans).styled()


def standard_styles(session, line, message):
    """Those that an accepted line may have by the standard highlighter: none but a message's first row, and, if that is the
    message of an invalid line, the match of a bracket at its end."""
    if message is None:
        yield {}
        return
    told = [(len(message.partition("\n")[0].encode()), ";31")]
    for place in (None, match_of_last(line.encode())):
        yield styled(session, line, message, [[], [] if place is None else [(place, ""), (1, ";1;34")], told])


def match_of_last(line):
    """The place of the bracket that the last byte of a line closes, if it closes one."""
    pairs, open_still = {b")": b"(", b"]": b"[", b"}": b"{"}, 0
    closing = line[-1:]
    for place in reversed(range(len(line))) if closing in pairs else ():
        byte = line[place:place + 1]
        open_still += (byte == closing) - (byte == pairs[closing])
        if not open_still:
            return place
    return None


def shows_prompt(session, shown):
    """Whether the prompt, or that of a count or a search, is at the display's top."""
    return any(begins(shown.below(shown.top), each.below(0)) for each in prompts_of(session, shown))


def prompts_of(session, shown):
    """The prompts that a display may show, drawn: the session's own, that of a count, and that of a search."""
    count = COUNT.match(shown.text(shown.top, 0))
    for prompt in [session.drawn_prompt] + ([count[0]] if count else []):
        yield drawing(session, prompt)
    if session.is_modal():
        yield from prompts_of_searches(session, shown)


def prompts_of_searches(session, shown):
    """What a display shows up to each place where the prompt of a search may end, if it shows one: the query may be any text."""
    rows = shown.below(shown.top)
    cells = [(row, col, char) for row, cells in enumerate(rows) for col, cell in sorted(cells.items())
             if cell is not shown.INSIDE for char in cell]
    text = "".join(char for _, _, char in cells)
    for found in SEARCHED.finditer(text) if SEARCH.match(text) else ():
        row, col, _ = cells[found.end() - 1]
        drawn = drawing(session)
        drawn.rows = [*map(dict, rows[:row]), {at: cell for at, cell in rows[row].items() if at <= col}]
        drawn.place = (row, col + 1) if col + 1 < session.columns else (row + 1, 0)
        yield drawn


def judge_open_line(session, shown, lines, accepted):
    """Checks that the display shows the open line at the end, with at most a hint or a message. The open line is the additional
    one that is accepted if a key for that comes after all others, if it is read as one."""
    if accepted == lines or not accepted.startswith(lines):
        return
    line = accepted[len(lines):].decode()
    rows = shown.below(shown.top)
    strange = {style for row in shown.styled(shown.top).values() for style in row.values()} - session.styles
    if strange:
        tell("styles", f"the display shows {strange}, which nothing has")
    for prompt in prompts_of(session, shown):
        for text in session.open_texts():
            drawn = prompt.followed_by(line[:-1], text)
            if rows == drawn.below(0) or session.hints_of_history and begins(rows, drawn.below(0)):
                return
    tell("open line", f"of {line[:-1]!r} the display shows {pictured(shown)}")


def begins(rows, drawn):
    """Whether these rows begin with what is drawn."""
    return len(drawn) <= len(rows) and all(cells.items() <= row.items() for cells, row in zip(drawn, rows))


def pictured(shown):
    """A display's rows from its top on, and its cursor."""
    rows = [[row.get(col, " ") for col in range(max(row, default=-1) + 1)] for row in shown.below(shown.top)[:20]]
    words = " / ".join("".join(cell for cell in row if cell is not shown.INSIDE) for row in rows)
    styles = f", with styles {shown.styled(shown.top)}" * bool(shown.styled(shown.top))
    return f"{words}, the cursor in row {shown.cursor[0] - shown.top}{styles}"


def entries_of(saved, errors="strict"):
    """The entries of a history file: its rows, in which escapes are read if the first row says so."""
    rows = saved.decode(errors=errors).split("\n")
    rows = [row[:-1] if row.endswith("\r") else row for row in rows[:-1]] + rows[-1:]
    if rows[0] != "#V2":
        return rows
    escapes = {"\\n": "\n", "\\\\": "\\"}
    whole = re.compile(r"([^\\]|\\n|\\\\)*")
    return [re.sub(r"\\.", lambda it: escapes[it[0]], row) if whole.fullmatch(row) else row for row in rows[1:]]


def saved_after(saved, lines):
    """The text of the history after these lines, None if nothing is new: empty lines and those that equal the last one don't
    count."""
    kept, are_new = [], 0
    loaded = [] if saved is None else entries_of(saved)
    for number, line in enumerate(loaded + lines):
        if line and line != (kept[-1] if kept else None):
            kept.append(line)
            are_new += number >= len(loaded)
    if not are_new:
        return None
    return "".join(line.replace("\\", "\\\\").replace("\n", "\\n") + "\n" for line in ["#V2", *kept[-KEPT:]]).encode()


def appended_after(saved, lines):
    """The history file after these lines with --extended: what it had, and a row for each new entry. A text without the first
    row `#V2` is written again with it."""
    text, last, rows = saved or b"", None, []
    for entry in entries_of(text, "replace"):
        last = entry or last
    for line in lines:
        if line and line != last:
            rows.append(line.replace("\\", "\\\\").replace("\n", "\\n") + "\n")
            last = line
    if not rows:
        return text
    if text and not re.match(rb"#V2(\r?\n|\Z)", text):
        text = b"#V2\n" + text.replace(b"\\", b"\\\\")
    before = b"" if text.endswith(b"\n") else b"\n" if text else b"#V2\n"
    return text + before + "".join(rows).encode()


def without_parts(parts):
    """Smaller texts, or tuples, the much smaller ones first."""
    size = len(parts)
    while size:
        for at in range(0, len(parts), size):
            yield parts[:at] + parts[at + size:]
        size //= 2


def cut_down(player, session, fault):
    """The smallest session found in some time that fails in the same way, and how."""
    begun, end = True, time.monotonic() + CUTTING
    while begun:
        begun = False
        in_time = itertools.takewhile(lambda _: time.monotonic() < end, session.shorter())
        for less, other in player.faults(in_time):
            if other is not None and other.args[0] == fault.args[0]:
                session, fault, begun = less, other, True
                break
    return session, fault


class Hunt:
    """The sessions with some numbers: how many of each kind were played, why some weren't judged, and what failed."""

    def __init__(self):
        self.played, self.unjudged, self.faults = collections.Counter(), collections.Counter(), []

    def play(self, player, session_at, numbers):
        """Plays the sessions with these numbers, as a player takes them, until enough have failed."""
        names = collections.deque()

        def sessions():
            for number in numbers:
                if len(self.faults) == ENOUGH:
                    return
                kind, session = session_at(number)
                names.append((kind.__name__, number))
                yield session

        for session, fault in player.faults(sessions()):
            name, number = names.popleft()
            self.played[name] += 1
            if isinstance(fault, Unjudged):
                self.unjudged[str(fault)] += 1
            elif fault is not None:
                self.faults.append((name, number, str(fault), *cut_down(player, session, fault)))
        return self


def hunted(player, session_at, sessions):
    """The hunts through so many sessions, by as many processes as there are processors; each has its own player."""
    count, reports = len(os.sched_getaffinity(0)), []
    for number in range(count):
        report, told = os.pipe()
        if os.fork() == 0:
            try:
                with player() as plays:
                    found = pickle.dumps(Hunt().play(plays, session_at, range(number, sessions, count)))
                with open(told, "wb") as out:
                    out.write(found)
            except BaseException:
                traceback.print_exc()
            finally:
                os._exit(0)
        os.close(told)
        reports.append(report)
    hunts = []
    for report in reports:
        with open(report, "rb") as told:
            found = told.read()
        os.wait()
        if not found:
            sys.exit("a process of the hunt ended without its report")
        hunts.append(pickle.loads(found))
    for why, unjudged in sorted(sum((hunt.unjudged for hunt in hunts), collections.Counter()).items()):
        print(f"not judged: {unjudged} sessions, {why}")
    return hunts


def rows_pass(player, rows):
    """A test that plays rows, before the hunt."""

    def rows_as_they_stand():
        with player() as plays:
            for session, fault in plays.faults(rows):
                if fault is not None:
                    raise Failed(f"{session!r}: {fault}")

    return rows_as_they_stand


def test_of(kind, hunts):
    """A test that reports the played sessions of a kind."""

    def test():
        print(f"sessions of {kind.__name__.replace('_', ' ')}: {sum(hunt.played[kind.__name__] for hunt in hunts)}")
        faults = [fault[1:] for hunt in hunts for fault in hunt.faults if fault[0] == kind.__name__]
        if faults:
            raise Failed("".join(f"\n  session {number}: {fault}\n  made smaller: {less_fault}\n{less!r}"
                                 for number, fault, less, less_fault in faults))

    test.__name__ = kind.__name__
    return test


def most_judged(hunts):
    """A test that fails if many sessions weren't judged."""

    def most_sessions_are_judged():
        played = sum(sum(hunt.played.values()) for hunt in hunts)
        unjudged = sum(sum(hunt.unjudged.values()) for hunt in hunts)
        if unjudged * FEW > played:
            raise Failed(f"{unjudged} of {played} are not judged")

    return most_sessions_are_judged
