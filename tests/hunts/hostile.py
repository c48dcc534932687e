#!/usr/bin/env python3
"""Random sessions with inputs that nobody writes by hand. Run it by ./test, or alone once `rt ci` or ./keyline --prove has
built the programs.

    tests/hunts/hostile.py                   ten thousand sessions of the program
    tests/hunts/hostile.py --memory          five thousand over memory, for what the program has no arguments for: bindings, and
                                       handlers and helpers with any answers
    --sessions N --seed S              any number of them, from any seed, which else is the program's checksum

Each session is played twice, the second time with its keys in pieces: with tests/program/one_byte.c preloaded, or as its own word
cuts them. Both must leave the same. It must end in a way for which its keys and settings have a reason, with the status and
the message for it, and write only whole lines. The history must be what those lines make of the old one. The display of
tests/shared/display.py must show prompt, line and at most a message where each line ends, from its top on. Sessions of searches are
compared with a model of them. Played once more with a key after all others that accepts the line, it says what the open line
was: the display must have shown prompt and line of it. A failing session is made smaller, and printed as a row for the rows
that are played first.

Over memory `sessions_program` reads sessions as rows, and prints in hexadecimal what each leaves.
"""
import argparse
import collections
import contextlib
import dataclasses
import glob
import hashlib
import itertools
import os
import random
import re
import resource
import signal
import subprocess
import sys
import tempfile

sys.path += glob.glob(os.path.join(os.path.dirname(os.path.dirname(os.path.realpath(__file__))), "*", ""))
from checks import HUNG, PROGRAM, built, run_all, shim
from display import Unjudged
from hunting import (MUCH, Fault, appended_after, hunted, is_text, judge_open_line, most_judged, rows_pass, same, same_as_one, saved_after,
                     shown_lines, tell, test_of)
from inputs import (ACCEPTING, ENTER, ESC, KEYS, KINDS, PASTE, PASTED, ROW_KINDS, RowSession, Session, candidates, large_pastes,
                    noted_keys, row_candidates, row_searches, searches)
from searching import judge_search, most_are_known
from sessions import key

ROW_PROGRAM = built("sessions_program")

# Sessions that are played each time before the hunt: former finds, and limits of what it looks for.
PLAYED_FIRST = [
    Session(keys=b"ab\x1b\xc3"),
    Session(keys=b"a\x1b\xff", mode="vi"),
    Session(keys=b"a\x1b[201~b\r"),
    Session(keys=b"a\x1b[9~b\r"),
    Session(keys=PASTE + b"a\xff"),
    Session(keys=PASTE + b"a"),
    Session(keys=PASTE + b"\r" + PASTED + ENTER),
    Session(keys="漢a".encode() + ENTER, columns=2, prompt=""),
    Session(keys=b"ab\x1b\x1b[D", mode="vi"),
    Session(keys=b"".join(b"%d\r" % number for number in range(300)), history=b""),
    Session(keys=b"\x1b[A\r", history=b"#V2\n\xff\n"),
    Session(keys=b"a\t\r", words=b"\xff", history=b"\xff"),
    Session(keys="漢\t\t\r".encode(), words="漢字\n漢a\n".encode(), columns=3),
    Session(keys=PASTE + b"abcdef\tx" + PASTED + ENTER, columns=10, extended=True),
    Session(keys=PASTE + b"abcdef\tx\n\ty" + PASTED + b"\x1b[A\x1b[Dz" + ENTER, columns=10, extended=True),
    Session(keys="漢".encode() + PASTE + b"\t(\t" + PASTED + b")\x16\t\x7f" + ENTER, columns=9, prompt="\t", extended=True),
    Session(keys=b"\x12\x16\tb" + ENTER, history=b"#V2\na\tb\n", columns=20, extended=True),
]

# The message of each status that isn't a device's fault.
ENDINGS = {0: b"", 130: b"", 3: b"keyline: input is not UTF-8\n", 4: b"keyline: paste out of place\n",
           5: b"keyline: history does not load\n", 6: b"keyline: words do not load\n"}
# That of a file of words, with --extended.
NAMED_WORDS = re.compile(rb"keyline: words file [^\n]*: invalid data\n\Z")
# What the model of searches calls them.
ENDED = {0: "Eof", 130: "Interrupted"}
# The limits of a session: seconds of processor time, bytes of memory, and bytes written to one stream.
LIMITS = {resource.RLIMIT_CPU: 60, resource.RLIMIT_AS: 2_000_000_000, resource.RLIMIT_FSIZE: 64_000_000}
# One in so many sessions is a large paste, and how many keys it has at least.
SELDOM, SHORT = 3000, 100_000


@dataclasses.dataclass(frozen=True)
class Ran:
    """The result of a run of the program: `files` are those of its folder, by their names."""

    status: int
    lines: bytes
    display: bytes
    files: dict


class OfProgram:
    """Plays sessions of the program, one after the other, in its own folder."""

    def __init__(self):
        memory = "/dev/shm" if os.access("/dev/shm", os.W_OK) else None
        self.folder = tempfile.TemporaryDirectory(prefix="keyline-hunt-", dir=memory)
        self.streams = [os.path.join(self.folder.name, name) for name in ("keys", "lines", "display")]
        self.words = os.path.join(self.folder.name, "words")
        self.own = os.path.join(self.folder.name, "own")
        os.mkdir(self.own)
        self.environment = {**os.environ, "LD_PRELOAD": shim("one_byte")}

    def __enter__(self):
        return self

    def __exit__(self, *_):
        self.folder.cleanup()

    def play(self, session, one_byte):
        write(self.streams[0], session.keys)
        path = os.path.join(self.own, "history")
        if session.history is not None:
            write(path, session.history)
        if session.words is not None:
            write(self.words, session.words)
        modes = [os.O_RDONLY] + 2 * [os.O_WRONLY | os.O_CREAT | os.O_TRUNC]
        opened = [(os.POSIX_SPAWN_OPEN, number, self.streams[number], modes[number], 0o600) for number in range(3)]
        words = [PROGRAM, *session.arguments(self.words), f"--history={path}"]
        program = os.posix_spawn(PROGRAM, words, self.environment if one_byte else os.environ, file_actions=opened,
                                 setsigdef=[signal.SIGPIPE, signal.SIGXFSZ])
        status = self.wait(program)
        files = {}
        for name in os.listdir(self.own):
            files[name] = read(os.path.join(self.own, name))
            os.unlink(os.path.join(self.own, name))
        return Ran(status, read(self.streams[1]), read(self.streams[2]), files)

    @staticmethod
    def wait(program):
        try:
            for kind, most in LIMITS.items():
                resource.prlimit(program, kind, (most, most))
        except ProcessLookupError:
            pass
        signal.signal(signal.SIGALRM, lambda *_: os.kill(program, signal.SIGKILL))
        signal.alarm(HUNG)
        status = os.waitstatus_to_exitcode(os.waitpid(program, 0)[1])
        signal.alarm(0)
        return status

    def faults(self, sessions):
        """Each of these sessions, and what is wrong with it, or why it can't be judged."""
        for session in sessions:
            try:
                self.judge(session)
            except (Fault, Unjudged) as fault:
                yield session, fault
            else:
                yield session, None

    def judge(self, session):
        """Plays a session in both ways, and raises what is wrong with it."""
        whole = self.play(session, False)
        if whole.status == -signal.SIGXFSZ:
            raise Unjudged(MUCH)
        if whole != (pieces := self.play(session, True)):
            tell("reads", f"one byte a read leaves another run: {pieces!r} for {whole!r}")
        shown = judge_run(session, whole)
        if whole.status == 0 and len(session.keys) < SHORT:
            accepted = self.play(dataclasses.replace(session, keys=session.keys + ENTER), False)
            if accepted.status == 0:
                judge_open_line(session, shown, whole.lines, accepted.lines)


def write(path, text):
    with open(path, "wb") as file:
        file.write(text)


def read(path):
    with open(path, "rb") as file:
        return file.read()


def unread_status(session):
    """The status of a session with a file that isn't UTF-8: that of words comes before that of a history. With --extended bad
    bytes of a history are replaced."""
    files = [(6, session.words), (5, None if session.extended else session.history)]
    return next((status for status, data in files if data is not None and not is_text(data)), None)


def last_words(session, ran):
    """The words behind the display: with --extended those of a file have its name and the cause."""
    found = NAMED_WORDS.search(ran.display) if session.extended and ran.status == 6 else None
    return found[0] if found else ENDINGS[ran.status]


def files_left(session, lines):
    """The files that a session leaves after these lines."""
    if session.extended:
        return {"history": appended_after(session.history, lines)}
    saved = saved_after(session.history, lines)
    left = session.history if saved is None else saved
    return {} if left is None else {"history": left}


def judge_run(session, ran):
    """Raises what is wrong with a run, and returns what its display shows at the end."""
    if ran.status not in ENDINGS:
        tell("ending", f"status {ran.status}, with {ran.display[-60:]!r}")
    words = last_words(session, ran)
    if not ran.display.endswith(words or b"\r\n"):
        tell("ending", f"status {ran.status}, and the last words {ran.display[-60:]!r}")
    display = ran.display[:len(ran.display) - len(words)]
    unread = unread_status(session)
    if unread is not None:
        same("ending", [ran.status, ran.lines, display], [unread, b"", b""])
        same("history", ran.files, {} if session.history is None else {"history": session.history})
        return None
    keys = session.keys
    reasons = {0: True, 130: b"\x03" in keys or b"\x1c" in keys, 3: not is_text(keys), 4: PASTE in keys}
    if not reasons.get(ran.status, False):
        tell("ending", f"status {ran.status} of keys that have no reason for it")
    ways, shown = shown_lines(session, display, ran.lines)
    judge_search(session, True, ENDED.get(ran.status), ran.lines, display)
    same_as_one("history", ran.files, [files_left(session, lines) for lines in ways])
    return shown


# ---- over memory

# The same over memory, as rows.
ROWS = """
: advised hint:b␊c taken:x
a Right Enter = nothing
: advised verdict:ValidTold message:h␊i
ab Enter = nothing
: advised verdict:InvalidTold message:‹e2›‹80›‹a8› later:Valid later-from:3
ab Enter c Enter = nothing
: advised offers:e,é start:1
ae Tab Enter = nothing
: colours advised marked:2 verdict:InvalidTold message:h␊i later:ValidTold later-from:4 styled:1,2,on-red message-style:blue
ab Enter cd Left Enter = nothing
: colours helped bind:C-O⇒AcceptLine
(a) Enter ] C-o (] C-o = nothing
: tabs columns:10
Paste abcdef␉x␊␉y Pasted Up Left z Enter = nothing
: tabs stop:0 advised hint:␉b␉␊␉c columns:4
a Paste ␉ Pasted Left b = nothing
: tabs colours stop:5 advised marks-from:1 styled:1,3,on-red verdict:ValidTold message:h␉i columns:7
Paste a␉漢␉ Pasted Enter = nothing
: advised hint-fails:2
ab Enter = nothing
: bind:any⇒Always·AcceptLine
ab = nothing
: bind:C-X→a⇒Nothing bind:C-X→a→b⇒Insert·2·xy
C-x a b C-x a a Enter = nothing
: vi bind:Esc⇒Fails
ab Esc c Enter = nothing
: clusters:WcWidth columns:3
👩🏽‹e2›‹80›‹8d›💻 a Enter = nothing
: advised hint:b␊c columns:4
a é Left = nothing
: adding columns:3 advised verdict:Invalid later:ValidTold later-from:4 message:漢
abc Enter Enter 漢 Enter Enter = nothing
: reads:2,interrupted,1.. prompt:漢␊
‹e6›‹bc›‹a2› Left a Enter = nothing
"""

# How many sessions a run of the program plays; its limits, in seconds of processor time and bytes of memory; and how many bytes
# of the output for one way are read. A session that leaves more isn't judged.
BATCH, ROW_LIMITS, LONGEST = 40, {resource.RLIMIT_CPU: 100, resource.RLIMIT_AS: 64_000_000}, 2_000_000
# The program's message if it has no memory for its output.
WANTS_MEMORY = b"Error: memory allocation failed\n"


@dataclasses.dataclass(frozen=True)
class Left:
    """The result of a session over memory: its ending, its lines, the text of its history and the bytes of its display."""

    ending: str
    lines: bytes = b""
    saved: bytes = b""
    display: bytes = b""


TOO_LONG = Left("too long")


def rows_for(session):
    """A session's rows: with its keys in one read, as its own word cuts them, with one more key that accepts the line, and
    without colours if it has them."""
    others = " ".join(word for word in session.words if not word.startswith("reads:"))
    ways = [("", b""), (session.cut(), b""), (f"bind:{ACCEPTING}⇒AcceptLine", KEYS[ACCEPTING])]
    rows = [f"\n: {others} {word}\n{noted_keys(session.keys + key)} = nothing" for word, key in ways]
    return "".join(rows + [rows[0].replace(" colours ", " ")] * session.has_colours())


class Run:
    """A run of the program, which plays sessions in their ways. Its output for each is read as it comes."""

    def __init__(self, sessions):
        self.program = subprocess.Popen([ROW_PROGRAM, "each"], **dict.fromkeys(("stdin", "stdout", "stderr"), subprocess.PIPE))
        for kind, most in ROW_LIMITS.items():
            resource.prlimit(self.program.pid, kind, (most, most))
        # It reads everything before it prints anything.
        with contextlib.suppress(BrokenPipeError), self.program.stdin as rows:
            rows.write("".join(map(rows_for, sessions)).encode())

    def __enter__(self):
        return self

    def __exit__(self, *_):
        self.program.kill()
        self.program.wait()
        self.program.stdout.close()
        self.program.stderr.close()

    def left(self):
        """The result of the next way, None at the end."""
        row = self.program.stdout.readline(LONGEST)
        if row.endswith(b"\n"):
            ending, *parts = row[:-1].decode().split(" .")
            return Left(ending, *map(bytes.fromhex, parts))
        while row and not row.endswith(b"\n"):
            row = self.program.stdout.readline(LONGEST)
        return TOO_LONG if row else None

    def fault(self):
        """Why there is no more output."""
        said = self.program.stderr.read(1000)
        status = self.program.wait()
        if said.endswith(WANTS_MEMORY):
            return Unjudged(MUCH)
        return Fault("program", f"status {status}, {said!r}")


def played(sessions):
    """What is wrong with each of these sessions, or why it can't be judged. It stops before a session without output, unless
    that is the only one."""
    with Run(sessions) as run:
        for session in sessions:
            ways = [run.left() for _ in range(3 + session.has_colours())]
            if None not in ways:
                yield found_of(session, *ways)
                continue
            if len(sessions) == 1:
                yield run.fault()
            return


class OverMemory:
    """Plays sessions over memory, a batch of them in each run of the program."""

    def __enter__(self):
        return self

    def __exit__(self, *_):
        pass

    @staticmethod
    def faults(sessions):
        """Each of these sessions, and what is wrong with it, or why it can't be judged."""
        sessions = iter(sessions)
        while batch := collections.deque(itertools.islice(sessions, BATCH)):
            while batch:
                for found in played(tuple(batch)):
                    yield batch.popleft(), found
                if batch:
                    alone = batch.popleft()
                    yield alone, next(played((alone,)))


def found_of(session, whole, pieces, accepted, plain=None):
    """What is wrong with a session with these results: read at once, in pieces, with the last line accepted, and without the
    colours that it has."""
    try:
        judge_rows(session, whole, pieces, accepted)
        if plain is not None and TOO_LONG != plain and "Memory" not in (whole.ending, plain.ending):
            same("colours", *((it.ending, it.lines, it.saved) for it in (whole, plain)))
    except (Fault, Unjudged) as fault:
        return fault
    return None


def judge_rows(session, whole, pieces, accepted):
    # (`unopened Memory` is judged: the result of a session is printed without a copy, for which memory might run out)
    is_short = "Memory" in (whole.ending, pieces.ending) and (whole != pieces or not has_reason(session, "Memory"))
    if is_short or TOO_LONG in (whole, pieces, accepted):
        raise Unjudged(MUCH)
    if whole != pieces:
        tell("reads", f"other reads leave another run: {pieces!r} for {whole!r}")
    if not is_text(session.history):
        return same("ending", whole, Left("unopened HistoryText"))
    if not has_reason(session, whole.ending):
        tell("ending", f"{whole.ending} of words and keys that have no reason for it")
    ways, shown = shown_lines(session, whole.display, whole.lines, whole.ending not in ("Helper", "Memory"))
    saved = [saved_after(session.history, lines) if "adding" in session.words else None for lines in ways]
    same_as_one("history", whole.saved, [text or b"" for text in saved])
    # (an Esc at the input's end is another key if one more follows it)
    if (whole.ending, accepted.ending) == ("Eof", "Eof") and not session.keys.endswith(ESC):
        judge_open_line(session, shown, whole.lines, accepted.lines)
    judge_search(session, "adding" in session.words, whole.ending, whole.lines, whole.display)
    return None


def has_reason(session, ending):
    """Whether keys and words have something that ends a session in this way."""
    keys, bound = session.keys, " ".join(word for word in session.words if word.startswith("bind:"))
    fails = any("-fails:" in word for word in session.words)
    wants = "wants-memory" in session.words
    return {
        "Eof": True,
        "Interrupted": b"\x03" in keys or b"\x1c" in keys or "Interrupt" in bound,
        "NotUtf8": not is_text(keys),
        "PasteOutOfPlace": PASTE in keys,
        "Handler": "Fails" in bound or "HintOrKill" in bound,
        "Helper": fails and not wants,
        "Memory": "WantsMemory" in bound or fails and wants,
    }.get(ending, False)


def rows_of(text):
    words = ()
    for row in text.strip().split("\n"):
        if row.startswith(":"):
            words = tuple(row[1:].split())
        else:
            yield RowSession(b"".join(map(key, row.split(" = ")[0].split())), words)


# ---- the hunt

def session_of(seed, kinds=KINDS, seldom=large_pastes):
    """The generator of the session with a number, and its kind."""

    def session_at(number):
        rng = random.Random(f"{seed} {number}")
        kind = seldom if seldom and number % SELDOM == 0 else rng.choices(list(kinds), kinds.values())[0]
        return kind, kind(rng)

    return session_at


def hunt_of_program(sessions, seed):
    """The tests of this many sessions of the program."""
    shim("one_byte")
    hunts = hunted(OfProgram, session_of(seed), sessions)
    return [rows_pass(OfProgram, PLAYED_FIRST), *(test_of(kind, hunts) for kind in [*KINDS, large_pastes]), most_judged(hunts),
            most_are_known(searches, candidates)]


def hunt_over_memory(sessions, seed):
    """The same over memory."""
    hunts = hunted(OverMemory, session_of(seed, ROW_KINDS, None), sessions)
    return [rows_pass(OverMemory, list(rows_of(ROWS))), *(test_of(kind, hunts) for kind in ROW_KINDS), most_judged(hunts),
            most_are_known(row_searches, row_candidates)]


def main(words):
    parser = argparse.ArgumentParser()
    parser.add_argument("--memory", action="store_true")
    parser.add_argument("--sessions", type=int)
    parser.add_argument("--seed")
    given = parser.parse_args(words)
    hunt, program, most = (hunt_over_memory, ROW_PROGRAM, 5000) if given.memory else (hunt_of_program, PROGRAM, 10000)
    seed = given.seed or hashlib.sha256(read(program)).hexdigest()[:16]
    print(f"seed {seed}", flush=True)
    run_all(hunt(most if given.sessions is None else given.sessions, seed))


if __name__ == "__main__":
    main(sys.argv[1:])
