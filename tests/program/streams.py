#!/usr/bin/env python3
"""Streams that end, fail or fill up at each stage of a session: what was done then, and how it ends. Run it by ./test, or
alone once `rt ci` or ./keyline --prove has built the program.
"""
import glob
import os
import resource
import signal
import socket
import subprocess
import sys
import tempfile

sys.path += glob.glob(os.path.join(os.path.dirname(os.path.dirname(os.path.realpath(__file__))), "*", ""))
from checks import BACKSPACE, CTRL_D, ENTER, HUNG, LEFT, NEW_ROW, PROGRAM, Failed, Running, drawing, run_all, same

DISPLAY_FAILED = b"keyline: display failed\n"
INPUT_FAILED = b"keyline: input failed\n"
LINES_FAILED = b"keyline: line output failed\n"


class Stage:
    """A key, what is shown for it, and the line that it accepts, before what is shown last."""

    def __init__(self, key, *shown, line=None):
        self.key, self.shown, self.line = key, b"".join(shown), line


# Two edited lines, and a typed end.
FIRST = drawing(b"")
STAGES = [
    Stage(b"a", b"a"),
    Stage(b"c", b"c"),
    Stage(LEFT, b"\x1b[1D"),
    Stage(b"b", drawing(b"abc", 1)),
    Stage(ENTER, b"\x1b[1C", NEW_ROW, drawing(b""), line=b"abc"),
    Stage(b"d", b"d"),
    Stage(BACKSPACE, b"\x1b[1D\x1b[K"),
    Stage("é".encode(), drawing("\x1b[mé\x1b[m".encode())),
    Stage(ENTER, NEW_ROW, drawing(b""), line="é".encode()),
    Stage(CTRL_D, NEW_ROW),
]
KEYS = b"".join(stage.key for stage in STAGES)
SHOWN = FIRST + b"".join(stage.shown for stage in STAGES)
LINES = [stage.line for stage in STAGES if stage.line]


def written(lines):
    return b"".join(line + b"\n" for line in lines)


class Session(Running):
    """The program with a history file, played up to a stage."""

    def __init__(self, folder, stages, **streams):
        self.folder, self.stages, self.path = folder, stages, os.path.join(folder, "history")
        super().__init__([PROGRAM, "--history", self.path], **streams)

    def played(self):
        """Types each key once everything for the one before was shown."""
        self.display.expect(FIRST)
        for stage in self.stages:
            self.type(stage.key)
            self.display.expect(stage.shown)
            if stage.line:
                self.lines.expect(stage.line + b"\n")
        return self

    def lines_so_far(self):
        return [stage.line for stage in self.stages if stage.line]

    def left(self, status, kept):
        """Its end, and the lines that the history has."""
        self.expect_status(status)
        found = os.listdir(self.folder)
        same("files", found, ["history"] if kept else [])
        if kept:
            with open(self.path, "rb") as file:
                same("history", file.read(), b"#V2\n" + written(kept))


def at_each_stage(play):
    """Plays once for each stage: the first argument is what comes before it, the second what comes after it."""
    for count in range(len(STAGES)):
        with tempfile.TemporaryDirectory() as folder:
            try:
                play(folder, STAGES[:count], STAGES[count:])
            except Failed as fault:
                raise Failed(f"after {count} keys: {fault}") from fault


def input_that_ends():
    def play(folder, before, _):
        with Session(folder, before) as session:
            session.played().end_of_input()
            session.display.expect_end(NEW_ROW)
            session.lines.expect_end()
            session.left(0, session.lines_so_far())

    at_each_stage(play)


class Reset(Session):
    """A session whose keys come from a socket that can be reset: closing it with unread bytes makes the source fail."""

    def __init__(self, folder, stages):
        ours, theirs = socket.socketpair()
        theirs.send(b"unread")
        super().__init__(folder, stages, stdin=theirs)
        theirs.close()
        self.type, self.fail = ours.sendall, ours.close


def input_that_fails():
    def play(folder, before, _):
        with Reset(folder, before) as session:
            session.played().fail()
            session.display.expect_end(INPUT_FAILED)
            session.lines.expect_end()
            session.left(1, session.lines_so_far())

    at_each_stage(play)


def input_that_fails_over_a_history_that_cannot_be_written():
    with tempfile.TemporaryDirectory() as folder, Reset(os.path.join(folder, "none"), STAGES[:5]) as session:
        session.played().fail()
        session.display.expect_end(INPUT_FAILED)
        session.expect_status(1)


def a_display_whose_reader_goes():
    """Nothing of the next key is accepted, stored or said, and none is read after it."""

    def play(folder, before, after):
        with Session(folder, before) as session:
            session.played().process.stderr.close()
            session.type(b"".join(stage.key for stage in after))
            session.lines.expect_end()
            session.left(1, session.lines_so_far())

    at_each_stage(play)


def lines_whose_reader_goes():
    """The line that can't be written is in the history; what comes before it is as ever."""

    def play(folder, before, after):
        with Session(folder, before) as session:
            session.played().process.stdout.close()
            session.type(b"".join(stage.key for stage in after))
            shown = [stage.shown for stage in after]
            ends = [number for number, stage in enumerate(after) if stage.line]
            if ends:
                shown[ends[0]:] = [shown[ends[0]].removesuffix(FIRST), LINES_FAILED]
            session.display.expect_end(b"".join(shown))
            session.left(1 if ends else 0, session.lines_so_far() + [stage.line for stage in after if stage.line][:1])

    at_each_stage(play)


def ran_with_room(room, name):
    """A run whose stream with this name is a file that takes so many bytes, and the file's content then."""

    def limit():
        signal.signal(signal.SIGXFSZ, signal.SIG_IGN)
        resource.setrlimit(resource.RLIMIT_FSIZE, (room, room))

    with tempfile.TemporaryFile() as file:
        streams = {"stdout": subprocess.PIPE, "stderr": subprocess.PIPE, name: file}
        ran = subprocess.run([PROGRAM], input=KEYS, timeout=HUNG, preexec_fn=limit, restore_signals=False, **streams)
        file.seek(0)
        return ran, file.read()


def a_display_that_fills_up():
    """After each byte: what fits is shown, and each line is written whose new row is shown."""
    ends = [SHOWN.find(NEW_ROW + FIRST) + len(NEW_ROW), SHOWN.rfind(NEW_ROW + FIRST) + len(NEW_ROW)]
    for room in range(len(SHOWN) + 1):
        ran, shown = ran_with_room(room, "stderr")
        same(f"display with space for {room} bytes", shown, SHOWN[:room])
        same(f"lines beside a display with space for {room} bytes", ran.stdout, written(LINES[:sum(end <= room for end in ends)]))
        same(f"status of a display with space for {room} bytes", ran.returncode, 0 if room == len(SHOWN) else 1)


def lines_that_fill_up():
    """After each byte: the lines are a prefix of the whole ones, and nothing is drawn after the one that didn't fit."""
    whole = written(LINES)
    for room in range(len(whole) + 1):
        ran, lines = ran_with_room(room, "stdout")
        same(f"lines with space for {room} bytes", lines, whole[:room])
        end = (SHOWN.find if room <= len(LINES[0]) else SHOWN.rfind)(NEW_ROW + FIRST) + len(NEW_ROW)
        shown = SHOWN if room == len(whole) else SHOWN[:end] + LINES_FAILED
        same(f"display beside lines with space for {room} bytes", ran.stderr, shown)
        same(f"status of lines with space for {room} bytes", ran.returncode, 0 if room == len(whole) else 1)


def full_devices():
    """/dev/full takes nothing and gives zeros: a display on it shows nothing, and lines on it are only in the history."""
    with tempfile.TemporaryDirectory() as folder, open("/dev/full", "r+b", buffering=0) as full:
        path = os.path.join(folder, "history")
        words = [PROGRAM, "--history", path]
        ran = subprocess.run(words, input=KEYS, stdout=subprocess.PIPE, stderr=full, timeout=HUNG)
        same("lines, status and files beside a full display", [ran.stdout, ran.returncode, os.listdir(folder)], [b"", 1, []])
        ran = subprocess.run(words, input=KEYS, stdout=full, stderr=subprocess.PIPE, timeout=HUNG)
        shown = SHOWN[:SHOWN.find(NEW_ROW) + len(NEW_ROW)]
        same("display and status beside full lines", [ran.stderr, ran.returncode], [shown + LINES_FAILED, 1])
        with open(path, "rb") as file:
            same("history", file.read(), b"#V2\n" + written(LINES[:1]))
        zeros = full.read(100_000)
    ran = subprocess.run([PROGRAM], input=b"ab" + zeros + ENTER, capture_output=True, timeout=HUNG)
    same("lines, display and status of zeros", [ran.stdout, ran.stderr, ran.returncode],
         [b"ab\n", FIRST + b"ab" + NEW_ROW + FIRST + NEW_ROW, 0])


def streams_closed_from_the_start():
    """What is opened in their place, such as the history file, gets none of their bytes and gives none."""
    for closed in ((0,), (1,), (2,), (0, 1), (0, 2), (1, 2), (0, 1, 2)):
        with tempfile.TemporaryDirectory() as folder:
            path, old = os.path.join(folder, "history"), b"#V2\nold\n"
            with open(path, "wb") as file:
                file.write(old)
            streams = {name: subprocess.PIPE for number, name in enumerate(("stdin", "stdout", "stderr")) if number not in closed}
            ran = subprocess.Popen([PROGRAM, "--history", path], preexec_fn=lambda: [os.close(number) for number in closed], **streams)
            lines, display = ran.communicate(KEYS if 0 not in closed else None, timeout=HUNG)
            shown = FIRST + INPUT_FAILED if 0 in closed else SHOWN[:SHOWN.find(NEW_ROW) + len(NEW_ROW)] + LINES_FAILED
            same(f"lines, display and status without {closed}", [lines or b"", display, ran.returncode],
                 [b"", None if 2 in closed else shown, 1] if closed != (2,) else [b"", None, 1])
            with open(path, "rb") as file:
                same(f"history without {closed}", file.read(), old + (written(LINES[:1]) if closed == (1,) else b""))


def words_that_cannot_be_said():
    """The status is right even if its message has no space, or no reader."""
    with tempfile.TemporaryDirectory() as folder, open("/dev/full", "wb") as full:
        path = os.path.join(folder, "history")
        with open(path, "wb") as file:
            file.write(b"\xff\n")
        reader, writer = os.pipe()
        os.close(reader)
        for stream in (full, writer):
            for words, status in ((["--columns=1"], 2), (["--nothing"], 2), (["--history", path], 5)):
                streams = {"stdout": subprocess.PIPE, "stderr": stream}
                ran = subprocess.run([PROGRAM, *words], input=KEYS, timeout=HUNG, **streams)
                same(f"lines and status of {words}", [ran.stdout, ran.returncode], [b"", status])
        os.close(writer)


def a_hundred_thousand_lines():
    """All are written, with the memory that the first of them took."""
    line, count = b"the quick brown fox jumps over two dogs.", 100_000
    with Running([PROGRAM], stderr=subprocess.DEVNULL) as program:
        peaks = []
        for number in range(count // 1000):
            program.type((line + ENTER) * 1000)
            program.lines.expect((line + b"\n") * 1000)
            if number in (9, count // 1000 - 1):
                peaks.append(program.peak())
        program.end_of_input()
        program.expect_status(0)
    print(f"KB at the peak, after 10,000 lines and after 100,000: {peaks}")
    same("whether memory stays", peaks[1] - peaks[0] <= 256, True)


def a_line_of_a_megabyte():
    """It is typed, then killed and yanked twice."""
    line = b"0123456789" * 100_000
    keys = line + ENTER + line + b"\x15\x19\x19" + ENTER
    ran = subprocess.run([PROGRAM, "--columns=1000"], input=keys, stdout=subprocess.PIPE, stderr=subprocess.DEVNULL, timeout=HUNG)
    same("bytes and status", [len(ran.stdout), ran.returncode], [3 * len(line) + 2, 0])
    same("whether they are the lines", ran.stdout == line + b"\n" + line + line + b"\n", True)


if __name__ == "__main__":
    run_all([
        input_that_ends,
        input_that_fails,
        input_that_fails_over_a_history_that_cannot_be_written,
        a_display_whose_reader_goes,
        lines_whose_reader_goes,
        a_display_that_fills_up,
        lines_that_fill_up,
        full_devices,
        streams_closed_from_the_start,
        words_that_cannot_be_said,
        a_hundred_thousand_lines,
        a_line_of_a_megabyte,
    ])
