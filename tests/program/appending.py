#!/usr/bin/env python3
"""The history file with --extended: each accepted line is in it before the next prompt, whatever ends the program, and whoever
else appends to it or cuts it. Run it by ./test, or alone once `rt ci` or ./keyline --prove has built the program.
"""
import collections
import fcntl
import glob
import os
import resource
import signal
import subprocess
import sys
import threading

sys.path += glob.glob(os.path.join(os.path.dirname(os.path.dirname(os.path.realpath(__file__))), "*", ""))
from checks import CTRL_D, HUNG, NEW_ROW, PROGRAM, run_all, same
from history_file import NOBODY, folder_with, little_room, text_of

# How many lines are killed after, and what eight writers write while a ninth program cuts.
KILLS, WRITERS, ROWS, CUTS = 1000, 8, 1000, 5
CTRL_P = b"\x10"
MANY = b"#V2\n" + b"".join(b"entry %d\n" % number for number in range(5000))
FAILS = b"keyline: history file %s: %s; the next line tries again\n"
WARNS = b"keyline: history file %s: %s; the lines of this run won't be saved\n"


class Open:
    """The program over a history, whose lines are read as they come."""

    def __init__(self, path, *words, **more):
        self.process = subprocess.Popen([PROGRAM, "--extended", "--history", path, *words], stdin=subprocess.PIPE,
                                        stdout=subprocess.PIPE, stderr=subprocess.PIPE, bufsize=0, **more)
        self.shown = b""
        self.drain = threading.Thread(target=self.read_display, daemon=True)
        self.drain.start()
        self.sent = 0
        self.await_prompt()

    def read_display(self):
        while chunk := os.read(self.process.stderr.fileno(), 65536):
            self.shown += chunk

    def send(self, line):
        """A line is accepted, and the next prompt is drawn."""
        self.process.stdin.write(line + b"\r")
        same("line", self.process.stdout.readline(), line + b"\n")
        self.sent += 1
        self.await_prompt()

    def await_prompt(self):
        """The display has a new row after each line, and something in the last one."""
        while True:
            rows = self.shown.split(NEW_ROW)
            if len(rows) > self.sent and rows[-1] or self.process.poll() is not None:
                return
            self.drain.join(0.0005)

    def kill(self):
        self.process.kill()
        self.process.wait()
        self.drain.join()

    def end(self, status=0):
        self.process.stdin.write(CTRL_D)
        self.process.stdin.close()
        same("status", self.process.wait(HUNG), status)
        self.drain.join()


def ran(path, keys, *words, status=0, lines=None, **more):
    ended = subprocess.run([PROGRAM, "--extended", "--history", path, *words], input=keys, capture_output=True, timeout=HUNG, **more)
    same("status", ended.returncode, status)
    if lines is not None:
        same("lines", ended.stdout, lines)
    return ended.stderr


def told(shown):
    """What the program says of its own, without the display's drawings."""
    return [b"keyline: " + part.split(b"\n")[0] + b"\n" for part in shown.split(b"keyline: ")[1:]]


def each_line_before_the_next():
    with folder_with("notes") as (_, path):
        program = Open(path)
        for number in range(3):
            program.send(b"line %d" % number)
            same("text", text_of(path), b"#V2\n" + b"".join(b"line %d\n" % it for it in range(number + 1)))
        program.end()
        same("text and rights", [text_of(path), os.stat(path).st_mode & 0o777], [b"#V2\nline 0\nline 1\nline 2\n", 0o600])


def killed_after_each_line():
    """Each of the lines was accepted by a run that was killed after it."""
    with folder_with("notes") as (folder, path):
        for number in range(KILLS):
            program = Open(path)
            program.send(b"line %d" % number)
            program.kill()
        same("text", text_of(path), b"#V2\n" + b"".join(b"line %d\n" % number for number in range(KILLS)))
        same("files", os.listdir(folder), ["notes"])


def eight_writers_and_a_cutter():
    """Eight programs accept lines at once, and others cut the file meanwhile: each line is there once."""
    with folder_with("notes", b"#V2\n" + b"".join(b"old %d\n" % number for number in range(4 * WRITERS * ROWS))) as (folder, path):
        rows = [b"".join(b"w%d %d\r" % (writer, number) for number in range(ROWS)) for writer in range(WRITERS)]
        running = [subprocess.Popen([PROGRAM, "--extended", "--history", path], stdin=subprocess.PIPE, stdout=subprocess.DEVNULL,
                                    stderr=subprocess.DEVNULL) for _ in rows]
        feeding = [threading.Thread(target=it.communicate, args=(keys,)) for it, keys in zip(running, rows)]
        for thread in feeding:
            thread.start()
        for number in range(CUTS):
            ran(path, b"", "--history-size", str((4 - number // 2) * WRITERS * ROWS - number))
        for thread in feeding:
            thread.join(HUNG)
        same("statuses", [it.wait(HUNG) for it in running], [0] * WRITERS)
        found = collections.Counter(row for row in text_of(path).split(b"\n") if row.startswith(b"w"))
        wanted = {b"w%d %d" % (writer, number) for writer in range(WRITERS) for number in range(ROWS)}
        same("lines that are lost", sorted(wanted - set(found)), [])
        same("lines that are there twice", [row for row in found if found[row] != 1], [])
        same("headers", text_of(path).count(b"#V2\n"), 1)
        same("files", os.listdir(folder), ["notes"])


def a_long_file_is_not_cut():
    with folder_with("notes", MANY) as (_, path):
        ran(path, b"new\r", lines=b"new\n")
        same("text", text_of(path), MANY + b"new\n")


def a_size_that_is_given():
    """A file that has a quarter more rows than the given size is cut to it, and another is left."""
    with folder_with("notes", MANY) as (folder, path):
        os.chmod(path, 0o640)
        ran(path, b"new\r", "--history-size", "4001")
        same("text", text_of(path), MANY + b"new\n")
        ran(path, b"newer\r", "--history-size", "4000")
        same("text", text_of(path), b"#V2\n" + b"".join(b"entry %d\n" % it for it in range(1002, 5000)) + b"new\nnewer\n")
        same("files and rights", [os.listdir(folder), os.stat(path).st_mode & 0o777], [["notes"], 0o640])
    for size in ("0", "1000001", "x", ""):
        ended = subprocess.run([PROGRAM, "--history-size", size], input=b"", capture_output=True, timeout=HUNG)
        same("status", ended.returncode, 2)
        same("words", b"--history-size is a number from 1 to 1000000" in ended.stderr, True)
    with folder_with("notes", MANY) as (_, path):
        ended = subprocess.run([PROGRAM, "--history-size", "3", "--history", path], input=b"new\r", capture_output=True, timeout=HUNG)
        same("status", ended.returncode, 0)
        same("text", text_of(path), b"#V2\nentry 4998\nentry 4999\nnew\n")


def a_row_that_was_cut_off():
    """It is ended by the next append, also inside a character, and the rows before it load."""
    with folder_with("notes", b"#V2\nok\nbad \xe6\xbc") as (_, path):
        ran(path, CTRL_P + CTRL_P + b"\r", lines=b"ok\n")
        same("text", text_of(path), b"#V2\nok\nbad \xe6\xbc\nok\n")
        ran(path, CTRL_P + CTRL_P + b"\r", lines="bad �\n".encode())


def a_text_without_its_header():
    """It is replaced by one with it, and its backslashes stay what they were."""
    with folder_with("notes", b"a\\nb\nc") as (folder, path):
        ran(path, CTRL_P + CTRL_P + b"\r", lines=b"a\\nb\n")
        same("text", text_of(path), b"#V2\na\\\\nb\nc\na\\\\nb\n")
        ran(path, CTRL_P + b"\r", lines=b"a\\nb\n")
        same("files", os.listdir(folder), ["notes"])


def a_file_that_cannot_be_written():
    """That is said before the first prompt, with the cause, and the lines are accepted."""
    with folder_with("notes", MANY) as (folder, path):
        if os.geteuid() != 0:
            print("not played: another user, whom root alone can be")
            return
        os.chmod(folder, 0o755)
        os.chmod(path, 0o444)
        as_nobody = {"user": NOBODY, "group": NOBODY, "extra_groups": []}
        shown = ran(path, b"new\r", status=1, lines=b"new\n", **as_nobody)
        same("first words", shown.split(b"\r")[0], WARNS % (path.encode(), b"permission denied"))
        same("words", told(shown), [WARNS % (path.encode(), b"permission denied")])
        same("text and files", [text_of(path), os.listdir(folder)], [MANY, ["notes"]])
        none = os.path.join(folder, "none")
        shown = ran(none, b"new\r", status=1, lines=b"new\n", **as_nobody)
        same("words", told(shown), [WARNS % (none.encode(), b"permission denied")])
        same("files", os.listdir(folder), ["notes"])
        os.chmod(path, 0o000)
        shown = ran(path, b"new\r", status=5, lines=b"", **as_nobody)
        same("words", shown, b"keyline: history file %s: permission denied\n" % path.encode())
        ended = subprocess.run([PROGRAM, "--extended", "--words", path], input=b"a\r", capture_output=True, timeout=HUNG, **as_nobody)
        same("words and status", [ended.stderr, ended.returncode],
             [b"keyline: words file %s: permission denied\n" % path.encode(), 6])


def a_full_disk():
    """An append that fails is told once, leaves the file whole, and is made again with the next line."""
    with little_room() as (folder, limits):
        path = os.path.join(folder, "notes")
        cause = b"file too large" if limits else b"no storage space"
        shown = ran(path, b"a\r" + b"x" * 20_000 + b"\rb\r", status=1, lines=b"a\n" + b"x" * 20_000 + b"\nb\n", **limits)
        same("words", told(shown), [FAILS % (path.encode(), cause)])
        same("text and files", [text_of(path), os.listdir(folder)], [b"#V2\na\n", ["notes"]])
        ran(path, b"c\r", **limits)
        same("text", text_of(path), b"#V2\na\nc\n")


def each_length_at_which_a_write_stops():
    """A limit on the size of files stops the write of a row after each of its bytes: the file has what it had."""
    for room in range(8):
        with folder_with("notes", b"#V2\nok\n") as (folder, path):
            def limited(size=7 + room):
                signal.signal(signal.SIGXFSZ, signal.SIG_IGN)
                resource.setrlimit(resource.RLIMIT_FSIZE, (size, size))
            status = 0 if room >= 5 else 1
            shown = ran(path, b"abcd\r", status=status, lines=b"abcd\n", preexec_fn=limited, restore_signals=False)
            same("text", text_of(path), b"#V2\nok\nabcd\n" if status == 0 else b"#V2\nok\n")
            same("messages", len(told(shown)), status)
            same("files", os.listdir(folder), ["notes"])


def a_lock_that_is_held():
    """A line waits for the lock for a second at most; its row is appended with the next line's."""
    with folder_with("notes", b"#V2\nok\n") as (_, path):
        program = Open(path)
        with open(path, "ab") as held:
            fcntl.flock(held, fcntl.LOCK_EX)
            program.send(b"one")
            same("text", text_of(path), b"#V2\nok\n")
        program.send(b"two")
        same("text", text_of(path), b"#V2\nok\none\ntwo\n")
        program.end()
        same("words", told(program.shown), [FAILS % (path.encode(), b"resource busy")])


def a_file_that_is_replaced():
    """An editor's new file of the name gets the rows from then on."""
    with folder_with("notes", b"#V2\nok\n") as (folder, path):
        program = Open(path)
        program.send(b"one")
        new = os.path.join(folder, "new")
        with open(new, "wb") as file:
            file.write(b"#V2\nother\n")
        os.rename(new, path)
        program.send(b"two")
        os.remove(path)
        program.send(b"three")
        program.end()
        same("text", text_of(path), b"#V2\nthree\n")


def a_link():
    with folder_with("notes", b"a\\\n") as (folder, path):
        link = os.path.join(folder, "link")
        os.symlink("notes", link)
        ran(link, b"b\r")
        ran(link, b"c\r", "--history-size", "1")
        same("text, and whether the link stays", [text_of(path), os.path.islink(link)], [b"#V2\nc\n", True])
        same("files", sorted(os.listdir(folder)), ["link", "notes"])


def lines_of_several_rows_and_ignored_ones():
    """A line that the history ignores has no row: an empty one, and the same again."""
    with folder_with("notes") as (_, path):
        ran(path, b"a\r\ra\r\x16\nb\\\rb\r")
        same("text", text_of(path), b"#V2\na\n\\nb\\\\\nb\n")


if __name__ == "__main__":
    run_all([
        each_line_before_the_next,
        killed_after_each_line,
        eight_writers_and_a_cutter,
        a_long_file_is_not_cut,
        a_size_that_is_given,
        a_row_that_was_cut_off,
        a_text_without_its_header,
        a_file_that_cannot_be_written,
        a_full_disk,
        each_length_at_which_a_write_stops,
        a_lock_that_is_held,
        a_file_that_is_replaced,
        a_link,
        lines_of_several_rows_and_ignored_ones,
    ])
