#!/usr/bin/env python3
"""The history file in odd places: where it can't be written whole, and where a save must not change more than its text.
Run it by ./test, or alone once `rt ci` or ./keyline --prove has built the program.
"""
import contextlib
import glob
import os
import resource
import signal
import subprocess
import sys
import tempfile

sys.path += glob.glob(os.path.join(os.path.dirname(os.path.dirname(os.path.realpath(__file__))), "*", ""))
from checks import CTRL_D, HUNG, NEW_ROW, PROGRAM, Running, drawing, run_all, same

OLD = b"#V2\n" + b"".join(b"entry %d\n" % number for number in range(60))
NEW = b"x" * 20_000
NOT_LOADED = b"keyline: history does not load\n"
NOT_SAVED = b"keyline: history text failed\n"
NO_WORDS = b"keyline: words do not load\n"
# How many files crashes may have left, and an owner other than that of the tests.
STALE, NOBODY = 120, 65534


def played(path, keys, status=0, words=b"", **more):
    """A session over a history; its lines are those of its keys."""
    ran = subprocess.run([PROGRAM, "--history", path], input=keys, capture_output=True, timeout=HUNG, **more)
    same("lines", ran.stdout, keys.replace(b"\r", b"\n"))
    same("status", ran.returncode, status)
    same("last words", ran.stderr[len(ran.stderr) - len(words):], words)


def text_of(path):
    with open(path, "rb") as file:
        return file.read()


@contextlib.contextmanager
def folder_with(name, text=None):
    """A folder, and the path of a file in it with this name and text, or without a file."""
    with tempfile.TemporaryDirectory() as folder:
        path = os.path.join(folder, name)
        if text is not None:
            with open(path, "wb") as file:
                file.write(text)
        yield folder, path


@contextlib.contextmanager
def little_room():
    """A folder on a disk of four pages, and the command with which a program starts there. If such a disk can't be mounted, the
    size of files is limited instead."""
    with tempfile.TemporaryDirectory() as folder:
        mounted = is_mounted(folder)
        print(f"space: {'a small disk' if mounted else 'a limit of a file'}")
        try:
            yield folder, {} if mounted else {"preexec_fn": limit_files, "restore_signals": False}
        finally:
            if mounted:
                subprocess.run(["umount", folder], check=True)


def is_mounted(folder):
    """Whether a disk of four pages can be mounted there."""
    try:
        words = ["mount", "-t", "tmpfs", "-o", "size=16k", "tmpfs", folder]
        return subprocess.run(words, capture_output=True).returncode == 0
    except FileNotFoundError:
        return False


def limit_files():
    signal.signal(signal.SIGXFSZ, signal.SIG_IGN)
    resource.setrlimit(resource.RLIMIT_FSIZE, (4096, 4096))


def a_full_disk():
    """A text that doesn't fit leaves the old one, and no other file; one that fits is saved."""
    with little_room() as (folder, limits):
        path = os.path.join(folder, "history")
        for old in (None, OLD):
            if old:
                with open(path, "wb") as file:
                    file.write(old)
            played(path, NEW + b"\r", 1, NOT_SAVED, **limits)
            same("files", os.listdir(folder), ["history"] if old else [])
            same("history", old and text_of(path), old)
        played(path, b"new\r", **limits)
        same("history", text_of(path), OLD + b"new\n")


def a_link_in_a_circle():
    with folder_with("one") as (folder, one):
        os.symlink("two", one)
        os.symlink("one", os.path.join(folder, "two"))
        ran = subprocess.run([PROGRAM, "--history", one], input=b"ab\r", capture_output=True, timeout=HUNG)
        same("lines, words and status", [ran.stdout, ran.stderr, ran.returncode], [b"", NOT_LOADED, 5])
        same("files", sorted(os.listdir(folder)), ["one", "two"])


def a_link_to_nothing():
    """The file to which a link leads is made, and the link stays. The same holds for several links, and for links from other
    folders."""
    with folder_with("link") as (folder, link):
        os.mkdir(os.path.join(folder, "one"))
        os.symlink("one/two", link)
        os.symlink("../three", os.path.join(folder, "one", "two"))
        os.symlink(os.path.join(folder, "four"), os.path.join(folder, "three"))
        played(link, b"a\r")
        same("the file", text_of(os.path.join(folder, "four")), b"#V2\na\n")
        played(link, b"b\r")
        same("the file", text_of(os.path.join(folder, "four")), b"#V2\na\nb\n")
        links = [os.path.islink(os.path.join(folder, name)) for name in ("link", "one/two", "three", "four")]
        same("what is a link", links, [True, True, True, False])
        same("files", sorted(os.listdir(folder)), ["four", "link", "one", "three"])
    with folder_with("link") as (folder, link):
        os.symlink("none/history", link)
        played(link, b"a\r", 1, NOT_SAVED)
        same("files", os.listdir(folder), ["link"])


def a_name_as_long_as_names_are():
    """A name of 255 bytes leaves no space for another suffix, nor does one with letters of two bytes."""
    for name in ("h" * 255, "é" * 127):
        with folder_with(name) as (folder, path):
            played(path, b"a\r")
            played(path, b"b\r")
            same("history and files", [text_of(path), os.listdir(folder)], [b"#V2\na\nb\n", [name]])


def a_relative_name():
    with folder_with("history") as (folder, path):
        played("history", b"a\r", cwd=folder)
        os.symlink("history", os.path.join(folder, "link"))
        played("link", b"b\r", cwd=folder)
        played("./link", b"c\r", cwd=folder)
        same("history and files", [text_of(path), sorted(os.listdir(folder))], [b"#V2\na\nb\nc\n", ["history", "link"]])


def what_crashes_left():
    """Files left by earlier runs don't stop a save, and stay; nor do those of a run in progress."""
    with folder_with("history", OLD) as (folder, path):
        left = [f".keyline.{number}.new" for number in range(STALE)]
        for name in left:
            with open(os.path.join(folder, name), "wb") as file:
                file.write(b"half")
        played(path, b"a\r")
        same("history", text_of(path), OLD + b"a\n")
        same("files", sorted(os.listdir(folder)), sorted([*left, "history"]))


def the_owner_of_a_file():
    """A file keeps its owner, its group and its permissions if the program may set them; it is saved in any case."""
    with folder_with("history", OLD) as (folder, path):
        if os.geteuid() != 0:
            print("not played: a file of another owner, which root alone can make")
            return
        os.chmod(path, 0o640)
        os.chown(path, NOBODY, NOBODY - 1)
        played(path, b"a\r")
        found = os.stat(path)
        same("owner, group and rights", [found.st_uid, found.st_gid, found.st_mode & 0o7777], [NOBODY, NOBODY - 1, 0o640])
        os.chmod(path, 0o666)
        os.chmod(folder, 0o777)
        played(path, b"b\r", user=NOBODY - 2, group=NOBODY - 2, extra_groups=[])
        found = os.stat(path)
        same("owner and rights", [found.st_uid, found.st_mode & 0o7777], [NOBODY - 2, 0o666])
        same("history and files", [text_of(path), os.listdir(folder)], [OLD + b"a\nb\n", ["history"]])


def devices():
    """A device is neither a history nor words: it is rejected before a key is read, and not read without end."""
    for name in ("/dev/null", "/dev/zero", "/dev/full", "/dev/urandom"):
        for option, words, status in (("--history", NOT_LOADED, 5), ("--words", NO_WORDS, 6)):
            ran = subprocess.run([PROGRAM, option, name], input=b"ab\r", capture_output=True, timeout=HUNG)
            same(f"lines, words and status of {option} {name}", [ran.stdout, ran.stderr, ran.returncode], [b"", words, status])
    with folder_with("link") as (folder, link):
        os.symlink("/dev/zero", link)
        ran = subprocess.run([PROGRAM, "--history", link], input=b"ab\r", capture_output=True, timeout=HUNG)
        same("lines, words and status of a link", [ran.stdout, ran.stderr, ran.returncode], [b"", NOT_LOADED, 5])


@contextlib.contextmanager
def pipe_with(text):
    """The path of a pipe that gives this text, and the command with which a program gets it."""
    reader, writer = os.pipe()
    os.write(writer, text)
    os.close(writer)
    try:
        yield f"/dev/fd/{reader}", {"pass_fds": [reader]}
    finally:
        os.close(reader)


def a_pipe():
    """A pipe is read to its end; a history can't be written to one that nobody reads."""
    with pipe_with(b"alpha\n") as (path, given):
        ran = subprocess.run([PROGRAM, "--words", path], input=b"alp\t\r", capture_output=True, timeout=HUNG, **given)
        same("lines and status with words", [ran.stdout, ran.returncode], [b"alpha\n", 0])
    for keys, lines, status, words in ((b"\x10" + CTRL_D, b"", 0, b""), (b"\x10b\r", b"alphab\n", 1, NOT_SAVED)):
        with pipe_with(b"alpha\n") as (path, given):
            ran = subprocess.run([PROGRAM, "--history", path], input=keys, capture_output=True, timeout=HUNG, **given)
            same("lines and status with a history", [ran.stdout, ran.returncode], [lines, status])
            same("last words", ran.stderr[len(ran.stderr) - len(words):], words)


def ended_by(number):
    """Lets a signal end this process, even if the test was started with it ignored, without a core dump."""
    resource.setrlimit(resource.RLIMIT_CORE, (0, 0))
    if number != signal.SIGKILL:
        signal.signal(number, signal.SIG_DFL)


def killed_in_mid_line():
    """If the keys don't come from a terminal, a signal ends the program: the lines before are written, and the old history is
    whole."""
    for number in (signal.SIGTERM, signal.SIGHUP, signal.SIGINT, signal.SIGQUIT, signal.SIGKILL):
        with folder_with("history", OLD) as (folder, path):
            with Running([PROGRAM, "--history", path], preexec_fn=lambda: ended_by(number)) as program:
                program.type(b"one\rtwo")
                program.display.expect(drawing(b"") + b"one" + NEW_ROW + drawing(b"") + b"two")
                program.process.send_signal(number)
                program.expect_status(-number)
                program.lines.expect_end(b"one\n")
            same("history and files", [text_of(path), os.listdir(folder)], [OLD, ["history"]])


if __name__ == "__main__":
    run_all([
        a_full_disk,
        a_link_in_a_circle,
        a_link_to_nothing,
        a_name_as_long_as_names_are,
        a_relative_name,
        what_crashes_left,
        the_owner_of_a_file,
        devices,
        a_pipe,
        killed_in_mid_line,
    ])
