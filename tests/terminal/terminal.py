#!/usr/bin/env python3
"""./keyline on a terminal, and other programs by ./on_terminal: what is shown, that pastes are marked, that the terminal is
restored on every way out, and what was written and saved then.

A separate process leads the terminal's session like a shell. It runs the program as a job in the foreground, and takes the
terminal while the job is stopped. Run it by ./test, or alone once `rt ci` or ./keyline --prove has built the program.
"""
import contextlib
import fcntl
import glob
import os
import random
import resource
import select
import shutil
import signal
import struct
import subprocess
import sys
import tempfile
import termios
import time

sys.path += glob.glob(os.path.join(os.path.dirname(os.path.dirname(os.path.realpath(__file__))), "*", ""))
from checks import (CTRL_D, ENTER, HUNG, LEFT, NEW_ROW, ON_TERMINAL, PROGRAM, Failed, Incoming, drawing, placed_script,
                    run_all, same, wait_until)

# Pastes come between marks from here on, or no longer.
MARKED, UNMARKED = b"\x1b[?2004h", b"\x1b[?2004l"
# How a stopped job continues: with the terminal, or without it.
IN_FRONT, BEHIND = b"f", b"b"
OLD = b"#V2\nold\n"


def shown(display):
    """What a terminal gets if it turns each newline into CR LF."""
    return display.replace(b"\n", b"\r\n")


def lead(slave, reports, orders, command, files):
    """Leads the session, and never returns. It reports each stop and the end; each order lets the job continue. A stream for
    which a file is named doesn't go to the terminal."""
    os.setsid()
    fcntl.ioctl(slave, termios.TIOCSCTTY, 0)
    for name in ("TTOU", "HUP"):
        signal.signal(getattr(signal, f"SIG{name}"), signal.SIG_IGN)
    job = os.fork()
    if job == 0:
        os.setpgid(0, 0)
        os.tcsetpgrp(slave, os.getpid())
        # The tests may be run with signals ignored, and a shell doesn't handle signals that it finds so.
        for name in ("HUP", "INT", "QUIT", "PIPE", "TERM", "TSTP", "TTIN", "TTOU", "CONT"):
            signal.signal(getattr(signal, f"SIG{name}"), signal.SIG_DFL)
        signal.pthread_sigmask(signal.SIG_SETMASK, ())
        resource.setrlimit(resource.RLIMIT_CORE, (0, 0))
        for stream in range(3):
            os.dup2(slave, stream)
        for stream, file in files.items():
            os.dup2(os.open(file, os.O_WRONLY | os.O_CREAT, 0o600), stream)
        os.execv(command[0], command)
    signal.signal(signal.SIGHUP, lambda *_: hand_on(job))
    os.write(reports, b"%d\n" % job)
    while True:
        _, status = os.waitpid(job, os.WUNTRACED)
        if os.WIFSTOPPED(status):
            os.tcsetpgrp(slave, os.getpgrp())
            os.write(reports, b"stopped\n")
            if os.read(orders, 1) == IN_FRONT:
                os.tcsetpgrp(slave, job)
            os.killpg(job, signal.SIGCONT)
        else:
            os.write(reports, b"ended %d\n" % os.waitstatus_to_exitcode(status))
            os._exit(0)


def hand_on(job):
    """A shell tells its jobs that the window is closed."""
    with contextlib.suppress(ProcessLookupError):
        os.killpg(job, signal.SIGHUP)


class Terminal:
    """A terminal with ./keyline on it, or with another command. `files` has the streams that go to files."""

    def __init__(self, columns=80, arguments=(), files=None, command=None):
        self.columns, self.command, self.files = columns, command or [SCRIPT, *arguments], files or {}

    def __enter__(self):
        self.master, self.slave = os.openpty()
        fcntl.ioctl(self.slave, termios.TIOCSWINSZ, struct.pack("HHHH", 24, self.columns, 0, 0))
        self.found = termios.tcgetattr(self.slave)
        report, reports = os.pipe()
        orders, self.order = os.pipe()
        self.leader = os.fork()
        if self.leader == 0:
            try:
                os.close(self.master)
                lead(self.slave, reports, orders, self.command, self.files)
            finally:
                os._exit(127)
        os.close(reports)
        os.close(orders)
        self.display = Incoming(self.master)
        self.reports = Incoming(report)
        self.job = int(self.next_report())
        self.expect(MARKED)
        return self

    def __exit__(self, *_):
        for end in (lambda: os.killpg(self.job, signal.SIGKILL), lambda: os.kill(self.leader, signal.SIGKILL)):
            try:
                end()
            except ProcessLookupError:
                pass
        os.waitpid(self.leader, 0)
        self.close_window()
        for descriptor in (self.slave, self.order, self.reports.descriptor):
            os.close(descriptor)

    def next_report(self):
        deadline = time.monotonic() + HUNG
        while b"\n" not in self.reports.held:
            if not self.reports.more(deadline):
                raise Failed("the session's leader has ended")
        report, self.reports.held = self.reports.held.split(b"\n", 1)
        return report.decode()

    def type(self, keys):
        os.write(self.master, keys)

    def expect(self, display):
        self.display.expect(shown(display))

    def close_window(self):
        if self.master is not None:
            os.close(self.master)
            self.master = None

    def stop(self):
        """By the key. Linux sends the signal first and then looks whether the key is echoed: the job may have stopped meanwhile,
        and put the settings back."""
        self.type(b"\x1a")
        self.expect_stopped()
        self.display.may_come = b"^Z"

    def expect_stopped(self):
        same("report", self.next_report(), "stopped")
        self.expect(UNMARKED)
        self.expect_put_back()

    def go_on(self, where):
        os.write(self.order, where)

    def program(self):
        """The process of the program, which the script has started."""
        with open(f"/proc/{self.job}/task/{self.job}/children", encoding="ascii") as children:
            return [int(child) for child in children.read().split()][-1]

    def expect_taken(self):
        """Each byte reaches the program as it is, except those that stop and quit; output stays as it was."""
        now, found = termios.tcgetattr(self.slave), self.found
        changes = termios.ICRNL | termios.INLCR | termios.IGNCR | termios.ISTRIP | termios.IXON
        same("what is done to input", now[0] & changes, 0)
        same("what is done to output", now[1], found[1])
        kept = now[3] & (termios.ICANON | termios.ECHO | termios.IEXTEN | termios.ISIG)
        same("lines, echo, quoting and signals", kept, termios.ISIG)
        same("the key that interrupts", now[6][termios.VINTR], b"\x00")
        same("bytes and time of a read", (now[6][termios.VMIN], now[6][termios.VTIME]), (1, 0))

    def wait_until_taken(self):
        wait_until("the terminal is taken again", lambda: not termios.tcgetattr(self.slave)[3] & termios.ICANON)
        self.expect(MARKED)
        self.expect_taken()

    def expect_put_back(self):
        same("the terminal's settings", termios.tcgetattr(self.slave), self.found)

    def expect_ended(self, status, last=b""):
        """Waits for the end, with `last` as the last part of what is shown, and no more marks for pastes."""
        self.expect_gone(status)
        self.expect_put_back()
        os.write(self.slave, b"|")
        self.expect(last + UNMARKED + b"|")

    def expect_gone(self, *statuses):
        ended = self.next_report()
        same(f"whether one of {statuses} is the status of {ended}", ended in [f"ended {it}" for it in statuses], True)
        try:
            os.killpg(self.job, 0)
        except ProcessLookupError:
            return
        raise Failed("a process of the job still runs")


class Kept:
    """A folder with a history, and the result of a session in it."""

    def __init__(self, folder):
        self.lines, self.history = (os.path.join(folder, name) for name in ("lines", "history"))
        self.folder = folder
        with open(self.history, "wb") as file:
            file.write(OLD)

    def expect(self, lines, history):
        found = {}
        for name in os.listdir(self.folder):
            with open(os.path.join(self.folder, name), "rb") as file:
                found[name] = file.read()
        same("files", found, {"lines": lines, "history": history})


@contextlib.contextmanager
def in_mid_line():
    """A session with a history, in the middle of its second line, and its folder."""
    with tempfile.TemporaryDirectory() as folder:
        kept = Kept(folder)
        with Terminal(arguments=["--history", kept.history], files={1: kept.lines}) as terminal:
            terminal.expect(drawing(b""))
            terminal.type(b"ab\rcd")
            terminal.expect(b"ab" + NEW_ROW + drawing(b"") + b"cd")
            yield terminal, kept


def a_line_typed_edited_and_accepted():
    with Terminal() as terminal:
        terminal.expect(drawing(b""))
        terminal.expect_taken()
        typed = [(b"a", b"a"), (b"c", b"c"), (LEFT, b"\x1b[1D"), (b"b", b"\x1b[@b")]
        for key, display in typed:
            terminal.type(key)
            terminal.expect(display)
        terminal.type(ENTER)
        terminal.expect(b"\x1b[1C" + NEW_ROW + b"abc\n" + drawing(b""))
        terminal.type(CTRL_D)
        terminal.expect_ended(0, NEW_ROW)


def bytes_that_a_terminal_would_keep():
    """Ctrl-Q, Ctrl-R, Ctrl-S, Ctrl-V and Ctrl-O reach the program, and with --plain change nothing; a newline accepts the line."""
    with Terminal(arguments=["--plain"]) as terminal:
        terminal.expect(drawing(b""))
        terminal.type(b"a\x11\x12\x13\x16\x0fb\n")
        terminal.expect(b"ab" + NEW_ROW + b"ab\n" + drawing(b""))
        terminal.type(CTRL_D)
        terminal.expect_ended(0, NEW_ROW)


def the_same_bytes_act():
    """Without --plain Ctrl-V and Ctrl-Q insert the character of the next key, and Ctrl-R and Ctrl-S search the history."""
    with tempfile.TemporaryDirectory() as folder:
        lines = os.path.join(folder, "lines")
        with Terminal(files={1: lines}) as terminal:
            terminal.type(b"ab\r\x16\x13\x11\x16\r\x12a\r\x1b[A\x13\x13\x07c\r")
            terminal.type(CTRL_D)
            terminal.expect_gone(0)
            terminal.expect_put_back()
        with open(lines, "rb") as written:
            same("lines", written.read(), b"ab\n\x13\x16\nab\nabc\n")


def ended_by(send, status, last):
    with Terminal() as terminal:
        terminal.expect(drawing(b""))
        terminal.type(b"a")
        terminal.expect(b"a")
        send(terminal)
        terminal.expect_ended(status, last)


def interrupt_typed():
    """Ctrl-C is a key."""
    ended_by(lambda terminal: terminal.type(b"\x03"), 130, NEW_ROW)


def the_width_at_the_start():
    """The terminal's width is the program's, unless the program can't take it or an argument names one."""
    for columns, arguments, width in [(4, [], 4), (2000, [], 1000), (0, [], 80), (1, [], 80), (4, ["--columns", "7"], 7),
                                      (4, ["--columns=7", "--prompt", "> "], 7)]:
        command = [PROGRAM, "--extended", f"--columns={width}"]
        ran = subprocess.run(command, input=b"abcdef\x03", capture_output=True, timeout=HUNG)
        with Terminal(columns, arguments) as terminal:
            terminal.expect(drawing(b""))
            terminal.type(b"abcdef\x03")
            terminal.expect_ended(130, ran.stderr[len(drawing(b"")):])


def a_paste_between_marks():
    """A paste is one text, even with a newline and a Ctrl-C in it."""
    ran = subprocess.run([PROGRAM, "--extended"], input=b"\x1b[200~one\rt\x03wo\x1b[201~\r", capture_output=True, timeout=HUNG)
    with Terminal() as terminal:
        terminal.expect(drawing(b""))
        terminal.type(b"\x1b[200~one\rt\x03wo\x1b[201~\r")
        row, text = drawing(b""), b"one\nt\x03wo\n"
        terminal.expect(ran.stderr[len(row):ran.stderr.rindex(row)] + text + row)
        terminal.type(CTRL_D)
        terminal.expect_ended(0, NEW_ROW)


def words_at_a_fault():
    """They have their own row, and nothing of the line is below it."""
    for keys, words, status in [(b"ab\x18\x1b[200~c\x1b[201~", b"paste out of place", 4),
                                (b"ab\xff", b"input is not UTF-8", 3)]:
        with Terminal() as terminal:
            terminal.expect(drawing(b""))
            terminal.type(keys)
            terminal.expect_ended(status, b"ab\n\x1b[Jkeyline: " + words + b"\n")


def marks_where_the_display_is_no_terminal():
    with tempfile.TemporaryDirectory() as folder:
        with Terminal(files={2: os.path.join(folder, "display")}) as terminal:
            terminal.type(b"a\r")
            terminal.expect(b"a\n")
            terminal.type(CTRL_D)
            terminal.expect_ended(0)


def quit_typed():
    ended_by(lambda terminal: terminal.type(b"\x1c"), 131, b"\n")


def signals_that_end_the_program():
    for number in (signal.SIGINT, signal.SIGQUIT):
        ended_by(lambda terminal: os.kill(terminal.job, number), 128 + number, b"\n")
    ended_by(lambda terminal: os.killpg(terminal.job, signal.SIGINT), 130, b"\n")


def signals_that_end_the_input():
    """Accepted lines are written, the history is saved, and no other file is left."""
    for number in (signal.SIGTERM, signal.SIGHUP):
        for send in (os.kill, os.killpg):
            with in_mid_line() as (terminal, kept):
                send(terminal.job, number)
                terminal.expect_ended(128 + number, NEW_ROW)
                kept.expect(b"ab\n", OLD + b"ab\n")


def keys_before_a_signal():
    """Everything typed before the input's end is read, even by a program that reads slowly because its display is held up."""
    with in_mid_line() as (terminal, kept):
        termios.tcflow(terminal.slave, termios.TCOOFF)
        terminal.type(b"e\rf")
        os.kill(terminal.job, signal.SIGTERM)
        wait_until("the input is at its end", lambda: termios.tcgetattr(terminal.slave)[6][termios.VMIN] == 0)
        termios.tcflow(terminal.slave, termios.TCOON)
        terminal.expect_ended(143, b"e" + NEW_ROW + drawing(b"") + b"f" + NEW_ROW)
        kept.expect(b"ab\ncde\n", OLD + b"ab\ncde\n")


def a_window_that_is_closed():
    """The program may end, with a display that fails, before the signal comes."""
    with in_mid_line() as (terminal, kept):
        terminal.close_window()
        terminal.expect_gone(1, 129)
        kept.expect(b"ab\n", OLD + b"ab\n")


def the_program_killed():
    for number in (signal.SIGKILL, signal.SIGINT, signal.SIGSEGV):
        ended_by(lambda terminal: os.kill(terminal.program(), number), 128 + number, b"")


def stopped_and_continued():
    with Terminal() as terminal:
        terminal.expect(drawing(b""))
        for _ in range(2):
            terminal.stop()
            terminal.go_on(IN_FRONT)
            terminal.wait_until_taken()
        terminal.type(b"a")
        terminal.expect(b"a")
        terminal.type(ENTER)
        terminal.expect(NEW_ROW + b"a\n" + drawing(b""))
        terminal.type(CTRL_D)
        terminal.expect_ended(0, NEW_ROW)


def continued_behind_another():
    """The terminal isn't taken from the job that has it: the job stops again."""
    with Terminal() as terminal:
        terminal.expect(drawing(b""))
        terminal.stop()
        terminal.go_on(BEHIND)
        same("report", terminal.next_report(), "stopped")
        terminal.expect_put_back()
        terminal.go_on(IN_FRONT)
        terminal.wait_until_taken()
        terminal.type(CTRL_D)
        terminal.expect_ended(0, NEW_ROW)


def stopped_and_then_ended():
    for number in (signal.SIGTERM, signal.SIGHUP):
        with in_mid_line() as (terminal, kept):
            terminal.stop()
            os.kill(terminal.job, number)
            terminal.go_on(IN_FRONT)
            terminal.expect_ended(128 + number, NEW_ROW)
            kept.expect(b"ab\n", OLD + b"ab\n")


def ended_behind_another():
    """Without the terminal no input ends: the program is killed, and the terminal stays as it is. The accepted line is in the
    history."""
    with in_mid_line() as (terminal, kept):
        terminal.stop()
        os.killpg(terminal.job, signal.SIGTERM)
        terminal.go_on(BEHIND)
        terminal.expect_gone(143)
        terminal.expect_put_back()
        kept.expect(b"ab\n", OLD + b"ab\n")


def stopped_in_a_window_that_is_closed():
    with in_mid_line() as (terminal, kept):
        terminal.stop()
        terminal.close_window()
        terminal.go_on(BEHIND)
        terminal.expect_gone(1, 129)
        kept.expect(b"ab\n", OLD + b"ab\n")


# It prints each byte that comes. It ends at `q` with its own status, and otherwise with its input, and writes to a file how.
TELLER = """
import os, sys
how = "ended"
try:
    while byte := os.read(0, 1):
        os.write(2, b"%d " % byte[0])
        if byte == b"q":
            sys.exit(7)
except OSError:
    how = "failed"
with open(sys.argv[1], "w") as it:
    it.write(" ".join([how, *sys.argv[2:]]))
"""
# It ignores the end of its input, and handles only SIGTERM.
STUBBORN = """
import os, signal, sys, time
signal.signal(signal.SIGTERM, lambda *_: (os.write(2, b"told "), sys.exit(0)))
os.write(2, b"on ")
while True:
    time.sleep(100)
"""


# It handles SIGQUIT once, and ends with the next byte.
ANSWERING = """
import os, signal, sys
def answer(*_):
    signal.signal(signal.SIGQUIT, signal.SIG_IGN)
    os.write(2, b"told ")
signal.signal(signal.SIGQUIT, answer)
os.write(2, b"on ")
os.read(0, 1)
sys.exit(5)
"""

def of_others(command, **more):
    return Terminal(command=[ON_TERMINAL, *command], **more)


def taken_from(path):
    """The text of a file, which is removed."""
    with open(path, encoding="utf-8") as it:
        text = it.read()
    os.remove(path)
    return text


def any_program():
    """Each byte reaches it at once, and only the program shows it."""
    with of_others(["cat"]) as terminal:
        terminal.expect_taken()
        for key in (b"a", b"\x03", b"\r", b"\x04"):
            terminal.type(key)
            terminal.expect(key)
        terminal.stop()
        terminal.go_on(IN_FRONT)
        terminal.wait_until_taken()
        terminal.type(b"b")
        terminal.expect(b"b")
        os.kill(terminal.job, signal.SIGTERM)
        terminal.expect_ended(143)


def the_end_of_any_program():
    """Its status, its arguments unchanged, and the end of its input at a signal."""
    with tempfile.TemporaryDirectory() as folder:
        said = os.path.join(folder, "said")
        command = ["python3", "-c", TELLER, said, "a b", "*", ""]
        with of_others(command) as terminal:
            terminal.type(b"aq")
            terminal.expect_ended(7, b"97 113 ")
        for send, number in [(os.kill, signal.SIGTERM), (os.killpg, signal.SIGHUP)]:
            with of_others(command) as terminal:
                terminal.type(b"a")
                terminal.expect(b"97 ")
                send(terminal.job, number)
                terminal.expect_ended(128 + number)
            same("what it says at the end", taken_from(said), "ended a b * ")


def any_program_in_a_window_that_is_closed():
    """A read that waits then fails, as the system has it, and one that begins later ends. The program may end first."""
    with tempfile.TemporaryDirectory() as folder:
        said = os.path.join(folder, "said")
        with of_others(["python3", "-c", TELLER, said]) as terminal:
            terminal.type(b"a")
            terminal.expect(b"97 ")
            terminal.close_window()
            terminal.expect_gone(0, 129)
        same("whether its input is at an end", taken_from(said) in ("ended", "failed"), True)


def keys_that_are_left():
    """Keys that a program doesn't read are there for the next one."""
    with tempfile.TemporaryDirectory() as folder:
        with of_others(["python3", "-c", TELLER, os.path.join(folder, "said")]) as terminal:
            terminal.type(b"qrest\r")
            terminal.expect_ended(7, b"113 ")
            same("whether there is more", select.select([terminal.slave], [], [], HUNG)[0], [terminal.slave])
            same("what is left", os.read(terminal.slave, 100), b"rest\r")


def what_a_program_has_started():
    """The end of the input reaches every process that reads it."""
    with of_others(["sh", "-c", "cat; echo over >&2"]) as terminal:
        terminal.type(b"a")
        terminal.expect(b"a")
        os.kill(terminal.job, signal.SIGTERM)
        terminal.expect_ended(143, b"over\n")


def signals_that_any_program_answers():
    """A program without a handler ends by them; one with a handler continues, and ends as it likes."""
    for number in (signal.SIGUSR1, signal.SIGALRM, signal.SIGPROF, signal.SIGPWR):
        with of_others(["cat"]) as terminal:
            terminal.type(b"a")
            terminal.expect(b"a")
            os.kill(terminal.job, number)
            terminal.expect_ended(128 + number, b"\n")
    with of_others(["python3", "-c", ANSWERING]) as terminal:
        terminal.expect(b"on ")
        terminal.type(b"\x1c")
        terminal.expect(b"told ")
        terminal.type(b"a")
        terminal.expect_ended(5)


def a_program_that_stops_itself():
    """The job stops with it, and continues with it."""
    with of_others(["sh", "-c", "kill -s STOP $$; read -r _; exit 7"]) as terminal:
        terminal.expect_stopped()
        terminal.go_on(IN_FRONT)
        terminal.wait_until_taken()
        terminal.type(b"\n")
        terminal.expect_ended(7)


def a_program_that_does_not_stop():
    """It continues in the foreground, since it handles the terminal's key itself."""
    with of_others(["sh", "-c", "trap '' TSTP; echo on >&2; cat"]) as terminal:
        terminal.expect(b"on\n")
        terminal.type(b"\x1ab")
        terminal.expect(b"b")
        os.kill(terminal.job, signal.SIGTERM)
        terminal.expect_ended(143)


def signals_in_any_order():
    """However many come to the job or to the script alone, it ends by the one that ends it, with the terminal restored."""
    ends = (signal.SIGHUP, signal.SIGINT, signal.SIGQUIT, signal.SIGTERM, signal.SIGUSR1)
    others = (signal.SIGTSTP, signal.SIGCONT, signal.SIGTTIN, signal.SIGCHLD, signal.SIGWINCH)
    for seed in range(30):
        rng = random.Random(seed)
        end = rng.choice(ends)
        numbers = [*rng.choices(others, k=rng.randrange(60)), end, *rng.choices(others, k=rng.randrange(20))]
        with of_others(["cat"]) as terminal:
            terminal.type(b"a")
            terminal.expect(b"a")
            terminal.go_on(IN_FRONT * 1000)
            with contextlib.suppress(ProcessLookupError):
                for number in numbers:
                    rng.choice((os.kill, os.killpg))(terminal.job, number)
            while (report := terminal.next_report()) == "stopped":
                pass
            same("report", report, f"ended {128 + end}")
            terminal.expect_put_back()
            os.write(terminal.slave, b"|")
            terminal.display.expect_end_of(UNMARKED + b"|")


def ended_behind_another_that_it_asked():
    """A job that continues in the background asks for the terminal, which stays as the other job has it."""
    with of_others(["cat"]) as terminal:
        terminal.type(b"a")
        terminal.expect(b"a")
        terminal.stop()
        others = termios.tcgetattr(terminal.slave)
        others[3] &= ~termios.ECHO
        termios.tcsetattr(terminal.slave, termios.TCSANOW, others)
        terminal.go_on(BEHIND)
        same("report", terminal.next_report(), "stopped")
        os.killpg(terminal.job, signal.SIGTERM)
        terminal.go_on(BEHIND)
        terminal.expect_gone(143)
        same("the terminal's settings", termios.tcgetattr(terminal.slave), others)
        os.write(terminal.slave, b"|")
        terminal.expect(b"|")


def a_program_that_goes_on():
    """It handles the signal, or is killed."""
    for number, last in ((signal.SIGTERM, b"told "), (signal.SIGHUP, b"\n")):
        with of_others(["python3", "-c", STUBBORN]) as terminal:
            terminal.expect(b"on ")
            os.kill(terminal.job, number)
            terminal.expect_ended(128 + number, last)


def a_program_of_any_name():
    """Even one that looks like an assignment or an option."""
    with tempfile.TemporaryDirectory() as folder:
        for name in ("a=b", "-a b"):
            program = os.path.join(folder, name)
            with open(program, "w", encoding="utf-8") as it:
                it.write("#!/bin/sh\nexit 5\n")
            os.chmod(program, 0o755)
            with Terminal(command=[shutil.which("env"), f"PATH={folder}:{os.environ['PATH']}", ON_TERMINAL, name]) as terminal:
                terminal.expect_ended(5)


def a_program_that_is_missing():
    with tempfile.TemporaryDirectory() as folder:
        with of_others([os.path.join(folder, "none")], files={2: os.path.join(folder, "told")}) as terminal:
            terminal.expect_ended(127)


# It prints COLUMNS and its arguments.
TELLS_COLUMNS = "#!/bin/sh\necho \"${COLUMNS-none} $*\" >&2\n"
# The terminal's columns, COLUMNS as on_terminal finds it, on_terminal's option, and the program's output.
COLUMNS = [
    (30, None, [], "30 a b"), (60, None, [], "60 a b"), (80, None, [], "80 a b"), (200, None, [], "200 a b"), (60, "77", [], "60 a b"),
    (1, None, [], "1 a b"), (2000, "77", [], "2000 a b"), (0, None, [], "none a b"), (0, "77", [], "77 a b"),
    (30, None, ["--columns"], "30 --columns=30 a b"), (200, "77", ["--columns"], "200 --columns=200 a b"),
    (2, None, ["--columns"], "2 --columns=2 a b"), (1, None, ["--columns"], "1 a b"),
    (2000, None, ["--columns"], "2000 --columns=1000 a b"), (0, "77", ["--columns"], "77 a b"),
]


@contextlib.contextmanager
def that_tells_columns(found):
    """A folder, and a command line up to on_terminal's option and then the program, with COLUMNS set as given."""
    with tempfile.TemporaryDirectory() as folder:
        program = os.path.join(folder, "tells")
        with open(program, "w", encoding="utf-8") as it:
            it.write(TELLS_COLUMNS)
        os.chmod(program, 0o755)
        found = ["-u", "COLUMNS"] if found is None else [f"COLUMNS={found}"]
        yield folder, [shutil.which("env"), *found, ON_TERMINAL], [program, "a", "b"]


def the_columns_that_any_program_finds():
    for columns, found, option, told in COLUMNS:
        with that_tells_columns(found) as (_, before, program):
            with Terminal(columns, command=[*before, *option, *program]) as terminal:
                terminal.expect_ended(0, told.encode() + b"\n")


def columns_where_the_display_is_no_terminal():
    with that_tells_columns(None) as (folder, before, program):
        display = os.path.join(folder, "display")
        with Terminal(60, command=[*before, *program], files={2: display}) as terminal:
            terminal.expect_ended(0)
        same("what it says", taken_from(display), "60 a b\n")


def columns_where_the_display_is_another_terminal():
    with that_tells_columns(None) as (_, before, program):
        keys, display = os.openpty(), os.openpty()
        for (_, slave), columns in ((keys, 60), (display, 33)):
            fcntl.ioctl(slave, termios.TIOCSWINSZ, struct.pack("HHHH", 24, columns, 0, 0))
        subprocess.run([*before, *program], stdin=keys[1], stderr=display[1], start_new_session=True, timeout=HUNG, check=True)
        Incoming(display[0]).expect(MARKED + b"33 a b\r\n" + UNMARKED)
        for descriptor in (*keys, *display):
            os.close(descriptor)


def columns_without_a_terminal():
    for found, told in ((None, b"none a b\n"), ("77", b"77 a b\n")):
        with that_tells_columns(found) as (_, before, program):
            ran = subprocess.run([*before, "--columns", *program], stdin=subprocess.DEVNULL, capture_output=True, timeout=HUNG)
            same("what it says", (ran.stderr, ran.returncode), (told, 0))


def any_program_without_a_terminal():
    ran = subprocess.run([ON_TERMINAL, "cat"], input=b"a\r", capture_output=True, timeout=HUNG)
    same("what comes", (ran.stdout, ran.stderr, ran.returncode), (b"a\r", b"", 0))
    ran = subprocess.run([ON_TERMINAL, "env"], stdin=subprocess.DEVNULL, env={"PATH": os.environ["PATH"]},
                         capture_output=True, timeout=HUNG)
    same("whether the locale is set", b"LC_" in ran.stdout, False)
    for words in ([], ["--columns"]):
        ran = subprocess.run([ON_TERMINAL, *words], stdin=subprocess.DEVNULL, capture_output=True, timeout=HUNG)
        usage = b"usage: on_terminal [--columns] PROGRAM ARGUMENT..\n"
        same("without a program", (ran.stdout, ran.stderr, ran.returncode), (b"", usage, 2))


if __name__ == "__main__":
    SCRIPT = placed_script()
    run_all([
        a_line_typed_edited_and_accepted,
        bytes_that_a_terminal_would_keep,
        the_same_bytes_act,
        interrupt_typed,
        the_width_at_the_start,
        a_paste_between_marks,
        words_at_a_fault,
        marks_where_the_display_is_no_terminal,
        quit_typed,
        signals_that_end_the_program,
        signals_that_end_the_input,
        keys_before_a_signal,
        a_window_that_is_closed,
        the_program_killed,
        stopped_and_continued,
        continued_behind_another,
        stopped_and_then_ended,
        ended_behind_another,
        stopped_in_a_window_that_is_closed,
        any_program,
        the_end_of_any_program,
        any_program_in_a_window_that_is_closed,
        keys_that_are_left,
        what_a_program_has_started,
        signals_that_any_program_answers,
        a_program_that_stops_itself,
        a_program_that_does_not_stop,
        signals_in_any_order,
        ended_behind_another_that_it_asked,
        a_program_that_goes_on,
        a_program_of_any_name,
        a_program_that_is_missing,
        the_columns_that_any_program_finds,
        columns_where_the_display_is_no_terminal,
        columns_where_the_display_is_another_terminal,
        columns_without_a_terminal,
        any_program_without_a_terminal,
    ])
