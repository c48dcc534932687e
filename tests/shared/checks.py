"""Shared by the tests of processes: the script and the programs, the bytes of drawings, and the count of passed tests."""
import atexit
import os
import select
import shlex
import shutil
import signal
import subprocess
import sys
import tempfile
import time
import traceback

TOP = os.path.dirname(os.path.dirname(os.path.dirname(os.path.realpath(__file__))))
# With it the program has no styles.
os.environ.pop("NO_COLOR", None)
SCRIPT = os.path.join(TOP, "keyline")
# The command by which the script runs the program on a terminal; it can run any program.
ON_TERMINAL = os.path.join(TOP, "on_terminal")
# The folder of the script's answers before the first build.
ANSWERS = os.path.join(TOP, "answers")

# A run that takes this many seconds hangs. No other check depends on a clock.
HUNG = 120

LEFT = b"\x1b[D"
RIGHT = b"\x1b[C"
CTRL_D = b"\x04"
BACKSPACE = b"\x7f"
ENTER = b"\r"
NEW_ROW = b"\r\n"


def drawing(text, back=0):
    """A full drawing of a line that fits into one row, the cursor `back` columns before the line's end."""
    shown = b"\r\x1b[J\x1b[m> \x1b[m" + text + b"\x1b[m\x1b[m"
    return shown + (b"\x1b[%dD" % back if back else b"")


class Failed(Exception):
    """A test found something other than it expects."""


def built(crate):
    """The program of a crate, proved from nothing and run by `rt ci`."""
    return os.path.join(TOP, "crates", crate, "out", crate)


PROGRAM = built("keyline_program")


def shim_source(name):
    return os.path.join(TOP, "tests", "program", f"{name}.c")


def compile_shim(name):
    """Builds a library to preload under a program, from a C file of tests/program/. Returns its path, and what gcc says. A
    program that is started meanwhile loads the library from before."""
    made = os.path.join(TOP, "build", f"{name}.so")
    os.makedirs(os.path.dirname(made), exist_ok=True)
    words = ["gcc", "-O2", "-Wall", "-Wextra", "-shared", "-fPIC", "-o", f"{made}.{os.getpid()}", shim_source(name)]
    said = subprocess.run(words, stdout=subprocess.PIPE, stderr=subprocess.STDOUT, timeout=HUNG, check=True).stdout
    os.replace(f"{made}.{os.getpid()}", made)
    return made, said


def shim(name):
    """The library to preload, built if it is missing or older than its source."""
    made = os.path.join(TOP, "build", f"{name}.so")
    if not os.path.exists(made) or os.path.getmtime(made) < os.path.getmtime(shim_source(name)):
        compile_shim(name)
    return made


def placed_script():
    """A copy of ./keyline in its own folder, whose proof hands out the program that `rt ci` left."""
    folder = tempfile.TemporaryDirectory(prefix="keyline-gate-")
    atexit.register(folder.cleanup)
    script = shutil.copy(SCRIPT, folder.name)
    shutil.copy(ON_TERMINAL, folder.name)
    source = os.path.join(folder.name, "crates", "keyline_program", "src")
    os.makedirs(source)
    os.mkdir(os.path.join(folder.name, "bin"))
    stand_in = os.path.join(folder.name, "bin", "rt")
    with open(stand_in, "w", encoding="utf-8") as it:
        it.write(f"#!/bin/sh\nmkdir -p out && cp {shlex.quote(PROGRAM)} out/keyline_program\n")
    os.chmod(stand_in, 0o755)
    with open(os.path.join(folder.name, "crates.txt"), "w", encoding="utf-8") as it:
        it.write("keyline_program:\n")
    os.environ["PATH"] = f"{folder.name}/bin:{os.environ['PATH']}"
    subprocess.run([script, "--prove"], stdin=subprocess.DEVNULL, capture_output=True, timeout=HUNG, check=True)
    return script


def same(what, found, expected):
    if found != expected:
        raise Failed(f"{what}: expected {expected!r}, found {found!r}")


def wait_until(what, holds, patience=HUNG):
    deadline = time.monotonic() + patience
    while not holds():
        if time.monotonic() > deadline:
            raise Failed(f"hung before {what}")
        time.sleep(0.01)


class Incoming:
    """The bytes read from a file descriptor, compared as they come."""

    def __init__(self, descriptor):
        self.descriptor = descriptor
        self.held = b""
        self.may_come = b""

    def more(self, deadline):
        """Reads once; False at the end."""
        ready, _, _ = select.select([self.descriptor], [], [], max(0, deadline - time.monotonic()))
        if not ready:
            raise Failed(f"hung: {self.held!r} came, and more is expected")
        try:
            read = os.read(self.descriptor, 65536)
        except OSError:  # a terminal whose other end is closed
            read = b""
        self.held += read
        return read != b""

    def expect(self, expected):
        """Waits for these bytes, and fails at any others before them, except for those that may come."""
        deadline = time.monotonic() + HUNG
        ways = [expected, self.may_come + expected]
        while any(len(self.held) < len(way) and way.startswith(self.held) for way in ways):
            if self.held == expected or not self.more(deadline):
                break
        come = next((way for way in ways if self.held.startswith(way)), expected)
        same("what came", self.held[: len(come)], come)
        self.held, self.may_come = self.held[len(come) :], b""

    def expect_end_of(self, expected):
        """Waits until the bytes so far end with these."""
        deadline = time.monotonic() + HUNG
        while not self.held.endswith(expected) and self.more(deadline):
            pass
        same("the end of what came", self.held[-len(expected) :], expected)

    def expect_end(self, expected=b""):
        """Waits for these bytes and then the end."""
        deadline = time.monotonic() + HUNG
        while self.more(deadline):
            pass
        same("what came until the end", self.held, expected)


class Running:
    """The program with a pipe at each standard stream, except for those that are given."""

    def __init__(self, command, **streams):
        given = {**dict.fromkeys(("stdin", "stdout", "stderr"), subprocess.PIPE), **streams}
        self.process = subprocess.Popen(command, bufsize=0, **given)
        self.lines, self.display = (it and Incoming(it.fileno()) for it in (self.process.stdout, self.process.stderr))

    def type(self, keys):
        self.process.stdin.write(keys)

    def end_of_input(self):
        self.process.stdin.close()

    def expect_status(self, status):
        same("status", self.process.wait(timeout=HUNG), status)

    def peak(self):
        """The most memory that the process has used so far, in KB."""
        with open(f"/proc/{self.process.pid}/status", encoding="ascii") as status:
            return next(int(line.split()[1]) for line in status if line.startswith("VmHWM"))

    def __enter__(self):
        return self

    def __exit__(self, *_):
        if self.process.poll() is None:
            self.process.kill()
            self.process.wait()
        for stream in filter(None, (self.process.stdin, self.process.stdout, self.process.stderr)):
            try:
                stream.close()
            except BrokenPipeError:
                pass


def heed_signals():
    """Undoes what a gate in the background inherits: there a shell has ignored the signals that tests send to their programs."""
    for number in (signal.SIGHUP, signal.SIGINT, signal.SIGQUIT, signal.SIGTERM):
        if signal.getsignal(number) == signal.SIG_IGN:
            signal.signal(number, signal.default_int_handler if number == signal.SIGINT else signal.SIG_DFL)


def run_all(tests):
    """Runs each test, prints what failed, and ends with the count."""
    heed_signals()
    passed = 0
    for test in tests:
        name = test.__name__.replace("_", " ")
        try:
            test()
        except Exception as fault:
            expected = isinstance(fault, (Failed, subprocess.TimeoutExpired))
            print(f"FAILED {name}: {fault if expected else traceback.format_exc()}", flush=True)
        else:
            passed += 1
            print(f"passed {name}", flush=True)
    failed = len(tests) - passed
    print(f"{passed} passed, {failed} failed", flush=True)
    sys.exit(1 if failed else 0)
