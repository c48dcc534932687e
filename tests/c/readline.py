#!/usr/bin/env python3
"""libkeyline-readline under programs that are linked to readline: sqlite3, bc, lua5.4, python3 and tests/c/readline_lines.c. tmux
shows what is shown after each key of the sessions of tests/c/readline.txt. Random keys, one by one and in pieces, end on the
same screen. On pipes each program writes what it writes over readline itself. Signals, histories, what `make install` leaves,
and valgrind; and libkeyline.so under the console in C.

tests/c/c_program.py builds the archive first; another one may be named: `--archive PATH`. A program that isn't there is skipped
with a word. Names of sessions as arguments: only these. `--tell` prints what is shown in place of comparing it.
"""
import contextlib
import fcntl
import glob
import os
import pathlib
import random
import re
import shlex
import shutil
import signal
import struct
import subprocess
import sys
import tempfile
import termios
import time

sys.path += glob.glob(os.path.join(os.path.dirname(os.path.dirname(os.path.realpath(__file__))), "*", ""))
import terminal
from checks import CTRL_D, ENTER, HUNG, LEFT, TOP, Failed, drawing, run_all, same, shim, wait_until
from display import Display
from drawings import Terminal
from shown import deed, expect, meant, pictured, until_taken, width

CRATE = os.path.join(TOP, "crates", "keyline_c")
SOURCES = os.path.join(CRATE, "c", "readline")
INSTALLED = os.path.join(TOP, "build", "readline-installed")
PREFIX = os.path.join(INSTALLED, "usr", "local")
LIBRARY = os.path.join(PREFIX, "lib", "keyline", "libreadline.so.8")
LINES = os.path.join(TOP, "build", "readline_lines")
ROWS = pathlib.Path(__file__).with_name("readline.txt")
KIT = os.path.dirname(os.path.dirname(os.path.realpath(shutil.which("rt") or "/")))
STRICT = ["gcc", "-Wall", "-Wextra", "-Wpedantic", "-Werror", "-O1", "-g"]
VALGRIND = ["valgrind", "--quiet", "--leak-check=full", "--errors-for-leak-kinds=definite", "--error-exitcode=99"]
# A readline of the system, for what is compared with it.
SYSTEM = "libreadline.so.8"


def has_system_readline(python):
    """Whether this Python's module readline is linked to libreadline."""
    look = "import readline, sys; sys.exit('libreadline.so.8' not in open('/proc/self/maps').read())"
    return os.path.exists(python) and subprocess.run([python, "-c", look], check=False, capture_output=True).returncode == 0


PYTHON = next(filter(has_system_readline, ("/usr/bin/python3", sys.executable)), None)
# Each program: how it is called, and its prompt.
PROGRAMS = {
    "bc": (["bc", "-q"], ""),
    "lua": (["lua5.4"], "> "),
    "python": ([PYTHON or "python3 with readline", "-q"], ">>> "),
    "sqlite": (["sqlite3"], "sqlite> "),
    "lines": ([LINES, "lines"], "> "),
    "leaves": ([LINES, "leaves"], "> "),
    "events": ([LINES, "events"], "> "),
}


def is_there(name):
    return shutil.which(PROGRAMS[name][0][0]) is not None


def archive():
    if "--archive" in sys.argv:
        return os.path.abspath(sys.argv[sys.argv.index("--archive") + 1])
    return os.path.join(CRATE, "out", "libkeyline_c.a")


def make(folder, *words):
    return subprocess.run(["make", "-s", "-C", folder, *words], check=False, capture_output=True, text=True)


def must_make(folder, *words):
    done = make(folder, f"ARCHIVE={archive()}", f"KIT={KIT}", f"DESTDIR={INSTALLED}", *words)
    if done.returncode:
        raise Failed(f"make {words} in {folder}: {done.stdout}{done.stderr}")


def compile_c(source, program, *words):
    subprocess.run([*STRICT, "-o", program, source, *words, f"-I{PREFIX}/include/keyline"], check=True)


def build():
    """Installs both libraries into build/, and links readline_lines to one of them."""
    shutil.rmtree(INSTALLED, ignore_errors=True)
    must_make(SOURCES, "install")
    must_make(os.path.dirname(SOURCES), "install")
    folder = os.path.dirname(LIBRARY)
    link = [f"-L{folder}", "-lkeyline-readline", f"-Wl,-rpath,{folder}", "-std=gnu11"]
    compile_c(os.path.join(TOP, "tests", "c", "readline_lines.c"), LINES, *link)


PRELOADED, IN_PATH = {"LD_PRELOAD": LIBRARY}, {"LD_LIBRARY_PATH": os.path.dirname(LIBRARY)}


def environment(folder, how):
    """What a program finds: nothing but this. `how` is one of the two ways to the library, or {} for the system's."""
    files = {"INPUTRC": os.path.join(folder, "inputrc"), "SQLITE_HISTORY": os.path.join(folder, "sqlite")}
    return {"PATH": os.environ["PATH"], "HOME": folder, "LC_ALL": "C.UTF-8", **files, **how}


# ---- what is installed ----


def names_of(library):
    listed = subprocess.run(["nm", "-D", "--defined-only", library], check=True, capture_output=True, text=True).stdout
    return {row.split()[-1] for row in listed.splitlines()}


def what_is_installed():
    """The exported names are those of exports.map; each stands in a header and in the man page. The other library has those of
    keyline.h and line.h."""
    listed = set(re.findall(r"^    (\w+);", pathlib.Path(SOURCES, "exports.map").read_text(encoding="utf-8"), re.M))
    same("names that are exported", names_of(LIBRARY), listed)
    for name in ("include/readline/readline.h", "include/readline/history.h"):
        words = re.findall(r"\w+", pathlib.Path(SOURCES, name).read_text(encoding="utf-8"))
        listed -= set(words)
    same("names without a declaration", listed, set())
    page = pathlib.Path(PREFIX, "share/man/man3/keyline-readline.3").read_text(encoding="utf-8")
    same("names that the man page lacks", names_of(LIBRARY) - set(re.findall(r"\w+", page)), set())
    names = names_of(os.path.join(PREFIX, "lib", "libkeyline.so.1"))
    same("other names of libkeyline", {it for it in names if not it.startswith(("keyline_", "line_"))}, set())
    same("files", all(os.path.isfile(os.path.join(PREFIX, it)) for it in (
        "lib/keyline/libkeyline-readline.so", "lib/pkgconfig/keyline-readline.pc", "lib/pkgconfig/keyline.pc", "lib/libkeyline.so",
        "include/keyline/keyline.h", "include/keyline/line.h", "share/man/man3/keyline.3")), True)


def what_ldconfig_finds():
    """No program gets the library unasked: ldconfig makes no libreadline of it."""
    if (ldconfig := shutil.which("ldconfig", path=f"{os.environ['PATH']}:/sbin:/usr/sbin")) is None:
        print("skipped what ldconfig finds: it isn't there")
        return
    with tempfile.TemporaryDirectory() as folder:
        shutil.copytree(os.path.join(PREFIX, "lib"), os.path.join(folder, "lib"), symlinks=True)
        subprocess.run([ldconfig, "-n", os.path.join(folder, "lib")], check=True)
        found = [it for it in os.listdir(os.path.join(folder, "lib")) if "readline" in it]
        same("what is in lib/", found, [])


def headers():
    """They compile by themselves in each standard, without a warning; in C++ too if there is a compiler."""
    with tempfile.TemporaryDirectory() as folder:
        for name in ("readline", "history"):
            source = os.path.join(folder, f"{name}.c")
            pathlib.Path(source).write_text(f"#include <readline/{name}.h>\n", encoding="utf-8")
            ways = [("gcc", "-std=c99"), ("gcc", "-std=c17")] + [("g++", "-std=c++11", "-xc++")] * bool(shutil.which("g++"))
            for way in ways:
                words = [*way, "-fsyntax-only", *STRICT[1:], f"-I{PREFIX}/include/keyline", source]
                subprocess.run(words, check=True)


def without_an_archive():
    """make says which command builds the archive."""
    for folder in (SOURCES, os.path.dirname(SOURCES)):
        with tempfile.TemporaryDirectory() as out:
            done = make(folder, f"ARCHIVE={out}/missing.a", f"OUT={out}", f"KIT={KIT}")
        same("status", done.returncode, 2)
        same("what it says", "rt lib" in done.stderr and "tests/c/c_program.py --archive" in done.stderr, True)


def the_console_over_libkeyline():
    console = os.path.join(TOP, "build", "console_shared")
    link = [f"-L{PREFIX}/lib", "-lkeyline", f"-Wl,-rpath,{PREFIX}/lib", "-std=c11"]
    compile_c(os.path.join(CRATE, "c", "console.c"), console, *link)
    done = subprocess.run([console], input=b"one two\x17\r\x19\x19\r", capture_output=True, timeout=HUNG, check=True)
    same("lines", done.stdout, b"got: one \ngot: twotwo\n")


def both_ways():
    """By LD_PRELOAD and by LD_LIBRARY_PATH, each program takes this library and no other readline."""
    with tempfile.TemporaryDirectory() as folder:
        for name in filter(is_there, PROGRAMS):
            for how in (PRELOADED, IN_PATH):
                words, env = [shutil.which(PROGRAMS[name][0][0])], environment(folder, how)
                if name == "python":
                    words += ["-c", "import readline; print(open('/proc/self/maps').read())"]
                else:
                    env["LD_TRACE_LOADED_OBJECTS"] = "1"
                found = subprocess.run(words, env=env, check=True, capture_output=True, text=True, timeout=HUNG).stdout
                taken = {os.path.realpath(it) for it in re.findall(r"/\S*libreadline\S*", found)}
                same(f"the libraries of {name}", taken, {os.path.realpath(LIBRARY)})


# ---- sessions on tmux ----


class Session:
    """A session of the file: its name, its program, the window's columns, and the rows below them."""

    def __init__(self, words):
        self.name, self.program, *rest = words.split()
        self.columns, self.steps, self.before, self.after = int(rest[0]) if rest else 60, [], {}, {}

    def add(self, line):
        word, _, rest = line.partition(" ")
        if word in ("file:", "leaves:"):
            name, _, text = rest.partition(" ")
            (self.before if word == "file:" else self.after)[name] = meant(text)
        elif " = " in line:
            self.steps.append((line, *line.split(" = ", 1)))

    def command(self, folder, how):
        words, _ = PROGRAMS[self.program]
        given = [f"{name}={value}" for name, value in environment(folder, how).items()]
        run = shlex.join(["env", "-i", *given]) + ' TERM="$TERM" ' + shlex.join(words)
        return f"cd {shlex.quote(folder)}; stty -g >before; {run}; stty -g >after; exec sleep {HUNG}"

    def plays(self, pane, tell):
        prompt = PROGRAMS[self.program][1]
        until_taken(pane)
        wait_until("the prompt", lambda: pane.shown()[0][-1:] == [prompt.rstrip()] or not prompt)
        if pane.shown()[0][1:]:
            act("C-l", pane)
        expect(pane, "before the first key", pictured(f"{prompt}|"))
        for line, keys, shown in self.steps:
            act(keys, pane)
            if tell:
                time.sleep(0.5)
                print(f"{keys} = {told(pane.shown())}", flush=True)
            else:
                expect(pane, line, pictured(shown))

    def left(self, folder):
        """The terminal is as it was, and the files are as the session says."""
        read = lambda name: pathlib.Path(folder, name).read_text(encoding="utf-8")
        wait_until("its end", lambda: os.path.exists(os.path.join(folder, "after")) and read("after").endswith("\n"))
        same("the terminal's settings", read("after"), read("before"))
        for name, text in self.after.items():
            same(f"the file {name}", read(name), text)


def told(shown):
    """A screen as the file has it, to write a session from it."""
    rows, (row, column) = shown
    rows = [*rows, *[""] * (row + 1 - len(rows))]
    text = rows[row].ljust(column)
    at = next((it for it in range(len(text)) if width(text[:it]) == column), len(text))
    rows[row] = f"{text[:at]}|{text[at:].rstrip()}"
    return " / ".join(rows)


def act(keys, pane):
    word, _, rest = keys.partition(" ")
    if word == "resize:":
        pane.ask("resize-window", "-x", rest)
    elif word == "message":
        os.kill(child_of(int(pane.ask("display-message", "-p", "#{pane_pid}"))), signal.SIGUSR1)
    else:
        deed(keys)(pane)


def child_of(process):
    return int(pathlib.Path(f"/proc/{process}/task/{process}/children").read_text(encoding="ascii").split()[-1])


def sessions():
    found = []
    for line in ROWS.read_text(encoding="utf-8").splitlines():
        if line.startswith(":"):
            found.append(Session(line[1:]))
        elif found and not line.startswith("#"):
            found[-1].add(line)
    return found


def test_of(session, how):
    def plays():
        if not is_there(session.program):
            print(f"skipped {session.name}: {PROGRAMS[session.program][0][0]} isn't there")
            return
        with tempfile.TemporaryDirectory() as folder:
            for name, text in session.before.items():
                pathlib.Path(folder, name).write_text(text, encoding="utf-8")
            pane = Terminal(folder, session.columns, session.command(folder, how))
            try:
                session.plays(pane, "--tell" in sys.argv)
                deed("C-c C-u C-d C-d")(pane) if "--tell" in sys.argv else session.left(folder)
            finally:
                pane.close()

    plays.__name__ = session.name.replace("-", "_")
    return plays


def a_prompt_in_colours():
    """Its colours stay, also if it takes two rows, and the text after it has none."""
    if not is_there("python"):
        print("skipped a prompt in colours: there is no python3 with readline")
        return
    session = Session("coloured python 20")
    session.add(r'import␠sys;␠sys.ps1="\001\033[31m\002"+"p"*21+"\001\033[0m\002>␠" Enter C-l = pppppppppppppppppppp / p> |')
    session.add("ab Left x = pppppppppppppppppppp / p> ax|b")
    with tempfile.TemporaryDirectory() as folder:
        pane = Terminal(folder, session.columns, session.command(folder, PRELOADED))
        try:
            session.plays(pane, False)
            found = pane.ask("capture-pane", "-e", "-p").rstrip()
            same("the rows with their colours", found, f"\x1b[31m{'p' * 20}\np\x1b[39m> axb")
        finally:
            pane.close()


# ---- keys in pieces ----

# Keys for random sessions; all texts have characters of one column.
KEYS = [b"a", b"b ", b"word ", b"x" * 30, b"\x01", b"\x05", b"\x02", b"\x06", b"\x0b", b"\x15", b"\x17", b"\x19", b"\x1by", b"\x7f",
        b"\x1b[A", b"\x1b[B", b"\x1b[C", b"\x1b[D", b"\x1b[3~", b"\x1bb", b"\x1bf", b"\x1bd", b"\x14", b"\x1bt", b"\x1f", b"\x10",
        b"\x0e", b"\x1b[200~pa ste\n\td\x1b[201~", b"\r", b"\x1b5z", b"\x1bu", b"\x12wo", b"\x07", b"\x1b.", b"\xff", b"\x16\x01", b"\x0c", b"\t"]
# What ends each of them: a line that shows that all keys were taken.
LAST = b"\x1b[200~\x1b[201~\x07\x05\rlast\r"


def display_of(pieces, columns=40):
    """What a terminal shows after these pieces of keys, each sent when the one before was read."""
    master, slave = os.openpty()
    fcntl.ioctl(slave, termios.TIOCSWINSZ, struct.pack("HHHH", 500, columns, 0, 0))
    # So that the terminal echoes and changes none that comes between two lines.
    settings = termios.tcgetattr(slave)
    settings[0] &= ~termios.ICRNL
    settings[3] &= ~(termios.ICANON | termios.ECHO)
    termios.tcsetattr(slave, termios.TCSANOW, settings)
    with tempfile.TemporaryDirectory() as folder:
        process = subprocess.Popen([LINES, "lines"], stdin=slave, stdout=slave, stderr=slave, cwd=folder,
                                   env={**environment(folder, {}), "TERM": "xterm"}, start_new_session=True)
        shown = b""
        try:
            os.set_blocking(master, False)
            while b"> " not in shown:
                shown += read_all(master)
            for piece in [*pieces, LAST]:
                os.write(master, piece)
                end = time.monotonic() + HUNG
                while waiting(slave) > 0:
                    # (A program whose output nobody reads waits as soon as the terminal's buffer is full.)
                    shown += read_all(master)
                    if time.monotonic() > end:
                        raise Failed(f"hung before the keys are read, with status {process.poll()}: {shown[-300:]!r}")
                shown += read_all(master)
            end = time.monotonic() + HUNG
            while not strip(shown).endswith(b"got <last>\r\n\r\x1b[J> "):
                shown += read_all(master)
                if time.monotonic() > end:
                    raise Failed(f"hung: {shown[-300:]!r}")
        finally:
            process.kill()
            process.wait()
            os.close(master)
            os.close(slave)
    return shown


def read_all(descriptor):
    try:
        return os.read(descriptor, 65536)
    except BlockingIOError:
        time.sleep(0.0005)
        return b""


def waiting(slave):
    """How many bytes the program hasn't read."""
    return struct.unpack("i", fcntl.ioctl(slave, termios.FIONREAD, b"1234"))[0]


def strip(shown):
    """Without marks for pastes and bells, and without the resets around texts."""
    return re.sub(rb"\x1b\[\?2004[hl]|\x1b\[m|\x07", b"", shown)


def screen_of(shown):
    display = Display(40)
    for _ in display.read(strip(shown)):
        pass
    return display.rows, display.cursor


def one_by_one_and_in_pieces():
    """Random keys end on the same screen however they come. The model of the display finds each byte's meaning."""
    for number in range(12):
        chance = random.Random(number)
        keys = [chance.choice(KEYS) for _ in range(60)]
        pieces, rest = [], list(keys)
        while rest:
            count = chance.choice([1, 3, 10, 40])
            pieces.append(b"".join(rest[:count]))
            rest = rest[count:]
        one_by_one = screen_of(display_of([bytes([byte]) for byte in b"".join(keys)]))
        same(f"keys {number}: {pieces}", screen_of(display_of(pieces)), one_by_one)


# ---- pipes, histories, signals, memory ----

ON_PIPES = {
    "sqlite": [b"select 1+1;\nselect 'a b';\n.quit\n", b"select 12;\x17\x17select 3;\n", b"select 'h\xc3\xa9';", b""],
    "bc": [b"1+2\ndefine f(x) {\nreturn 2*x\n}\nf(21)\n", b"1+22\x7f\n", b"7", b""],
    "lua": [b"x=1\n=x+\n2\nprint'a'\n", b"print(1)\x01\x06\x04\x0b\nx=1\n", b""],
    "lines": [b"one two\x17\n\x19\x19\n\x10\x10\n", b"a\nb", b"h\xc3\xa9llo\xcc\x81 \xe6\xbc\xa2\x02\x02x\n", b"x" * 500 + b"\x01y\n", b"a\xe2\x80\x81b\xef\xa3\xbfc\x16\td\x1b[D\x17\x19\n\x10\x01e\n"],
}


def on_pipes():
    """Where keys come from a pipe a program writes what it writes over readline itself."""
    for name, inputs in ON_PIPES.items():
        if not is_there(name):
            print(f"skipped {name} on pipes: it isn't there")
            continue
        for keys in inputs:
            found = []
            for how in ({"LD_PRELOAD": SYSTEM}, PRELOADED, IN_PATH):
                with tempfile.TemporaryDirectory() as folder:
                    words = [shutil.which(PROGRAMS[name][0][0]), *PROGRAMS[name][0][1:]]
                    how = {**how, "LD_LIBRARY_PATH": how.get("LD_LIBRARY_PATH", "")}
                    done = subprocess.run(words, input=keys, env={**environment(folder, how), "TERM": "xterm"}, capture_output=True,
                                          timeout=HUNG, check=False)
                    found.append((done.returncode, done.stdout, done.stderr))
            for it in found[1:]:
                same(f"{name} for {keys}", it, found[0])


def run_lines(mode, keys=b"", before=()):
    with tempfile.TemporaryDirectory() as folder:
        return subprocess.run([*before, LINES, mode], input=keys, cwd=folder, env={**environment(folder, {}), "TERM": "xterm"},
                              capture_output=True, timeout=HUNG, check=False)


def histories():
    done = run_lines("history")
    last = done.stdout.decode().split("\n")[-2]
    if not re.fullmatch(r"[1-9][0-9]* passed, 0 failed", last) or done.returncode:
        raise Failed(done.stdout.decode())


def three_hundred_entries():
    """Python's file of its history has 300 rows, and after a session 300 and one."""
    rows = "".join(f"x{number}\n" for number in range(300))
    session = Session("three-hundred python")
    session.before[".python_history"] = rows
    session.after[".python_history"] = f"{rows}1+1\n"
    session.add(f"{'Up ' * 150}= >>> x150|")
    session.add(f"{'Down ' * 148}= >>> x298|")
    session.add("C-u 1+1 Enter C-d = >>> 1+1 / 2 / >>> / |")
    test_of(session, PRELOADED)()


def await_end(it, shown):
    """Waits until what is shown so far ends so, and takes all of it."""
    it.display.expect_end_of(shown)
    it.display.held = b""


@contextlib.contextmanager
def in_mid_line(mode="lines"):
    """readline_lines on a terminal, with `abc` typed and the cursor before its last letter."""
    with tempfile.TemporaryDirectory() as folder:
        given = [f"{name}={value}" for name, value in environment(folder, {}).items()]
        with terminal.Terminal(40, command=["/usr/bin/env", "-i", "TERM=xterm", *given, LINES, mode]) as it:
            it.expect(drawing(b""))
            it.type(b"abc" + LEFT)
            await_end(it, b"c\x1b[1D")
            yield it


def signals_that_end_it():
    """The terminal is restored, and then the signal acts."""
    for number, told in ((signal.SIGHUP, b""), (signal.SIGINT, b"^C"), (signal.SIGQUIT, b"^\\"), (signal.SIGTERM, b"")):
        with in_mid_line() as it:
            os.kill(it.job, number)
            it.expect_gone(-number)
            it.expect_put_back()
            it.expect(b"\x1b[1C" + told + terminal.UNMARKED)


def stopped_and_continued():
    """When it stops, the terminal is restored, and when it continues, the line is drawn again and goes on."""
    with in_mid_line() as it:
        it.type(b"\x1a")
        it.expect(b"\x1b[1C^Z" + terminal.UNMARKED)
        same("report", it.next_report(), "stopped")
        it.expect_put_back()
        it.go_on(terminal.IN_FRONT)
        await_end(it, b"\x1b[mabc\x1b[1D")
        it.type(b"X" + ENTER)
        await_end(it, b"got <abXc>\r\n" + terminal.MARKED + drawing(b""))
        it.type(CTRL_D)
        it.expect_gone(0)
        it.expect_put_back()


def a_terminal_that_is_not_drawn_on():
    """With TERM=dumb the terminal edits the line."""
    with tempfile.TemporaryDirectory() as folder:
        run = shlex.join(["env", "TERM=dumb", *PROGRAMS["lines"][0]])
        pane = Terminal(folder, 40, f"{run}; exec sleep {HUNG}")
        try:
            expect(pane, "a prompt", pictured("> |"))
            deed("abc Backspace d")(pane)
            expect(pane, "typed", pictured("> abd|"))
            deed("Enter")(pane)
            expect(pane, "a line", pictured("> abd / got <abd> / > |"))
        finally:
            pane.close()


def each_allocation_fails():
    """The program says so and ends, with the lines before it written; no key is lost without a word."""
    keys = b"one two\x17\n\x19\x19\n\x10\x10 three\x12wo\x05\nx\x16\ty\n"
    whole, number = run_lines("lines", keys).stdout, 0
    with tempfile.TemporaryDirectory() as folder:
        report = os.path.join(folder, "report")
        while number == 0 or os.path.exists(report):
            number += 1
            pathlib.Path(report).unlink(missing_ok=True)
            how = {"LD_PRELOAD": shim("fail_alloc"), "FAIL_ALLOCATION": str(number), "FAIL_ALLOCATION_REPORT": report}
            done = subprocess.run([LINES, "lines"], input=keys, env=environment(folder, how), capture_output=True, check=False)
            if done.returncode:
                same(f"allocation {number}", (done.returncode, done.stderr), (2, b"readline: out of memory\n"))
                same(f"the lines, allocation {number}", done.stdout, whole[: len(done.stdout)])
            else:
                same(f"the lines, allocation {number}", done.stdout, whole)
    if number < 10:
        raise Failed(f"only {number - 1} allocations failed")


def under_valgrind():
    """No wrong access and nothing lost: lines, an event loop, histories."""
    for mode, keys in (("leaves", b"".join(KEYS) + b"\rlast\n"), ("events", b"ab\x01c\nde\x17f\n\x04"), ("history", b"")):
        done = run_lines(mode, keys, VALGRIND)
        if done.returncode:
            raise Failed(f"valgrind at {mode}: {done.returncode}, {done.stdout[-500:]}, {done.stderr[-3000:].decode(errors='replace')}")


OTHERS = [
    what_is_installed,
    what_ldconfig_finds,
    headers,
    without_an_archive,
    the_console_over_libkeyline,
    both_ways,
    on_pipes,
    histories,
    three_hundred_entries,
    a_prompt_in_colours,
    one_by_one_and_in_pieces,
    signals_that_end_it,
    stopped_and_continued,
    a_terminal_that_is_not_drawn_on,
    each_allocation_fails,
    under_valgrind,
]


def main():
    os.environ["LC_ALL"] = "C.UTF-8"
    build()
    named = [it for it in sys.argv[1:] if not it.startswith("--") and it != archive()]
    chosen = [it for it in sessions() if not named or it.name in named]
    tests = [test_of(it, (PRELOADED, IN_PATH)[number % 2]) for number, it in enumerate(chosen)]
    tests += [it for it in OTHERS if not named or it.__name__ in named]
    return run_all(tests)


if __name__ == "__main__":
    sys.exit(main())
