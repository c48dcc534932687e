"""The cost of keys in whole sessions: the built program over a pipe, its display and lines thrown away.

Called by `bench/run session` with the built program. Each case is run at two sizes, the second ten times the first, so
that a cost that grows with the session shows. The time is processor time, in microseconds per key, less that of a session
without keys, or without those that are counted; the shortest of five runs counts. After that come the peak of memory and
the time of sessions with many lines and with one long line.
"""
import os
import subprocess
import sys
import tempfile
import threading

LEFT, RIGHT, HOME, END = b"\x1b[D", b"\x1b[C", b"\x01", b"\x05"
BACKSPACE, UNDO, ENTER = b"\x7f", b"\x1f", b"\r"
PASTE = (b"\x1b[200~", b"\x1b[201~")


def lines_typed(keys):
    """Lines of forty characters, each accepted."""
    return (b"the quick brown fox jumps over two dogs." + ENTER) * (keys // 41)


def one_line(keys):
    """One line, typed at its end."""
    return b"a" * keys + ENTER


def one_line_before(keys):
    """One line, typed before its first character."""
    return b"a" * keys + HOME + b"b" * 100 + ENTER


def edits(keys):
    """In a line of forty characters moves, kills and undos, ten keys at a time."""
    some = LEFT + LEFT + b"x" + BACKSPACE + RIGHT + HOME + RIGHT + END + BACKSPACE + UNDO
    return b"the quick brown fox jumps over two dogs." + some * (keys // 10) + ENTER


def edits_in_long_line(keys):
    """The same at the end of a line that grows with the size, a thousand keys."""
    return b"a" * keys + edits(1000)


def pasted(size):
    """One pasted text, counted by its bytes."""
    return PASTE[0] + b"0123456789abcdef" * (size // 16) + PASTE[1] + ENTER


CASES = [
    ("lines of 40 characters", lines_typed, 10_000, None),
    ("one line, at its end", one_line, 10_000, None),
    ("100 keys before a line", one_line_before, 10_000, 100),
    ("moves, kills and undos in 40 characters", edits, 10_000, None),
    ("1,000 of them at the end of a line", edits_in_long_line, 10_000, 1000),
    ("a paste, by bytes", pasted, 100_000, None),
]


def seconds(program, keys):
    """The processor time of a session with these keys, the shortest of five."""
    return min(once(program, keys) for _ in range(5))


def once(program, keys):
    with tempfile.TemporaryFile() as source:
        source.write(keys)
        source.seek(0)
        with subprocess.Popen(["cat"], stdin=source, stdout=subprocess.PIPE) as pipe:
            how = {"stdin": pipe.stdout, "stdout": subprocess.DEVNULL, "stderr": subprocess.DEVNULL}
            with subprocess.Popen([program], **how) as session:
                _, status, used = os.wait4(session.pid, 0)
                session.returncode = os.waitstatus_to_exitcode(status)
    if session.returncode != 0:
        sys.exit(f"bench/session.py: the program ended with status {session.returncode}")
    return used.ru_utime + used.ru_stime


def peak(process):
    """The most memory that a process has used so far, in KB."""
    with open(f"/proc/{process.pid}/status", encoding="ascii") as status:
        return next(int(line.split()[1]) for line in status if line.startswith("VmHWM"))


def whole(program, keys, lines):
    """The peak of memory of a session with these keys, once its lines are read, and its processor time."""
    how = {"stdin": subprocess.PIPE, "stdout": subprocess.PIPE, "stderr": subprocess.DEVNULL}
    with subprocess.Popen([program, "--columns=1000"], **how) as session:
        typist = threading.Thread(target=lambda: (session.stdin.write(keys), session.stdin.flush()))
        typist.start()
        for _ in range(lines):
            session.stdout.readline()
        typist.join()
        held = peak(session)
        session.stdin.close()
        _, status, used = os.wait4(session.pid, 0)
        session.returncode = os.waitstatus_to_exitcode(status)
    return f"{held} KB, {used.ru_utime + used.ru_stime:.2f} s"


# Keys, and how many lines they accept.
WHOLE = [
    ("10,000 lines of 40 characters", lines_typed(410_000), 10_000),
    ("100,000 lines of 40 characters", lines_typed(4_100_000), 100_000),
    ("100,000 empty lines", ENTER * 100_000, 100_000),
    ("one line of 100,000 characters, typed", one_line(100_000), 1),
    ("one line of a million characters, typed", one_line(1_000_000), 1),
    ("one line of a million characters, pasted", pasted(1_000_000), 1),
    ("the same, killed and yanked ten times", pasted(1_000_000)[:-1] + b"\x15\x19" * 10 + ENTER, 1),
]


def main(program):
    start = seconds(program, b"")
    for name, made, size, counted in CASES:
        costs = []
        for keys in (size, 10 * size):
            more = 0 if counted is None else seconds(program, one_line(keys))
            used = seconds(program, made(keys)) - (start if counted is None else more)
            costs.append(f"{keys}: {1e6 * max(used, 0) / (counted or keys):.2f}")
        print(f"{name}: {', '.join(costs)} microseconds a key", flush=True)
    for name, keys, lines in WHOLE:
        print(f"{name}: {whole(program, keys, lines)}", flush=True)


if __name__ == "__main__":
    main(sys.argv[1])
