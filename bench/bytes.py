"""The display bytes of a key, of the built program and of loops over other line editors, on terminals of 80 columns.

Called by `bench/run bytes` with the folder of keyline and of a loop over each installed editor. The text and the keys before the
counted ones are typed at once. Then each counted key is typed after the display of the one before it has ended, since some
editors draw what was typed ahead only once. A figure is the number of bytes a key, and its ratio to that of the editor with the
fewest, if keyline has more.
"""
import os
import pty
import select
import subprocess
import sys
import tempfile
from dataclasses import dataclass

from beside import KILL, YANK, set_keys, wait_for_editor
from session import BACKSPACE, HOME, LEFT, RIGHT

TRANSPOSE = b"\x14"
HAN, ACCENTED, EMOJI = "漢".encode(), "é".encode(), "😀".encode()
# The editors, as their columns are headed, and their arguments.
EDITORS = {
    "keyline": ("keyline", []),
    "keyline --extended": ("keyline", ["--extended"]),
    "readline": ("readline", []),
    "libedit": ("libedit", []),
    "tecla": ("tecla", []),
    "rustyline": ("rustyline", []),
}
# The seconds in which a key is drawn if it is drawn at all, and those without a byte after which its drawing has ended.
PATIENCE, QUIET = 1, 0.05


@dataclass
class Case:
    """Counted keys, and what is typed before them."""

    what: str
    before: bytes
    keys: list


CASES = [
    Case("a letter typed before a row of 40", b"a" * 40 + HOME, [b"b"] * 20),
    Case("before 150 in two rows", b"a" * 150 + HOME, [b"b"] * 5),
    Case("at the end of 1,000", b"a" * 1_000, [b"b"] * 80),
    Case("before 1,000", b"a" * 1_000 + HOME, [b"b"] * 20),
    Case("`é` typed at the end", b"ab", [ACCENTED] * 10),
    Case("a CJK character there", b"ab", [HAN] * 10),
    Case("an emoji there", b"ab", [EMOJI] * 10),
    Case("a letter after 10 CJK characters", HAN * 10, [b"b"] * 10),
    Case("`é` and Backspace at the end of 40", b"a" * 40, [ACCENTED, BACKSPACE] * 5),
    Case("Backspace in the middle of 150", b"a" * 150 + LEFT * 75, [BACKSPACE] * 5),
    Case("Ctrl-T at the front of 40", b"ab" * 20 + HOME + RIGHT, [TRANSPOSE] * 10),
    Case("Ctrl-K, Ctrl-Y and Home before 40", b"a" * 40 + HOME, [KILL, YANK, HOME] * 5),
]


def size_of_display(display):
    """The number of bytes that are drawn until the display is quiet."""
    size, patience = 0, PATIENCE
    while select.select([display], [], [], patience)[0]:
        try:
            size += len(os.read(display, 1 << 16))
        except OSError:  # the program has ended
            break
        patience = QUIET
    return size


def bytes_of(command, case, echoes):
    """The number of display bytes of the counted keys, each typed alone."""
    display, terminal = pty.openpty()
    set_keys(terminal, echoes)
    with subprocess.Popen(command, stdin=terminal, stdout=subprocess.DEVNULL, stderr=terminal) as session:
        wait_for_editor(display)
        size_of_display(display)
        os.write(display, case.before)
        size_of_display(display)
        drawn = 0
        for key in case.keys:
            os.write(display, key)
            drawn += size_of_display(display)
        session.kill()
    os.close(display)
    os.close(terminal)
    return drawn


def is_keyline(name):
    return name.startswith("keyline")


def cells(editors, case):
    """What each editor draws a key; of keyline with the ratio to the fewest of another."""
    drawn = {name: bytes_of(command, case, not is_keyline(name)) / len(case.keys) for name, command in editors.items()}
    others = [size for name, size in drawn.items() if not is_keyline(name)]
    for name, size in drawn.items():
        ratio = f", {size / min(others):.1f}" if is_keyline(name) and others else ""
        yield f"{size:.1f}{ratio}"


def main(programs):
    os.environ.update(TERM="xterm", INPUTRC="/dev/null", LC_ALL="C.UTF-8")
    with tempfile.TemporaryDirectory() as folder:
        os.environ["HOME"] = folder
        editors = {
            name: [f"{programs}/{program}", *words]
            for name, (program, words) in EDITORS.items()
            if os.path.exists(f"{programs}/{program}")
        }
        print(f"| What | {' | '.join(editors)} |\n|{'---|' * (len(editors) + 1)}", flush=True)
        for case in CASES:
            print(f"| {case.what} | {' | '.join(cells(editors, case))} |", flush=True)


if __name__ == "__main__":
    main(*sys.argv[1:])
