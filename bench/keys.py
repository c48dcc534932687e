"""The cost of each key in a long line: the built program over a pipe, its display and lines thrown away.

Called by `bench/run keys` with the built program. Texts of several kinds are pasted, and each key is typed a few times at
their start and at their end. The time is processor time, less that of the same session without the key; the shorter of two
runs counts. Printed are the dearest key of each text, and each key that costs more than twenty times as much as in a tenth
of the text.
"""
import os
import re
import subprocess
import sys
import tempfile

SIZES = (20_000, 200_000)
# How often a key is typed, and the seconds below which a difference says nothing.
TIMES, LEAST = 5, 0.02
# Keys that cost more than this many times as much in ten times the text are reported.
GROWTH = 20
PASTE, PASTED, INTERRUPT = b"\x1b[200~", b"\x1b[201~", b"\x03"
TEXTS = {
    "words": "some words, and 17 more. ",
    "one word": "abcdefghij",
    "blanks": "          ",
    "rows": "a row of some forty columns, as typed\n",
    "empty rows": "\n",
    "Han": "\u6f22\u5b57",
    "emoji": "\U0001f469\u200d\U0001f4bb",
    "flags": "\U0001f1e9\U0001f1ea",
    "marks": "\u0301",
    "Arabic": "\u0633\u0644\u0627\u0645 ",
    "open brackets": "([{",
    "closed brackets": "()[]{}",
}
PLACES = {
    "emacs": {"start": b"\x15\x19" + b"\x01", "end": b""},
    "vi": {"start": b"\x1b0", "end": b"\x1b"},
}
# Keys that are typed together, by their names: C- is Ctrl, M- Alt.
EMACS = """
    x | \u6f22 | \u0301 | C-a C-e | C-b C-f | C-f C-b | C-d | Backspace | C-k C-y | C-u C-y | C-w | C-w C-y | M-d | M-Backspace
    M-b | M-f | M-b M-f | M-f M-b | M-c | M-u | M-l | M-t | C-t | C-y M-y C-_ C-_ | x C-_ | C-w C-_ | C-k C-_ | M-9999 C-_
    C-l | C-g | Up Down | Down Up | C-p C-n | M-< M-> | C-] z | M-C-] z | M-9999 C-b | M-9999 C-f | M-9999 M-b | M-9999 M-f
    M-5 C-g | Paste x Pasted | Tab | M-[99~
"""
VI = """
    hl | lh | w | b | e | W | B | E | wb | bw | 0$ | ^ | jk | kj | x | X | Du | ddu | dwu | dbu | xu | pu | Pu | yy | yw | y$
    d0u | dju | dku | fz | Fz | fz; | tz, | dfz | rx | 9999rxu | cwx Esc | Sx Esc | Rxx Esc | ix Esc | Ax Esc | >><< | >ju
    >ku | x. | 9999l | 9999h | 9999w | 9999b | 9999xu | 9999j | 9999k | 9999u | C-t | C-w | C-u u | 5 C-g
"""
MODES = {"emacs": EMACS, "vi": VI}
NAMED = {"Backspace": b"\x7f", "Esc": b"\x1b", "Up": b"\x1b[A", "Down": b"\x1b[B", "Tab": b"\t", "Paste": PASTE, "Pasted": PASTED}


def typed(word):
    """The bytes of a key, or of several characters."""
    if word.startswith("M-"):
        return b"\x1b" + typed(word[2:])
    if word.startswith("C-"):
        return bytes([ord(word[2]) & 0x1F])
    return NAMED.get(word) or word.encode()


def seconds(words, keys):
    """The processor time of a session with these keys, the shorter of two."""
    return min(once(words, keys) for _ in range(2))


def once(words, keys):
    with tempfile.TemporaryFile() as source:
        source.write(keys)
        source.seek(0)
        with subprocess.Popen(words, stdin=source, stdout=subprocess.DEVNULL, stderr=subprocess.DEVNULL) as session:
            _, status, used = os.wait4(session.pid, 0)
            session.returncode = os.waitstatus_to_exitcode(status)
    if session.returncode not in (0, 130):
        sys.exit(f"bench/keys.py: the program ended with status {session.returncode}")
    return used.ru_utime + used.ru_stime


def main(program, only=""):
    dear = []
    for text, unit in TEXTS.items():
        for mode, rows in MODES.items():
            keys = [row.strip() for row in re.split(r"[|\n]", rows) if row.strip() and only in row]
            for place, way in PLACES[mode].items():
                pastes = [PASTE + unit.encode() * (size // len(unit.encode())) + PASTED for size in SIZES]
                case = Case(program, mode, [paste + way for paste in pastes])
                told = [(case.cost(1, key), key) for key in keys]
                print(f"{text}, {mode}, {place}: the dearest is {max(told)[1]}, {1000 * max(told)[0]:.2f} ms", flush=True)
                for large, key in told:
                    if large * TIMES > LEAST and large > GROWTH * (small := case.cost(0, key)):
                        dear.append(f"{text}, {mode}, {place}: {key}, {1000 * small:.3f} and {1000 * large:.2f} ms")
    print(f"more than {GROWTH} times as dear as in a tenth of the text: {'; '.join(dear) or 'no key'}")


class Case:
    """A text of two sizes, pasted, and a way to a place in it."""

    def __init__(self, program, mode, begun):
        self.words, self.begun = [program, f"--mode={mode}", "--columns=1000"], begun
        self.bare = [seconds(self.words, keys + INTERRUPT) for keys in begun]

    def cost(self, size, key):
        """The seconds that keys with these names cost together."""
        keys = b"".join(map(typed, key.split())) * TIMES
        return (seconds(self.words, self.begun[size] + keys + INTERRUPT) - self.bare[size]) / TIMES


main(*sys.argv[1:])
