#!/usr/bin/env python3
"""Random edits with and without `partial_redraw`, over memory: after each key both displays of tests/shared/display.py have the
same cells, with the same styles, and the cursor in the same cell. Half of the sessions have styles that depend on the line's text
and on the cursor's place. Run it by ./test, or alone once `rt ci` has built the programs.

    tests/hunts/partial.py [--sessions N] [--seed S]        so many sessions, of at most 40 keys
    tests/hunts/partial.py --program PATH                   another sessions_program
"""
import argparse
import glob
import os
import random
import re
import subprocess
import sys

sys.path += glob.glob(os.path.join(os.path.dirname(os.path.dirname(os.path.realpath(__file__))), "*", ""))
from checks import HUNG, Failed, built, run_all
from display import Display, Meaningless
from inputs import RowSession
from sessions import meant
# Columns of the rows, which most lines fill once or twice.
COLUMNS = (2, 3, 5, 10, 20, 40, 80, 200)
LEFT, RIGHT, HOME, END, BACKSPACE = b"\x1b[D", b"\x1b[C", b"\x01", b"\x05", b"\x7f"
# Ctrl-D, Ctrl-K, Ctrl-T, Ctrl-U, Ctrl-W, Ctrl-Y, Ctrl-_, M-d, M-b, M-f, M-u, M-y, M-3 before a letter, pasted texts, and Enter after
# an open bracket.
EDITS = [b"\x04", b"\x0b", b"\x14", b"\x15", b"\x17", b"\x19", b"\x1f", b"\x1bd", b"\x1bb", b"\x1bf", b"\x1bu", b"\x19\x1by", b"\x1b3x",
         b"\x1b[200~b\x1b[201~", "\x1b[200~é\n漢c\x1b[201~".encode(), b"\x05(\r"]
VI = [b"h", b"l", b"0", b"$", b"x", b"X", b"D", b"dw", b"db", b"u", b"p", b"P", b"~", b"rz", "r漢".encode(), b"Rq\x1b", b"cw\x1b", b"iq\x1b",
      b"aq\x1b", b"3iq\x1b"]
# A history that gives hints, and brackets that are matched.
HELPED = ("helped", "loaded:#V2␊abc␠de(f)␊b漢␊c␠a(b)␊deef␊")
# Characters that stand apart from one another, and others: marks, tones of skin, joiners, syllables in parts, halves of a flag, a
# linker and consonants after it.
APART = ["é", "я", "漢", "字", "한", "👍", "🔥"]
OTHERS = ["\t", "\u0301", "\u200d", "🏽", "👨", "🇫", "🇷", "\u1100", "\u1161", "क", "\u094d", "ก", "ำ", "\ufe0f", "❤"]
# Styles of a helper with fixed answers, and keywords that it draws in one: those of some begin or end inside a character or cluster.
STYLES = ("bold+blue", "on-red", "reverse+bright-green", "underline+208")
KEYWORDS = ("a", "b", "ab", "bc", "␠", "de", "(", "a␠", "é", "漢字", "👍", "‹cc›‹81›", "🏽", "␉", "a␊", "f)")
# So many spans of a line are compared.
COMPARED = 64


def styled(rng):
    """The words of a helper that marks a line by its length or by the cursor's place, and gives it styles by its text."""
    words = ("colours", "advised", f"styled:{rng.randrange(9)},{rng.choice([1, 2, 7, 300])},{rng.choice(STYLES)}")
    words += (f"marks-from:{rng.choice([0, 1, 1, 1, 5])}" if rng.random() < 0.8 else f"marked:{rng.randrange(9)}",)
    words += (f"keyword:{rng.choice(KEYWORDS)}",) if rng.random() < 0.7 else ()
    words += rng.choice([(), (), ("hint:!?漢", f"hint-from:{rng.randrange(9)}", "hint-style:faint"),
                         ("verdict:InvalidTold", "message:no␊way", "message-style:red", "later:Incomplete", "later-from:9")])
    return words + rng.choice([(), (), ("prompt-style:green",)])


def typed(rng, others):
    """A character: a letter, or one of another script, and at times one that no short drawing shows."""
    if rng.random() < others:
        return rng.choice(APART if rng.random() < 0.6 else OTHERS).encode()
    return rng.choice("abc de(f)").encode()


def edit(rng, mode, others):
    if mode == "vi":
        return rng.choice(VI)
    at = rng.random()
    if at < 0.45:
        return typed(rng, others)
    return rng.choice([LEFT, RIGHT, HOME, END, BACKSPACE, BACKSPACE]) if at < 0.8 else rng.choice(EDITS)


def session(rng):
    """The settings of a session, and its keys: a line is typed, with newlines at times, and then changed."""
    columns, mode = rng.choice(COLUMNS), rng.choice(["emacs", "emacs", "vi"])
    length = rng.choice([rng.randrange(8), rng.randrange(2 * columns + 2)])
    others = rng.choice([0.05, 0.05, 0.5])
    line = b"".join(b"\x16\n" if rng.random() < 0.02 else typed(rng, others / 2) for _ in range(min(length, 200)))
    words = (f"columns:{columns}", "modal") + rng.choice([(), ("tabs",)]) + (("vi",) if mode == "vi" else ())
    words += styled(rng) if rng.random() < 0.5 else rng.choice([(), (), HELPED, ("colours",) + HELPED])
    keys = [line, b"\x1b" if mode == "vi" else rng.choice([HOME, END])]
    return words, keys + [edit(rng, mode, others) for _ in range(rng.randrange(1, 39))]


def spans(words, keys):
    """How many spans a line has as it is first typed, if it is drawn by keywords."""
    keyword = RowSession(keys[0], words).value("keyword:")
    return len(re.findall(re.escape(meant(keyword)) + b"|.", keys[0], re.S)) if keyword else 0


def rows(words, keys):
    """A row for the keys up to each, without the setting and with it."""
    for end in range(1, len(keys) + 1):
        for more in ((), ("partial",)):
            yield f"{RowSession(b''.join(keys[:end]), words + more)}\n"


def displays(told):
    """What each row left: its ending, and what its display shows when the input ends."""
    for row in told.decode().splitlines():
        ending, _, _, display = row.split(" .")
        yield ending, bytes.fromhex(display).removesuffix(b"\r\n")


def shown(columns, display):
    """The cells with their styles, and the cursor; or why the bytes have no meaning."""
    it = Display(columns)
    try:
        for _ in it.read(display):
            it.top = it.cursor[0]
    except Meaningless as fault:
        return str(fault)
    return it.styled(), it.cursor


def judge(words, keys, found):
    """Raises a difference, and returns how many bytes the displays had."""
    columns, sizes = int(words[0].partition(":")[2]), [0, 0]
    for end in range(1, len(keys) + 1):
        whole, partial = next(found), next(found)
        ending, views = (whole[0], partial[0]), [shown(columns, display) for _, display in (whole, partial)]
        if ending[0] != ending[1] or views[0] != views[1] or str in map(type, views):
            raise Failed(f"{RowSession(b''.join(keys[:end]), words)}: {ending}, {views[0]} by {whole[1]!r}, {views[1]} by {partial[1]!r}")
        sizes = [size + len(display) for size, (_, display) in zip(sizes, (whole, partial))]
    return sizes


def hunt(sessions, seed, program):
    def the_same_is_shown():
        given = [session(random.Random(f"{seed} {number}")) for number in range(sessions)]
        text = "".join(row for words, keys in given for row in rows(words, keys))
        told = subprocess.run([program, "each"], input=text.encode(), stdout=subprocess.PIPE, timeout=HUNG, check=True).stdout
        found = displays(told)
        sizes = [judge(words, keys, found) for words, keys in given]
        whole, partial = map(sum, zip(*sizes))
        many = sum(spans(words, keys) > COMPARED for words, keys in given)
        print(f"seed {seed}; display bytes without the setting: {whole}, with it: {partial}; sessions with over {COMPARED} spans: {many}",
              flush=True)
        if not partial < whole or next(found, None):
            raise Failed("the setting has saved nothing, or there is more output than rows")

    return [the_same_is_shown]


if __name__ == "__main__":
    parser = argparse.ArgumentParser(description=__doc__.partition("\n")[0])
    parser.add_argument("--sessions", type=int, default=200)
    parser.add_argument("--seed", default="partial")
    parser.add_argument("--program", default=built("sessions_program"))
    asked = parser.parse_args()
    sys.exit(run_all(hunt(asked.sessions, asked.seed, asked.program)))
