"""Sessions that nobody would write by hand, each made by a random generator: for tests/hunts/hostile.py.

A session of the program has its arguments and its files. A session over memory has what the program has no arguments for:
keys bound to commands and handlers, a helper with fixed answers, and each way to count clusters.
"""
import dataclasses
import re

from hunting import KEPT, drawing, entries_of, is_text, standard_styles, styled, without_parts
from searching import Completes
from sessions import NAMED, meant

ESC, ENTER = b"\x1b", b"\r"
PASTE, PASTED = b"\x1b[200~", b"\x1b[201~"

PLAIN = ["a", "b", "c", "word", " ", "  ", "x_y", ",", *"()[]{}", "\\", "\"", "é", "ñ", "Ж", "λ"]
MARKS = ["e\u0301", "\u0301", "\u0308\u0323", "a\u20dd", "o\u0338", "\u05d0\u05b8", "\u064b", "ก\u0e49", "ก\u0e33", "か\u3099",
         "\u0915\u094d\u0937\u093f", "\u094d", "\u0937", "\u093e", "ｶ\uff9e", "\uff9f", "\ufe0f", "\ufe00"]
JOINED = ["😀", "👍🏽", "🏽", "👩\u200d💻", "👩🏽\u200d💻", "❤\ufe0f\u200d🔥", "👨\u200d👩\u200d👧\u200d👦",
          "\U0001f3f3\ufe0f\u200d🌈", "\U0001f1e9\U0001f1ea", "\U0001f1e9", "1\ufe0f\u20e3", "⌚\ufe0e", "❤\ufe0f", "❤",
          "©\ufe0f", "\u200d", "🔥", "\U0001f3f4\U000e0067\U000e0062\U000e0065\U000e006e\U000e0067\U000e007f"]
RIGHT_TO_LEFT = ["א", "ב", "שלום", "ل", "ا", "لا", "سلام", *"\u200f\u200e\u202e\u2067\u061c\u0600\u0605\u06dd"]
WIDTHLESS = list("\u200b\u200c\u2060\ufeff\u00ad\u115f\u1160\u1161\u11a8\u2028\u2029\U000e0061")
WIDE = ["漢", "字", "あ", "한", "각", "\u1112\u1161\u11ab", "Ａ", "ㅋ", "。", "\U00020000", "カ", "ｶ"]
# Characters that come only in a text that is pasted, recalled or given as a prompt.
UNTYPED = ["\t", "\x00", "\x07", "\x1b", "\x1b[H", "\x7f", "\x80", "\x9b", "\r", "\n", "\r\n", "\n\n"]
ALPHABETS = [PLAIN, MARKS, JOINED, RIGHT_TO_LEFT, WIDTHLESS, WIDE]

# Texts of entries that are searched, and of words that are completed.
SEARCHED = ["a", "b", "ab", "git", " ", "-m", "é", "漢", "\n", "x", "\t"]
COMPLETED = ["a", "ab", "l", "pha", "é", "漢", "字", "x", "", "alphabet"]

COLUMNS = [2, 2, 3, 3, 4, 5, 7, 10, 20, 80, 80, 1000, 1000]

# What follows ESC in each form of a key's sequence, and in some that are none.
SEQUENCES = [b"[" + bytes([final]) for final in b"ABCDHFZEX"]
SEQUENCES += [b"O" + bytes([final]) for final in b"ABCDHFMPQRSZ"]
SEQUENCES += [b"[%d~" % number for number in (0, 1, 2, 3, 4, 5, 6, 7, 8, 9, 11, 15, 16, 17, 21, 23, 24, 25, 99, 201)]
SEQUENCES += [b"[1;%d%c" % (mods, final) for mods in (0, 2, 3, 4, 5, 6, 7, 8, 9) for final in b"ABCDHFPQRS"]
SEQUENCES += [b"[%d;%d~" % (number, mods) for number in (1, 3, 5, 11, 200, 201) for mods in (2, 5, 8)]
SEQUENCES += [b"[[" + bytes([final]) for final in b"ABCDEF["]
SEQUENCES += [b"[?25h", b"[<0;1;2M", b"[ q", b"[1 ~", b"[03~", b"[1;2;3A", b"[;A", b"[3\x07", b"[3\r", b"[\xc3\xa9", b"O\xc3\xa9",
              b"[\x1b", b"O\x1b", b"[", b"O", b"", b"\x1b", b"\x1b[A", b"[" + b"9" * 40 + b"~"]

# Keys that end a session are rare.
ENDING = [b"\x03", b"\x1c", b"\x04"]
CONTROLS = [bytes([code]) for code in [*range(0x20), 0x7F] if code not in (0x03, 0x04, 0x1B, 0x1C)]
EMACS = [ESC + bytes([char]) for char in b"bfdcultyBFDCULTY<>\x7f\x08\x07"]
EMACS += [b"\x18\x15", b"\x18\x7f", b"\x18\x07", b"\x18z", b"\x1da", b"\x1d ", b"\x1b\x1da"]
EMACS += [b"\x19", b"\x19", b"\x1by", b"\x1f", b"\x17", b"\x0b"]
# A tab that comes into the line, if Ctrl-V quotes.
QUOTED_TAB = b"\x16\t"
VI = [bytes([char]) for char in b"0$^wWbBeEhljk+-xXDpPuiIaACSsRR.;,"]
VI += [b"fa", b"F ", b"tb", b"T,", b"rx", b"r\x1b", b"dd", b"cc", b"yy", b"dw", b"cw", b"yw", b"d$", b"db", b"c0", b"y^", b"dfa",
       b"dt ", b"d;", b"d,", b"dj", b"dk", b"yj", b">>", b"<<", b">w", b"<k", b">j", b"d2w", b"2dd", b"3p", b"2u", b"c2c", b"5l",
       b"3.", b"dz", b"cx"]

SEQUENCE = re.compile(r"\x1b\[[ -?]*[@-~]")
MESSAGE = re.compile(r"Mismatched brackets: '.' is (unpaired|not properly closed)")


@dataclasses.dataclass(frozen=True)
class Session:
    """A run of the program: its keys, its arguments, and the bytes of its history file and of its file of words. None stands
    for no file; `extended` is the argument that turns on the commands that go on over several keys, colours and tabs."""

    keys: bytes
    mode: str = "emacs"
    columns: int = 80
    prompt: str = "> "
    brackets: bool = False
    history: bytes = None
    words: bytes = None
    extended: bool = False

    def __repr__(self):
        given = [(field, getattr(self, field.name)) for field in dataclasses.fields(self)]
        return f"Session({', '.join(f'{field.name}={value!r}' for field, value in given if value != field.default)})"

    # How clusters are counted.
    clusters = "Unicode"

    @property
    def kept(self):
        """The most entries of its history."""
        return 100_000 if self.extended else KEPT

    @property
    def stop(self):
        """How many columns apart tab stops are, if tabs are drawn as blanks."""
        return 8 if self.extended else None

    @property
    def drawn_prompt(self):
        """The prompt without its control sequences (ECMA-48), if these are its styles."""
        return SEQUENCE.sub("", self.prompt) if self.extended else self.prompt

    def with_message(self, shown, line, place):
        """The message that a display shows after prompt and line, if it may show one, and the drawing with it."""
        message = shown.text(shown.top + place[0], place[1])
        if self.brackets and MESSAGE.fullmatch(message):
            yield message, drawing(self, self.drawn_prompt, line, message)

    def styled(self, line, message):
        """The styles that an accepted line may have."""
        return standard_styles(self, line, message) if self.extended else [{}]

    @property
    def styles(self):
        """Those that any drawing may have."""
        return {";1;34", ";31"} if self.extended else set()

    @property
    def hints_of_history(self):
        return self.brackets or self.words is not None

    def is_modal(self):
        """Whether the commands act that go on over several keys."""
        return self.extended

    def open_texts(self):
        """What may stand after a line that hasn't ended, besides a hint from the history or a message."""
        yield ""

    def shorter(self):
        """Smaller sessions, the much smaller ones first."""
        for field in ("prompt", "history", "words", "brackets", "mode", "columns", "extended"):
            default = Session.__dataclass_fields__[field].default
            if getattr(self, field) != default:
                yield dataclasses.replace(self, **{field: default})
        for field in ("keys", "history", "words", "prompt"):
            for less in without_parts(getattr(self, field) or b""):
                yield dataclasses.replace(self, **{field: less})
        for at, byte in enumerate(self.keys[:100]):
            if byte != 0x61:
                yield dataclasses.replace(self, keys=self.keys[:at] + b"a" + self.keys[at + 1:])

    def arguments(self, words):
        """The program's, with the path of the file of words."""
        given = [f"--mode={self.mode}", f"--columns={self.columns}", f"--prompt={self.prompt}"]
        given += [] if self.words is None else [f"--words={words}"]
        return given + (["--brackets"] if self.brackets else []) + (["--extended"] if self.extended else [])

    def is_searched(self):
        """Whether the model of searches and completion knows its settings."""
        return self.extended and not self.brackets and is_text(self.words or b"")

    def completes(self):
        """What Tab completes, for that model."""
        return Completes(None if self.words is None else [word for word in entries_of(b"\n" + self.words) if word])


def some(rng, least, most):
    """A number; smaller ones are more frequent."""
    return least + int((most - least + 1) * rng.random() ** 2)


def texts(rng, most, *more):
    """A text of one or two alphabets, and some additions."""
    pieces = rng.choice(ALPHABETS) + rng.choice(ALPHABETS) + [piece for other in more for piece in other]
    return "".join(rng.choice(pieces) for _ in range(some(rng, 0, most)))


def indented(rng):
    """Rows that begin with tabs, and have some in them."""
    rows = ["\t" * some(rng, 0, 3) + texts(rng, 8, ["\t"]) for _ in range(some(rng, 1, 4))]
    return "\n".join(rows)


def pasted(rng, most=12):
    text = (indented(rng) if rng.random() < 0.3 else texts(rng, most, UNTYPED)).encode()
    if rng.random() < 0.2:
        text += rng.choice([PASTE, b"\x1b[201", b"\x1b[20\x1b[201", b"\x1b", b"\x1b[", b"\xff", b"\xc3"])
    return PASTE + text + PASTED


def settings(rng):
    given = {"mode": rng.choice(["emacs", "vi"]), "columns": rng.choice(COLUMNS), "brackets": rng.random() < 0.2}
    given["extended"] = rng.random() < 0.5
    if rng.random() < 0.1:
        given["prompt"] = rng.choice(["", "$ ", "漢", "a\nb", "é> ", "in\t> "])
    if rng.random() < 0.2:
        given["history"] = history(rng)
    if rng.random() < 0.1:
        given["words"] = rng.choice([b"a\nab\nabc\nword\n", "漢字\n漢\né".encode(), rng.randbytes(some(rng, 0, 20))])
    return given


def one_key(rng, mode):
    """The bytes of a key, or of a few that belong together."""
    at = rng.random()
    if at < 0.25:
        return texts(rng, 4).encode()
    if at < 0.40:
        return ENTER
    if at < 0.55:
        return ESC + rng.choice(SEQUENCES)
    if at < 0.65:
        return rng.choice(CONTROLS)
    if at < 0.67:
        return pasted(rng)
    if at < 0.675:
        return rng.choice(ENDING)
    if at < 0.71:
        return count(rng, mode, 30)
    if at < 0.72:
        return QUOTED_TAB
    if mode == "vi":
        return (ESC if rng.random() < 0.4 else b"") + rng.choice(VI)
    return rng.choice(EMACS)


def keys_of(rng, mode, most):
    return b"".join(one_key(rng, mode) for _ in range(some(rng, 1, most)))


def closed(rng, keys):
    """These keys, mostly followed by one that accepts the line."""
    return keys + rng.choice([ENTER, ENTER, ENTER, ENTER, b"\n", ESC + ENTER, b""])


def cut(rng, keys):
    """These keys, sometimes cut off, or with a byte lost, doubled or changed."""
    at, how = rng.randrange(len(keys) + 1), rng.random()
    if how < 0.15:
        return keys[:at]
    if how < 0.22:
        return keys[:at] + keys[at + 1:]
    if how < 0.26:
        return keys[:at] + keys[at:at + 3] + keys[at:]
    if how < 0.28:
        return keys[:at] + bytes([rng.randrange(256)]) + keys[at + 1:]
    return keys


def count(rng, mode, most):
    """A count as it is typed, its amount up to `most` or at a limit of counts."""
    digits = rng.choice([str(rng.randrange(most + 1)), "0", "1", "00", str(most)])
    if mode == "vi":
        return ESC + digits.encode()
    sign = rng.choice([b"-", b"", b"", b"-0", b"--"])
    return ESC + sign + b"".join(rng.choice([b"", ESC]) + bytes([digit]) for digit in digits.encode())


def history(rng):
    how = rng.random()
    if how < 0.1:
        return None
    if how < 0.2:
        return rng.randbytes(some(rng, 0, 40))
    if how < 0.3:
        return b"#V2\n" + rng.randbytes(some(rng, 0, 6))
    ends = rng.choice(["\n", "\r\n", "\r\r\n", "\n\n"])
    count = rng.choice([0, 1, 2, 5, 5, 99, 100, 101, 130])
    rows = [texts(rng, 6, ["\\", "\\n", "\\\\", "\\x", "\t", "\r"]) for _ in range(count)]
    head = rng.choice(["#V2" + ends, "#V2\n", "#V2\n", "", "#V1\n", "\n#V2\n"])
    return (head + ends.join(rows) + rng.choice(["", ends])).encode()


def random_bytes(rng):
    """Bytes of one kind or another."""
    length = some(rng, 0, 200)
    keys = rng.choice([
        lambda: rng.randbytes(length),
        lambda: bytes(rng.choice(b"\x1b[O0123456789;~ABCDHFZ\r\x7f ab") for _ in range(length)),
        lambda: bytes(rng.randrange(0x80) for _ in range(length)).replace(b"\x03", b"").replace(b"\x1c", b""),
        lambda: bytes(rng.choice([rng.randrange(0x20), 0x1B, 0x61, 0xC3, 0xA9, 0xE6, 0xBC, 0xA2, 0xF0]) for _ in range(length)),
    ])()
    return Session(keys=keys, **settings(rng))


def keys_cut_anywhere(rng):
    """Keys of every form."""
    given = settings(rng)
    return Session(keys=cut(rng, closed(rng, keys_of(rng, given["mode"], 60))), **given)


def pastes(rng):
    """Pastes one after the other, nested, cut off, and at unexpected places."""
    given, keys = settings(rng), b""
    for _ in range(some(rng, 1, 6)):
        some_keys = keys_of(rng, given["mode"], 3)
        keys += rng.choice([b"", b"", texts(rng, 3).encode(), b"\x18", b"d", b"\x1b3", b"\x1d", ESC, some_keys])
        keys += pasted(rng, 30) + rng.choice([b"", ENTER, b"\x1f", b"\x19", PASTED, some_keys])
    return Session(keys=cut(rng, closed(rng, keys)), **given)


def counts(rng):
    """Counts at their limits before keys of all kinds; the line is sometimes long."""
    given = settings(rng)
    keys = texts(rng, 20).encode()
    if rng.random() < 0.05:
        keys += count(rng, "emacs", rng.choice([999, 9999, 99999])) + rng.choice(["x", "漢", "e\u0301", " "]).encode()
        for _ in range(3):
            keys += count(rng, given["mode"], 99999) + rng.choice([b"\x02", b"h", b"\x0b", b"D", b"u", b"\x1f"])
        return Session(keys=cut(rng, closed(rng, keys)), **given)
    moves = {"vi": VI[:18] + [b"d", b"y", b">"], "emacs": EMACS[:12] + [b"\x02", b"\x06", b"\x04", b"\x7f", b"\x17"]}
    for _ in range(some(rng, 1, 15)):
        amount = rng.choice([5, 99, 1000, 9999, 10000, 65535, 65536, 999999])
        keys += count(rng, given["mode"], amount) + rng.choice(moves[given["mode"]])
        keys += rng.choice([b"", b"", str(amount).encode(), one_key(rng, given["mode"]), one_key(rng, given["mode"])])
    return Session(keys=cut(rng, closed(rng, keys)), **given)


def odd_texts(rng):
    """Texts that are difficult to display, typed, pasted and edited."""
    given = settings(rng)
    given["columns"] = rng.choice([2, 3, 1000, given["columns"]])
    keys = b""
    for _ in range(some(rng, 1, 5)):
        text = texts(rng, 25).encode()
        keys += text if rng.random() < 0.7 else PASTE + text + PASTED
        keys += keys_of(rng, given["mode"], 12)
        keys += ENTER if rng.random() < 0.5 else b""
    return Session(keys=cut(rng, closed(rng, keys)), **given)


def odd_prompts(rng):
    """Prompts with such texts."""
    given = settings(rng)
    given["prompt"] = texts(rng, 12, UNTYPED).replace("\0", "")
    return Session(keys=cut(rng, closed(rng, keys_of(rng, given["mode"], 25))), **given)


def history_files(rng):
    """History files of every kind, and keys that go through them."""
    given = settings(rng)
    given["history"] = history(rng)
    ways = [b"\x10", b"\x0e", b"\x1b[A", b"\x1b[B", b"\x1b<", b"\x1b>", ENTER, b"k", b"j", ESC]
    keys = b"".join(rng.choice([rng.choice(ways), one_key(rng, given["mode"])]) for _ in range(some(rng, 1, 30)))
    return Session(keys=cut(rng, closed(rng, keys)), **given)


def word_files(rng):
    """Files of words of every kind, and keys that complete them."""
    given = settings(rng)
    listed = [texts(rng, 6, ["\t", "\r", "\u3000"]) for _ in range(rng.choice([0, 1, 1, 2, 3, 10]))]
    listed += [word[:rng.randrange(len(word) + 1)] + texts(rng, 3) for word in listed]
    given["words"] = rng.choice(["\n", "\n", "\r\n", "\n\n"]).join(listed).encode() + rng.choice([b"\n", b"", b"\xff", b"\xe6\xbc"])
    keys = b""
    for _ in range(some(rng, 1, 20)):
        word = rng.choice([*listed, "a"])
        keys += rng.choice([word[:rng.randrange(len(word) + 1)].encode(), one_key(rng, given["mode"]), ENTER, b" "])
        keys += rng.choice([b"\t", b"\t", b"\t\t", b"\x1b[D\t", b""])
    return Session(keys=cut(rng, closed(rng, keys)), **given)


def searched_entry(rng):
    return "".join(rng.choice(SEARCHED) for _ in range(some(rng, 1, 4)))


def search_keys(rng, entries, mode):
    """Keys of searches for parts of these entries, and between them."""
    keys = b""
    for _ in range(some(rng, 1, 40)):
        entry = rng.choice(entries or [""]) if rng.random() < 0.8 else searched_entry(rng)
        at = rng.randrange(len(entry) + 1)
        piece = entry[at:at + rng.choice([1, 1, 2, 3, 9])].replace("\n", " ").encode().replace(b"\t", QUOTED_TAB)
        often = [(piece, 30), (b"\x12", 20), (b"\x12" + piece, 20), (b"\x13", 8), (b"\x7f", 10), (b"\x07", 6), (ENTER, 8), (b"\x1f", 5),
                 (PASTE + entry.encode() + PASTED, 1), (b"\x1b[99~", 1), (rng.choice(ENDING), 0.3), (b"\x1b[A", 8), (b"\x1b[B", 4),
                 (b"\x16" + rng.choice([b"\t", b"\x12", b"a", b"\n", b"\x1b[A"]), 2), (ENTER + piece + b"\x1b[A", 5)]
        moves = [b"\x01", b"\x05", b"\x02", b"\x06", b"\x10", b"\x0e", b"\x0b", b"\x0c", b"\x04"]
        often += [(key, 1.5) for key in moves] if mode == "emacs" else []
        keys += rng.choices([key for key, _ in often], [weight for _, weight in often])[0]
    return keys


def searches(rng):
    """Searches of a history, and keys of every form between them."""
    entries = [searched_entry(rng) for _ in range(rng.choice([0, 1, 2, 5, 20]))]
    mode = rng.choice(["emacs", "emacs", "vi"])
    keys = search_keys(rng, entries, mode)
    if rng.random() < 0.2:
        at = rng.randrange(len(keys) + 1)
        keys = keys[:at] + one_key(rng, mode) + keys[at:]
    rows = ["#V2", *(entry.replace("\n", "\\n") for entry in entries)]
    return Session(keys=keys, mode=mode, columns=rng.choice(COLUMNS), history="".join(row + "\n" for row in rows).encode(), extended=True)


def completed_words(rng):
    """A few words, some of which begin alike."""
    begun = "".join(rng.choice(COMPLETED) for _ in range(some(rng, 0, 2)))
    words = ["".join([begun, *(rng.choice(COMPLETED) for _ in range(some(rng, 0, 3)))]) for _ in range(rng.choice([1, 2, 3, 5, 8]))]
    return [word for word in words if word] or ["a"]


def candidate_keys(rng, words, mode):
    """Keys that complete the beginnings of these words, and between them."""
    keys = b""
    for _ in range(some(rng, 1, 40)):
        word = rng.choice(words)
        begun = word[:rng.randrange(len(word) + 1)].encode()
        often = [(b"\t", 30), (b"\t\t", 12), (b"\x1b[Z", 8), (begun + b"\t", 15), (b" " + begun, 8), (begun, 4), (b"\x07", 6),
                 (b"\x1f", 8), (b"\x7f", 5), (ENTER, 6), (PASTE + begun + PASTED, 1), (b"\x1b[99~", 2), (b"\x1b[A", 2), (b"\x1b[B", 2),
                 (b"\x16\t", 1), (b"\x12", 2), (b"\n", 1), (rng.choice(ENDING), 0.3)]
        moves = [b"\x01", b"\x05", b"\x02", b"\x06", b"\x10", b"\x0e", b"\x0b", b"\x0c", b"\x04"]
        often += [(key, 1) for key in moves] if mode == "emacs" else []
        keys += rng.choices([key for key, _ in often], [weight for _, weight in often])[0]
    return keys


def candidates(rng):
    """Words that are completed, over several keys."""
    words, mode = completed_words(rng), rng.choice(["emacs", "emacs", "vi"])
    keys = candidate_keys(rng, words, mode)
    if rng.random() < 0.2:
        at = rng.randrange(len(keys) + 1)
        keys = keys[:at] + one_key(rng, mode) + keys[at:]
    rows = ["#V2", *(searched_entry(rng).replace("\n", "\\n") for _ in range(rng.choice([0, 0, 2, 5])))]
    return Session(keys=keys, mode=mode, columns=rng.choice(COLUMNS), history="".join(row + "\n" for row in rows).encode(), extended=True,
                   words="".join(word + "\n" for word in words).encode())


def large_pastes(rng):
    """A megabyte pasted."""
    unit = rng.choice(["0123456789abcdef", "漢字", "e\u0301", "👩\u200d💻", "a\n", "\r\n", "word ", "(", "\x1b[20", "\t"])
    text = unit.encode() * (1_000_000 // len(unit.encode()))
    keys = PASTE + text + PASTED + rng.choice([b"", b"\x01", b"\x15\x19"]) + ENTER
    return Session(keys=keys, columns=rng.choice([2, 80, 1000]), mode=rng.choice(["emacs", "vi"]))


# How often each random kind of the program's sessions is played.
KINDS = {random_bytes: 6, keys_cut_anywhere: 10, pastes: 6, counts: 4, odd_texts: 8, odd_prompts: 3, history_files: 3,
         word_files: 3, searches: 8, candidates: 8}


# ---- sessions over memory

# Keys by their names, and the bytes that a terminal sends for them.
KEYS = {f"C-{chr(code + 0x40)}": bytes([code]) for code in range(1, 0x20) if chr(code) not in "\t\r\x1b\x7f\x08"}
KEYS.update({"Space": b" ", "Bar": b"|", "Enter": b"\r", "Tab": b"\t", "Backspace": b"\x7f", "Esc": b"\x1b"})
KEYS.update({chr(code): bytes([code]) for code in range(0x21, 0x7F) if chr(code) != "|"})
KEYS.update({char: char.encode() for char in "éЖ漢😀\u0301\u200d"})
KEYS.update({f"A-{chr(code)}": b"\x1b" + bytes([code]) for code in range(0x21, 0x7F) if chr(code) not in "|[O"})
KEYS.update({f"C-A-{letter}": b"\x1b" + bytes([ord(letter) & 0x1F]) for letter in "AGXZ]"})
KEYS.update({"Up": b"\x1b[A", "Down": b"\x1b[B", "Right": b"\x1b[C", "Left": b"\x1b[D", "Home": b"\x1b[H", "End": b"\x1b[F"})
KEYS.update({"Delete": b"\x1b[3~", "Insert": b"\x1b[2~", "PageUp": b"\x1b[5~", "PageDown": b"\x1b[6~", "BackTab": b"\x1b[Z"})
KEYS.update({"C-Left": b"\x1b[1;5D", "A-Right": b"\x1b[1;3C", "S-Up": b"\x1b[1;2A", "F1": b"\x1bOP", "F5": b"\x1b[15~"})
KEYS.update({"UnknownEscSeq": b"\x1b[99~", "PasteEnd": PASTED, "PasteStart": PASTE, "C-H": b"\x08", "C-M": b"\r", "C-I": b"\t"})
NAMES = list(KEYS)
# The key that accepts a session's last line: nothing else is bound to it, and no session has it.
ACCEPTING = "ʘ"
KEYS[ACCEPTING] = ACCEPTING.encode()
# The keys that begin a sequence which is reached.
FIRST = ["C-X", "C-X", "C-X", "F5", "F1", "S-Up", "PageUp", "Insert", "C-O", "C-V", "A-Q", "C-A-Z", "UnknownEscSeq"]

BARE = """Abort EndOfFile Interrupt Noop Repaint ClearScreen Suspend Unknown AcceptLine Newline AcceptOrInsertLine
    AcceptAtEndOrInsertLine BeginningOfHistory EndOfHistory ForwardSearchHistory HistorySearchBackward HistorySearchForward
    NextHistory PreviousHistory ReverseSearchHistory SearchAgain·Same SearchAgain·Opposite CapitalizeWord Complete
    CompleteBackward CompleteHint DowncaseWord QuotedInsert TransposeChars UpcaseWord YankPop""".split()
# Keys that show what the hunt looks for come more often.
BARE += ["CompleteHint", "Complete", "Repaint", "AcceptLine", "Newline", "YankPop", "HistorySearchBackward", "PreviousHistory"] * 2
BARE += ["AcceptOrInsertLine", "AcceptAtEndOrInsertLine"] * 3
RANGES = "WholeLine BeginningOfLine EndOfLine ViFirstPrint WholeBuffer BeginningOfBuffer EndOfBuffer".split()
ENDS = {"Interrupt", "EndOfFile"}


HUES = "black red green yellow blue magenta cyan white".split()
FLAGS = {"bold": ";1", "faint": ";2", "italic": ";3", "underline": ";4", "reverse": ";7"}


def numbers(words):
    """What stands after the 0 of a style with these words: flags in their order, the text's colour, the ground's colour."""
    words = words.split("+") if words else []
    texts = [colour_numbers(word, 30) for word in words if word not in FLAGS and not word.startswith("on-")]
    grounds = [colour_numbers(word[3:], 40) for word in words if word.startswith("on-")]
    return "".join(code for flag, code in FLAGS.items() if flag in words) + (texts or [""])[-1] + (grounds or [""])[-1]


def colour_numbers(name, front):
    if name in HUES:
        return f";{front + HUES.index(name)}"
    if name.startswith("bright-"):
        return f";{front + 60 + HUES.index(name[7:])}"
    return f";{front + 8};5;{name}"


def style(rng):
    """The words of a style."""
    colours = [rng.choice(HUES), f"bright-{rng.choice(HUES)}", str(rng.randrange(256))]
    words = rng.choice([[], [rng.choice(list(FLAGS))], [*FLAGS]])
    return "+".join(words + [rng.choice(colours), f"on-{rng.choice(colours)}"][:rng.randrange(3)])


def noted(text):
    """A text, or bytes, in the notation of rows: pictures, and numbers for what would be lost or misread."""
    if isinstance(text, bytes):
        text = text.decode(errors="surrogateescape")
    return "".join(map(noted_char, text))


def noted_char(char):
    code = ord(char)
    if code <= 0x20:
        return chr(0x2400 + code)
    if code == 0x7F:
        return "␡"
    if "\udc80" <= char <= "\udcff":
        return f"‹{code - 0xDC00:02x}›"
    if char.isspace() or char in "‹›·⇒→|=" or 0x80 <= code < 0xA0 or 0x2400 <= code <= 0x2421:
        return "".join(f"‹{byte:02x}›" for byte in char.encode())
    return char


def noted_keys(keys):
    """Keys in a row's notation, in one word."""
    word = noted(keys) or "nothing"
    if keys and (word in NAMED or word[0] in ":#" or re.match("[CM]-", word)):
        return f"‹{ord(word[0]):02x}›{word[1:]}"
    return word


@dataclasses.dataclass(frozen=True)
class RowSession:
    """Keys, and the words of a setting as `session_rows` reads them."""

    keys: bytes
    words: tuple = ()

    # The most entries of its history.
    kept = KEPT

    def __repr__(self):
        return f": {' '.join(self.words)}\n{noted_keys(self.keys)} = nothing"

    def value(self, name, default=None):
        """The text after a name in the first word that has it."""
        return next((word[len(name):] for word in self.words if word.startswith(name)), default)

    @property
    def columns(self):
        return int(self.value("columns:", "80"))

    @property
    def clusters(self):
        return self.value("clusters:", "Unicode")

    @property
    def stop(self):
        """How many columns apart tab stops are, if tabs are drawn as blanks."""
        return int(self.value("stop:", "8")) if "tabs" in self.words else None

    @property
    def prompt(self):
        return meant(self.value("prompt:", "> ")).decode()

    drawn_prompt = prompt

    @property
    def mode(self):
        return "vi" if "vi" in self.words else "emacs"

    @property
    def history(self):
        return meant(self.value("loaded:", ""))

    def is_searched(self):
        """Whether the model of searches and completion knows its settings: with words to complete there are hints of a history."""
        known = ("columns:", "prompt:", "loaded:", "reads:", "clusters:", "words:", "limit:", "stop:")
        alone = ("modal", "adding", "vi", "listed", "at-once", "colours", "tabs", "partial")
        is_known = "modal" in self.words and all(word in alone or word.startswith(known) for word in self.words)
        return is_known and not (self.value("words:") and ("adding" in self.words or self.history))

    def completes(self, words="words:"):
        """What Tab completes, for that model, by the words after a name."""
        listed = meant(self.value(words, "")).decode(errors="replace")
        return Completes(listed.split(",") if listed else None, "listed" in self.words, int(self.value("limit:", "100")),
                         "at-once" in self.words)

    def cut(self):
        """The word that says how its keys are read the second time."""
        return f"reads:{self.value('reads:', '1..')}"

    def with_message(self, shown, line, place):
        """The message that a display shows after prompt and line, if it may show one, and the drawing with it."""
        message = meant(self.value("message:", "")).decode()
        if "helped" in self.words and "advised" not in self.words:
            found = MESSAGE.fullmatch(shown.text(shown.top + place[0], place[1]))
            message = found[0] if found else ""
        if message:
            yield message, drawing(self, self.prompt, line, message)

    def styled(self, line, message):
        """The styles that an accepted line may have. What a helper with fixed answers marks doesn't depend on the drawing's
        reason, and an accepted line has its cursor at the end."""
        if not self.has_colours():
            return [{}]
        if "advised" not in self.words:
            return standard_styles(self, line, message)
        whole, place = 2**32, len(line.encode())
        marked = place == int(self.value("marked:", "-1")) or place >= int(self.value("marks-from:", str(whole)))
        start, count, style = self.value("styled:", "0,0,").split(",")
        prompt, told = ([(whole, numbers(self.value(name, "")))] for name in ("prompt-style:", "message-style:"))
        own = [(int(start), ""), (int(count), numbers(style))] if marked else []
        return [styled(self, line, message, [prompt, own, told])]

    @property
    def styles(self):
        """Those that any drawing may have."""
        if not self.has_colours():
            return set()
        if "advised" not in self.words:
            return {";1;34", ";2", ";31"}
        named = [self.value(name, "") for name in ("prompt-style:", "hint-style:", "message-style:")]
        return {*map(numbers, [*named, self.value("styled:", ",,").split(",")[2]])}

    @property
    def hints_of_history(self):
        return "advised" not in self.words and any(word.startswith(("helped", "words:")) for word in self.words)

    def is_modal(self):
        """Whether the commands act that go on over several keys."""
        return "modal" in self.words

    def has_colours(self):
        return "colours" in self.words

    def open_texts(self):
        """What may stand after a line that hasn't ended."""
        yield ""
        offered = self.completes("offers:")
        if offered.words and self.is_modal():
            yield offered.listing(offered.words)
        yield from (meant(self.value(name, "")).decode(errors="replace") for name in ("hint:", "message:"))

    def shorter(self):
        """Smaller sessions, the much smaller ones first."""
        for words in without_parts(self.words):
            yield RowSession(self.keys, words)
        for keys in without_parts(self.keys):
            yield RowSession(keys, self.words)
        for at, word in enumerate(self.words):
            for less in shorter_words(word):
                yield RowSession(self.keys, (*self.words[:at], less, *self.words[at + 1:]))
        for at, byte in enumerate(self.keys[:100]):
            if byte != 0x61:
                yield RowSession(self.keys[:at] + b"a" + self.keys[at + 1:], self.words)


def shorter_words(word):
    """A setting's word with less in it."""
    name, found, rest = word.partition(":")
    if name == "bind":
        keys, _, command = rest.partition("⇒")
        for less in without_parts(tuple(keys.split("→"))):
            if less:
                yield f"bind:{'→'.join(less)}⇒{command}"
    elif name in ("prompt", "loaded", "hint", "taken", "message", "offers"):
        for less in without_parts(meant(rest).decode(errors="surrogateescape")):
            yield f"{name}:{noted(less)}"
    elif found and rest.isdigit() and int(rest) > 2:
        yield f"{name}:2"


def of_text(rng, most):
    """A text for a command, without numbers of bytes."""
    noted_chars = map(noted_char, texts(rng, most, UNTYPED))
    return "".join(char for char in noted_chars if not char.startswith("‹")) or "x"


def movement(rng):
    if rng.random() < 0.3:
        return rng.choice(RANGES)
    n = rng.choice([0, 1, 1, 1, 2, 3, 65535])
    word = rng.choice(["Big", "Vi", "Emacs"])
    search = rng.choice(["Forward", "ForwardBefore", "Backward", "BackwardAfter"])
    return rng.choice([f"BackwardChar·{n}", f"ForwardChar·{n}", f"LineUp·{n}", f"LineDown·{n}", f"BackwardWord·{n}·{word}",
                       f"ForwardWord·{n}·{rng.choice(['Start', 'BeforeEnd', 'AfterEnd'])}·{word}",
                       f"ViCharSearch·{n}·{search}·{of_text(rng, 1)[0]}"])


def command(rng):
    """A command, in the notation of `stand_ins`."""
    if rng.random() < 0.4:
        found = rng.choice(BARE)
        return found if found not in ENDS or rng.random() < 0.2 else "Repaint"
    n = rng.choice([0, 1, 1, 2, 3, 7, 20])
    char = of_text(rng, 1)[0]
    return rng.choice([
        f"Kill·{movement(rng)}", f"Kill·{movement(rng)}", f"Move·{movement(rng)}", f"ViYankTo·{movement(rng)}",
        f"Indent·{movement(rng)}", f"Dedent·{movement(rng)}", f"Replace·{movement(rng)}",
        f"Replace·{movement(rng)}·with·{of_text(rng, 4)}", f"Yank·{n}·{rng.choice(['Before', 'After'])}", f"Yank·{n}·Before",
        f"TransposeWords·{n}", f"Undo·{rng.choice([n, 65535])}", f"LineUpOrPreviousHistory·{n}", f"LineDownOrNextHistory·{n}",
        f"Insert·{n}·{of_text(rng, 6)}", f"SelfInsert·{n}·{char}", f"ReplaceChar·{n}·{char}", f"Overwrite·{char}",
    ])


def action(rng):
    """A command, or a handler with some answer."""
    at = rng.random()
    if at < 0.55:
        return command(rng)
    if at < 0.75:
        return f"Always·{command(rng)}"
    if at < 0.77:
        return rng.choice(["Fails", "WantsMemory"])
    return rng.choice(["Count", "Nothing", "Nothing", f"HintOrKill·{rng.choice([0, 1, 2, 65535])}"])


def word_of(keys, bound):
    return f"bind:{'→'.join(keys)}⇒{bound}"


def advice(rng):
    """The words of a helper with fixed answers."""
    words = ["advised"]
    if rng.random() < 0.7:
        words.append(f"hint:{noted(texts(rng, 8, UNTYPED))}")
        words += rng.choice([[], [f"taken:{noted(texts(rng, 6, UNTYPED))}"], [f"taken:{words[-1][5:]}"]])
    if rng.random() < 0.7:
        verdicts = ["Incomplete", "Invalid", "InvalidTold", "Valid", "Valid", "ValidTold", "ValidTold"]
        words += [f"verdict:{rng.choice(verdicts)}", f"later:{rng.choice(verdicts)}", f"later-from:{some(rng, 0, 12)}"]
        words.append(f"message:{noted(texts(rng, 12, UNTYPED))}")
    if rng.random() < 0.5:
        offers = [texts(rng, 5, UNTYPED).replace(",", ";") for _ in range(2)]
        offers = rng.choice([offers[:1], offers, [offers[0], offers[0] + offers[1]]])
        words.append(f"offers:{','.join(map(noted, offers))}")
    if rng.random() < 0.6:
        words.append(f"styled:{some(rng, 0, 8)},{some(rng, 0, 20)},{style(rng)}")
        words += [f"{part}-style:{style(rng)}" for part in ("prompt", "hint", "message") if rng.random() < 0.6]
    for name, often in (("hint-from", 0.5), ("start", 0.5), ("marked", 0.2), ("marks-from", 0.4)):
        if rng.random() < often:
            words.append(f"{name}:{some(rng, 0, 8)}")
    for name in ("hint-fails", "verdict-fails", "completion-fails", "update-fails"):
        if rng.random() < 0.04:
            words.append(f"{name}:{some(rng, 0, 20)}")
    return words + (["wants-memory"] if rng.random() < 0.1 else [])


def helper(rng):
    at = rng.random()
    if at < 0.5:
        return advice(rng)
    if at < 0.7:
        return rng.choice([["helped"], ["words:al,alp,漢字,e\u0301"], ["helped", "words:word,words,x_y"]])
    return []


def reads(rng):
    """What a reader does at its calls: mostly one byte per call."""
    if rng.random() < 0.6:
        return "reads:1.."
    turns = [rng.choice(["1", "1", "2", "3", "5", "17", "interrupted"]) for _ in range(some(rng, 0, 20))]
    return f"reads:{','.join([*turns, rng.choice(['1..', '2..', '3..', '4096..'])])}"


def tabs(rng):
    """The words for drawings: in half of the sessions tabs are drawn as blanks, often up to stops 8 columns apart, and in half a
    change may be shown in its row."""
    stop = rng.choice([[], [], [f"stop:{rng.choice([0, 1, 2, 3, 4, 7, 10, 255])}"]])
    return rng.choice([[], ["tabs"]]) + stop + rng.choice([[], ["partial"]])


def setting(rng):
    """The words of a setting, without bindings, and its mode."""
    given = settings(rng)
    words = ["adding", f"columns:{given['columns']}"] + (["vi"] if given["mode"] == "vi" else [])
    words += ["modal", *rng.choice([[], ["listed"], ["listed", "at-once"], ["listed", f"limit:{some(rng, 0, 3)}"]])] if given["extended"] else []
    if "prompt" in given or rng.random() < 0.2:
        words.append(f"prompt:{noted(given.get('prompt') or texts(rng, 6, UNTYPED))}")
    if given.get("history"):
        words.append(f"loaded:{noted(given['history'])}")
    if rng.random() < 0.3:
        words.append(f"clusters:{rng.choice(['WcWidth', 'NoZwj'])}")
    if rng.random() < 0.5:
        words.append("colours")
    return [*words, *tabs(rng), *helper(rng), reads(rng)], given["mode"]


def typed(rng, mode, names, most):
    """Keys, including those with these names."""
    return ended(rng, b"".join(KEYS[rng.choice(names)] if rng.random() < 0.6 else one_key(rng, mode)
                               for _ in range(some(rng, 1, most))))


def ended(rng, keys):
    """These keys, followed by one that accepts the line, or cut off anywhere."""
    return rng.choice([keys + ENTER, keys + b"\n", keys, keys[:rng.randrange(len(keys) + 1)]])


def shadowed_keys(rng):
    """Many bound keys, including those of the tables, and any other key."""
    words, mode = setting(rng)
    bound = rng.sample(NAMES, some(rng, 1, 60))
    words += [word_of([name], action(rng)) for name in bound]
    if rng.random() < 0.3:
        words.append(word_of(["any"], action(rng)))
    return RowSession(typed(rng, mode, bound, 60), tuple(words))


def bound_sequences(rng):
    """Sequences that begin each other."""
    words, mode = setting(rng)
    first = rng.sample(FIRST, rng.choice([1, 1, 2]))
    names = [*first, *rng.sample(NAMES, rng.choice([1, 2, 3]))]
    sequences = []
    for _ in range(some(rng, 1, 10)):
        begun = rng.choice([*sequences, []])
        begun = begun[:rng.randrange(len(begun) + 1)] or [rng.choice(first)]
        sequences.append([*begun, *(rng.choice(names) for _ in range(rng.choice([0, 1, 1, 2, 4])))])
    words += [word_of(names_of, action(rng)) for names_of in sequences]
    keys = b""
    for _ in range(some(rng, 1, 40)):
        sequence = rng.choice(sequences)
        whole = b"".join(KEYS[name] for name in sequence[:rng.choice([len(sequence), rng.randrange(len(sequence) + 1)])])
        keys += rng.choice([whole, whole, whole, KEYS[rng.choice(names)], one_key(rng, mode), ENTER])
    return RowSession(ended(rng, keys), tuple(words))


def advised_lines(rng):
    """A helper with any answers, without bindings or with a few that call it."""
    words, mode = setting(rng)
    words = [word for word in words if not word.startswith(("helped", "words:"))]
    if "advised" not in words:
        words += advice(rng)
    asking = {"F5": "CompleteHint", "F1": "Complete", "PageUp": "AcceptLine", "Insert": "AcceptAtEndOrInsertLine"}
    words += [word_of([name], bound) for name, bound in asking.items() if rng.random() < 0.7]
    keys = b""
    for _ in range(some(rng, 1, 30)):
        keys += rng.choice([KEYS[rng.choice(list(asking))], b"\t", b"\x1b[C", b"\x1b[D", ENTER, texts(rng, 6).encode(),
                            texts(rng, 6).encode(), keys_of(rng, mode, 3)])
    return RowSession(ended(rng, keys), tuple(words))


def odd_settings(rng):
    """Settings of every kind, and keys of every form."""
    words, mode = setting(rng)
    words = [word for word in words if not word.startswith(("loaded:", "columns:"))]
    words.append(f"columns:{rng.choice(COLUMNS)}")
    loaded = history(rng)
    words += [f"loaded:{noted(loaded)}"] if loaded else []
    return RowSession(ended(rng, keys_of(rng, mode, 50)), tuple(words))


def row_searches(rng):
    """The same searches over memory."""
    given = searches(rng)
    words = ["modal", f"columns:{given.columns}", f"loaded:{noted(given.history)}", reads(rng)]
    words += (["vi"] if given.mode == "vi" else []) + rng.choice([["adding"], ["adding"], []]) + tabs(rng)
    if rng.random() < 0.2:
        words.append(f"clusters:{rng.choice(['WcWidth', 'NoZwj'])}")
    return RowSession(given.keys, tuple(words))


def row_candidates(rng):
    """Words that are completed over several keys, in each way."""
    words, mode = completed_words(rng), rng.choice(["emacs", "emacs", "vi"])
    given = ["modal", f"columns:{rng.choice(COLUMNS)}", f"words:{','.join(map(noted, words))}", reads(rng)]
    given += rng.choice([[], ["colours"]]) + rng.choice([[], ["listed"]]) + rng.choice([[], [], ["at-once"]]) + rng.choice([[], [f"limit:{some(rng, 0, 5)}"]])
    given += (["vi"] if mode == "vi" else []) + tabs(rng)
    return RowSession(candidate_keys(rng, words, mode), tuple(given))


# How often each kind of session over memory is played.
ROW_KINDS = {shadowed_keys: 4, bound_sequences: 4, advised_lines: 4, odd_settings: 2, row_searches: 5, row_candidates: 5}
