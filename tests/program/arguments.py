#!/usr/bin/env python3
"""The program's arguments, its history file and its file of words. Run it by ./test, or alone once `rt ci` or ./keyline --prove has built the program."""
import glob
import os
import re
import stat
import subprocess
import sys
import tempfile

sys.path += glob.glob(os.path.join(os.path.dirname(os.path.dirname(os.path.realpath(__file__))), "*", ""))
from checks import ANSWERS, BACKSPACE, CTRL_D, ENTER, HUNG, NEW_ROW, PROGRAM, drawing, run_all, same

UP = b"\x1b[A"
NOT_LOADED = b"keyline: history does not load\n"
NOT_SAVED = b"keyline: history text failed\n"
NO_WORDS = b"keyline: words do not load\n"
TAB = b"\t"
BELL = b"\x07"
# What begins a style, and the values of NO_COLOR with whether there are styles then.
STYLE = b"\x1b[0;"
NO_COLOR = [(None, True), (b"", True), (b"0", False), (b"1", False), (b"long" * 1000, False), (b"\xff", False)]
# A prompt with control sequences, and how it is drawn under --extended: the rows of crates/worked_rows/specs/Prompts.antt.
GREEN = "\x1b[32m> \x1b[m"
PROMPTS = [(GREEN, "\x1b[0;32m> \x1b[m"),
           ("\x1b[1msql\x1b[31m>\x1b[m ", "\x1b[0;1msql\x1b[m\x1b[0;1;31m>\x1b[m "),
           ("\x1b[5;1m>\x1b[2K\x1b[99m \x1b[m\x1b]0;t\x07", "\x1b[0;1m> \x1b[m\x1b[m?\x1b[m]0;t\x1b[m?\x1b[m"),
           ("\x1b[35m漢\x1b[m> ", "\x1b[0;35m漢\x1b[m> "),
           ("\x1b[34ma\nb\x1b[m> ", "\x1b[0;34ma\x1b[m\r\n\x1b[0;34mb\x1b[m> ")]
# The limits of a number of columns: those that are taken, and those that are wrong.
TAKEN = ["2", "1000", "+07", "0" * 30 + "5"]
WRONG = ["1", "1001", "65538", "70000", "x", "", "+", "5_0", " 5", "-5", "9" * 5000, "\u0665"]


def ran(keys, *arguments, **streams):
    given = streams if "stdin" in streams else {"input": keys, **streams}
    return subprocess.run([PROGRAM, *arguments], capture_output=True, timeout=HUNG, **given)


def expect(run, lines=None, display=None, status=0):
    if lines is not None:
        same("lines", run.stdout, lines)
    if display is not None:
        same("display", run.stderr, display)
    same("status", run.returncode, status)


def words_end(run, words, status):
    same("status", run.returncode, status)
    same("last words", run.stderr[-len(words):], words)


class History:
    """A folder with a history file of this text, or without one."""

    def __init__(self, text=None):
        self.folder = tempfile.TemporaryDirectory()
        self.path = os.path.join(self.folder.name, "history")
        if text is not None:
            self.write(text)

    def __enter__(self):
        return self

    def __exit__(self, *_):
        self.folder.cleanup()

    def write(self, text):
        with open(self.path, "wb") as it:
            it.write(text)

    def text(self):
        with open(self.path, "rb") as it:
            return it.read()

    def names(self):
        return os.listdir(self.folder.name)


def by_another_name(*words):
    """A run without keys, by the name of a build without proofs, which no usage text repeats."""
    return subprocess.run(["build/unproved", *words], executable=PROGRAM, stdin=subprocess.DEVNULL, capture_output=True, timeout=HUNG)


def help_is_asked_for():
    with open(os.path.join(ANSWERS, "help.txt"), "rb") as stored:
        expect(by_another_name("--help"), stored.read(), b"")
    for flag in ("--help", "-h"):
        run = ran(b"ab\r", flag)
        expect(run, display=b"")
        for part in (b"Usage: keyline", b"--mode <emacs|vi>", b"[default: emacs]", b"[default: 80]",
                     b"--prompt <TEXT>", b"--history <FILE>", b"--words <FILE>", b"--brackets", b"--extended", b"--plain",
                     b"--prove", b"--version", b"Ctrl-Y", b"Ctrl-R"):
            same(f"{part!r} is there", part in run.stdout, True)


def version_is_asked_for():
    run = ran(b"ab\r", "--version")
    expect(run, display=b"")
    same("whether a version is told", re.fullmatch(rb"keyline \d+\.\d+\.\d+\n", run.stdout) is not None, True)
    for words in (["--version", "--mode=vi"], ["--mode=vi", "--version"], ["--version", "--version"]):
        run = ran(b"ab\r", *words)
        expect(run, b"", status=2)
        same(f"whether it is unexpected in {words}", b"unexpected argument '--version' found" in run.stderr, True)


def wrong_arguments():
    wrong = [*([f"--columns={text}"] for text in WRONG), ["--columns"], ["--mode", "ed"], ["--mode"], ["--words"],
             ["--words", "a", "--words", "a"], ["--brackets=on"], ["--nothing"], ["-x"], ["-\u00e9"], ["word"], ["-"], ["", ""],
             ["--mode", "vi", "--mode", "vi"], ["--extended", "--extended"], ["--", "--extended"], ["--extended=on"],
             ["--prompt", "--extended"], ["--plain"], ["--=x"], ["---"], ["--help=x"], ["--", "word"]]
    for arguments in wrong:
        with History(b"\xff") as history:
            run = ran(b"ab\r", "--history", history.path, *arguments)
            same(f"status of {arguments}", run.returncode, 2)
            same("lines", run.stdout, b"")
            same("its first word", run.stderr.split()[0], b"error:")
            same("a drawing", b"\x1b" in run.stderr, False)


def an_argument_that_is_no_text():
    run = ran(b"ab\r", b"\xff")
    same("status", run.returncode, 2)
    same("lines", run.stdout, b"")


def columns_that_are_taken():
    for text in TAKEN:
        expect(ran(b"ab\r", "--columns", text), b"ab\n")


def usage_texts():
    """What is wrong, a similar argument, and the usage, as they are printed."""
    mistake = "error: unexpected argument '%s' found\n\n%sUsage: keyline %s\n\nFor more information, try '--help'.\n"
    near = mistake % ("--colums", "  tip: a similar argument exists: '--columns'\n\n", "--columns <2..1000>")
    far = mistake % ("word", "", "[OPTIONS]")
    expect(by_another_name("--colums", "3"), b"", near.encode(), 2)
    expect(by_another_name("word"), b"", far.encode(), 2)


def no_device_is_touched_before():
    # The keys are left for the next reader.
    with tempfile.TemporaryFile() as keys:
        keys.write(b"ab\r")
        keys.seek(0)
        for arguments in (["--columns", "1"], ["--help"]):
            ran(None, *arguments, stdin=keys)
            same("place in the keys", os.lseek(keys.fileno(), 0, os.SEEK_CUR), 0)


def prompts_and_columns():
    shown = drawing(b"").replace(b"> ", b"? ") + NEW_ROW
    expect(ran(b"", "--prompt", "? "), b"", shown)
    expect(ran(b"", "--prompt="), b"", drawing(b"").replace(b"> ", b"") + NEW_ROW)
    # `abc` after `> ` fills four columns at the second letter, and the third is in the next row.
    narrow = ran(b"abc" + ENTER, "--columns", "4")
    expect(narrow, b"abc\n")
    same("the same display", narrow.stderr == ran(b"abc" + ENTER).stderr, False)


def vi_mode():
    expect(ran(b"abc\x1b0x\r", "--mode", "vi"), b"bc\n")
    expect(ran(b"abc\x1b0x\r", "--mode=vi"), b"bc\n")


def brackets():
    expect(ran(b"(a\rb)\r", "--brackets"), b"(a\nb)\n")
    expect(ran(b"(a\rb)\r"), b"(a\nb)\n")
    expect(ran(b"(a\r", "--brackets"), b"")
    expect(ran(b"(a\r"), b"(a\n")
    expect(ran(b"a)\r" + BACKSPACE + ENTER, "--brackets"), b"a\n")


def extended():
    """The keys that the default profile leaves out do nothing without --extended."""
    search, quoted = b"ab\rcd\r\x12a\r", b"\x16\t\r"
    expect(ran(search), b"ab\ncd\na\n")
    expect(ran(quoted), b"\n")
    for words in (["--extended"], ["--mode=emacs", "--extended"], ["--extended", "--columns", "40", "--"]):
        expect(ran(search, *words), b"ab\ncd\nab\n")
        expect(ran(quoted, *words), b"\t\n")
    expect(ran(b"ab\rcd\r\x1b/a\r", "--extended", "--mode", "vi"), b"ab\ncd\nab\n")
    expect(ran(b"ab\rcd\ra\x1b[A\r", "--extended"), b"ab\ncd\nab\n")
    expect(ran(b"ab\rcd\ra\x1b[A\r"), b"ab\ncd\ncd\n")


def colours_by_the_environment():
    """--extended draws a bracket's match in a style, unless NO_COLOR is set and not empty; without it nothing has a style."""
    others = {name: value for name, value in os.environb.items() if name != b"NO_COLOR"}
    for text, drawn in NO_COLOR:
        environment = others if text is None else {**others, b"NO_COLOR": text}
        run = ran(b"()" + ENTER, "--extended", env=environment)
        expect(run, b"()\n")
        same(f"styles of NO_COLOR={text}", STYLE in run.stderr, drawn)
        same("styles without --extended", STYLE in ran(b"()" + ENTER, env=environment).stderr, False)


def prompts_with_styles():
    """--extended draws a prompt by its sequences, and takes them out under NO_COLOR; without it ESC shows as `?`."""
    coloured = {name: value for name, value in os.environb.items() if name != b"NO_COLOR"}
    for prompt, drawn in PROMPTS:
        expect(ran(b"", "--extended", "--prompt", prompt, env=coloured), b"", drawn_after(drawn) + NEW_ROW)
    plain = {**coloured, b"NO_COLOR": b"1"}
    expect(ran(b"", "--extended", "--prompt", GREEN, env=plain), b"", drawn_after("> ") + NEW_ROW)
    shown = drawn_after("\x1b[m?\x1b[m[32m> \x1b[m?\x1b[m[m") + NEW_ROW
    for environment in (coloured, plain):
        expect(ran(b"", "--prompt", GREEN, env=environment), b"", shown)


def drawn_after(prompt):
    """The drawing of an empty line after a prompt that is drawn so."""
    return drawing(b"").replace(b"> ", prompt.encode())


def a_missing_history():
    with History() as history:
        expect(ran(b"one\rtwo\r", "--history", history.path), b"one\ntwo\n")
        same("history", history.text(), b"#V2\none\ntwo\n")
        same("its rights", stat.S_IMODE(os.stat(history.path).st_mode), 0o600)
        same("the folder", history.names(), ["history"])


def two_programs_one_after_the_other():
    with History() as history:
        ran(b"one\r", "--history", history.path)
        expect(ran(UP + ENTER + b"two\r", "--history", history.path), b"one\ntwo\n")
        expect(ran(UP + UP + ENTER, "--history", history.path), b"one\n")
        same("history", history.text(), b"#V2\none\ntwo\none\n")


def rights_are_kept():
    with History(b"#V2\none\n") as history:
        os.chmod(history.path, 0o640)
        expect(ran(b"two\r", "--history", history.path), b"two\n")
        same("its rights", stat.S_IMODE(os.stat(history.path).st_mode), 0o640)
        same("the folder", history.names(), ["history"])


def a_link_stays():
    with History(b"#V2\none\n") as history:
        link = os.path.join(history.folder.name, "link")
        os.symlink("history", link)
        expect(ran(b"two\r", "--history", link), b"two\n")
        same("still a link", os.path.islink(link), True)
        same("history", history.text(), b"#V2\none\ntwo\n")


def nothing_new_writes_nothing():
    with History() as history:
        expect(ran(b"ab" + CTRL_D, "--history", history.path), b"")
        same("the folder", history.names(), [])


def old_rows():
    kept = [b"#V2\none\ntwo\n", b"one\ntwo\n", b"#V2\r\none\r\ntwo\r\n", b"one\r\ntwo"]
    for text in kept:
        with History(text) as history:
            expect(ran(UP + UP + ENTER, "--history", history.path), b"one\n")


def rows_of_several_rows():
    with History() as history:
        expect(ran(b"(a\rb)\r", "--brackets", "--history", history.path), b"(a\nb)\n")
        expect(ran(UP + ENTER, "--history", history.path), b"(a\nb)\n")


def not_loaded(history, path=None):
    run = ran(b"ab\r", "--history", path or history.path)
    expect(run, b"", NOT_LOADED, 5)


def histories_that_do_not_load():
    with History(b"#V2\nab\xff\n") as history:
        not_loaded(history)
        same("history", history.text(), b"#V2\nab\xff\n")
        not_loaded(history, history.folder.name)
        not_loaded(history, history.path + "/under-a-file")
    if os.geteuid() != 0:
        with History(b"one\n") as history:
            os.chmod(history.path, 0)
            not_loaded(history)


def histories_that_cannot_be_written():
    with History() as history:
        missing = os.path.join(history.folder.name, "no-folder", "history")
        words_end(ran(b"ab\r", "--history", missing), NOT_SAVED, 1)
        words_end(ran(b"ab\r\xff", "--history", missing), NOT_SAVED, 1)
        words_end(ran(b"ab\r", "--history", "/proc/keyline-history"), NOT_SAVED, 1)
    if os.geteuid() != 0:
        with History(b"one\n") as history:
            os.chmod(history.path, 0o400)
            words_end(ran(b"ab\r", "--history", history.path), NOT_SAVED, 1)
            same("history", history.text(), b"one\n")


def another_fault_comes_first():
    with History() as history:
        missing = os.path.join(history.folder.name, "no-folder", "history")
        with open("/dev/full", "wb") as full:
            run = subprocess.run([PROGRAM, "--history", missing], input=b"ab\r", stdout=full, stderr=subprocess.PIPE, timeout=HUNG)
        words_end(run, b"keyline: line output failed\n", 1)


class Words(History):
    """A folder with a file of words."""

    def __init__(self, *words):
        super().__init__(b"".join(word + b"\n" for word in words))

    def ran(self, keys, *arguments):
        return ran(keys, "--words", self.path, *arguments)


def words_complete():
    with Words(b"alpha", b"alpine", b"al bum", "\u00e9t\u00e9".encode()) as words:
        expect(words.ran(b"al" + TAB + ENTER), b"al\n")
        expect(words.ran(b"alp" + TAB + ENTER), b"alp\n")
        expect(words.ran(b"alph" + TAB + ENTER), b"alpha\n")
        expect(words.ran(b"x alph" + TAB + b"!" + ENTER), b"x alpha!\n")
        expect(words.ran("\u00e9".encode() + TAB + ENTER), "\u00e9t\u00e9\n".encode())
        expect(words.ran(b"zz" + TAB + ENTER), b"zz\n")
        expect(words.ran(b"alph" + TAB + ENTER, "--mode", "vi"), b"alpha\n")


def words_are_cut_as_rows():
    for text in (b"alpha\n\nalpine", b"\n\nalpha\r\n\r\nalpine\r\n", b"alpha\nalpine\n"):
        with Words() as words:
            words.write(text)
            expect(words.ran(b"a" + TAB + ENTER), b"alp\n")
            expect(words.ran(b"alph" + TAB + ENTER), b"alpha\n")
            same("the file", words.text(), text)


def words_with_brackets():
    with Words(b"(alpha") as words:
        expect(words.ran(b"(al" + TAB + ENTER + b")" + ENTER, "--brackets"), b"(alpha\n)\n")
        expect(words.ran(b"(al" + TAB + ENTER), b"(alpha\n")
    # A helper without words rings the bell; without a helper nothing is sent.
    rung = ran(b"al" + TAB + ENTER, "--brackets")
    expect(rung, b"al\n")
    same("bells", rung.stderr.count(BELL), 1)
    same("bells without a helper", ran(b"al" + TAB + ENTER).stderr.count(BELL), 0)


def words_that_do_not_load():
    with Words() as words:
        for text in (b"ab\xff\n", b"alpha\nalpine\n\xc3"):
            words.write(text)
            expect(words.ran(b"ab\r"), b"", NO_WORDS, 6)
            same("the file", words.text(), text)
        for path in (words.folder.name, words.path + "/under-a-file", words.path + "-missing"):
            expect(ran(b"ab\r", "--words", path), b"", NO_WORDS, 6)
        same("the folder", words.names(), ["history"])
    if os.geteuid() != 0:
        with Words(b"alpha") as words:
            os.chmod(words.path, 0)
            expect(words.ran(b"ab\r"), b"", NO_WORDS, 6)


def words_are_read_before_the_history():
    with History(b"\xff") as history, Words(b"\xff") as words:
        expect(words.ran(b"ab\r", "--history", history.path), b"", NO_WORDS, 6)
        words.write(b"alpha\n")
        expect(words.ran(b"ab\r", "--history", history.path), b"", NOT_LOADED, 5)
        same("status", words.ran(b"ab\r", "--history", history.path, "--columns", "1").returncode, 2)


def many_words():
    with Words(*(b"word%d" % number for number in range(100000))) as words:
        expect(words.ran(b"word9999" + TAB + TAB + ENTER), b"word9999\n")
        expect(words.ran(TAB + b"12345" + TAB + ENTER), b"word12345\n")


def a_thousand_words():
    for word in ("--brackets", "--columns=80", "--prompt=x", "x", "--", ""):
        run = by_another_name(*[word] * 1000)
        same(f"status, and whether the usage is told, of {word!r}", [run.returncode, b"Usage: keyline" in run.stderr], [2, True])


def a_long_prompt():
    shown = drawing(b"").replace(b"> ", (b"p" * 1000 + NEW_ROW) * 120)
    run = ran(b"ab" + ENTER, "--prompt", b"p" * 120_000, "--columns", "1000")
    expect(run, b"ab\n", shown + b"ab" + NEW_ROW + shown + NEW_ROW)


def many_entries():
    with History(b"#V2\n" + b"".join(b"entry %d\n" % number for number in range(100000))) as history:
        expect(ran(UP + ENTER, "--history", history.path), b"entry 99999\n")
        expect(ran(b"new\r", "--history", history.path), b"new\n")
        rows = history.text().splitlines()
        same("rows", len(rows), 101)
        same("the last ones", rows[-2:], [b"entry 99999", b"new"])


if __name__ == "__main__":
    run_all([
        help_is_asked_for,
        version_is_asked_for,
        wrong_arguments,
        an_argument_that_is_no_text,
        columns_that_are_taken,
        usage_texts,
        no_device_is_touched_before,
        prompts_and_columns,
        vi_mode,
        brackets,
        extended,
        colours_by_the_environment,
        prompts_with_styles,
        a_missing_history,
        two_programs_one_after_the_other,
        rights_are_kept,
        a_link_stays,
        nothing_new_writes_nothing,
        old_rows,
        rows_of_several_rows,
        histories_that_do_not_load,
        histories_that_cannot_be_written,
        another_fault_comes_first,
        words_complete,
        words_are_cut_as_rows,
        words_with_brackets,
        words_that_do_not_load,
        words_are_read_before_the_history,
        many_words,
        a_thousand_words,
        a_long_prompt,
        many_entries,
    ])
