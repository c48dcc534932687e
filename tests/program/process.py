#!/usr/bin/env python3
"""The program on real pipes. Run it by ./test, or alone once `rt ci` or ./keyline --prove has built the program."""
import glob
import os
import subprocess
import sys
import tempfile

sys.path += glob.glob(os.path.join(os.path.dirname(os.path.dirname(os.path.realpath(__file__))), "*", ""))
from checks import (BACKSPACE, CTRL_D, ENTER, HUNG, LEFT, NEW_ROW, PROGRAM, RIGHT, Running, drawing, placed_script,
                    run_all, same)

SCRIPT = placed_script()
# A session's first line, `ab`: what is sent to the display before the next line's first drawing.
FIRST_LINE = drawing(b"") + b"ab" + NEW_ROW
# A character deleted at the line's end, and a move by one column.
TAKEN = b"\x1b[1D\x1b[K"
BACK = b"\x1b[1D"
ONWARD = b"\x1b[1C"


def expect(keys, lines, display, status=0, **streams):
    """A run to its end. `streams` replace pipes, or are closed from the start."""
    closed = [number for number, name in enumerate(("stdin", "stdout", "stderr")) if streams.get(name) == "closed"]

    def close():
        for number in closed:
            os.close(number)

    given = {name: it for name, it in streams.items() if it != "closed"}
    if "stdin" not in streams:
        given["input"] = keys
    given.setdefault("stdout", subprocess.PIPE)
    given.setdefault("stderr", subprocess.PIPE)
    ran = subprocess.run([SCRIPT], timeout=HUNG, preexec_fn=close, **given)
    if lines is not None:
        same("lines", ran.stdout, lines)
    if display is not None:
        same("display", ran.stderr, display)
    same("status", ran.returncode, status)


def nothing_typed():
    expect(b"", b"", drawing(b"") + NEW_ROW)


def a_line():
    expect(b"ab" + ENTER, b"ab\n", FIRST_LINE + drawing(b"") + NEW_ROW)


def left_and_an_insertion():
    shown = [drawing(b""), b"a", b"c", BACK, drawing(b"abc", 1), ONWARD, NEW_ROW, drawing(b""), NEW_ROW]
    expect(b"ac" + LEFT + b"b" + ENTER, b"abc\n", b"".join(shown))


def deletions_until_the_line_is_empty_and_its_end():
    shown = drawing(b"") + b"a" + TAKEN + NEW_ROW
    expect(b"a" + CTRL_D + BACKSPACE + BACKSPACE + CTRL_D, b"", shown)


def right_and_both_deletions():
    shown = [drawing(b""), b"abc", BACK, BACK, drawing(b"ac", 1), ONWARD, TAKEN, NEW_ROW, drawing(b""), NEW_ROW]
    expect(b"abc" + LEFT + LEFT + CTRL_D + RIGHT + b"\x08" + ENTER, b"a\n", b"".join(shown))


def keys_without_a_meaning_do_nothing():
    unknown = b"\x0f\x1bx\x1bOP\x1b[[A\x1b[99~"
    expect(b"a" + unknown + b"b" + unknown + ENTER, b"ab\n", FIRST_LINE + drawing(b"") + NEW_ROW)


def a_sequence_that_the_end_cuts_off():
    expect(b"ab\x1b[", b"", FIRST_LINE)
    expect(b"ab\x1b", b"", FIRST_LINE)


def an_end_typed_before_more_keys():
    expect(b"ab" + ENTER + CTRL_D + b"cd" + ENTER, b"ab\n", FIRST_LINE + drawing(b"") + NEW_ROW)


def interrupted():
    expect(b"ab" + ENTER + b"\x03cd", b"ab\n", FIRST_LINE + drawing(b"") + NEW_ROW, 130)


def input_that_is_no_text():
    shown = FIRST_LINE + drawing(b"") + b"keyline: input is not UTF-8\n"
    expect(b"ab" + ENTER + b"\xff" + b"cd" + ENTER, b"ab\n", shown, 3)


def pasted_text():
    shown = drawing(b"") + drawing(b"a\r\nb") + NEW_ROW + drawing(b"") + NEW_ROW
    expect(b"\x1b[200~a\rb\x1b[201~" + ENTER, b"a\nb\n", shown)
    expect(b"\x18\x1b[200~a\x1b[201~", b"", drawing(b"") + b"keyline: paste out of place\n", 4)


def an_earlier_line_recalled():
    shown = FIRST_LINE + drawing(b"") + drawing(b"ab") + NEW_ROW + drawing(b"") + NEW_ROW
    expect(b"ab" + ENTER + b"\x1b[A" + ENTER, b"ab\nab\n", shown)


def keys_from_a_file():
    with tempfile.TemporaryFile() as keys:
        keys.write(b"ab" + ENTER)
        keys.seek(0)
        expect(None, b"ab\n", FIRST_LINE + drawing(b"") + NEW_ROW, stdin=keys)


def lines_that_need_many_reads():
    lines = [b"line %d" % number for number in range(2000)]
    expect(b"".join(line + ENTER for line in lines), b"".join(line + b"\n" for line in lines), None)


def lines_longer_than_a_row_and_than_a_read():
    lines = [b"0123456789" * 8, b"x" * 700, b"", b"y" * 78, b"z" * 77]
    expect(b"".join(line + ENTER for line in lines), b"".join(line + b"\n" for line in lines), None)


def each_drawing_comes_before_the_next_key():
    steps = [(b"a", b"a"), (b"c", b"c")]
    steps += [(b"\x1b", b""), (b"[", b""), (b"D", BACK), (b"b", drawing(b"abc", 1))]
    steps += [(ENTER, ONWARD + NEW_ROW + drawing(b""))]
    steps += [(b"d", b"d"), (BACKSPACE, TAKEN)]
    with Running([SCRIPT]) as program:
        program.display.expect(drawing(b""))
        for key, shown in steps:
            program.type(key)
            program.display.expect(shown)
            if key == ENTER:
                program.lines.expect(b"abc\n")
        program.end_of_input()
        program.display.expect_end(NEW_ROW)
        program.lines.expect_end()
        program.expect_status(0)


def each_call_is_one_write():
    # What is written at once to a pipe of packets is read at once, and nothing else with it.
    reader, writer = os.pipe2(os.O_DIRECT)
    keys = b"ac" + LEFT + b"b" + RIGHT + ENTER
    subprocess.run([PROGRAM], input=keys, stdout=subprocess.DEVNULL, stderr=writer, timeout=HUNG, check=True)
    os.close(writer)
    with open(reader, "rb", buffering=0) as packets:
        found = list(iter(lambda: packets.read(65536), b""))
    calls = [drawing(b""), b"a", b"c", BACK, drawing(b"abc", 1), ONWARD]
    same("what was written at once", found, [*calls, NEW_ROW, drawing(b""), NEW_ROW])


def keys_one_byte_a_write():
    with Running([SCRIPT]) as program:
        for byte in b"ab" + ENTER + b"cd" + ENTER:
            program.type(bytes([byte]))
        program.end_of_input()
        program.lines.expect_end(b"ab\ncd\n")
        program.display.expect_end(
            FIRST_LINE + drawing(b"") + b"cd" + NEW_ROW + drawing(b"") + NEW_ROW
        )
        program.expect_status(0)


def standard_input_closed_from_the_start():
    expect(None, b"", drawing(b"") + b"keyline: input failed\n", 1, stdin="closed")


def standard_input_that_cannot_be_read():
    folder = os.open("/", os.O_RDONLY)
    try:
        expect(None, b"", drawing(b"") + b"keyline: input failed\n", 1, stdin=folder)
    finally:
        os.close(folder)


def standard_output_closed_from_the_start():
    expect(b"ab" + ENTER + b"cd" + ENTER, None, FIRST_LINE + b"keyline: line output failed\n", 1, stdout="closed")


def standard_output_that_is_full():
    with open("/dev/full", "wb") as full:
        expect(b"ab" + ENTER + b"cd" + ENTER, None, FIRST_LINE + b"keyline: line output failed\n", 1, stdout=full)


def standard_output_whose_reader_goes():
    with Running([SCRIPT]) as program:
        program.type(b"ab" + ENTER)
        program.lines.expect(b"ab\n")
        program.process.stdout.close()
        program.display.expect(FIRST_LINE + drawing(b""))
        program.type(b"cd" + ENTER + b"ef")
        program.display.expect_end(b"cd" + NEW_ROW + b"keyline: line output failed\n")
        program.expect_status(1)


def standard_error_closed_from_the_start():
    expect(b"ab" + ENTER, b"", None, 1, stderr="closed")


def standard_error_that_is_full():
    with open("/dev/full", "wb") as full:
        expect(b"ab" + ENTER, b"", None, 1, stderr=full)


def standard_error_whose_reader_goes():
    with Running([SCRIPT]) as program:
        program.type(b"ab" + ENTER)
        program.display.expect(FIRST_LINE + drawing(b""))
        program.process.stderr.close()
        program.type(b"c")
        program.expect_status(1)
        program.lines.expect_end(b"ab\n")


def no_toolchain():
    with tempfile.TemporaryDirectory() as folder:
        for name in ("bash", "dirname", "readlink"):
            found = next(
                at for at in (os.path.join(part, name) for part in ("/usr/bin", "/bin")) if os.access(at, os.X_OK)
            )
            os.symlink(found, os.path.join(folder, name))
        ran = subprocess.run([SCRIPT], input=b"ab\r", capture_output=True, timeout=HUNG, env={"PATH": folder})
    same("standard output", ran.stdout, b"")
    same("lines of words", ran.stderr.count(b"\n"), 1)
    same("the toolchain and the README are named", b"rt" in ran.stderr and b"README.md" in ran.stderr, True)
    same("status", ran.returncode, 127)


def another_folder_and_a_link():
    with tempfile.TemporaryDirectory() as folder:
        inner = os.path.join(folder, "with a space")
        os.mkdir(inner)
        link = os.path.join(inner, "a link")
        os.symlink(SCRIPT, link)
        ran = subprocess.run([link], input=b"ab\r", capture_output=True, timeout=HUNG, cwd=inner)
        same("what lies in that folder", os.listdir(inner), ["a link"])
    same("lines", ran.stdout, b"ab\n")
    same("display", ran.stderr, FIRST_LINE + drawing(b"") + NEW_ROW)
    same("status", ran.returncode, 0)


def the_program_itself():
    ran = subprocess.run([PROGRAM], input=b"ab\r", capture_output=True, timeout=HUNG)
    same("lines", ran.stdout, b"ab\n")
    same("display", ran.stderr, FIRST_LINE + drawing(b"") + NEW_ROW)
    same("status", ran.returncode, 0)


if __name__ == "__main__":
    run_all([
        nothing_typed,
        a_line,
        left_and_an_insertion,
        deletions_until_the_line_is_empty_and_its_end,
        right_and_both_deletions,
        keys_without_a_meaning_do_nothing,
        a_sequence_that_the_end_cuts_off,
        an_end_typed_before_more_keys,
        interrupted,
        input_that_is_no_text,
        pasted_text,
        an_earlier_line_recalled,
        keys_from_a_file,
        lines_that_need_many_reads,
        lines_longer_than_a_row_and_than_a_read,
        each_drawing_comes_before_the_next_key,
        each_call_is_one_write,
        keys_one_byte_a_write,
        standard_input_closed_from_the_start,
        standard_input_that_cannot_be_read,
        standard_output_closed_from_the_start,
        standard_output_that_is_full,
        standard_output_whose_reader_goes,
        standard_error_closed_from_the_start,
        standard_error_that_is_full,
        standard_error_whose_reader_goes,
        no_toolchain,
        another_folder_and_a_link,
        the_program_itself,
    ])
