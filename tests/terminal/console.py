#!/usr/bin/env python3
"""The console over a database: tmux types into crates/sql_console, and reports its cells and cursor; on pipes, its arguments
and the history that it keeps. crates/first_program gets keys in the same windows.

`rt ci` builds the programs first. If another program is named as an argument, that one is the console.
"""
import contextlib
import glob
import os
import pathlib
import shlex
import subprocess
import sys
import tempfile

sys.path += glob.glob(os.path.join(os.path.dirname(os.path.dirname(os.path.realpath(__file__))), "*", ""))
from checks import CTRL_D, ENTER, HUNG, ON_TERMINAL, built, run_all, same
from drawings import Terminal
from shown import expect, until_taken
from windows import WIDTHS, edited_in_its_middle, rows_of, type_bytes

PROGRAM = built("sql_console")

CTRL_C = b"\x03"
CTRL_L = b"\x0c"
CTRL_P = b"\x10"
TAB = b"\t"
UP = b"\x1b[A"

GREETING = "A database in memory: .help lists commands, .quit leaves."
USAGE = b"usage: sql_console [--history FILE]\n"
HINT = "(; ends the statement)"

MADE = b"CREATE TABLE note (title, stars);" + ENTER
MADE_ROWS = ["sql> CREATE TABLE note (title, stars);", "0 changed"]


@contextlib.contextmanager
def in_window(columns, program, prompt):
    """A program in a window with so many columns, which shows only the prompt."""
    with tempfile.TemporaryDirectory() as folder:
        run = " ".join(map(shlex.quote, [ON_TERMINAL, program]))
        terminal = Terminal(folder, columns, f"{run}; echo ended $?; exec sleep {HUNG}")
        try:
            until_taken(terminal)
            before = rows_of(GREETING, columns) if program == PROGRAM else []
            before = [row.rstrip() for row in before]
            expect(terminal, "before the first key", ([*before, prompt.rstrip()], (len(before), len(prompt))))
            type_bytes(terminal, CTRL_L)
            expect(terminal, "Ctrl-L", ([prompt.rstrip()], (0, len(prompt))))
            yield terminal
        finally:
            terminal.close()


def plays(*steps):
    """Types each step, and compares the rows and the cursor's place that are shown then."""
    with in_window(60, PROGRAM, "sql> ") as terminal:
        for keys, rows, cursor in steps:
            type_bytes(terminal, keys)
            expect(terminal, keys, (rows, cursor))


def windows():
    """Lines are as wide as the window that `on_terminal` finds."""
    for columns in WIDTHS:
        for program, prompt in ((PROGRAM, "sql> "), (built("first_program"), "> ")):
            with in_window(columns, program, prompt) as terminal:
                edited_in_its_middle(terminal, prompt, columns)


def a_table_of_rows():
    plays(
        (MADE, [*MADE_ROWS, "sql>"], (2, 5)),
        (b"INSERT INTO note VALUES ('a', 1), ('bcd', NULL);\r\x0c", ["sql>"], (0, 5)),
        (
            b"SELECT * FROM note;\r",
            ["sql> SELECT * FROM note;", "| title | stars |", "|-------|-------|", "| a     | 1     |", "| bcd   | NULL  |", "sql>"],
            (5, 5),
        ),
    )


def a_column_as_wide_as_the_terminal_shows_it():
    plays(
        (
            "SELECT 1 AS 漢字;\r".encode(),
            ["sql> SELECT 1 AS 漢字;", "| 漢字 |", "|------|", "| 1    |", "sql>"],
            (4, 5),
        ),
    )


def a_statement_goes_on_until_its_semicolon():
    plays(
        (b"SELECT 1" + ENTER, ["sql> SELECT 1", HINT], (1, 0)),
        (b"AS one", ["sql> SELECT 1", "AS one"], (1, 6)),
        (b";" + ENTER, ["sql> SELECT 1", "AS one;", "| one |", "|-----|", "| 1   |", "sql>"], (5, 5)),
    )


def a_pasted_statement_keeps_its_tabs():
    """They are drawn as blanks up to the next stop, and go into the history."""
    rows = ["sql> SELECT     1", "        AS      one;"]
    answer = ["| one |", "|-----|", "| 1   |"]
    plays(
        (b"\x1b[200~SELECT\t1\n\tAS\tone\x1b[201~", [*rows[:1], rows[1][:-1]], (1, 19)),
        (b";", rows, (1, 20)),
        (UP, rows, (0, 17)),
        (ENTER, [*rows, *answer, "sql>"], (5, 5)),
        (CTRL_L + UP, rows, (1, 20)),
    )


def another_prompt_after_an_empty_row():
    plays(
        (b"SELECT 1" + ENTER, ["sql> SELECT 1", HINT], (1, 0)),
        (ENTER, ["sql> SELECT 1", "", "...>"], (2, 5)),
        (b"AS one;" + ENTER, ["sql> SELECT 1", "", "...> AS one;", "| one |", "|-----|", "| 1   |", "sql>"], (6, 5)),
    )


def an_open_statement_says_how_it_ends():
    plays(
        (b"help" + ENTER, ["sql> help", HINT], (1, 0)),
        (b"me", ["sql> help", "me"], (1, 2)),
        (b"\x7f\x7f", ["sql> help", HINT], (1, 0)),
        (CTRL_C, ["sql> help", HINT, "sql>"], (2, 5)),
        (CTRL_L + b"help" + ENTER, ["sql> help", HINT], (1, 0)),
        (b";" + ENTER, ["sql> help", ";", "error near \"help\": syntax error", "sql>"], (3, 5)),
    )


def a_mistake_is_told_and_the_console_goes_on():
    first = ["sql> SELEC;", "error near \"SELEC\": syntax error"]
    second = ["sql> SELECT 1", "AS SELECT;", "error in row 2 near \"SELECT\": syntax error"]
    plays(
        (b"SELEC;" + ENTER, [*first, "sql>"], (2, 5)),
        (b"SELECT 1\rAS SELECT;" + ENTER, [*first, *second, "sql>"], (5, 5)),
    )


def commands():
    plays(
        (b".tables" + ENTER, ["sql> .tables", "sql>"], (1, 5)),
        (CTRL_L + MADE, [*MADE_ROWS, "sql>"], (2, 5)),
        (b".tables" + ENTER, [*MADE_ROWS, "sql> .tables", "note", "sql>"], (4, 5)),
        (CTRL_L + b".table" + ENTER, ["sql> .table", "error: there is no .table; .help lists the commands", "sql>"], (2, 5)),
        (
            CTRL_L + b".help" + ENTER,
            [
                ".tables  lists the tables",
                ".quit    leaves, as Ctrl-D does",
                "A statement ends with ; and may",
                "have several rows. Ctrl-C gives",
                "it up, Ctrl-O empties the line,",
                "Up brings earlier ones back, and",
                "Tab completes names of tables.",
                "sql>",
            ],
            (7, 5),
        ),
    )


def tab_completes_a_table_that_was_just_made():
    plays(
        (b"DROP TABLE n" + TAB, ["sql> DROP TABLE n"], (0, 17)),
        (CTRL_C, ["sql> DROP TABLE n", "sql>"], (1, 5)),
        (MADE, ["sql> DROP TABLE n", *MADE_ROWS, "sql>"], (3, 5)),
        (b"DROP TABLE n" + TAB, ["sql> DROP TABLE n", *MADE_ROWS, "sql> DROP TABLE note"], (3, 21)),
        (b";" + ENTER, ["sql> DROP TABLE n", *MADE_ROWS, "sql> DROP TABLE note ;", "0 changed", "sql>"], (5, 5)),
        (b"DROP TABLE n" + TAB, ["sql> DROP TABLE n", *MADE_ROWS, "sql> DROP TABLE note ;", "0 changed", "sql> DROP TABLE n"], (5, 17)),
    )


def a_statement_before_comes_back_and_is_edited():
    plays(
        (b"SELECT 1 AS a;" + ENTER, ["sql> SELECT 1 AS a;", "| a |", "|---|", "| 1 |", "sql>"], (4, 5)),
        (UP, ["sql> SELECT 1 AS a;", "| a |", "|---|", "| 1 |", "sql> SELECT 1 AS a;"], (4, 19)),
        (b"\x7fb;\x0c", ["sql> SELECT 1 AS ab;"], (0, 20)),
        (ENTER, ["sql> SELECT 1 AS ab;", "| ab |", "|----|", "| 1  |", "sql>"], (4, 5)),
    )


def ctrl_c_gives_up_a_line_and_the_rows_before_it():
    plays(
        (b"SELECT 1" + ENTER + ENTER, ["sql> SELECT 1", "", "...>"], (2, 5)),
        (b"AS" + CTRL_C, ["sql> SELECT 1", "", "...> AS", "sql>"], (3, 5)),
        (b"SELECT 2;" + ENTER, ["sql> SELECT 1", "", "...> AS", "sql> SELECT 2;", "| 2 |", "|---|", "| 2 |", "sql>"], (7, 5)),
    )


def a_command_ends_it():
    plays((b".quit" + ENTER, ["sql> .quit", "ended 0"], (2, 0)))


def the_end_of_input_ends_it():
    plays((CTRL_D, ["sql>", "ended 0"], (2, 0)))


def run(*arguments, keys=b"", **variables):
    own = {name: it for name, it in os.environ.items() if name != "NO_COLOR"}
    return subprocess.run([PROGRAM, *arguments], input=keys, capture_output=True, timeout=HUNG, check=False, env={**own, **variables})


def colours():
    """A statement is drawn in colours and a hint faint, unless NO_COLOR is set and isn't empty."""
    keys = b"SELECT 'a', 1 -- b\r"
    coloured = b"\x1b[0;1;34mSELECT\x1b[m \x1b[0;32m'a'\x1b[m, \x1b[0;35m1\x1b[m \x1b[0;36m-- b\x1b[m"
    hint = b"\x1b[0;2m(; ends the statement)\x1b[m"
    for variables, wanted in (({}, True), ({"NO_COLOR": ""}, True), ({"NO_COLOR": "1"}, False)):
        drawn = run(keys=keys, **variables).stderr
        same(f"a style with {variables}", b"\x1b[0" in drawn, wanted)
        same(f"the statement with {variables}", (coloured in drawn, hint in drawn), (wanted, wanted))


def tabs_with_and_without_colours():
    for variables in ({}, {"NO_COLOR": "1"}):
        drawn = run(keys=b"\x1b[200~a\tb\x1b[201~", **variables).stderr
        same(f"a tab with {variables}", (b"a  b" in drawn, b"?" in drawn), (True, False))


def a_long_statement_in_colours():
    """Each of many rows has its styles, in each drawing."""
    rows = 5000
    ended = run(keys=b"\x1b[200~" + b"-- a 'b' 1\n" * rows + b"SELECT 1;\x1b[201~\r")
    same("the answer", (ended.returncode, ended.stdout), (0, b"| 1 |\n|---|\n| 1 |\n"))
    drawings = [it for it in ended.stderr.split(b"\x1b[J") if b"SELECT" in it]
    same("the drawings", len(drawings), 2)
    for drawn in drawings:
        same("the rows with a style", drawn.count(b"\x1b[0;36m-- a 'b' 1\x1b[m\r\n"), rows)
        same("the last row", b"\x1b[0;1;34mSELECT\x1b[m \x1b[0;35m1\x1b[m;" in drawn, True)


def arguments():
    """`--help` prints the usage; unknown arguments are an error, and nothing is read."""
    helped = run("--help", keys=b"SELECT 1;\r")
    same("--help", (helped.returncode, helped.stdout, helped.stderr), (0, USAGE, b""))
    for words in (["--history"], ["--history", "a", "b"], ["--histor", "a"], ["notes.db"], [""]):
        ran = run(*words, keys=b"SELECT 1;\r")
        wanted = (2, b"", b"sql_console: unknown arguments\n" + USAGE)
        same(f"{words}", (ran.returncode, ran.stdout, ran.stderr), wanted)


def a_history_that_lasts():
    """A run begins with the lines of those before it, and one with no new line leaves the file alone."""
    with tempfile.TemporaryDirectory() as folder:
        file = pathlib.Path(folder, "history")
        for keys, printed, kept in (
            (b"SELECT 1;\r", b"| 1 |\n|---|\n| 1 |\n", "SELECT 1;\n"),
            (CTRL_P + b"\x7f0;\r.quit\r", b"| 10 |\n|----|\n| 10 |\n", "SELECT 1;\nSELECT 10;\n.quit\n"),
            (b"", b"", "SELECT 1;\nSELECT 10;\n.quit\n"),
        ):
            ended = run("--history", str(file), keys=keys)
            same(f"after {keys}", (ended.returncode, ended.stdout), (0, printed))
            same(f"the file after {keys}", file.read_text(encoding="utf-8"), f"#V2\n{kept}")
        same("the files", os.listdir(folder), ["history"])
        file.write_bytes(b"#V2\n\xff\n")
        ended = run("--history", str(file), keys=b"SELECT 1;\r")
        same("status and file with a row that isn't UTF-8", (ended.returncode, file.read_bytes()), (0, b"#V2\n\xff\nSELECT 1;\n"))


def histories_that_fail():
    """The answers before are printed, and so is the cause."""
    with tempfile.TemporaryDirectory() as folder:
        for path, printed, words in (
            ("/dev/null", b"", b"sql_console: the history does not load: invalid input parameter\n"),
            (f"{folder}/none/history", b"| 1 |\n|---|\n| 1 |\n", b"sql_console: the history is not saved: entity not found\n"),
        ):
            ended = run("--history", str(path), keys=b"SELECT 1;\r")
            same(f"{path}", (ended.returncode, ended.stdout, ended.stderr[-len(words) :]), (1, printed, words))


if __name__ == "__main__":
    os.environ["LC_ALL"] = "C.UTF-8"
    if sys.argv[1:]:
        PROGRAM = os.path.abspath(sys.argv[1])
    run_all([
        a_table_of_rows,
        a_column_as_wide_as_the_terminal_shows_it,
        a_statement_goes_on_until_its_semicolon,
        a_pasted_statement_keeps_its_tabs,
        another_prompt_after_an_empty_row,
        an_open_statement_says_how_it_ends,
        a_mistake_is_told_and_the_console_goes_on,
        commands,
        tab_completes_a_table_that_was_just_made,
        a_statement_before_comes_back_and_is_edited,
        ctrl_c_gives_up_a_line_and_the_rows_before_it,
        a_command_ends_it,
        the_end_of_input_ends_it,
        windows,
        arguments,
        colours,
        tabs_with_and_without_colours,
        a_long_statement_in_colours,
        a_history_that_lasts,
        histories_that_fail,
    ])
