#!/usr/bin/env python3
"""Words that went: none of tests/documents/words.txt stands in the documents, nor in comments and messages of sources and scripts.

    tests/documents/words.py              prints each that stands, and what to write instead
    tests/documents/words.py PATH..       only those in these files and folders

A text of a program is a message if it has three words or more: shorter ones are names, keys and formats.
"""
import os
import re
import sys
import tokenize

from names import CRATES, TOP, files_under, lines_of
from pages import plain, prose, written

LISTED = ("tests", "documents", "words.txt")
# The comments and the texts of a line, by the ending of its file.
READ = {
    ".rt": re.compile(r"(//.*)|\"((?:[^\"\\]|\\.)*)\""),
    ".antt": re.compile(r"(--.*)"),
    ".c": re.compile(r"(//.*|/\*.*|^\s*\* .*)|\"((?:[^\"\\]|\\.)*)\""),
    ".txt": re.compile(r"\A(#.*)"),
    "": re.compile(r"(#.*)|'([^']*)'|\"([^\"]*)\""),
}
READ[".h"], READ[".sh"] = READ[".c"], READ[""]
PLACEHOLDER = re.compile(r"\{[^}]*\}|\$\w+")
PYTHON = ("by_definition", "on_terminal", "try_on_terminal")
SHELL = ("keyline", "test", "bench/run")
# Those that quote the words.
QUOTING = ("tests/documents/words.txt", "tests/documents/words.py")


def words_listed():
    """The words that went, each with what to write instead and what may stay."""
    for line in lines_of(*LISTED):
        if line and not line.startswith("#"):
            word, instead, stays = ([it.strip() for it in line.split(" | ")] + [""])[:3]
            yield re.compile(rf"(?<![\w-])(?:{word})(?![\w-])", re.I), instead, stays


def sources():
    """The sources and scripts that people read."""
    for crate in CRATES:
        for folder in ("src", "specs", "proofs", "c"):
            for ending in (".rt", ".antt", ".c", ".h"):
                yield from files_under(f"crates/{crate}/{folder}", ending)
    for folder in ("tests", "answers", "bench"):
        for ending in (".py", ".c", ".sh", ".txt"):
            yield from (it for it in files_under(folder, ending) if it not in QUOTING)
    yield from (it for it in (*PYTHON, *SHELL) if os.path.isfile(os.path.join(TOP, it)))


def is_message(text):
    return len(text.split()) > 2


def python_read(path):
    """The numbered lines of comments and messages in a script of Python."""
    with open(os.path.join(TOP, path), "rb") as file:
        for token in tokenize.tokenize(file.readline):
            is_text = token.type == tokenize.STRING or "FSTRING" in tokenize.tok_name[token.type]
            if token.type == tokenize.COMMENT or is_text and is_message(token.string):
                for at, line in enumerate(token.string.split("\n"), token.start[0]):
                    yield at, PLACEHOLDER.sub("", line)


def lines_read(path):
    """The numbered lines of a file, each as what people read of it."""
    ending = os.path.splitext(path)[1]
    if ending == ".md":
        yield from ((number, plain(line)) for number, line in prose(path))
    elif ending == ".py" or path in PYTHON:
        yield from ((number, plain(line)) for number, line in python_read(path))
    else:
        for number, line in enumerate(lines_of(path), 1):
            for comment, *texts in (it.groups() for it in READ[ending].finditer(line)):
                read = [comment or "", *(PLACEHOLDER.sub("", it) for it in texts if it and is_message(it))]
                yield number, plain(" ".join(read))


def standing(paths):
    """Each word that went and stands in one of these files, with its place and what to write instead."""
    listed = list(words_listed())
    for path in paths:
        for number, line in lines_read(path):
            for word, instead, stays in listed:
                found = word.search(re.sub(stays, "", line) if stays else line)
                if found:
                    yield f"{path}:{number}: '{found[0]}'", instead


def files_of(paths):
    """These files, and of folders those that people read."""
    for path in (os.path.relpath(os.path.realpath(it), TOP) for it in paths):
        is_folder = os.path.isdir(os.path.join(TOP, path))
        yield from (it for it in [*written(), *sources()] if it.startswith(path + "/")) if is_folder else [path]


def main(paths):
    count = 0
    for place, instead in standing(files_of(paths) if paths else [*written(), *sources()]):
        count += 1
        print(f"{place}: write {instead}")
    print(f"{count} words stand that went")
    return count > 0


if __name__ == "__main__":
    sys.exit(main(sys.argv[1:]))
