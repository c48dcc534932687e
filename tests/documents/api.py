#!/usr/bin/env python3
"""docs/API.md, made of the sources: each public item of the libraries with its signature, its comment and its errors, without
contracts. Of what stands for proofs alone it has what an impl of a trait must say.

    tests/documents/api.py --check    whether docs/API.md is what the sources give
    tests/documents/api.py --write    writes it anew

The errors of a call are those of its row in docs/ERRORS.md.
"""
import os
import re
import sys

from names import LIBRARIES, TOP, Crate, files_under, has_library, last_word, lines_of
from pages import calls_of, section, tables

PAGE = ("docs", "API.md")
HEAD = """# The calls of the libraries

Each public item, by crate and module: its signature, what it is, and what it fails with. A `ghost` line of a trait is what an
impl must say for proofs. `tests/documents/api.py --write` makes this page from the sources. What each call promises exactly is its
contract, in the source. [ERRORS.md](ERRORS.md) says what each
error leaves, and [GUIDE.md](GUIDE.md) where to begin: a program needs the crate [`keyline`](#keyline) alone.
"""
ITEM = re.compile(r"pub (?:const )?(struct|enum|trait|type|fn|const) (\w+)")
CALL = re.compile(r"    (pub )?(?:const )?(?:unsafe )?fn (\w+)")
IMPL = re.compile(r"impl\b(.*?)(?: where\b.*)?\s*\{?\Z")
CLAUSE = re.compile(r"\s*(?:requires|ensures)\b")
# What an impl of a trait must name besides its calls.
MEMBER = re.compile(r"    (type|ghost) (?!use\b)(\w+)")
# A link of a comment to another item, which only the sources have.
ITEM_LINK = re.compile(r"\[(`[^`]+`)\](?:\([\w:]+\))?")
FIELD = re.compile(r"    (pub )?(\w+)\s*[:(,{]?.*")


class Item:
    """A public item: its signature, its comment, the traits that it has, and what stands in it."""

    def __init__(self, kind, name, head, words):
        self.kind, self.name, self.head, self.words, self.traits, self.parts = kind, name, head, words, [], []


def comment_above(lines, at):
    """The comment of the item in a line, without its links, and the traits that are derived for it."""
    words, derived = [], []
    while at and re.match(r"\s*(///|#\[)", lines[at - 1]):
        at -= 1
        line = lines[at].strip()
        if line.startswith("///"):
            words.insert(0, line.removeprefix("///").strip())
        for listed in re.findall(r"#\[derive\((.*?)\)\]", line):
            derived = [it.strip() for it in listed.split(",") if it.strip()]
    return ITEM_LINK.sub(r"\1", " ".join(filter(None, words))), derived


def member_at(lines, at):
    """The associated type, or the function for definitions, that a trait has in a line, with its comment."""
    end = next(it for it in range(at, len(lines)) if lines[it].endswith(";"))
    begin = at
    while lines[begin - 1].startswith("    //"):
        begin -= 1
    found = MEMBER.match(lines[at])
    words = " ".join(line.strip().lstrip("/").strip() for line in lines[begin:at])
    head = " ".join(line.strip() for line in lines[at:end + 1]).removesuffix(";")
    return Item(found[1], found[2], head, ITEM_LINK.sub(r"\1", words))


def head_at(lines, at):
    """The head of the item in a line, up to its contract or its body."""
    parts = []
    for number in range(at, len(lines)):
        line = lines[number]
        if CLAUSE.match(line) or line.strip() == "{":
            break
        if not re.match(r"\s*(//|ghost\b)", line):
            parts.append(line.strip())
        if line.rstrip().endswith(("{", "{}", ";")) and " ".join(parts).count("(") == " ".join(parts).count(")"):
            break
    head = re.sub(r"\s*(\{\}?|;)\Z", "", " ".join(parts))
    head = re.sub(r"([(<]) (?=\S)", r"\1", head)
    return re.sub(r",? ([)>](?!=))", r"\1", head).replace("pub ", "", 1).strip().rstrip(",")


def block_end(lines, at):
    """The line that ends the block which begins in a line: the next one that is a brace alone."""
    return next((it for it in range(at, len(lines)) if lines[it].startswith("}") or lines[it].endswith("{}")), len(lines))


def parts_of(kind, lines, at, end):
    """What stands in an item: an enum's variants, a struct's public fields, what a trait has, the calls of an impl."""
    for number in range(at + 1, end):
        line = lines[number]
        call, field = CALL.match(line), FIELD.fullmatch(line)
        words, _ = comment_above(lines, number)
        if kind == "trait" and MEMBER.match(line):
            yield member_at(lines, number)
        elif kind in ("trait", "impl") and call and (kind == "trait" or call[1]):
            yield Item("fn", call[2], head_at(lines, number), words)
        elif kind == "enum" and field and re.match(r"    [A-Z]\w*[,({ ]", line) and line.rstrip().endswith((",", "{", "(")):
            yield Item("variant", field[2], line.strip().rstrip(",{ ").rstrip(), words)
        elif kind == "struct" and field and field[1] and not CALL.match(line):
            yield Item("field", field[2], line.strip().removeprefix("pub ").rstrip(",;"), words)


def without_parameters(text):
    """What stands behind the parameters that an impl begins with."""
    depth = 0
    for at, letter in enumerate(text):
        depth += (letter == "<") - (letter == ">" and text[at - 1] != "-")
        if not depth and not (letter == ">" or at == 0 and letter == "<"):
            return text[at:].strip()
    return text


class Library:
    """The public items of a library by module, with what its impls add to them."""

    def __init__(self, name):
        self.name, self.crate, self.items, self.modules = name, Crate(name), {}, {}
        files = list(files_under(f"crates/{name}/src", ".rt"))
        texts = {file: lines_of(file) for file in files if not file.endswith("/laws.rt")}
        for file, lines in texts.items():
            self.read_items(file, lines)
        for lines in texts.values():
            self.read_impls(lines)

    def read_items(self, file, lines):
        module = file.split("/src/")[1].removesuffix(".rt")
        for at, line in enumerate(lines):
            found = ITEM.match(line)
            if found and (module in self.crate.modules or found[2] in self.crate.handed_out or module == "lib"):
                words, derived = comment_above(lines, at)
                item = Item(found[1], found[2], head_at(lines, at), words)
                item.traits += derived
                item.parts += parts_of(found[1], lines, at, block_end(lines, at)) if "fn" != found[1] else []
                self.items[found[2]] = item
                self.modules.setdefault(module, []).append(item)

    def read_impls(self, lines):
        for at, line in enumerate(lines):
            found = IMPL.match(head_at(lines, at)) if line.startswith("impl") else None
            if found:
                trait, of, type_name = without_parameters(found[1].strip()).rpartition(" for ")
                item = self.items.get(last_word(type_name.split(" where")[0]))
                if item and of:
                    item.traits.append(trait.strip())
                elif item:
                    item.parts += parts_of("impl", lines, at, block_end(lines, at))


def errors_listed():
    """What each call fails with, by crate, type and call, as docs/ERRORS.md has it."""
    lines, found, fault = lines_of("docs", "ERRORS.md"), {}, ""
    for crate in LIBRARIES:
        for cells in tables(section(lines, f"## `{crate}`")) if f"## `{crate}`" in lines else ():
            fault = re.sub(r"\Athe same\b", fault.partition(";")[0], cells[1])
            found.update({(crate, *it): fault for it in calls_of(cells[0])})
    return found


def about_module(name, module):
    """The first lines of a module's comment, up to an empty one."""
    words = []
    for line in lines_of("crates", name, "src", f"{module}.rt"):
        if not line.startswith("//!") or line == "//!":
            break
        words.append(line.removeprefix("//!").strip())
    return " ".join(words)


def row(part, fault):
    fails = "*Never fails.*" if fault == "nothing" else f"*Fails with* {fault}." if fault else ""
    told = " ".join(filter(None, (part.words, fails)))
    return f"- `{part.head}`" + (f": {told}" if told else "")


def item_text(library, item, errors):
    """An item as a paragraph or, with what stands in it, as a section."""
    if item.kind == "fn":
        return [row(item, errors.get((library.name, None, item.name)))]
    traits = ", ".join(f"`{it}`" for it in dict.fromkeys(item.traits))
    lines = ["", f"#### `{item.head}`", ""]
    lines += [it for it in (item.words, traits and f"*Implements* {traits}.") if it]
    lines += [""] if item.parts else []
    return lines + [row(it, errors.get((library.name, item.name, it.name))) for it in item.parts]


def library_text(library, errors):
    """The public items of a library, those that its root hands out first."""
    homes = {}
    for module, items in library.modules.items():
        homes.setdefault(module if module in library.crate.modules else "", []).extend(items)
    for module, items in sorted(homes.items()):
        if module:
            yield from (f"### `{library.name}::{module}`", "", about_module(library.name, module), "")
        for item in sorted(items, key=lambda it: it.kind != "fn"):
            yield from item_text(library, item, errors)
        yield ""


def page():
    """The text of docs/API.md."""
    errors, lines = errors_listed(), [HEAD]
    for name in filter(is_listed, LIBRARIES):
        lines += [f"## `{name}`", "", about_module(name, "lib"), "", *library_text(Library(name), errors)]
    return re.sub(r"\n{3,}", "\n\n", "\n".join(lines)).strip() + "\n"


def is_listed(name):
    """Whether a crate is a library for Rust: those for C have a header."""
    return has_library(name) and not os.path.isdir(os.path.join(TOP, "crates", name, "c"))


def is_fresh():
    path = os.path.join(TOP, *PAGE)
    return os.path.isfile(path) and "\n".join(lines_of(*PAGE)) + "\n" == page()


def write():
    with open(os.path.join(TOP, *PAGE), "w", encoding="utf-8") as it:
        it.write(page())


def main(arguments):
    if arguments == ["--write"]:
        write()
    fresh = is_fresh()
    print("docs/API.md is what the sources give" if fresh else "docs/API.md is stale: tests/documents/api.py --write makes it anew")
    return not fresh


if __name__ == "__main__":
    sys.exit(main(sys.argv[1:]))
