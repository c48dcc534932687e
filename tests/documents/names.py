#!/usr/bin/env python3
"""What the crates name: the calls of each with the names of their clauses, its laws, its types, what it hands out, and the
definitions in its specs/.

    tests/documents/names.py              prints the definitions of the libraries, file by file, with what each file is about and where
                                contracts cite it
    tests/documents/names.py CRATE..      only those of these crates
"""
import os
import re
import sys

TOP = os.path.dirname(os.path.dirname(os.path.dirname(os.path.realpath(__file__))))
OWNER = re.compile(r"(?:pub(?:\([^)]*\))? )?(?:trait (\w+)|impl(?:<.*?>)? (?:(.+?) for )?(.+?) ?(?:where\b.*)?\{?\Z)")
CALL = re.compile(r"\s*(pub )?(?:pub\([^)]*\) )?(?:const |extern \"C\" )?fn (\w+)")
CLAUSE = re.compile(r"\s*(?:requires|ensures)\*?(?: (\w+))? \{")
BODY = re.compile(r"\s*(?:requires|ensures|ghost|where)\b|.*[{;]\Z")
FAILS = re.compile(r"-> (?:\w+::)*Result<")
TYPE = re.compile(r"\A(?:pub(?:\([^)]*\))? )?(?:struct|enum|trait|type) (\w+)")
DEFINED = re.compile(r"^(  |)((?:abbrev |unfoldable )?)pub ((?:data |record )?)(\S+)(?= :| \(| \{|$)", re.M)
MODULE = re.compile(r"^pub mod (\w+);", re.M)
HANDED = re.compile(r"^pub use (\w+)(?:::\w+)*::(?:\{([^}]*)\}|(\w+));", re.M)
CITED = re.compile(r"\bghost use Rattle\.(\w+)\.specs\.(\w+)(?=[. ])")


def lines_of(*path):
    with open(os.path.join(TOP, *path), encoding="utf-8") as it:
        return it.read().splitlines()


def files_under(folder, ending):
    for at, _, names in sorted(os.walk(os.path.join(TOP, folder))):
        yield from (os.path.relpath(os.path.join(at, name), TOP) for name in sorted(names) if name.endswith(ending))


def last_word(name):
    """The type's own name, without its path, parameters and borrow."""
    name = re.sub(r"<.*", "", name.replace("&'a ", "").replace("&", ""))
    return name.split("::")[-1].strip()


def definitions(text):
    """The public definitions of a file of specs/, and not the fields of its records, in their order."""
    found = {}
    for indent, way, kind, name in DEFINED.findall(text):
        if way or kind or re.search(rf"^{indent}{re.escape(name)}(?: .*)? =", text, re.M):
            found[name] = True
    return list(found)


def crates_listed():
    """The crates of crates.txt, each with the libraries that it stands on, and those that stand before the tests."""
    listed, before_tests, tests = {}, [], False
    for line in lines_of("crates.txt"):
        name, colon, on = line.partition(":")
        tests = tests or line.startswith("# Tests")
        if colon and not line.startswith("#"):
            listed[name.split()[0]] = on.split()
            before_tests += [] if tests else [name.split()[0]]
    return listed, before_tests


def has_library(name):
    return os.path.isfile(os.path.join(TOP, "crates", name, "src", "lib.rt"))


class Crate:
    """The calls of a crate with the names of their clauses, its laws, its types, what it hands out, and its definitions."""

    def __init__(self, name):
        self.name, self.calls, self.laws, self.types, self.public, self.specs, self.cites = name, {}, set(), set(), {}, {}, {}
        self.failing = {}
        for file in files_under(f"crates/{name}/src", ".rt"):
            self.read_source(file, file.endswith("/laws.rt"))
        for file in files_under(f"crates/{name}/specs", ".antt"):
            if not file.endswith("/Lib.antt"):
                self.specs["specs/" + os.path.basename(file).removesuffix(".antt")] = definitions("\n".join(lines_of(file)))
        self.modules, self.handed_out = self.read_library()

    def read_source(self, file, is_laws):
        owners, clauses, is_shared, head = [], set(), False, None
        part = file.split("/src/")[1].removesuffix(".rt")
        for line in lines_of(file):
            owner, call, clause = OWNER.match(line), CALL.match(line), CLAUSE.match(line)
            if line.startswith("}"):
                owners = []
            elif owner:
                owners = [last_word(name) for name in owner.groups() if name]
                is_shared = line.startswith("pub trait ")
            self.types.update(TYPE.findall(line))
            for cited in CITED.findall(line):
                self.cites.setdefault(cited, {})[part] = True
            if call:
                clauses = set()
                names = [f"{owner}::{call[2]}" for owner in owners] or [call[2]]
                for name in names:
                    self.calls.setdefault(name, []).append(clauses)
                if call[1] and not is_laws:
                    self.public[names[-1]] = (part, owners, call[2])
                if is_laws:
                    self.laws.add(call[2])
                head = (part, owners, call[2]) if (call[1] or is_shared and owners) and not is_laws else None
            if head and FAILS.search(line):
                self.failing["::".join([*owners[-1:], head[2]])] = head
            if BODY.match(line):
                head = None
            if clause and clause[1] and not call:
                clauses.add(clause[1])

    def read_library(self):
        """The library's public modules, and the names of its own that it hands out."""
        if not has_library(self.name):
            return set(), set()
        text = "\n".join(lines_of("crates", self.name, "src", "lib.rt"))
        handed = [(many or one).split(",") for module, many, one in HANDED.findall(text) if module not in {*CRATES} - {self.name}]
        return set(MODULE.findall(text)), {name.strip() for names in handed for name in names} - {""}

    def public_calls(self):
        """Each public call of the library, with the names by which it may be named: its own, or its type's."""
        for name, (part, owners, call) in sorted(self.public.items()):
            if part in self.modules or self.handed_out.intersection(owners or [call]):
                yield name, {name, *owners, *(f"{owner}::{call}" for owner in owners)}

    def failing_calls(self):
        """Each call of the library that answers a `Result`, its own or that of a trait which it hands out."""
        for name, (part, owners, call) in sorted(self.failing.items()):
            if part in self.modules or self.handed_out.intersection(owners or [call]):
                yield name

    def lacks(self, name, clauses):
        """What of a call, a type or a law and its clauses isn't there."""
        if name.startswith("laws::"):
            return [] if name.removeprefix("laws::") in self.laws else [name]
        if name not in self.calls:
            return [] if name in self.types and not clauses else [name]
        return [f"{name} ({clause})" for clause in clauses if not any(clause in it for it in self.calls[name])]


def about(path):
    """The first sentence of the comment that a file begins with."""
    words = []
    for line in lines_of(path):
        if not line.startswith("--"):
            break
        words.append(line.removeprefix("--").strip())
    first = re.match(r".*?[.:](?= |$)", " ".join(words))
    return (first[0] if first else " ".join(words)).rstrip(".:").replace("|", "\\|")


def about_crate(name):
    """What the first lines of a crate say of it."""
    root = "lib.rt" if has_library(name) else "main.rt"
    words = [line.removeprefix("//!").strip() for line in lines_of("crates", name, "src", root) if line.startswith("//!")]
    return " ".join(words[: words.index("")] if "" in words else words)


def cited_in(crate, spec, crates):
    """The files of src/ that cite a file of definitions: its own crate's, and then the other crates."""
    own = [f"`{part}`" for part in crate.cites.get((crate.name, spec), {})]
    above = [f"`{name}`" for name, it in crates.items() if name != crate.name and (crate.name, spec) in it.cites]
    return ", ".join(own) + ("; " if own and above else "") + ", ".join(above)


def names_text(names):
    """The definitions of these crates, as a page in Markdown."""
    parts, crates = [], {name: Crate(name) for name in CRATES}
    for name in names:
        if crates[name].specs:
            parts.append(f"## `{name}`\n\n{about_crate(name)}\n\n| File | About | Definitions | Cited in |\n|---|---|---|---|")
        for file, defined in crates[name].specs.items():
            path = f"crates/{name}/{file}.antt"
            words = ", ".join(f"`{it}`" for it in defined)
            parts.append(f"| `{path}` | {about(path)} | {words} | {cited_in(crates[name], file[6:], crates)} |")
    return "\n".join(parts)


def line_of(path, name):
    """The number of the line of a file that defines a name, or of the row of a table that is of it; None if there is none."""
    word = re.escape(name)
    if path.endswith(".antt"):
        wanted = rf"(?:  )?(?:abbrev |unfoldable )?(?:pub )?(?:data |record )?{word}(?= :| \(| \{{|$)"
    elif path.endswith(".rt"):
        wanted = rf"\s*(?:pub(?:\([^)]*\))? )?(?:const )?(?:fn|struct|enum|trait|type) {word}\b"
    else:
        wanted = rf"\| (?:[^|]*[ `])?{word}[ `,;(]|{word}\b"
    numbered = enumerate(lines_of(path), 1)
    return next((number for number, line in numbered if re.match(wanted, line)), None)


CRATES, LIBRARIES = crates_listed()

if __name__ == "__main__":
    print(names_text(sys.argv[1:] or LIBRARIES))
