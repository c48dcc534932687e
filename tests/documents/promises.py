#!/usr/bin/env python3
"""What README and docs/ name is there: each call, clause, law and definition, each named mutant, each link, each listing, and
the kit; docs/PROMISES.md names each law and each public call of the libraries, and docs/ERRORS.md each call that answers a
`Result`. How the documents are written: no sentence is long, no word stands that went, docs/DECISIONS.md says of each choice
what was rejected and why, docs/API.md is what the sources give. And what no document can say for a proof: that nothing but the
log's own walk sets what the log has.

    tests/documents/promises.py            checks
    tests/documents/promises.py --write    writes docs/API.md anew, and the numbers of the lines that are linked, and then checks

docs/PROMISES.md: a promise is an item of a list under a line `Place: ..`, or a row of a table with its place in the last cell. A
place is written `crate` and then its calls: `Type::call`, `Trait::call`, `Type`, `call` or `laws::law`, each followed by the
names of its clauses in parentheses if only some of them carry the promise. A crate in a heading is that of the places below it.

Listings: a listing of `rust` or `antt` follows a line that names its file, as `crates/first_program/src/main.rt`. It stands in that
file; a line `// ..` or `-- ..` stands for lines that are left out, and the listing may be indented less than the file.
"""
import os
import re
import subprocess
import sys
import textwrap

import api
import words
from names import CRATES, LIBRARIES, TOP, Crate, files_under, line_of, lines_of
from pages import GENERATED, LINK, anchors, calls_of, cells_of, count_words, documents, is_row, links, listings, prose, section
from pages import sentences, tables, written

WORD = re.compile(r"`([^`]+)`|[()]")
LINE = re.compile(r"L\d+")
MERGED = re.compile(r"(<{7}|={7}|>{7})( |$)")
WEB = re.compile(r"\w+:")
FILE = re.compile(r"`((?:answers|bench|crates|docs|tests)/[\w./-]+\.\w+)`")
LEFT_OUT = re.compile(r"\n[ ]*(?://|--) \.\.\n")

# The longest sentence of a document, and the longest promise, in words; and the most bytes of docs/.
LONGEST_SENTENCE, LONGEST_PROMISE = 30, 30
MOST_BYTES = 206 * 1024


class Checks:
    """What was looked at, and what wasn't as the documents say."""

    def __init__(self):
        self.passed, self.failed = 0, 0

    def expect(self, fits, told):
        self.passed += bool(fits)
        self.failed += not fits
        if not fits:
            print(f"FAILED: {told}")


def places(cell, crate=None):
    """The crates of a place, with each call and the clauses that are named of it."""
    call, inside, found = None, False, []
    for word in WORD.finditer(cell):
        if word[0] in "()":
            inside = word[0] == "("
        elif inside and call:
            call[2].append(word[1])
        elif word[1] in CRATES:
            crate = word[1]
        else:
            call = (crate, word[1], [])
            found.append(call)
    return found


def promises(lines):
    """Each promise with its place, and the crate that its heading names."""
    crate, place = None, ""
    for at, line in enumerate(lines):
        if line.startswith("### "):
            crate, place = next((it for it in re.findall(r"`(\w+)`", line) if it in CRATES), None), ""
        elif line.startswith("Place: "):
            place = line
        elif line.startswith("- "):
            yield line.removeprefix("- "), place, crate
        elif is_row(lines, at):
            yield *cells_of(line), crate


def check_promises(checks, crates):
    """docs/PROMISES.md: each promise is short and has its place, and no law and no public call of a library is missing."""
    named = set()
    for promise, where, of in promises(section(lines_of("docs", "PROMISES.md"), "## What is proved")):
        found = places(where, of)
        checks.expect(found, f"PROMISES: no place is named of: {promise}")
        checks.expect(count_words(promise) <= LONGEST_PROMISE, f"PROMISES: more than {LONGEST_PROMISE} words: {promise}")
        for crate, call, clauses in found:
            lacking = crates[crate].lacks(call, clauses) if crate else [f"{call} without a crate"]
            checks.expect(not lacking, f"PROMISES: not in {crate}: {', '.join(lacking)}")
            named.add((crate, call.removeprefix("laws::")))
    for name, crate in crates.items():
        for law in sorted(crate.laws):
            checks.expect((name, law) in named, f"PROMISES: the law {law} of {name} isn't named")
        for call, names in crate.public_calls() if name in LIBRARIES else ():
            is_named = any((name, it) in named for it in names)
            checks.expect(is_named, f"PROMISES: {call} of {name} isn't named, nor is its type")


def check_errors(checks, crates):
    """docs/ERRORS.md: a row for each call that answers a `Result`, each of its calls is one, and has the clauses that are named."""
    lines = lines_of("docs", "ERRORS.md")
    for crate in (crates[name] for name in LIBRARIES if name in crates):
        failing, named = set(crate.failing_calls()), set()
        head = f"## `{crate.name}`"
        for cells in tables(section(lines, head)) if head in lines else ():
            clauses = re.findall(r"`([^`]+)`", cells[-1])
            for owner, call in calls_of(cells[0]):
                name = next((it for it in (f"{owner}::{call}", call) if it in failing), None)
                checks.expect(name, f"ERRORS: {crate.name} has no {call} that answers a Result")
                lacking = crate.lacks(name, clauses) if name else []
                checks.expect(not lacking, f"ERRORS: not in {crate.name}: {', '.join(lacking)}")
                named.add(name)
        for name in sorted(failing - named):
            checks.expect(False, f"ERRORS: {name} of {crate.name} has no row")


def check_decisions(checks):
    """docs/DECISIONS.md: each choice has what was rejected, and why."""
    for line in lines_of("docs", "DECISIONS.md"):
        if line.startswith("- "):
            is_whole = re.match(r"- \*\*.+\*\*.* Rejected: .+ Why: ", line)
            checks.expect(is_whole, f"DECISIONS: not a choice with 'Rejected:' and 'Why:': {line[:70]}")


def check_crates(checks):
    """docs/ARCHITECTURE.md: a row for each crate."""
    rows = tables(section(lines_of("docs", "ARCHITECTURE.md"), "## Crates"))
    named = [name for cells in rows for name in re.findall(r"`([^`]+)`", cells[0])]
    for name in sorted({*named} ^ {*CRATES}):
        checks.expect(False, f"ARCHITECTURE: {'no row for' if name in CRATES else 'a row, and no crate:'} {name}")
    checks.expect(len(named) == len({*named}), "ARCHITECTURE: a crate has two rows")


def check_definitions(checks, crates):
    """docs/DEFINITIONS.md: each file that is to follow a standard is there."""
    for standard, where in tables(section(lines_of("docs", "DEFINITIONS.md"), "## Standards")):
        for crate, file, _ in places(where):
            is_there = crate and file in crates[crate].specs
            checks.expect(is_there, f"DEFINITIONS: {crate} has no {file}, which is to follow {standard}")


def target(document, to):
    """The path from the top of what a document links."""
    return os.path.normpath(os.path.join(os.path.dirname(document), to)) if to else document


def place_of(name, path):
    """The line of a linked source that the link's words name. The words may also name the file itself."""
    name = name.strip("`")
    return 1 if name.startswith("specs/") else line_of(path, name)


def check_links(checks):
    """Each link of a document leads to a file, and to a heading or an anchor of it, or to the line of the definition that its
    words name."""
    places_in = {document: anchors(document) for document in documents()}
    for document in documents():
        for name, to, part in links(document):
            path = target(document, to)
            if WEB.match(to):
                continue
            checks.expect(os.path.exists(os.path.join(TOP, path)), f"{document}: there is no {path}, which is linked")
            if path in places_in and part:
                checks.expect(part in places_in[path], f"{document}: {path} has no heading or anchor {part}, which is linked")
            elif path.endswith((".antt", ".rt")) and os.path.exists(os.path.join(TOP, path)) and " " not in name:
                at = place_of(name, path)
                found = f"in line {at}" if at else "nowhere"
                checks.expect(at and part in (None, f"L{at}"), f"{document}: {name} stands {found} in {path}, and not in {part}")


def check_codes(checks, crates):
    """Each law and each file that a document has in backquotes is there."""
    laws = {f"laws::{law}" for crate in crates.values() for law in crate.laws}
    for document in written():
        for at, line in prose(document):
            for law in re.findall(r"`(laws::\w+)`", line):
                checks.expect(law in laws, f"{document}:{at}: there is no {law}")
            for file in (it for it in FILE.findall(line) if "NAME" not in it):
                checks.expect(os.path.isfile(os.path.join(TOP, file)), f"{document}:{at}: there is no {file}")


def check_listings(checks):
    """Each listing stands in the file that is named above it."""
    for document in written():
        for at, file, listed in listings(document):
            is_there = file and os.path.isfile(os.path.join(TOP, file))
            checks.expect(is_there, f"{document}:{at}: no line above the listing names its file")
            checks.expect(not is_there or stands_in(listed, file), f"{document}:{at}: {file} has no such lines")


def stands_in(listed, file):
    """Whether a file has these lines, in one piece except for what a line `// ..` leaves out."""
    text, at = "\n".join(lines_of(file)), 0
    for piece in LEFT_OUT.split("\n".join(["", *listed, ""])):
        lines = textwrap.dedent(piece).strip("\n").split("\n")
        pattern = r"^([ ]*)" + r"\n".join((r"(?:\1)?" if i else "") + re.escape(it) for i, it in enumerate(lines)) + "$"
        found = re.compile(pattern, re.M).search(text, at)
        if not found:
            return False
        at = found.end()
    return True


def check_style(checks):
    """How the documents are written: short sentences, no word that went (nor in comments and messages), no mark of a broken merge,
    and not too much in all."""
    for document in written():
        left = [at for at, line in enumerate(lines_of(document), 1) if MERGED.match(line)]
        checks.expect(not left, f"{document}: a broken merge left its marks in lines {left}")
        for at, sentence in sentences(document):
            is_short = count_words(sentence) <= LONGEST_SENTENCE
            checks.expect(is_short, f"{document}:{at}: more than {LONGEST_SENTENCE} words: {sentence[:60]}")
    for place, instead in words.standing([*written(), *words.sources()]):
        checks.expect(False, f"{place}: write {instead}")
    size = sum(os.path.getsize(os.path.join(TOP, it)) for it in files_under("docs", "") if it not in GENERATED)
    made = ", ".join(GENERATED)
    checks.expect(size <= MOST_BYTES, f"docs/ has {size} bytes without {made}, and is to have {MOST_BYTES} at most")


def check_api(checks):
    """docs/API.md is what the sources give."""
    checks.expect(api.is_fresh(), "API: it isn't what the sources give; tests/documents/promises.py --write makes it anew")


def write():
    """Writes docs/API.md, and the numbers of the lines that are linked."""
    api.write()
    for document in written():
        text = "\n".join(lines_of(document)) + "\n"
        renewed = LINK.sub(lambda link: with_line(document, link), text)
        if renewed != text:
            with open(os.path.join(TOP, document), "w", encoding="utf-8") as it:
                it.write(renewed)


def with_line(document, link):
    """A link with the number of its line as it is now, if it has one."""
    name, to, part = link.groups()
    path = target(document, to)
    at = LINE.fullmatch(part or "") and os.path.exists(os.path.join(TOP, path)) and place_of(name, path)
    return f"[{name}]({to}#L{at})" if at else link[0]


def check_mutants(checks):
    """Each mutant of tests/mutants/mutants-named.txt is there, and each of must-fail/ stands for a rule."""
    named = set()
    for line in lines_of("tests", "mutants", "mutants-named.txt"):
        if line and not line.startswith("#"):
            rule, crate, name = line.split(" | ")
            named.add(f"{crate}/{name}")
            files = [os.path.join(TOP, "crates", crate, folder, f"{name}.edit") for folder in ("mutants", "must-fail")]
            checks.expect(any(map(os.path.isfile, files)), f"{crate} has no mutant {name}, of the rule: {rule}")
    for crate in CRATES:
        for file in files_under(f"crates/{crate}/must-fail", ".edit"):
            name = os.path.basename(file).removesuffix(".edit")
            checks.expect(f"{crate}/{name}" in named, f"no rule is named of {file}")


def check_parts(checks):
    """docs/GATE.md: a row for each part of ./test, in their order."""
    parts = [it for line in lines_of("test") for it in re.findall(r"^    count(?:_begun)? '([^']+)'", line)]
    rows = [cells[0].strip("| ") for cells in tables(section(lines_of("docs", "GATE.md"), "## Its parts"))]
    checks.expect(rows == [*parts, "all"], "GATE: its table has other parts than ./test, or another order")


def check_logs(checks):
    """What the devices gave and took, which no code keeps: of all structs `Log` of line_config alone has data that only proofs
    have, its own walk sets them, no other walk stands but those of WALKS, and of the libraries only NOTING names it."""
    told = [name for name in LIBRARIES if name == "line_config" or "line_config" in CRATES[name]]
    walks = {file for name in CRATES for file in files_under(f"crates/{name}/proofs", ".antt") if file.endswith("/Proof.antt")}
    for file in sorted(walks | WALKS):
        checks.expect(file in WALKS, f"{file}: a walk that may set what a log has")
        checks.expect(file in walks, f"{file}: there is no such walk")
    for name in CRATES:
        for file in files_under(f"crates/{name}/src", ".rt"):
            text = "\n".join(lines_of(file))
            checks.expect("also_owns" not in text or file in LOGS, f"{file}: data of proofs alone that aren't those of a log")
            checks.expect(name not in told or file in NOTING or not re.search(r"\bLog\b", text), f"{file}: it names a log")


def check_kit(checks):
    """README: the kit that is here is one of those that the repository is proved with."""
    version = subprocess.run(["rt", "version"], capture_output=True, text=True, check=True).stdout.strip()
    told = [it for line in lines_of("README.md") for it in re.findall(r"`(rattle-kit-[^`]*)`", line)]
    checks.expect(version in told, f"README: it names the kits {', '.join(told) or 'nowhere'}, and rt version says {version}")


LOG = "crates/line_config/src/log.rt"
FILE_LOG = "crates/keyline_files/src/log.rt"
LOGS = {LOG, FILE_LOG}
NOTING = {LOG, *(f"crates/line_config/src/{name}.rt" for name in ("lib", "recorded"))}
WALKS = {f"crates/line_config/proofs/{of}/Proof.antt" for of in ("configurer/ConfigConfigurer/config_mut", "log/Log/noted")}
WALKS.add("crates/keyline_files/proofs/log/Log/noted/Proof.antt")


def main(arguments):
    checks = Checks()
    crates = {name: Crate(name) for name in CRATES if os.path.isdir(os.path.join(TOP, "crates", name))}
    if arguments == ["--write"]:
        write()
    check_promises(checks, crates)
    check_errors(checks, crates)
    check_decisions(checks)
    check_crates(checks)
    check_definitions(checks, crates)
    check_links(checks)
    check_codes(checks, crates)
    check_listings(checks)
    check_style(checks)
    check_api(checks)
    check_mutants(checks)
    check_parts(checks)
    check_logs(checks)
    check_kit(checks)
    print(f"{checks.passed} passed, {checks.failed} failed")
    return checks.failed > 0


if __name__ == "__main__":
    sys.exit(main(sys.argv[1:]))
