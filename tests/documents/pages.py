"""The documents as Markdown: their prose, tables, sections, headings, links and listings."""
import os
import re

from names import TOP, files_under, lines_of

# What scripts make in docs/: no rule of style or size is for it.
GENERATED = ("docs/API.md", "docs/console.svg", "docs/session.svg")
AT_TOP = ("README.md", "CONTRIBUTING.md", "CHANGELOG.md", "bench/README.md", "crates/keyline_c/c/readline/README.md")

CODE = re.compile(r"(`+)(?!`).*?(?<!`)\1(?!`)")
LINK = re.compile(r"\[([^\]\n]+)\]\(([^)#\s]*)(?:#([\w-]+))?\)")
# A link that names its target, which a line of the document gives.
NAMING = re.compile(r"\[([^\]\n]+)\]\[([\w-]+)\]")
TARGET = re.compile(r"\[([\w-]+)\]: (\S+)")
ANCHOR = re.compile(r"<a id=\"([\w-]+)\"></a>")
SOURCE = re.compile(r"`(crates/[\w/]+\.\w+)`")
ITEM = re.compile(r"\A\s*(?:[-*]|\d+\.) ")


def documents():
    """Each document, by its path from the top."""
    yield from (it for it in AT_TOP if os.path.isfile(os.path.join(TOP, it)))
    yield from files_under("docs", ".md")


def written():
    """The documents that people write."""
    return [it for it in documents() if it not in GENERATED]


def prose(path):
    """The numbered lines of a document that are no listing."""
    inside, blank = False, True
    for number, line in enumerate(lines_of(path), 1):
        if line.lstrip().startswith("```"):
            inside = not inside
        elif not inside and not (blank and line.startswith("    ")):
            yield number, line
            blank = not line.strip()


def section(lines, head):
    """The lines under a heading, up to the next one of its rank or a higher one."""
    at = lines.index(head) + 1
    rank = len(head.split(" ")[0])
    ends = (i for i in range(at, len(lines)) if re.match(rf"#{{1,{rank}}} ", lines[i]))
    return lines[at : next(ends, len(lines))]


def is_rule(line):
    return re.match(r"\|[-:]", line) is not None


def cells_of(line):
    return [cell.strip() for cell in line.strip().strip("|").split(" | ")]


def is_row(lines, at):
    """Whether a line is a row of a table, and not its head or the rule under it."""
    is_head = at + 1 < len(lines) and is_rule(lines[at + 1])
    return lines[at].startswith("|") and not is_rule(lines[at]) and not is_head


def tables(lines):
    """The rows of the tables, each as its cells."""
    return (cells_of(line) for at, line in enumerate(lines) if is_row(lines, at))


def calls_of(cell):
    """The calls of a row of docs/ERRORS.md: the type stands before the first call of a type alone."""
    owner, found = None, []
    for name in re.findall(r"`([^`]+)`", cell):
        of, colon, call = name.rpartition("::")
        owner = of if colon else owner
        found.append((owner, call))
    return found


def slug(heading):
    """What a link to a heading is named, as Markdown's readers make it."""
    plain = LINK.sub(lambda link: link[1], heading).replace("`", "").strip().lower()
    return re.sub(r"[^\w\- ]", "", plain).replace(" ", "-")


def anchors(path):
    """The places of a document that a link may lead to."""
    found = {}
    for _, line in prose(path):
        if re.match(r"#{1,6} ", line):
            name = slug(line.lstrip("#"))
            count = found[name] = found.get(name, -1) + 1
            if count:
                found[f"{name}-{count}"] = 0
        found.update(dict.fromkeys(ANCHOR.findall(line), 0))
    return set(found)


def texts(path):
    """The texts of a document with their lines: paragraphs, headings, items of lists and cells of tables."""
    begun, words = 0, []
    for number, line in [*prose(path), (0, "")]:
        if words and (not line.strip() or line.startswith(("|", "#")) or ITEM.match(line)):
            yield begun, " ".join(words)
            words = []
        if line.startswith("|"):
            yield from ((number, cell) for cell in cells_of(line) if not is_rule(line))
        elif line.strip() and not TARGET.fullmatch(line):
            begun = begun if words else number
            words.append(line.strip().lstrip("#> "))


def links(path):
    """The links of a document, each as its words, its target and the place in it."""
    lines = [line for _, line in prose(path)]
    targets = dict(found.groups() for found in map(TARGET.fullmatch, lines) if found)
    for line in lines:
        yield from (link.groups() for link in LINK.finditer(line))
        yield from ((link[1], targets.get(link[2], link[2]), None) for link in NAMING.finditer(line))


def plain(text):
    """A text without its links' targets, each piece of code as one word."""
    for kind in (LINK, NAMING):
        text = kind.sub(lambda link: link[1], text)
    return CODE.sub("`code`", text).replace("*", "")


def sentences(path):
    """The sentences of a document, each with the line that its text begins in."""
    for number, text in texts(path):
        for sentence in re.split(r"(?<=[.?!])\)?(?=\s|$)", ITEM.sub("", plain(text), count=1)):
            if sentence.strip():
                yield number, sentence.strip()


def count_words(sentence):
    return sum(1 for word in sentence.split() if re.search(r"\w", word))


def listings(path):
    """Each listing of code or definitions, with its line and the source that was named last above it, if one was."""
    file, begun, listed = None, 0, []
    for number, line in enumerate(lines_of(path), 1):
        if begun and line == "```":
            yield begun, file, listed
            begun, listed = 0, []
        elif begun:
            listed.append(line)
        elif line in ("```rust", "```antt"):
            begun = number
        else:
            file = ([file] + SOURCE.findall(line))[-1]
