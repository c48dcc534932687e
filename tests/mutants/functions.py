"""The functions of a Rattle crate's source, by their paths as rattle prints them, and the function around a place."""
import os
import re

# Text that isn't code: comments, strings and characters (but not lifetimes).
NO_CODE = re.compile(
    r"//[^\n]*|/\*.*?\*/|b?r(#*)\".*?\"\1|b?\"(?:[^\"\\]|\\.)*\"|b?'(?:\\[^\n']+|[^\\'\n])'", re.S
)
# What opens a brace that isn't a body: a clause of a contract, or a ghost member's type.
CLAUSE = re.compile(r"(?:\b(?:requires|ensures)\b\*?(?:\s+\w+)?|\bghost\s+\w+\s*:)\s*\Z")
WORD = re.compile(r"\b(?:fn|impl|trait|mod)\b|[{};]")
HEAD = {"impl": r"impl\b", "trait": r"trait\s+(\w+)", "mod": r"mod\s+(\w+)", "fn": r"fn\s+(\w+)"}


def blanked(text):
    """The text with its comments and literals blanked, each character at its place."""
    return NO_CODE.sub(lambda found: re.sub(r"[^\n]", " ", found[0]), text)


def closing(text, at):
    """The place after the brace that closes the one at this place."""
    depth = 0
    for found in re.finditer(r"[{}]", text[at:]):
        depth += 1 if found[0] == "{" else -1
        if not depth:
            return at + found.end()
    raise ValueError("a brace is not closed")


def without_generics(text):
    """The text without the parts in angle brackets."""
    text = text.replace("->", "  ")
    while True:
        shorter = re.sub(r"<[^<>]*>", "", text)
        if shorter == text:
            return text
        text = shorter


class Function:
    """A function: its name, the impl, trait or module around it, where it begins, and its body's two ends."""

    def __init__(self, name, module, owner, begun, body):
        self.name, self.module, self.owner, self.begun, self.body = name, module, owner, begun, body

    def may_have_others_beside(self):
        """Whether other functions may be added beside it; not in an impl of a trait."""
        return self.owner is None or self.owner[0] == "impl" and not self.owner[2]


def impl_of(head):
    """The type and the trait of an impl, each as one word."""
    head = re.sub(r"\Aimpl\s*", "", head)
    parameters = []
    if head.startswith("<"):
        depth = 0
        for at, c in enumerate(head):
            depth += (c == "<") - (c == ">" and head[at - 1] != "-")
            if not depth:
                parameters = re.findall(r"(?:\A<|,)\s*(?:const\s+)?(\w+)", head[:at])
                head = head[at + 1 :]
                break
    head = re.split(r"\bwhere\b", head)[0]
    trait, found, of = head.partition(" for ")
    trait, of = (trait, of) if found else ("", head)
    return "impl", named(of.strip(), parameters) + ("" if found else given(of, parameters)), words(trait, parameters)


def named(of, parameters):
    """A type of an impl, as rattle names it in a path."""
    if of.startswith("("):
        count = len([it for it in without_generics(of).strip("()").split(",") if it.strip()])
        return f"Tuple{count}" if count else "Unit"
    return "Any" if of in parameters else words(without_generics(of), ())


def given(of, parameters):
    """The suffix of a type's name for an impl that isn't for all its arguments: these, each after a plus."""
    arguments = re.findall(r"\w+", re.sub(r"\b\w+::|'\w+\b", "", of.strip().partition("<")[2]))
    return "" if {*arguments} <= {*parameters} else "".join(f"+{it}" for it in arguments)


def words(path, parameters):
    """The words of a type as rattle joins them: the last one of each path, without lifetimes and the impl's own parameters."""
    path = re.sub(r"\b\w+::", "", re.sub(r"'\w+\b", "", path)).replace("&", " Ref ")
    return "".join(it[0].upper() + it[1:] for it in re.findall(r"\w+", path) if it not in parameters)


def functions(text, module):
    """The functions of a file, in the order of their bodies."""
    text, found = blanked(text), []

    def inside(at, end, module, owner):
        begun = at
        while at < end:
            word = WORD.search(text, at, end)
            if not word:
                return
            at = word.end()
            if word[0] in "{};":
                at = closing(text, word.start()) if word[0] == "{" else at
                continue
            if word[0] == "impl" and re.search(r"[-(<,&:=+]\s*\Z", text[begun : word.start()]):
                continue
            brace = body_of(text, at, end)
            head = re.match(HEAD[word[0]], text[word.start() : end])
            if not head:
                continue
            if brace is None:
                at = word.end()
                continue
            upto = closing(text, brace)
            if word[0] == "fn":
                found.append(Function(head[1], module, owner, word.start(), (brace, upto)))
            elif word[0] == "mod":
                inside(brace + 1, upto - 1, [*module, head[1]], None)
            elif word[0] == "trait":
                inside(brace + 1, upto - 1, module, ("trait", head[1], ""))
            else:
                inside(brace + 1, upto - 1, module, impl_of(text[word.start() : brace]))
            at = upto

    inside(0, len(text), module, None)
    return found


def body_of(text, at, end):
    """The brace that opens the item's body, after its clauses; None if it has no body."""
    while True:
        word = re.compile(r"[{;]").search(text, at, end)
        if not word:
            return None
        if word[0] == ";":
            # (the type of an array has one too)
            if text.count("[", at, word.start()) > text.count("]", at, word.start()):
                at = word.end()
                continue
            return None
        if not CLAUSE.search(text[:word.start()]):
            return word.start()
        at = closing(text, word.start())


class Sources:
    """The source of a crate: its files, its functions and the modules of its types."""

    def __init__(self, folder, crate):
        self.folder, self.crate, self.texts, self.found, self.homes = folder, crate, {}, {}, {}
        for at, _, names in sorted(os.walk(os.path.join(folder, "src"))):
            for name in sorted(names):
                if name.endswith(".rt"):
                    self.read(os.path.relpath(os.path.join(at, name), folder))

    def read(self, file):
        with open(os.path.join(self.folder, file), encoding="utf-8") as it:
            text = it.read()
        module = self.module_of(file)
        self.texts[file] = text
        self.found[file] = functions(text, module)
        for name in re.findall(r"(?m)^\s*(?:pub(?:\([^)]*\))?\s+)?(?:struct|enum|union)\s+(\w+)", blanked(text)):
            self.homes.setdefault(name, module)

    def module_of(self, file):
        """The module of a file, by the names from the crate's root down."""
        module = file.removeprefix("src/").removesuffix(".rt").split("/")
        return module[:-1] if module[-1] in ("lib", "main", "mod") else module

    def path(self, function):
        """The function's path as rattle prints it."""
        here = [self.crate, *function.module]
        if function.owner is None:
            return "::".join([*here, function.name])
        kind, of, trait = function.owner
        # A type's own methods are in its module, wherever their impl is.
        home = here if kind == "trait" or trait else [self.crate, *self.homes.get(of.partition("+")[0], function.module)]
        return "::".join([*home, of + trait, function.name])
