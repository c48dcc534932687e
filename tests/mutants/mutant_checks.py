"""Mutants: the files of crates/NAME/mutants/, and how those of a crate share checks."""
import hashlib
import os
import re
import shutil
from collections import Counter

from functions import NO_CODE, Sources, blanked, closing, functions

# What comes before the word `fn` of a function: attributes and visibility.
ATTRIBUTES = re.compile(r"(?:#\[(?:[^][]|\[[^][]*\])*\]\s*)*(?:pub(?:\([^)]*\))?\s+)?(?:(?:const|unsafe)\s+)*\Z")
# A function's clauses, each with its name if it has one; and the answers of a stored proof for one.
ENSURES = re.compile(r"\bensures\b\*?\s*(\w*)\s*(?=\{)")
ANSWER = re.compile(r"(?ms)^pub ((returns\S*?)(?:-clause-(\w+))?) : goal\.\1\n(.*?)(?=^(?:pub |abbrev )*\S+ : |\Z)")
# The files of a function's proof, and the proof that is assumed: of a file's one hole, since rattle writes out the goal of each.
PROOF_FILES = ("Proof.antt", "Answers.antt", "Invariants.antt")
ASSUMED = """
assumed {ℓ} : {A : Type ℓ} → A
assumed = ?

"""
HOLE = """use {module}.Statement.{{statement}}
{assumed}pub {name}_spec : {{M : Type 1}} → statement M
{name}_spec = assumed
"""
# What stands in tests/mutants/mutants-unasked.txt for a crate whose lemmas are assumed.
LEMMAS = "lemmas"
# A definition or a lemma without a mark, which nothing unfolds unless it names it; and such names.
SIGNATURE = re.compile(r"(?:pub )?([^\s:]+) :\s")
BLOCK = re.compile(r"(?s)(?:module _\s.*?\bwhere|mutual)\n+(?=  \S)")
USES = re.compile(r"(?:(?:use|open|mod|pub mod|pub use)\b.*\n(?:[ \t].*\n)*|[})].*\n|--.*\n|\n)*")
# Imports of a source, and what it imports of a module of definitions.
IMPORT = re.compile(r"(?m)^\s*(?:pub(?:\([^)]*\))?\s+)?(?:ghost\s+)?use\s[^;]*;")
IMPORTED = re.compile(r"\bghost\s+use\s+([\w.]+?)\.(\{[^}]*\}|\w+)\s*;")
UNFOLDED = re.compile(r"\bunfold(?:ing)?\b[ (]([^\n]*)")
# Rattle writes out what is to be proved of a function that it rejects, at the cost of half the check again, unless one of the
# function's answers can't be read. It takes the other answers as ever, so such a one ends their file.
UNREAD = "no_lines_wanted"
UNREAD_ANSWER = f"\nabbrev {UNREAD} : NoLinesWanted\n{UNREAD} = tt\n"


class Unfit(Exception):
    """A mutant can't be tried, and why."""


class Edit:
    """A mutant: its name and, by file, the functions that it changes with their new bodies.

    In a check it is a function beside the original, with another name and the same head, so the callers of the original
    aren't affected. It ensures only the clause of its case, if it has one, so that clause alone kills it. A body in a
    trait's impl, where no other function may be added, replaces the original, and so do those of a mutant that changes
    several functions. Some of its goals may go unasked, since another one kills it.
    """

    is_right = False

    def __init__(self, path, sources, unasked=(), case=""):
        self.name, self.unasked, self.case = os.path.basename(path).removesuffix(".edit"), unasked, case
        self.clause, self.blamed = None, re.findall(r"`([\w-]+)`", case)
        self.bodies, self.right = {}, {}
        changes = [(file, *it) for file, text in changed(read(path), sources).items()
                   for it in bodies_changed(sources, file, text)]
        for file, old, new in changes:
            own = right = sources.path(old)
            if len(changes) == 1 and old.may_have_others_beside():
                own = f"{right}_{self.name.replace('-', '_')}"
                self.clause = clause_of(case, sources.texts[file][old.begun : old.body[0]])
            self.bodies[file, own], self.right[own] = (old.body, new), right
        if not self.bodies:
            raise Unfit("it changes nothing")

    def paths(self):
        """The functions that have its bodies in a check."""
        return [path for _, path in self.bodies]

    def replaced(self):
        """The functions whose originals it replaces."""
        return [path for path in self.paths() if self.right[path] == path]

    def stands_beside(self, other):
        """Whether the two may share a check: neither replaces a function that the other changes."""
        clash = lambda one, its: {*one.replaced()} & {*its.right.values()}
        return not ({*self.paths()} & {*other.paths()} or clash(self, other) or clash(other, self))


class Control(Edit):
    """A right body in place of mutants of it, with what all their checks assume: so it must be proved."""

    is_right = True

    def __init__(self, edits, sources):
        [first, *more] = edits
        self.name, self.clause, self.blamed = f"right-of-{first.name}", first.clause, []
        self.unasked = [it for it in first.unasked if all(it in other.unasked for other in more)]
        self.bodies, self.right = {}, {}
        for (file, path), (old, _) in first.bodies.items():
            right = first.right[path]
            own = right if path == right else f"{right}_{self.name.replace('-', '_')}"
            self.bodies[file, own], self.right[own] = (old, sources.texts[file][slice(*old)]), right


def changed(text, sources):
    """The changed texts of the files that a mutant changes."""
    file, old, texts = None, None, {}
    for line in text.split("\n"):
        if line.startswith("file: "):
            file = line.removeprefix("file: ").strip()
        elif line.startswith("old: "):
            old = line.removeprefix("old: ")
        elif line.startswith("new:"):
            if file not in sources.texts or not old:
                raise Unfit(f"it names no file of src/ ({file}), or no old text before a new one")
            whole = texts.get(file, sources.texts[file])
            if whole.count(old) != 1:
                raise Unfit(f"its text `{old.strip()}` is in {file} {whole.count(old)} times, and not once")
            texts[file], old = whole.replace(old, line.removeprefix("new:").removeprefix(" ")), None
    return texts


def bodies_changed(sources, file, text):
    """The functions of a file whose bodies a new text changes, each with its new body."""
    before, after = sources.found[file], functions(text, sources.module_of(file))
    if [(it.name, it.owner) for it in before] != [(it.name, it.owner) for it in after]:
        raise Unfit(f"it changes which functions {file} has")
    if frame(sources.texts[file], before) != frame(text, after):
        raise Unfit(f"it changes more of {file} than the bodies of functions")
    for old, new in zip(before, after):
        made = text[slice(*new.body)]
        if made != sources.texts[file][slice(*old.body)]:
            yield old, made


def frame(text, found):
    """A file's text without the bodies."""
    at, kept = 0, []
    for it in sorted(found, key=lambda it: it.body):
        kept.append(text[at : it.body[0]])
        at = it.body[1]
    return [*kept, text[at:]]


def head(text, function):
    """Where a function's attributes begin, and the text from there to the word `fn`."""
    found = ATTRIBUTES.search(text, max(0, function.begun - 400), function.begun)
    return found.start(), found[0]


def stand_in(body):
    """A body for a function that is assumed: it has any type, calls nothing, and has as many lines."""
    return "{ loop {}" + "\n" * body.count("\n") + " }"


def joined(groups, edits, most=None):
    """Groups of mutants with more of them, each in the first group with which it may share a check, if that has at most so
    many."""
    for edit in edits:
        group = next((it for it in groups if len(it) != most and all(map(edit.stands_beside, it))), None)
        if group is None:
            groups.append([edit])
        else:
            group.append(edit)
    return groups


def size_of_groups(count, most):
    """The size of groups of that many mutants: as few groups as possible, with at most so many each."""
    return -(-count // -(-count // most))


def named_so(text, function, path, clause):
    """A function's head, from its attributes to its body, with the name at a path's end, and with one of its clauses."""
    name, own = path.rpartition("::")[2], text[function.begun : function.body[0]]
    for first, last in reversed([span for it, span in clauses(own) if clause and it != clause]):
        own = own[:first].rstrip() + own[last:]
    own = re.sub(rf"\Afn(\s+){function.name}\b", rf"fn\g<1>{name}", own)
    return text[head(text, function)[0] : function.begun] + own


def clauses(own):
    """The clauses that a function's head ensures: the name of each, and its two ends."""
    bare = blanked(own)
    return [(it[1], (it.start(), closing(bare, it.end()))) for it in ENSURES.finditer(bare)]


def clause_of(case, own):
    """The clause of a function's head with whose name a case begins."""
    word = re.match(r"\w*", case)[0]
    return word if word and word in [name for name, _ in clauses(own)] else None


def of_clause(text, clause):
    """A stored proof's text without the answers to goals of other clauses. A function that ensures only one clause has one goal
    for each return: a record with the clause as its field."""
    if clause is None:
        return text
    return ANSWER.sub(lambda it: as_record(it) if it[3] == clause else "", text)


def as_record(answer):
    """An answer to a goal of one clause as one to the goal of a function that ensures no other."""
    _, goal, clause, proof = answer.groups()
    equation = re.compile(rf"(?ms)^{re.escape(goal)}-clause-{clause}\b([^=\n]*)=(.*?)(?=^{re.escape(goal)}-clause-|\Z)")
    made = equation.sub(lambda it: f"{goal}{it[1]}= record {{\n  {clause} = ({it[2].strip()});\n}}\n\n", proof)
    return f"pub {goal} : goal.{goal}\n{made}"


class Crate:
    """A crate of the repository with its mutants."""

    # At most this many share a check, because of its memory and of other checks beside it.
    MOST = 60

    def __init__(self, top, name, unasked=None, cases=None):
        self.name, self.folder = name, os.path.join(top, "crates", name)
        self.assumes_lemmas = LEMMAS in (unasked or {}).get(name, ())
        self.checks, self.taken, self.claims = [], [], ()
        self.edits, self.controls, self.unfit = [], [], {}
        room = os.path.join(self.folder, "mutants")
        files = sorted(it for it in os.listdir(room) if it.endswith(".edit")) if os.path.isdir(room) else []
        self.sources = Sources(self.folder, name) if files else None
        for file in files:
            edit = file.removesuffix(".edit")
            try:
                goals, case = (unasked or {}).get(f"{name}/{edit}", ()), (cases or {}).get(f"{name}/{edit}", "")
                self.edits.append(Edit(os.path.join(room, file), self.sources, goals, case))
            except Unfit as why:
                self.unfit[edit] = str(why)
        self.controls = self.made_controls()

    def made_controls(self):
        """The right bodies of its mutants, each once for all that are of the same clause."""
        alike = {}
        for edit in self.edits:
            alike.setdefault((*edit.right.values(), edit.clause), []).append(edit)
        return [Control(it, self.sources) for it in alike.values()]

    def weight(self):
        """The cost of its checks, roughly: the lines of its code, and some for each mutant."""
        return sum(it.count("\n") for it in self.sources.texts.values()) + 40 * len(self.edits)

    def groups(self, edits):
        """Mutants in few groups, each of which is tried in one check: those with the least choice first."""
        times = Counter(path for edit in edits for path in edit.replaced())
        barred = {it: sum(not it.stands_beside(other) for other in edits) for it in edits}
        choice = lambda it: (-max((times[path] for path in it.replaced()), default=0), -barred[it])
        groups = joined([], sorted(edits, key=choice), size_of_groups(len(edits), self.MOST) if edits else None)
        return sorted(groups, key=len, reverse=True)

    def answers(self, path):
        """The folder of a function's proof."""
        return os.path.join("proofs", *path.split("::")[1:])

    def right_of(self, path):
        """The path of the original of a function in a check."""
        return next((it.right[path] for it in [*self.edits, *self.controls] if path in it.right), path)

    def stored(self, path):
        """The files of a function's proof, by their names."""
        folder = os.path.join(self.folder, self.answers(self.right_of(path)))
        files = {it: os.path.join(folder, it) for it in os.listdir(folder)} if os.path.isdir(folder) else {}
        return {name: file for name, file in files.items() if name.endswith(".antt") and os.path.isfile(file)}

    def brief(self, group):
        """The functions of a group that may have answers, and so one that can't be read."""
        paths = {path for edit in group for path in edit.paths()}
        return {it for it in paths if PROOF_FILES[0] not in self.stored(it)}

    def ensured_by(self, path):
        """The only clause that a function ensures in a check; None if it ensures what the original does."""
        return next((it.clause for it in [*self.edits, *self.controls] if path in it.right), None)

    def answered(self, path):
        """The goals for which the function's proof files have answers; None if there is no such file."""
        files, clause = self.stored(path).values(), self.ensured_by(path)
        if not files:
            return None
        return {goal for file in files for goal in re.findall(r"\bgoal\.([\w-]+)", of_clause(read(file), clause))}

    def texts(self, group):
        """The crate's files with a group's bodies, and stand-ins for all originals."""
        bodies = {}
        for edit in group:
            for (file, path), (old, new) in edit.bodies.items():
                bodies.setdefault((file, old), []).append((path, new, edit.clause))
        made = {}
        for file, text in self.sources.texts.items():
            for it in sorted(self.sources.found[file], key=lambda it: it.body, reverse=True):
                body = text[slice(*it.body)]
                # (a constant's value may come from a `const fn`)
                own = body if "const" in head(text, it)[1].split() else stand_in(body)
                for path, new, clause in bodies.get((file, it.body), ()):
                    if path == self.sources.path(it):
                        own = new
                    else:
                        own += f"\n\n{named_so(text, it, path, clause)}{new}"
                text = text[: it.body[0]] + own + text[it.body[1] :]
            made[file] = text
        return made

    def sum_of(self, edit):
        """A checksum of what a check of a mutant reads of the crate: everything except the originals that it assumes."""
        if not self.taken:
            self.taken = [*texts_under(self.folder, "specs"), *lemmas(self.folder), *self.outlines()]
        bodies = [(file, path, edit.right[path], new) for (file, path), (_, new) in edit.bodies.items()]
        stored = [(name, read(file)) for path in edit.paths() for name, file in sorted(self.stored(path).items())]
        assumed = self.assumes_lemmas, sorted(edit.unasked)
        return sum_of(self.name, self.taken, edit.name, edit.clause, bodies, stored, assumed)

    def claim_sum(self, edit):
        """A checksum of what decides, in the crate, whether a clause is false of a mutant: its bodies and its case, definitions,
        types, and the heads of the functions that it names. Proofs, lemmas and other functions don't."""
        if not self.claims:
            specs = [*map(bare_definitions, texts_under(self.folder, "specs"))]
            parts = [parts_of_code(text, self.sources.found[file]) for file, text in self.sources.texts.items()]
            self.claims = sum_of(specs, [frame for frame, _ in parts]), [it for _, heads in parts for it in heads]
        shared, heads = self.claims
        bodies = [(path, edit.right[path], bare_code(new)) for (_, path), (_, new) in edit.bodies.items()]
        words = {word for _, right, new in bodies for word in [right.rpartition("::")[2], *re.findall(r"\w+", new)]}
        return sum_of(self.name, shared, [head for name, head in heads if name in words], edit.clause, edit.case, bodies)

    def outlines(self):
        """The crate's files without the lines of bodies that are assumed."""
        for file, text in self.sources.texts.items():
            yield file, outline(text, self.sources.found[file], lambda it: "const" in head(text, it)[1].split())

    def furnish(self, room, group):
        """Writes the crate with a group's bodies into a folder; everything that the group doesn't change is assumed."""
        for part in ("specs", "proofs"):
            if os.path.isdir(os.path.join(self.folder, part)):
                shutil.copytree(os.path.join(self.folder, part), os.path.join(room, part))
        for file, text in self.texts(group).items():
            write(os.path.join(room, file), text)
        if self.assumes_lemmas:
            self.assume_lemmas(room)
        paths = {path: edit.clause for edit in group for path in edit.paths()}
        for it in (it for found in self.sources.found.values() for it in found):
            if self.sources.path(it) not in paths:
                self.take_at_its_word(room, self.sources.path(it))
        for path, clause in paths.items():
            self.prove_as_the_right_one(room, path, clause)

    def assume_lemmas(self, room):
        """Leaves holes for the proofs of the crate's lemmas, in a folder with it."""
        texts = [*texts_under(room, "proofs"), *texts_under(room, "specs"), *self.sources.texts.items()]
        unfolded = {word for _, text in texts for found in UNFOLDED.findall(text) for word in re.findall(r"[^\s,():]+", found)}
        for file, text in lemmas(room):
            uses = USES.match(text)[0]
            rest = with_lemmas_assumed(text[len(uses) :], unfolded)
            write(os.path.join(room, file), uses + ASSUMED * (" = assumed\n" in rest) + rest)

    def prove_as_the_right_one(self, room, path, clause):
        """Gives a body beside the original that one's proof, under its own name, as far as it belongs to a clause."""
        right = self.right_of(path)
        if path == right:
            return
        old, new = self.module(right), self.module(path)
        for name, file in self.stored(path).items():
            text = re.sub(rf"\b{re.escape(old)}\.", f"{new}.", of_clause(read(file), clause))
            text = re.sub(rf"\b{right.rpartition('::')[2]}_spec\b", f"{path.rpartition('::')[2]}_spec", text)
            write(os.path.join(room, self.answers(path), name), text)

    def module(self, path):
        """The module of a function's proofs."""
        return f"Rattle.{self.name}.proofs.{'.'.join(path.split('::')[1:])}"

    def shorten(self, room, group, brief):
        """Makes rattle say little about some functions of a group, and assume each goal that need not be asked, in a folder
        with it."""
        for edit in group:
            for path in self.brief([edit]) if edit.is_right else brief.intersection(edit.paths()):
                file = os.path.join(room, self.answers(path), "Answers.antt")
                text = read(file) if os.path.exists(file) else ""
                if edit.unasked:
                    name, text = self.named_goals(path, unanswered(text, edit.unasked))
                    text += ASSUMED + "".join(f"pub {it} : {name}.{it}\n{it} = assumed\n\n" for it in edit.unasked)
                write(file, text + UNREAD_ANSWER * (not edit.is_right))

    def named_goals(self, path, text):
        """The name that a function's answers use for the module of its goals, and their text with a name for it."""
        use = f"use {self.module(path)}.Goals as "
        found = re.search(rf"^{re.escape(use)}(\w+)", text, re.MULTILINE)
        return (found[1], text) if found else ("unasked", f"{use}unasked\n{text}")

    def take_at_its_word(self, room, path):
        """Leaves a hole for a function's proof, in a folder with the crate."""
        folder = os.path.join(room, self.answers(path))
        for name in PROOF_FILES:
            if os.path.exists(os.path.join(folder, name)):
                os.remove(os.path.join(folder, name))
        hole = HOLE.format(module=self.module(path), assumed=ASSUMED, name=path.rpartition("::")[2])
        write(os.path.join(folder, PROOF_FILES[0]), hole)


def outline(text, found, keeps):
    """A file's text without the bodies of its functions, except for those to keep."""
    for it in sorted(found, key=lambda it: it.body, reverse=True):
        if not keeps(it):
            text = f"{text[: it.body[0]]}{{}}{text[it.body[1] :]}"
    return text


def parts_of(text):
    """The parts of a file of lemmas: each begins with a line at the left, and goes on to the next one."""
    return re.split(r"(?m)^(?=[^\s})\]])", text)


def with_lemmas_assumed(text, unfolded):
    """A file of lemmas with a hole for the proof of each lemma, except for what something unfolds."""
    made, parts = [], parts_of(re.sub(r"(?m)^ *--.*\n", "", text))
    while parts:
        part = parts.pop(0)
        inner = BLOCK.match(part)
        if inner:
            lines = with_lemmas_assumed(re.sub(r"(?m)^  ", "", part[inner.end() :]), unfolded)
            part = part[: inner.end()] + re.sub(r"(?m)^(?=.)", "  ", lines)
        made += [part, *proof_of(part, parts, unfolded)]
    return "".join(made)


def proof_of(part, parts, unfolded):
    """Takes the proof of a lemma from the parts behind it: a hole in its place, or what stands there if something unfolds it."""
    named, proof = SIGNATURE.match(part), []
    clause = re.compile(rf"unfolding\s|{re.escape(named[1])}\s") if named and named[1] not in unfolded else None
    while clause and parts and clause.match(parts[0]):
        proof.append(parts.pop(0))
    if any(not it.startswith("unfolding") for it in proof):
        return [f"{named[1]} = assumed\n\n"]
    return proof


def unanswered(text, goals):
    """The text of a function's answers without those to some goals."""
    kept, parts = [], parts_of(text)
    while parts:
        part = parts.pop(0)
        named = SIGNATURE.match(part)
        if named and named[1] in goals:
            proof_of(part, parts, ())
        else:
            kept.append(part)
    return "".join(kept)


def texts_under(folder, part):
    """The files of a part of a crate, each with its text."""
    for at, _, names in sorted(os.walk(os.path.join(folder, part))):
        for file in (os.path.join(at, name) for name in sorted(names) if name.endswith(".antt")):
            yield os.path.relpath(file, folder), read(file)


def lemmas(folder):
    """The files of a crate's proofs/ that aren't the proof of one function, each with its text."""
    return [it for it in texts_under(folder, "proofs") if os.path.basename(it[0]) not in PROOF_FILES]


def seen_sum(top, name, uses):
    """A checksum of what a crate above a library can see of it: no body except those that are computed or inherited from a
    trait."""
    folder = os.path.join(top, "crates", name)
    sources, texts = Sources(folder, name), [*texts_under(folder, "specs"), *lemmas(folder)]
    for file, text in sources.texts.items():
        keeps = lambda it: "const" in head(text, it)[1].split() or it.owner is not None and it.owner[0] == "trait"
        texts.append((file, outline(text, sources.found[file], keeps)))
    return sum_of(name, uses[name], texts)


def public_sum(top, name):
    """A checksum of what contracts above a library are about: its definitions, its types, and the heads of its public functions."""
    folder = os.path.join(top, "crates", name)
    sources = Sources(folder, name)
    parts = [parts_of_code(text, sources.found[file], is_public) for file, text in sources.texts.items()]
    return sum_of(name, [*map(bare_definitions, texts_under(folder, "specs"))], parts)


def parts_of_code(text, found, takes=lambda _function, _before: True):
    """A file's text without its functions, and the head of each that is to be taken, after its name; each with the definitions that
    it names. (A constant's value may come from a `const fn`, so the head of such a one has its body.)"""
    heads, frame, origins = [], text, origins_in(text)
    for it in sorted(found, key=lambda it: it.body, reverse=True):
        at, before = head(text, it)
        if takes(it, before):
            heads.append((it.name, with_origins(text[at : it.body["const" in before.split()]], origins)))
        frame = frame[:at] + frame[it.body[1] :]
    return with_origins(frame, origins), heads


def origins_in(text):
    """Where the definitions of a file's clauses come from: the name of each, and its module."""
    listed = [(module, names) for module, names in IMPORTED.findall(text)]
    return sorted({(name, module) for module, names in listed for name in re.split(r",\s*", names.strip().strip("{},")) if name})


def with_origins(text, origins):
    """A text without comments, layout and imports, and where each definition comes from that it names."""
    code = bare_code(IMPORT.sub("", text))
    return code, [it for it in origins if all(part in code for part in it[0].split(" as ")[-1].split("◌"))]


def is_public(function, before):
    """Whether a library above may call a function, by what comes before its `fn`; one of a trait or of its impl is public too."""
    return bool(re.search(r"\bpub\s", before)) or not function.may_have_others_beside()


def bare_code(text):
    """A text without comments and layout."""
    return " ".join(NO_CODE.sub(lambda it: " " if it[0][:2] in ("//", "/*") else it[0], text).split())


def bare_definitions(named):
    """A file's definitions without comments, after its name."""
    file, text = named
    return file, [it.rstrip() for it in text.split("\n") if it.strip() and not it.lstrip().startswith("--")]


def sum_of(*of):
    """A checksum of values that have one text each."""
    return hashlib.sha256(repr(of).encode()).hexdigest()


def read(path):
    with open(path, encoding="utf-8") as it:
        return it.read()


def write(path, text):
    """Writes a file, and the folders around it."""
    os.makedirs(os.path.dirname(path), exist_ok=True)
    with open(path, "w", encoding="utf-8") as it:
        it.write(text)


def crates_of(top):
    """The crates of crates.txt, lowest first, each with its dependencies."""
    uses = {}
    with open(os.path.join(top, "crates.txt"), encoding="utf-8") as it:
        for line in it:
            line = line.split("#")[0].strip()
            if line:
                name, _, below = line.partition(":")
                uses[name.split()[0]] = below.split()
    return uses


def below(uses, name):
    """The repository's libraries below a crate."""
    found = []
    for dep in uses[name]:
        if dep in uses:
            found += [it for it in [*below(uses, dep), dep] if it not in found]
    return found
