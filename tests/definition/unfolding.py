"""Which definitions a computation unfolds: those marked `unfoldable`, in the crates and in the toolchain's libraries, that
definitions of some files mention, or those that they mention, and so on. A name counts as mentioned even if a
variable hides it: one too many does no harm.
"""
import os
import re

from names import TOP

USE = re.compile(r"^[ ]*(?:unfoldable )?(?:pub )?use ([\w.]+)\.\{([^}]*)\}", re.M)
WHOLE = re.compile(r"^[ ]*(?:pub )?use ([\w.]+)(?: as (\w+))?$", re.M)
DEFINES = re.compile(r"^(?:  )?(?:(abbrev|unfoldable) )?(?:pub )?(?:record |data )?([^\s(:={]+)(?= :| \(| \{|$)")
# The folders of the toolchain's that make up std; what core defines is cited as std's.
STD = {"std": ["std", "core", "std_alloc", "std_collections", "std_io"]}
WORD = re.compile(r"[^\s(){};,.\"]+(?:\.[^\s(){};,.\"]+)?")


class Definitions:
    """The definitions of a file: the text of each, which of them are unfolded, and what the file imports."""

    def __init__(self, text):
        text = re.sub(r"--.*", "", text)
        self.texts, self.unfolded, self.imported, self.modules = {}, set(), {}, {}
        for module, names in USE.findall(text):
            for it in filter(None, (name.strip() for name in names.split(","))):
                name, _, own = it.partition(" as ")
                self.imported[own or name] = (module, name)
        for module, own in WHOLE.findall(text):
            self.modules[own or module.rpartition(".")[2]] = module
        self.read(USE.sub("", text))

    def read(self, text):
        name, shared = None, ""
        for line in text.split("\n"):
            found = DEFINES.match(line)
            if line.startswith("module "):
                name, shared = None, shared + line
            elif found and found[2] not in ("use", "where", "mutual"):
                name = found[2]
                self.unfolded.update([name] if found[1] == "unfoldable" else [])
            if name:
                self.texts[name] = self.texts.get(name, shared) + "\n" + line

    def mentioned(self, name):
        """What stands in a definition: the names of this file, and those of others with their modules."""
        for word in WORD.findall(self.texts[name]):
            head, _, rest = word.partition(".")
            if head in self.modules and rest:
                yield self.modules[head], rest
            elif head in self.imported:
                yield self.imported[head]
            elif head in self.texts:
                yield None, head


class Library:
    """All files of definitions, each read once it is asked for."""

    def __init__(self, kit):
        self.kit, self.files = kit, {}

    def path(self, module):
        """The file of a module of definitions; None for what the declared types of a crate give."""
        parts = module.split(".")
        if parts[0] == "lib":
            path = os.path.join(self.kit, "logic", "Lib", *parts[1:]) + ".antt"
            return path if os.path.isfile(path) else None
        if parts[0] != "Rattle" or parts[2:3] != ["specs"]:
            return None
        own = [os.path.join(TOP, "crates", parts[1])]
        folders = own if os.path.isdir(own[0]) else [os.path.join(self.kit, it) for it in STD.get(parts[1], parts[1:2])]
        files = [os.path.join(folder, *parts[2:]) + ".antt" for folder in folders]
        return next(filter(os.path.isfile, files), None)

    def file(self, module):
        if module not in self.files:
            path = self.path(module)
            self.files[module] = None
            if path:
                with open(path, encoding="utf-8") as it:
                    self.files[module] = Definitions(it.read())
        return self.files[module]

    def home(self, module, name):
        """The module that defines a name, through those that only pass it on."""
        while (file := self.file(module)) and name not in file.texts and name in file.imported:
            module, name = file.imported[name]
        return (module, name) if file and name in file.texts else None

    def unfolded(self, modules):
        """The definitions that are unfolded in what these modules define, each with its module."""
        left = [(module, name) for module in modules for name in self.file(module).texts]
        seen = set(left)
        while left:
            module, name = left.pop()
            for other, word in self.file(module).mentioned(name):
                found = self.home(other or module, word)
                if found and found not in seen:
                    seen.add(found)
                    left.append(found)
        unfolded = [it for it in seen if it[1] in self.file(it[0]).unfolded]
        return sorted({(module.replace("Rattle.core.", "Rattle.std."), name) for module, name in unfolded})


def unfolding_text(found, name, about):
    """The text of a file with one definition, whose `unfolding` names all these."""
    uses, words = {}, []
    for module, own in found:
        word = own if own not in words else f"{own}_{len(words)}"
        uses.setdefault(module, []).append(own if word == own else f"{own} as {word}")
        words.append(word)
    lines = [f"-- {about}", "use Rattle.std.specs.Prelude.{⊤}"]
    lines += [f"use {module}.{{{', '.join(names)}}}" for module, names in sorted(uses.items())]
    return "\n".join([*lines, "", f"unfoldable pub {name} : ⊤", f"unfolding {' '.join(words)}", f"{name} = tt", ""])
