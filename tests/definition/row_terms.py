"""Rows of `crates/sessions_program/data/` as definitions of `crates/worked_rows/specs/`: texts, bindings, settings and rows, each
as a term.
"""
import itertools
import re
import unicodedata

from sessions import meant

# What a table's file begins with; the names that it doesn't use are left out.
NAMES = {
    "Rattle.std.specs.Prelude": ["List", "[]", "◌∷◌", "◌++◌", "None", "Some", "true", "false", "codes", "encode_utf8_all",
                                 "replicate"],
    "Rattle.line_buffer.specs.declared.layout.GraphemeClusterMode.TheVariants": ["NoZwj", "WcWidth"],
    "Rattle.line_buffer.specs.declared.types.Movement.TheVariants": [
        "BackwardChar", "BeginningOfBuffer", "BeginningOfLine", "EndOfBuffer", "EndOfLine", "ForwardChar", "LineDown", "LineUp",
        "ViFirstPrint", "WholeBuffer", "WholeLine"],
    "Rattle.line_config.specs.declared.device.Last.TheVariants": ["Failed"],
    "Rattle.line_config.specs.declared.errors.ReadlineError.TheVariants": [
        "Handler", "Helper", "Interrupted", "NotUtf8", "PasteOutOfPlace", "Reader"],
    "Rattle.line_keys.specs.Keys": ["alt", "ctrl", "key_with", "none"],
    "Rattle.line_keys.specs.declared.command.Cmd.TheVariants": [
        "Abort", "AcceptLine", "CapitalizeWord", "ClearScreen", "Complete", "CompleteHint", "Dedent", "HistorySearchBackward",
        "HistorySearchForward", "Indent", "Kill", "Move", "Newline", "Noop", "PreviousHistory", "Repaint", "SelfInsert", "TransposeWords",
        "Undo", "Unknown", "UpcaseWord", "YankPop"],
    "Rattle.line_keys.specs.declared.events.Event.TheVariants": ["Any", "KeySeq"],
    "Rattle.line_keys.specs.declared.key.KeyCode.TheVariants": ["Char", "Esc"],
    "Rattle.stand_ins.specs.Handlers": ["hint_or_kill", "one_way"],
    "Rattle.stand_ins.specs.declared.handlers.OneWay.TheVariants": ["Count", "Fails", "Nothing"],
    "Rattle.worked_rows.specs.Playing": ["Row", "row"],
    "Rattle.worked_rows.specs.Settings": [
        "Settings", "adding", "aide", "aide_ending", "always", "at_once", "bound", "colours", "command", "counting", "limited", "listed",
        "modal", "of_size", "partial", "plain", "stopping", "tabs", "vi"],
}
# A text of more such bytes in a row is written with their number.
RUN = 40
# So long are a literal and a line at most.
LITERAL = 80
LINE = 100
WORD = re.compile(r"[^\s(){};,]+")
# Letters that nothing is drawn for.
FILLERS = "\u115f\u1160\u3164\uffa0"


class Unfit(Exception):
    """A row says what no definition computes, or what isn't known here."""


def literal(text):
    escapes = {"\n": "\\n", "\r": "\\r", "\t": "\\t", "\\": "\\\\", '"': '\\"'}
    return '"' + "".join(escapes.get(c) or (c if is_seen(c) else f"\\u{{{ord(c):x}}}") for c in text) + '"'


def is_seen(char):
    """Whether a character is one that is seen by itself, from left to right."""
    own = char == " " or unicodedata.category(char)[0] in "LNPS" and char not in FILLERS
    return own and unicodedata.bidirectional(char) not in ("R", "AL", "AN")


def pieces(text):
    """A text in parts: many of one character, each by their number, and literals that fit into a line."""
    for run in re.finditer(rf"(?s)(.)\1{{{RUN},}}|(?:(?!(.)\2{{{RUN},}}).)+", text):
        if run[1]:
            yield f"replicate {len(run[0])} {ord(run[1])}"
            continue
        held = ""
        for char in run[0]:
            if len(literal(held + char)) > LITERAL:
                yield f"codes {literal(held)}"
                held = ""
            held += char
        yield f"codes {literal(held)}"


def term(data):
    """Bytes as a term."""
    if not data:
        return "[]"
    try:
        text = data.decode()
    except UnicodeDecodeError:
        return " ∷ ".join([*(f"0x{byte:02X}" for byte in data), "[]"])
    codes = " ++ ".join(pieces(text))
    return codes if text.isascii() else f"encode_utf8_all ({codes})"


def within(words):
    """A term as a part of another one."""
    return f"({words})" if " " in words else words


def some(data):
    return f"Some {within(term(data))}"


def listed(terms):
    return " ∷ ".join([*terms, "[]"])


# ---- bindings


def key_term(name):
    found = re.fullmatch(r"([CA]?)-?(Esc|.)", name)
    if not found:
        raise Unfit(f"the key {name}")
    code = found[2] if found[2] == "Esc" else f"(Char {ord(found[2])})"
    return f"key_with {code} {({'C': 'ctrl', 'A': 'alt'}.get(found[1], 'none'))}"


def event_term(names):
    if names == "any":
        return "Any"
    return f"KeySeq ({listed(f'({key_term(name)})' for name in names.split('→'))})"


def command_term(words):
    """A command with these words: its movement has counts and no other words."""
    name, rest = words[0], words[1:]
    if name in ("Dedent", "Indent", "Kill", "Move"):
        return f"{name} {within(' '.join(rest))}"
    if name == "SelfInsert":
        return f"SelfInsert {rest[0]} {ord(rest[1])}"
    return " ".join(words)


def action_term(words):
    """What keys are bound to: a command by itself, or a handler."""
    name, rest = words[0], words[1:]
    if name in ("Count", "Fails", "Nothing"):
        return f"one_way {name}"
    if name == "HintOrKill":
        return f"hint_or_kill {rest[0]}"
    if name == "Always":
        return f"always {within(command_term(rest))}"
    return f"command {within(command_term(words))}"


def binding_term(word):
    keys, action = word.split("⇒")
    return f"({event_term(keys)}, {action_term(action.split('·'))})"


# ---- settings

KNOWN = {"", "vi", "adding", "modal", "colours", "tabs", "partial", "listed", "at-once", "bare", "helped", "keys@end"}
CONFIGURED = (("vi", "vi"), ("adding", "adding"), ("modal", "modal"), ("colours", "colours"), ("tabs", "tabs"),
              ("partial", "partial"), ("listed", "listed"), ("at-once", "at_once"))
VALUES = ("bind:", "clusters:", "columns:", "ends:", "limit:", "loaded:", "prompt:", "size:", "stop:", "words:")


def config_term(row):
    config = "plain.config"
    for word, name in CONFIGURED:
        config = f"{name} {within(config)}" if word in row.settings else config
    for word, name in (("clusters:", "counting"), ("size:", "of_size"), ("limit:", "limited"), ("stop:", "stopping")):
        value = row.value(word, "")
        config = f"{name} {value} {within(config)}" if value else config
    return config


def helping_term(row):
    words = row.value("words:", "")
    known = f"Some ({listed(within(term(meant(it))) for it in words.split(','))})" if words else "None"
    end = row.value("ends:", "")
    name = f"aide_ending {within(term(meant(end)))}" if end else "aide"
    return f"{name} {str('helped' in row.settings).lower()} {within(known)}"


def settings_fields(row):
    """What the settings of a row change, by the fields of the record."""
    unknown = [word for word in row.settings if word not in KNOWN and not word.startswith(VALUES)]
    if unknown:
        raise Unfit(f"the setting {unknown[0]}")
    bindings = [word[5:] for word in row.settings if word.startswith("bind:")]
    prompt = meant(row.value("prompt:", "" if "bare" in row.settings else "> "))
    fields = {
        "config": config_term(row),
        "columns": row.value("columns:", "80"),
        "prompt": term(prompt),
        "custom": f"bound ({listed(map(binding_term, bindings))})",
        "helping": helping_term(row),
        "loaded": term(row.loaded),
        "last": "Failed" if "keys@end" in row.settings else "End",
    }
    plain = {"config": "plain.config", "columns": "80", "prompt": term(b"> "), "custom": "bound ([])", "helping": "aide false None",
             "loaded": "[]", "last": "End"}
    return {name: value for name, value in fields.items() if value != plain[name]}


def record(of, fields):
    """A record with other values in some fields, each in a line."""
    if not fields:
        return of
    return f"record {within(of)} {{\n" + "".join(f"  {name} = {value};\n" for name, value in fields.items()) + "}"


def row_term(row, settings):
    fields = {}
    if row.ends != "Eof":
        fields["ends"] = row.ends
    if row.saves is not None:
        fields["saves"] = some(b"" if row.saves.strip() == "nothing" else meant(row.saves.strip()))
    if row.display is not None:
        fields["shows"] = some(row.display)
    return record(f"row {row.number} {settings} {within(term(row.keys))} {within(term(row.lines))}", fields)


# ---- files


def wrapped(text):
    """A text whose lines are broken at blanks outside literals, where they are too long."""
    return "\n".join(itertools.chain.from_iterable(map(broken, text.split("\n"))))


def broken(line):
    if len(line) <= LINE or line.startswith(("--", "use ")):
        return [line]
    indent = " " * (len(line) - len(line.lstrip()) + 4)
    lines, held = [], ""
    for word in re.findall(r"\s*(?:(?:codes )?\"(?:[^\"\\]|\\.)*\"|[^\s\"])+?(?=\s|$)", line):
        if held and len(held + word) > LINE:
            lines.append(held)
            held, word = indent, word.lstrip()
        held += word
    return [*lines, held]


def imports(text):
    """The `use` lines of what a text mentions."""
    terms = "\n".join(line for line in text.splitlines() if not line.startswith("--"))
    words = {*WORD.findall(re.sub(r'"(?:[^"\\]|\\.)*"', "", terms))}
    words |= {word.partition(".")[0] for word in words}
    used = lambda name: name.strip("◌") in words if "◌" in name else name in words
    kept = {module: [it for it in names if used(it)] for module, names in NAMES.items()}
    return "".join(f"use {module}.{{{', '.join(names)}}}\n" for module, names in sorted(kept.items()) if names)
