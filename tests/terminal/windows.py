"""Windows of several widths: a line of more than a row that is edited in its middle is drawn as wide as its window."""
import string

from shown import expect

WIDTHS = (30, 60, 80, 200)


def type_bytes(terminal, keys):
    terminal.ask("send-keys", "-H", *(f"{byte:02x}" for byte in keys))


def rows_of(text, columns):
    return [text[at : at + columns] for at in range(0, len(text), columns)]


def edited_in_its_middle(terminal, prompt, columns):
    """Types a line of more than a row into an empty window, and two letters before its last two. Answers the line."""
    text = (string.ascii_letters * 5)[: columns + 10]
    type_bytes(terminal, text.encode() + b"\x1b[D\x1b[DXY")
    line = f"{text[:-2]}XY{text[-2:]}"
    rows = rows_of(f"{prompt}{line}", columns)
    expect(terminal, f"a line in {columns} columns", (rows, divmod(len(prompt) + len(line) - 2, columns)))
    return line
