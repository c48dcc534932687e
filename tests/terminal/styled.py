"""What a terminal shows with styles: the cells of a pane, each a cluster and its attributes."""
import re

from display import clusters

SGR = re.compile(r"\x1b\[([0-9;]*)m")
# The flags of SGR, and what ends each.
FLAGS = (1, 2, 3, 4, 7)
ENDED = {22: (1, 2), 23: (3,), 24: (4,), 27: (7,), 39: ("text",), 49: ("ground",)}


def colour_of(codes):
    """A colour after 38 or 48, and the codes behind it. tmux knows the first sixteen of the palette by their names too."""
    if codes[0] == 5:
        return ("palette", codes[1]), codes[2:]
    return ("rgb", *codes[1:4]), codes[4:]


def attributes(known, numbers):
    """The attributes after a sequence SGR, by those before it."""
    known, codes = dict(known), [int(it or "0") for it in numbers.split(";")]
    while codes:
        code, codes = codes[0], codes[1:]
        if code == 0:
            known = {}
        elif code in FLAGS:
            known[code] = True
        elif code in (38, 48):
            known["text" if code == 38 else "ground"], codes = colour_of(codes)
        elif code in ENDED:
            known = {it: value for it, value in known.items() if it not in ENDED[code]}
        else:
            tens, unit = divmod(code, 10)
            part = {3: ("text", 0), 4: ("ground", 0), 9: ("text", 8), 10: ("ground", 8)}[tens]
            known[part[0]] = ("palette", unit + part[1])
    return known


def captured(text):
    """The clusters of what `capture-pane -e -N` gives, row by row, with their attributes."""
    known, rows = {}, []
    for line in text.split("\n"):
        row, at = [], 0
        for found in [*SGR.finditer(line), None]:
            row += ((cluster, known) for cluster in clusters(line[at:found.start() if found else len(line)]))
            if found:
                known, at = attributes(known, found[1]), found.end()
        rows.append(row)
    return trimmed(rows)


def trimmed(rows):
    """Rows without the blanks at their ends that have no attribute, and without blank rows at the end."""
    for row in rows:
        while row and row[-1] == (" ", {}):
            row.pop()
    while rows and not rows[-1]:
        rows.pop()
    return rows


def runs(cells):
    """The runs of one style in a row: each its column, its text and its style."""
    found = []
    for column, (cluster, style) in enumerate(cells):
        if found and found[-1][2] == style:
            found[-1][1] += cluster
        else:
            found.append([column, cluster, style])
    return [tuple(it) for it in found]
