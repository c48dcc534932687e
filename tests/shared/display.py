"""The meaning of display bytes, and of drawings: docs/DISPLAY.md once more, for the tests of the built program.

It is independent of the program, and reads only its bytes. Clusters follow UAX #29, and widths follow the rules of
`unicode_width`. Both are known for the characters of the table below and for letters without a rule. A text with any other
character is `Unjudged`.
"""
import itertools
import re
import unicodedata

# Range, class of UAX #29, width by itself. Characters of a block that are left out have no row.
CHARACTERS = """
    20-7E Other 1 | A0-A8 Other 1 | A9 Pict 1 | AA-AC Other 1 | AD Control 0 | AE Pict 1 | AF-2FF Other 1
    300-36F Extend 0 | 370-482 Other 1 | 483-489 Extend 0 | 48A-590 Other 1
    591-5BD Extend 0 | 5BE Other 1 | 5BF Extend 0 | 5D0-5EA Other 1
    600-604 Prepend 1 | 605 Prepend 0 | 606-60F Other 1 | 610-61A Extend 0 | 61C Control 0 | 620-64A Other 1
    64B-65F Extend 0 | 660-66F Other 1 | 671-6D5 Other 1 | 6DD Prepend 1
    904-914 Other 1 | 915-939 Consonant 1 | 93C Extend 0 | 93E-940 SpacingMark 1 | 941-948 Extend 0 | 94D Linker 0
    E01-E30 Other 1 | E31 Extend 0 | E32 Other 1 | E33 SpacingMark 1 | E34-E3A Extend 0 | E47-E4E Extend 0
    1100-115F L 2 | 1160-11A7 V 0 | 11A8-11FF T 0
    200B Control 0 | 200C NonJoiner 0 | 200D Joiner 0 | 200E-200F Control 0 | 2010-2027 Other 1 | 2028-2029 Control 1
    202A-202E Control 0 | 2030-203B Other 1 | 203C Pict 1 | 2060-2064 Control 0 | 2066-206F Control 0
    20D0-20F0 Extend 0 | 2139 Pict 1 | 231A-231B Pict 2 | 2615 Pict 2 | 261D Pict 1 | 263A Pict 1 | 26A0 Pict 1 | 2764 Pict 1
    3000-3029 Other 2 | 3030 Pict 2 | 3041-3096 Other 2 | 3099-309A Extend 0 | 309B-30FF Other 2 | 3131-3163 Other 2
    3400-4DBF Other 2 | 4E00-9FFF Other 2 | AC00-D7A3 Syllable 2 | E000-F8FF Other 1
    FE00-FE0F Extend 0 | FEFF Control 0 | FF01-FF60 Other 2 | FF61-FF9D Other 1 | FF9E-FF9F Extend 1 | FFFD Other 1
    1F1E6-1F1FF Flag 1 | 1F308 Pict 2 | 1F3F3 Pict 1 | 1F3F4 Pict 2 | 1F3FB-1F3FF Extend 2 | 1F44D Pict 2
    1F466-1F469 Pict 2 | 1F4BB Pict 2 | 1F525 Pict 2 | 1F600 Pict 2 | 1F9D1 Pict 2 | 20000-2A6DF Other 2
    E0020-E007F Extend 0
"""
# Of these, the ones that U+FE0F widens (U+FE0E narrows those of two columns), and those that take a skin tone.
VARIED = set("#*0123456789\u00a9\u00ae\u203c\u2139\u231a\u231b\u2615\u261d\u263a\u26a0\u2764\u3030")
VARIED |= set("\U0001f3f3\U0001f44d\U0001f4bb")
COLOURED = set("\u261d\U0001f44d\U0001f466\U0001f467\U0001f468\U0001f469\U0001f9d1")
# Pictographs that are emoji without U+FE0F.
EMOJI = set("\u231a\u231b\u2615\U0001f308\U0001f3f4\U0001f4bb\U0001f525\U0001f600") | COLOURED - {"\u261d"}
TONES = {chr(code) for code in range(0x1F3FB, 0x1F400)}
JOINER, TO_TEXT, TO_EMOJI, TAG_END = "\u200d", "\ufe0e", "\ufe0f", "\U000e007f"

# Rows beyond this one are not counted, and nothing is promised about them.
MOST_ROWS = 65535

PRINTABLE = re.compile(r"[ -~]*\Z")
# The beginning of a drawing over an old one of one row, and of a line's first drawing.
REDRAWN = b"\r\x1b[J"
TOKENS = re.compile(rb"(?P<nothing>(\x1b\[m)+)|(?P<text>[ -~\x80-\xff]+)|(?P<plain>\x1b\[[JKH@P]|[\r\n\x07\x08])"
                    rb"|\x1b\[(?P<by>[1-9][0-9]*)(?P<way>[A-DP])|\x1b\[0(?P<style>(;[0-9]+)+)m|\x1b\[4(?P<mode>[hl])")


class Unjudged(Exception):
    """A character with an unknown class or width."""


class Meaningless(Exception):
    """Display bytes without a meaning."""


def read_table():
    found = {}
    for row in re.split(r"[|\n]", CHARACTERS):
        if row.strip():
            span, kind, width = row.split()
            first, _, last = span.partition("-")
            found.update((chr(code), (kind, int(width))) for code in range(int(first, 16), int(last or first, 16) + 1))
    return found


TABLE = read_table()


def known(char):
    """A character's class, and its width by itself."""
    if char in TABLE:
        return TABLE[char]
    if unicodedata.category(char) == "Cc":
        return ("Control", 1)
    if unicodedata.category(char) in ("Lu", "Ll", "Nd") and unicodedata.east_asian_width(char) not in "WF":
        return ("Other", 1)
    raise Unjudged(f"U+{ord(char):04X}")


def kind(char):
    found = known(char)[0]
    if found == "Syllable":
        return "LV" if (ord(char) - 0xAC00) % 28 == 0 else "LVT"
    return found


# Pairs without a boundary between them, whatever precedes them.
JOINED = {("L", "L"), ("L", "V"), ("L", "LV"), ("L", "LVT"), ("LV", "V"), ("LV", "T"), ("V", "V"), ("V", "T"), ("LVT", "T"),
          ("T", "T")}
# The classes of a cluster that a pictograph continues, and of one that a consonant continues.
PICTURE_JOINED = re.compile(r"(.* )?Pict (Extend |Linker |NonJoiner )*Joiner \Z")
CONJUNCT_OPEN = re.compile(r"(.* )?Linker (Extend |Joiner |Linker )*\Z")


def belongs(kinds, now):
    """Whether a character of the class `now` continues the cluster whose characters have these classes."""
    last = kinds[-1]
    if "Control" in (last, now):
        return False
    if (last, now) in JOINED or now in ("Extend", "Linker", "Joiner", "NonJoiner", "SpacingMark") or last == "Prepend":
        return True
    before = " ".join(kinds) + " "
    if now == "Pict":
        return PICTURE_JOINED.match(before) is not None
    if now == "Consonant":
        return CONJUNCT_OPEN.match(before) is not None
    return now == last == "Flag" and kinds.count("Flag") % 2 == 1


def clusters(text):
    """The extended grapheme clusters of a text without CR LF."""
    if PRINTABLE.match(text):
        return list(text)
    found, kinds = [], []
    for char in text:
        now = kind(char)
        if kinds and belongs(kinds, now):
            found[-1] += char
            kinds.append(now)
        else:
            found.append(char)
            kinds = [now]
    return found


def step_back(char, total, after, selector):
    """A text's width with one more character before it; `after` and `selector` describe the text's first characters."""
    joined = after == "joiner"
    if selector == TO_EMOJI and char in VARIED:
        return (total + (0 if joined else 2), "emoji", None)
    if char in (TO_TEXT, TO_EMOJI):
        return (total, "joiner" if joined and char == TO_EMOJI and selector is None else None, char)
    if selector == TO_EMOJI:
        after = None
    if selector == TO_TEXT and char in VARIED & EMOJI:
        return (total + 1, None, None)
    if after == "tone" and (char in COLOURED or char == JOINER):
        return (total, "emoji" if char in COLOURED else "joiner", None)
    if after == "joiner" and (char in EMOJI or char in TONES):
        return (total, "emoji" if char in EMOJI else "tone", None)
    if after == "joiner" and (char in (TAG_END, "\u20e3") or kind(char) == "Flag"):
        raise Unjudged("a flag or a keycap before a joiner")
    if after == "emoji" and char == JOINER:
        return (total, "joiner", None)
    own = known(char)[1]
    return (total + own, "emoji" if char in EMOJI else "tone" if char in TONES else None, None)


def text_width(text):
    """The columns of a text."""
    reading = (0, None, None)
    for char in reversed(text):
        reading = step_back(char, *reading)
    return reading[0]


# The columns of a cluster, for each way to count clusters.
COUNTED = {
    "Unicode": text_width,
    "WcWidth": lambda cluster: sum(known(char)[1] for char in cluster),
    "NoZwj": lambda cluster: sum(map(text_width, cluster.split(JOINER))),
}
WIDTHS = {}


def width(cluster, counted):
    """The columns of a cluster."""
    if (cluster, counted) not in WIDTHS:
        WIDTHS[cluster, counted] = COUNTED[counted](cluster)
    return WIDTHS[cluster, counted]


def is_control(char):
    return char < " " or "\x7f" <= char <= "\x9f"


def shown_cluster(cluster, columns, counted):
    """How a cluster is drawn, and its width."""
    if any(map(is_control, cluster)) or not 1 <= width(cluster, counted) <= columns:
        return ("?", 1)
    return (cluster, width(cluster, counted))


def counted_row(row):
    """A row's number, if rows are counted."""
    if row > MOST_ROWS:
        raise Unjudged("more rows than are counted")
    return row


def style_at(spans, byte):
    """The style of a byte of a text, by spans: each so many bytes, and their style."""
    for count, style in spans:
        if byte < count:
            return style
        byte -= count
    return ""


class Rows:
    """Rows of cells: each has its columns that aren't blank, with a cluster, or with INSIDE for the rest of one. `styles` has
    the columns of each row that have a style, such as `;1;34`."""

    INSIDE = object()

    def __init__(self, columns, clusters="Unicode"):
        self.columns, self.counted, self.rows, self.styles = columns, clusters, [], []

    def row(self, number):
        counted_row(number)
        while len(self.rows) <= number:
            self.rows.append({})
        return self.rows[number]

    def put(self, row, col, cluster, wide, style=""):
        cells = self.row(row)
        cells[col] = cluster
        for at in range(col + 1, col + wide):
            cells[at] = self.INSIDE
        if style:
            self.styles += ({} for _ in range(len(self.styles), row + 1))
            self.styles[row][col] = style

    def below(self, top):
        """The rows from one on, without the blank ones at the end."""
        found = self.rows[top:]
        while found and not found[-1]:
            found.pop()
        return found

    def styled(self, top=0):
        """The columns with a style in each row from one on that has any."""
        return {number - top: styles for number, styles in enumerate(self.styles) if number >= top and styles}

    def text(self, row, col):
        """The clusters from a place on, without the blanks between them."""
        cells = [(at, cell) for number, row in enumerate(self.rows[row:]) for at, cell in sorted(row.items()) if number or at >= col]
        return "".join(cell for _, cell in cells if cell is not self.INSIDE)


class Drawing(Rows):
    """Texts drawn one after the other from a display's first cell; `place` is their end. `spans` has the styles of each. `stop`
    says how many columns apart the stops are up to which a tab is drawn as blanks; without it a tab is a question mark."""

    def __init__(self, columns, *texts, clusters="Unicode", spans=(), stop=None):
        super().__init__(columns, clusters)
        self.place, self.stop = (0, 0), stop
        for text, styles in itertools.zip_longest(texts, spans, fillvalue=()):
            self.draw(text, styles)

    def followed_by(self, *texts):
        """A drawing of more texts after these."""
        drawn = Drawing(self.columns, clusters=self.counted, stop=self.stop)
        drawn.rows, drawn.place = [*map(dict, self.rows)], self.place
        for text in texts:
            drawn.draw(text)
        return drawn

    def draw(self, text, spans=()):
        """Draws a text: a cluster has the style of its first byte."""
        byte = 0
        for number, piece in enumerate(text.split("\n")):
            if number:
                self.place = (counted_row(self.place[0] + 1), 0)
            is_plain = PRINTABLE.match(piece)
            found = piece if is_plain else clusters(piece)
            items = ((char, 1) for char in piece) if is_plain else map(self.item, found)
            starts = itertools.accumulate((len(it.encode()) for it in found), initial=byte)
            self.lay(items, (style_at(spans, start) for start in starts) if spans else itertools.repeat(""))
            byte += len(piece.encode()) + 1

    def item(self, cluster):
        """A cluster as it is drawn, and its width. A tab that is drawn as blanks has the width of one, as it takes one at least."""
        if cluster == "\t" and self.stop is not None:
            return (cluster, 1)
        return shown_cluster(cluster, self.columns, self.counted)

    def put_tab(self, row, col, style):
        """Puts blanks up to the next stop, or to the row's end, and says where they end."""
        while True:
            self.put(row, col, " ", 1, style)
            col += 1
            if col == self.columns or col % max(self.stop, 1) == 0:
                return col

    def lay(self, items, styles):
        row, col = self.place
        for (cluster, wide), style in zip(items, styles):
            if col + wide > self.columns:
                row, col = row + 1, 0
            if cluster == "\t":
                col = self.put_tab(row, col, style)
            else:
                self.put(row, col, cluster, wide, style)
                col += wide
            if col == self.columns:
                row, col = row + 1, 0
        self.place = (row, col)


class Display(Rows):
    """A display that reads bytes. `top` is the row where the current line begins: nothing may change above it. `pen` is the
    style of what is written: a row break or an erasure while there is one has no meaning."""

    def __init__(self, columns, clusters="Unicode"):
        super().__init__(columns, clusters)
        self.cursor, self.top, self.homed, self.pen, self.inserting = (0, 0), 0, False, "", False

    def tell(self, why):
        raise Meaningless(f"{why}, at row {self.cursor[0]}, column {self.cursor[1]}")

    def read(self, display):
        """Reads bytes, and yields after each new row before a drawing: there a line has ended."""
        at = 0
        for token in TOKENS.finditer(display):
            if token.start() != at:
                break
            at = token.end()
            word = token.lastgroup
            if word == "text" and self.inserting:
                self.insert(token["text"])
            elif word == "text":
                self.write(token["text"])
            elif word == "nothing":
                self.pen = ""
            elif word == "style":
                self.pen = token["style"].decode()
            elif word == "mode":
                self.set_mode(token["mode"] == b"h")
            elif self.inserting and token[0] not in (b"\r", b"\n"):
                self.tell(f"in insert mode no meaning has {token[0]!r}")
            elif word == "way":
                self.move(int(token["by"]), token["way"])
            elif word == "plain":
                self.plain(token["plain"])
                if display[at - 2:at + len(REDRAWN)] == b"\r\n" + REDRAWN:
                    yield at
        if at != len(display):
            self.tell(f"no meaning has {display[at:at + 12]!r}")

    def write(self, run):
        row, col = self.cursor
        try:
            text = run.decode()
        except UnicodeDecodeError:
            self.tell(f"{run!r} is not UTF-8")
        if PRINTABLE.match(text):
            items = [(char, 1) for char in text]
        elif len(clusters(text)) == 1 and not any(map(is_control, text)):
            items = [(text, width(text, self.counted))]
        else:
            self.tell(f"{text!r} is no cluster")
        wide = sum(item[1] for item in items)
        if wide == 0 or col + wide > self.columns:
            self.tell(f"{text!r} has no place")
        cells = self.row(row)
        if row < self.top:
            self.tell(f"{text!r} goes over the lines above")
        if cells.get(col) is self.INSIDE or cells.get(col + wide) is self.INSIDE:
            self.tell(f"{text!r} cuts a cluster")
        for held in [cells, *self.styles[row:row + 1]]:
            for at in range(col, col + wide):
                held.pop(at, None)
        for cluster, each in items:
            self.put(row, col, cluster, each, self.pen)
            col += each
        self.cursor = (row, col)

    def insert(self, run):
        """Writes letters in insert mode: each moves the rest of its row by a cell."""
        if not PRINTABLE.match(run.decode()):
            self.tell(f"in insert mode no meaning has {run!r}")
        for byte in run:
            self.stay_inside()
            self.shift(1)
            self.write(bytes([byte]))

    def set_mode(self, inserting):
        self.stay_inside()
        if self.inserting == inserting or self.pen:
            self.tell("insert mode is begun or ended twice, or while a style stands")
        self.inserting = inserting

    def move(self, by, way):
        row, col = self.cursor
        self.stay_inside()
        if way == b"P":
            self.shift(-by)
            return
        if way in b"AB":
            row += by if way == b"B" else -by
        else:
            col += by if way == b"C" else -by
        if row < 0 or not 0 <= col < self.columns:
            self.tell(f"a move by {by} {way.decode()} goes out of the display")
        self.cursor = (counted_row(row), col)

    def stay_inside(self):
        if self.cursor[1] == self.columns:
            self.tell("behind a row's last cell stands more than CR")

    def plain(self, word):
        """A control character, or a sequence without a number."""
        row, col = self.cursor
        if word == b"\r":
            self.cursor = (row, 0)
            return
        self.stay_inside()
        if word == b"\x08":
            self.move(1, b"D")
            return
        if self.pen and word != b"\x07":
            self.tell(f"{word!r} while the style {self.pen} stands")
        if word == b"\n":
            self.cursor = (counted_row(row + 1), col)
        elif word == b"\x1b[H":
            self.cursor, self.homed = (0, 0), True
        elif word in (b"\x1b[@", b"\x1b[P"):
            self.shift(1 if word == b"\x1b[@" else -1)
        elif word != b"\x07":
            self.erase(word)

    def shift(self, by):
        """Moves the rest of the cursor's row by so many cells: to the left over the cells that are taken out, or to the right,
        so that the last cell is lost."""
        row, col = self.cursor
        cells = self.row(row)
        start = col + max(-by, 0)
        if row < self.top or self.pen:
            self.tell("a row that moves among the lines above, or while a style stands")
        if cells.get(col) is self.INSIDE or cells.get(start) is self.INSIDE:
            self.tell("a row is parted inside a cluster")
        if start > self.columns or by > 0 and cells.get(self.columns - 1) is self.INSIDE:
            self.tell("a row that moves leaves the display, or is parted there inside a cluster")
        for held in [cells, *self.styles[row:row + 1]]:
            rest = {at + by: held[at] for at in held if at >= start and at + by < self.columns}
            for at in [at for at in held if at >= col]:
                del held[at]
            held.update(rest)

    def erase(self, word):
        row, col = self.cursor
        if self.homed and word == b"\x1b[J" and self.cursor == (0, 0):
            self.top = 0
        self.homed = False
        if row < self.top:
            self.tell("an erasure of the lines above")
        cells = self.row(row)
        if cells.get(col) is self.INSIDE:
            self.tell("an erasure inside a cluster")
        for held in [cells, *self.styles[row:row + 1]]:
            for at in [at for at in held if at >= col]:
                del held[at]
        if word == b"\x1b[J":
            del self.rows[row + 1:]
            del self.styles[row + 1:]
