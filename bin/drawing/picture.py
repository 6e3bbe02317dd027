"""Makes an SVG of a transcript: a column for each provider, a row for each round, bands for what stands between rounds,
and at the foot what became of each message and what the marks mean."""

from xml.sax.saxutils import escape

import transcript
import words

MARGIN, GUTTER, INDENT = 16, 68, 14
LEAST_COLUMN, LEAST_WIDTH = 362, 838
STEP, WIDE = 16, 7.25  # the height of a row of text and the width of a character
WHITE, SHADE, PALE = "#ffffff", "#f3f6f9", "#afb8c1"
STYLE = (
    "text{font:12px ui-monospace,'DejaVu Sans Mono',Menlo,Consolas,'Liberation Mono',monospace;fill:#1f2328}"
    ".v{font-weight:bold}.n{fill:#57606a}.h{font-weight:bold;font-size:13px}"
)
ARROWS = {
    "came": ("", "all came in the next round"),
    "unsure": ("7 4", "some came, or it can't be told"),
    "lost": ("", "none came: they are lost"),
    "wait": ("2 4", "they wait, or no round follows"),
}


def wrapped(text, count):
    """Rows of at most so many characters, cut behind spaces where there are any; joined they are the text."""
    rows = []
    while len(text) > count:
        cut = text.rfind(" ", 1, count) + 1 or count
        rows.append(text[:cut])
        text = text[cut:]
    return rows + [text]


def path(shape, x, y):
    """The outline of a mark of some ten pixels, and whether it is filled."""
    round_ = f"M{x - 5:g} {y:g}a5 5 0 1 0 10 0a5 5 0 1 0 -10 0z"
    return {
        "dot": (round_, True),
        "ring": (round_, False),
        "clock": (round_ + f"M{x:g} {y - 3:g}v3h3", False),
        "square": (f"M{x - 4.5:g} {y - 4.5:g}h9v9h-9z", True),
        "diamond": (f"M{x:g} {y - 6:g}l6 6l-6 6l-6 -6z", True),
        "lozenge": (f"M{x:g} {y - 5:g}l5 5l-5 5l-5 -5zM{x - 2:g} {y - 2:g}l4 4", False),
        "triangle": (f"M{x:g} {y - 5:g}l5.5 10h-11z", True),
        "play": (f"M{x - 4:g} {y - 5.5:g}l10 5.5l-10 5.5z", True),
        "flag": (f"M{x - 4:g} {y + 6:g}v-12h10l-3 3.5l3 3.5h-10", True),
        "struck": (f"M{x - 4:g} {y + 6:g}v-12h10l-3 3.5l3 3.5h-10", False),
        "cross": (f"M{x - 4:g} {y - 4:g}l8 8m0 -8l-8 8", False),
        "bars": (f"M{x - 2.5:g} {y - 4.5:g}v9m5 -9v9", False),
        "again": (f"M{x + 3.5:g} {y - 2.5:g}a4.5 4.5 0 1 0 1 3.5m-1 -7v3.5h-3.5", False),
        "pages": (f"M{x - 4.5:g} {y - 3.5:g}h9m-9 3.5h9m-9 3.5h6", False),
        "dash": (f"M{x - 2:g} {y:g}h4", False),
    }[shape]


def mark_of(line):
    """The shape and the colour of a line's mark, and its words; a refusal of a recipient has its own."""
    if line.key in ("decided", "learned") and line.said["DECISION"] != "delivered":
        return words.REFUSALS[line.key]
    return line.form.mark()


class Picture:
    def __init__(self, read):
        self.read = read
        self.names = read.providers()
        self.under, self.over, self.ground = [], [], WHITE
        longest = max((len(one.text) for one in read.lines if one.key == "sent" and one.form.is_turn), default=0)
        wide = max([LEAST_COLUMN, longest * WIDE + 30] + [len(one) * 8 + 40 for one in self.names])
        front = MARGIN + GUTTER + INDENT
        self.width = max(LEAST_WIDTH, front + len(self.names) * wide + MARGIN)
        self.wide = (self.width - front - MARGIN) / max(1, len(self.names))
        self.lives = {name: front + place * self.wide for place, name in enumerate(self.names)}
        self.y = MARGIN

    def whole(self):
        """The text of the SVG."""
        self.header()
        rounds = 0
        for block in self.read.blocks:
            if isinstance(block, transcript.Round):
                rounds += 1
                self.round(block, rounds)
            else:
                self.band(block)
        self.foot()
        size = f'width="{self.width:g}" height="{self.y:g}" viewBox="0 0 {self.width:g} {self.y:g}"'
        front = f'<svg xmlns="http://www.w3.org/2000/svg" {size} role="img">\n<title>A run of pec</title>\n'
        back = f'<style>{STYLE}</style>\n<rect width="{self.width:g}" height="{self.y:g}" fill="{WHITE}"/>\n'
        return front + back + "\n".join(self.under + self.over) + "\n</svg>\n"

    # Pieces.

    def box(self, x, y, width, height, fill, line="none"):
        self.under.append(
            f'<rect x="{x:g}" y="{y:g}" width="{width:g}" height="{height:g}" rx="4" fill="{fill}" stroke="{line}"/>'
        )

    def stroke(self, outline, colour, dashes="", width=2, filled=False):
        dashes = f' stroke-dasharray="{dashes}"' if dashes else ""
        fill = colour if filled else "none"
        self.over.append(f'<path d="{outline}" fill="{fill}" stroke="{colour}" stroke-width="{width}"{dashes}/>')

    def mark(self, shape, colour, x, y):
        outline, filled = path(shape, x, y)
        if not filled:
            # what passes below doesn't show through
            self.over.append(f'<circle cx="{x:g}" cy="{y:g}" r="6.5" fill="{self.ground}"/>')
        self.stroke(outline, colour, filled=filled)

    def text(self, x, y, text, style=""):
        style = f' class="{style}"' if style else ""
        self.over.append(f'<text x="{x:g}" y="{y:g}"{style}>{escape(text)}</text>')

    def rows_of(self, line, room):
        return wrapped(line.text, int(room / WIDE))

    def line(self, line, x, y, rows):
        """A line of the transcript: its rows in one text, the words of its form bold, the provider's name lighter."""
        pieces, behind = [], ""
        styles = [self.style(word, line) for word in line.form.words]
        for place, row in enumerate(rows):
            pieces.append(f'<tspan x="{x:g}" y="{y + place * STEP:g}">')
            for piece in row.split(" "):
                style = styles[behind.count(" ")]
                shown = escape(piece)
                pieces.append(f'<tspan class="{style}">{shown}</tspan>' if style and piece else shown)
                pieces.append(" ")
                behind += piece + " "
            pieces.pop()
            behind = behind[:-1]
            pieces.append("</tspan>")
        self.over.append(f'<text class="line">{"".join(pieces)}</text>')

    @staticmethod
    def style(word, line):
        if word == "NAME" and line.form.is_turn:
            return "n"
        return "v" if not word.isupper() or word in ("DECISION", "CAUSE") else ""

    # Blocks.

    def header(self):
        for name, x in self.lives.items():
            self.box(x - 9, self.y, len(name) * 8 + 18, 24, "#eaeef2", PALE)
            self.text(x, self.y + 16.5, name, "h")
        if self.names:
            self.y += 24

    def lifelines(self, top, bottom, down=()):
        for name, x in self.lives.items():
            dashes = ' stroke-dasharray="2 4"' if name in down else ""
            self.under.append(f'<path d="M{x:g} {top:g}V{bottom:g}" stroke="{PALE}" stroke-width="2"{dashes}/>')

    def gap(self):
        self.lifelines(self.y, self.y + 8)
        self.y += 8

    def round(self, block, number):
        self.gap()
        top, room = self.y, self.wide - 26
        rows = {line.number: self.rows_of(line, room) for turn in block.turns.values() for line in turn.events}
        tall = max((sum(len(rows[one.number]) for one in turn.events) for turn in block.turns.values()), default=0)
        foot = top + 6 + tall * STEP
        bottom = max(top + 26, foot + 24 * len(transcript.sent_in(block)) + 6)
        self.box(MARGIN, top, self.width - 2 * MARGIN, bottom - top, SHADE)
        self.ground = SHADE
        self.lifelines(top, bottom, [name for name, turn in block.turns.items() if turn.ended() == "down"])
        for name, turn in block.turns.items():
            x, y = self.lives[name], top + 6
            for line in turn.events:
                self.mark(*mark_of(line)[:2], x, y + 8)
                self.line(line, x + 13, y + 12, rows[line.number])
                y += STEP * len(rows[line.number])
            for sent in turn.sent:
                self.sent(sent, foot)
                foot += 24
        if block.end:
            self.line(block.end, MARGIN + 8, top + 18, [block.end.text])
            self.text(MARGIN + 8 + 6 * WIDE, top + 18, str(number), "n")
        self.y = bottom

    def sent(self, sent, top):
        """An arrow to the lifeline of the provider to which frames were sent, below what it says."""
        start, end, y = self.lives[sent.line.said["NAME"]], self.lives[sent.line.said["TO"]], top + 18
        self.line(sent.line, start + 13, top + 12, [sent.line.text])
        self.arrow(start, end, y, sent.fate)

    def arrow(self, start, end, y, fate):
        dashes, _ = ARROWS[fate]
        colour = words.RED if fate == "lost" else words.BLUE
        if start == end:
            outline, end, ahead = f"M{start:g} {y - 9:g}h-12v9h6", start - 6, 1
        else:
            ahead = 1 if end > start else -1
            end = end - 6 * ahead if fate != "lost" else end - (end - start) / 6
            outline = f"M{start:g} {y:g}H{end:g}"
        self.stroke(outline, colour, dashes, 1.5)
        if fate == "lost":
            self.stroke(path("cross", end, y)[0], colour)
        else:
            head = f"M{end:g} {y - 4:g}l{6 * ahead} 4l{-6 * ahead} 4z"
            self.stroke(head, colour, width=1, filled=fate == "came")

    def band(self, block):
        self.gap()
        left = MARGIN + GUTTER
        room = self.width - MARGIN - left - 36
        rows = [self.rows_of(line, room) if line.form.words != ("BASE64",) else [""] for line in block.lines]
        tall = sum(map(len, rows)) * STEP + 10
        self.box(left, self.y, self.width - MARGIN - left, tall, WHITE, PALE)
        self.ground = WHITE
        y = self.y + 5
        for line, own in zip(block.lines, rows):
            self.mark(*mark_of(line)[:2], left + INDENT, y + 8)
            if own == [""]:
                self.cut_line(line, left + INDENT + 13, y, room)
            else:
                self.line(line, left + INDENT + 13, y + 12, own)
            y += STEP * len(own)
        self.y += tall

    def cut_line(self, line, x, y, room):
        """A line of any length, of which the front is seen."""
        said = f"{len(line.text):,} characters:"
        self.text(x, y + 12, said, "n")
        x += (len(said) + 1) * WIDE
        self.over.append(f'<svg x="{x:g}" y="{y:g}" width="{room - (len(said) + 1) * WIDE:g}" height="{STEP}">')
        self.line(line, 0, 12, [line.text])
        self.over.append("</svg>")

    # The foot.

    def foot(self):
        self.ground = WHITE
        if not self.read.lines:
            self.text(MARGIN, self.y + 12, "The run wrote nothing.")
            self.y += 12
        told = list(transcript.fates(self.read.lines))
        if told:
            self.title("What became of each message")
        for name, shape, colour, said in told:
            rows = wrapped(f"{name}: {said}", int((self.width - 2 * MARGIN - 30) / WIDE))
            self.mark(shape, colour, MARGIN + INDENT, self.y + 8)
            for row in rows:
                self.text(MARGIN + INDENT + 14, self.y + 12, row)
                self.y += STEP
        self.legend()
        self.y += MARGIN

    def title(self, text):
        self.y += 14
        self.text(MARGIN + 8, self.y + 12, text, "h")
        self.y += 20

    def legend(self):
        """The marks of this picture and what they mean, in the groups of bin/help, in two columns."""
        rows = list(self.legend_rows())
        titles = [place for place, (mark, _) in enumerate(rows) if mark is None] + [len(rows)]
        half = min(titles, key=lambda place: max(place, len(rows) - place))
        self.y += 14 if rows else 0
        for left, own in ((MARGIN + INDENT, rows[:half]), (self.width / 2, rows[half:])):
            for place, (mark, said) in enumerate(own):
                y = self.y + place * STEP
                if mark is None:
                    self.text(left - 6, y + 12, said, "n")
                elif mark[0] == "arrow":
                    self.arrow(left - 6, left + 22, y + 8, mark[1])
                    self.text(left + 28, y + 12, said)
                else:
                    self.mark(*mark, left, y + 8)
                    self.text(left + 14, y + 12, said)
        self.y += max(half, len(rows) - half) * STEP

    def legend_rows(self):
        """Titles of groups, each without a mark, and marks with their words."""
        found = {}
        for line in self.read.lines:
            shape, colour, said = mark_of(line)
            if said:
                found.setdefault(line.form, set()).add(((shape, colour), f"{line.key or 'base64'}: {said}"))
        for block in self.read.blocks:
            for one in transcript.sent_in(block):
                found.setdefault(one.line.form, set()).add((("arrow", one.fate), f"sent: {ARROWS[one.fate][1]}"))
        group, shown = None, set()
        for form in words.FORMS:
            for row in sorted(found.get(form, set()) - shown):
                if form.group != group:
                    group = form.group
                    yield None, group
                shown.add(row)
                yield row
