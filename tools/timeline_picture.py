"""The picture of a story: a column for each session, time downwards, a box for each statement, a mark for each step."""
from html import escape

LEFT, GAP, MARGIN, BAND = 40, 22, 14, 7
LINE, STEP, PAD, CHAR = 16, 20, 7, 7.3
LEAST_CHARS, MOST_CHARS = 24, 52
COLOURS = {"snapped": "#2b6cb0", "found": "#718096", "placed": "#718096", "claimed": "#6b46c1", "locked": "#6b46c1",
           "withdrawn": "#b7791f", "inserted": "#276749", "updated": "#276749", "deleted": "#276749", "passed": "#718096",
           "picked": "#276749", "waits": "#c05621", "committed": "#1a365d", "rolled back": "#9b2c2c", "failed": "#9b2c2c"}
STYLE = """
svg { background: #ffffff; font-family: "DejaVu Sans", Verdana, Arial, sans-serif; font-size: 12px; fill: #1a202c; }
.text, .answer, .value { font-family: "DejaVu Sans Mono", Menlo, Consolas, monospace; }
.text { font-weight: bold; } .answer { fill: #276749; } .error { fill: #9b2c2c; } .value { fill: #1a202c; }
.name { font-size: 15px; font-weight: bold; } .label { fill: #4a5568; } .number { fill: #a0aec0; font-size: 10px; }
.box { fill: #ffffff; stroke: #a0aec0; } .block { fill: #ebf4ff; } .failed-block { fill: #fdecea; }
.life { stroke: #cbd5e0; } .wait { stroke: #c05621; stroke-width: 2; stroke-dasharray: 5 4; fill: none; }
.committed { fill: #2b6cb0; } .taken-back { fill: url(#taken-back); stroke: #9b2c2c; } .heading { font-weight: bold; }
.cell { fill: #ffffff; stroke: #cbd5e0; }
"""
HATCH = ('<defs><pattern id="taken-back" width="6" height="6" patternUnits="userSpaceOnUse" patternTransform="rotate(45)">'
         '<rect width="6" height="6" fill="#fed7d7"/><rect width="3" height="6" fill="#c53030"/></pattern></defs>')


def wrapped(text, width):
    """A text in lines of at most this many characters, cut at white space where there is any."""
    lines = []
    while len(text) > width:
        cut = text.rfind(" ", width // 2, width + 1)
        cut = width if cut < 0 else cut
        lines.append(text[:cut])
        text = "  " + text[cut:].lstrip(" ")
    return [*lines, text]


def words(kind, x, y, text, more=""):
    return f'<text class="{kind}" x="{x:g}" y="{y:g}"{more} xml:space="preserve">{escape(text)}</text>'


class Picture:
    """The picture of a story as the text of an SVG. Each mark is a group `entry`, numbered by its entry."""

    def __init__(self, story, title):
        self.story, self.title = story, title
        texts = [line for moment in story.moments if moment.statement for line in
                 [moment.statement.text, *(answer_lines(moment) if moment.is_last else [])]]
        self.chars = min(MOST_CHARS, max([LEAST_CHARS, *map(len, texts)]))
        self.width = self.chars * CHAR + 2 * PAD + BAND + 6
        self.tops, self.bottoms, self.back, self.front = [], [], [], []
        self.y = MARGIN + 26
        self.columns = {name: LEFT + place * (self.width + GAP) for place, name in enumerate(story.script.sessions)}
        for place, moment in enumerate(story.moments):
            self.place_moment(place, moment)
        self.end = self.y
        self.draw_columns()
        self.draw_statements()
        self.draw_waits()
        self.y += 2 * GAP
        self.right = max([LEFT + 200, *(x + self.width for x in self.columns.values())])
        self.draw_tables()

    def place_moment(self, place, moment):
        """Gives an entry its place on the time axis, and draws its mark."""
        if moment.is_first:
            self.y += 8
            lines = wrapped(moment.statement.text, self.chars)
            head = self.y
            self.y += PAD + LINE * len(lines)
        self.tops.append(head if moment.is_first else self.y)
        x = self.columns[moment.entry.session] + BAND + 6
        drawn = [words("text", x + PAD, head + 14 + LINE * at, line) for at, line in enumerate(lines)] if moment.is_first else []
        middle = self.y + STEP / 2
        drawn.append(words("number", MARGIN + 14, middle + 4, str(place + 1), ' text-anchor="end"'))
        if moment.is_last:
            lines = [part for line in answer_lines(moment) for part in wrapped(line, self.chars)]
            kind = "answer" if moment.answer.state is None else "answer error"
            drawn += [words(kind, x + PAD, self.y + 14 + LINE * at, line) for at, line in enumerate(lines)]
            self.y += PAD + LINE * len(lines)
        else:
            drawn += self.mark(x + PAD + 5, middle, moment)
            self.y += STEP
        self.bottoms.append(self.y)
        self.front.append(f'<g class="entry" data-entry="{place}"><title>{escape(meaning(moment))}</title>{"".join(drawn)}</g>')

    def mark(self, x, y, moment):
        """The mark of a step with its label."""
        colour = COLOURS.get(moment.act, "#718096")
        shape = f'<circle cx="{x:g}" cy="{y:g}" r="4.5" fill="{colour}"/>'
        if moment.act in ("committed", "rolled back"):
            shape = f'<rect x="{x - 5:g}" y="{y - 5:g}" width="10" height="10" fill="{colour}"/>'
        elif moment.act in ("inserted", "updated", "deleted", "picked"):
            shape = f'<path d="M{x - 6:g} {y:g} l6 -6 l6 6 l-6 6 z" fill="{colour}"/>'
        elif moment.act in ("found", "passed", "placed", "closed"):
            shape = f'<circle cx="{x:g}" cy="{y:g}" r="4" fill="#ffffff" stroke="{colour}" stroke-width="2"/>'
        return [shape, words("label", x + 13, y + 4, moment.label)]

    def draw_columns(self):
        """The names, the lines of the sessions' lives, their blocks and their transactions."""
        for name, x in self.columns.items():
            middle = x + BAND / 2
            self.back.append(words("name", x + BAND + 6, MARGIN + 14, name))
            self.back.append(f'<line class="life" x1="{middle:g}" y1="{MARGIN + 20}" x2="{middle:g}" y2="{self.end}"/>')
        for block in self.story.blocks:
            self.draw_block(block)
        for transaction in self.story.transactions:
            x, top, bottom = self.columns[transaction.session], self.bottoms[transaction.first] - STEP, self.bottoms[transaction.last]
            kind, ends = ("committed", "commits") if transaction.has_committed else ("taken-back", "is taken back")
            self.back.append(f'<rect class="{kind}" x="{x:g}" y="{top:g}" width="{BAND}" height="{bottom - top:g}" rx="2">'
                             f"<title>A transaction of {escape(transaction.session)}, which {ends}.</title></rect>")

    def draw_block(self, block):
        last = len(self.bottoms) - 1 if block.last is None else block.last
        parts = [("block", block.first, last)]
        if block.failed is not None:
            parts = [("block", block.first, block.failed), ("failed-block", block.failed, last)]
        for kind, first, end in parts:
            x, bottom = self.columns[block.session] + BAND + 1, self.bottoms[end] + 4
            top = self.tops[first] - 4 if kind == "block" else self.bottoms[first] + 4
            told = "From BEGIN to its end" if kind == "block" else "The block has failed, and waits for its end"
            self.back.append(f'<rect class="{kind}" x="{x:g}" y="{top:g}" width="{self.width - BAND + 4:g}" height="{max(0, bottom - top):g}" rx="4">'
                             f"<title>{told}.</title></rect>")

    def draw_statements(self):
        begun = {}
        for place, moment in enumerate(self.story.moments):
            session = moment.entry.session
            if moment.is_first:
                begun[session] = place
            if session in begun and (moment.is_last or moment.act in ("closed", "cut")):
                x, top = self.columns[session] + BAND + 6, self.tops[begun.pop(session)]
                self.back.append(f'<rect class="box" x="{x:g}" y="{top:g}" width="{self.width - BAND - 6:g}" '
                                 f'height="{self.bottoms[place] - top:g}" rx="4"/>')

    def draw_waits(self):
        """Each wait: a dashed line to the column of the session waited for, and one down to where the wait ends."""
        for place, moment in enumerate(self.story.moments):
            if moment.act != "waits" or moment.words[0] not in self.columns:
                continue
            later = [at for at in range(place + 1, len(self.story.moments)) if self.story.moments[at].entry.session == moment.entry.session]
            x, y = self.columns[moment.entry.session] + BAND + 6 + PAD + 5, self.bottoms[place] - STEP / 2
            bottom = self.bottoms[later[0]] - STEP / 2 if later else self.end
            other = self.columns[moment.words[0]]
            to = other + self.width if other < x else other
            down = f'<path class="wait" d="M{x:g} {y + 6:g} V{bottom - 8:g}"/>'
            edge = self.columns[moment.entry.session] + (BAND + 4 if other < x else self.width + 2)
            across = f'<path class="wait" d="M{edge:g} {y:g} H{to:g}"/><circle cx="{to:g}" cy="{y:g}" r="3.5" fill="#c05621"/>'
            told = f"{moment.entry.session} waits for {moment.words[0]}, from here to where the dashed line ends."
            self.front.append(f'<g class="entry" data-entry="{place}"><title>{escape(told)}</title>{down}{across}</g>')

    def draw_tables(self):
        """The tables at the end, one beside the other as far as there is room."""
        x, bottom = LEFT, self.y
        for table in self.story.tables:
            width = max([len(table.name) + 8, *(len(row) + 2 for row in table.rows)]) * CHAR + 2 * PAD
            if x > LEFT and x + width > self.right:
                x, self.y = LEFT, bottom + GAP
            self.front.append(words("heading", x, self.y, f"table {table.name} at the end"))
            y = self.y + 6
            for row in table.rows or ["(no row)"]:
                self.front.append(f'<rect class="cell" x="{x:g}" y="{y:g}" width="{width:g}" height="{LINE + 6}"/>')
                self.front.append(words("value", x + PAD, y + 15, row))
                y += LINE + 6
            bottom = max(bottom, y)
            x += max(width, (len(table.name) + 15) * CHAR) + GAP
            self.right = max(self.right, x - GAP)
        self.y = bottom

    @property
    def width_of_all(self):
        return self.right + MARGIN

    def svg(self):
        width, height = self.width_of_all, self.y + MARGIN
        return (f'<svg xmlns="http://www.w3.org/2000/svg" viewBox="0 0 {width:g} {height:g}" width="{width:g}" height="{height:g}" '
                f'role="img"><title>{escape(self.title)}</title><style>{STYLE}</style>{HATCH}'
                + "\n".join([f'<rect width="{width:g}" height="{height:g}" fill="#ffffff"/>', *self.back, *self.front]) + "</svg>\n")


def answer_lines(moment):
    """What a statement was answered, as the picture shows it."""
    return moment.answer.lines()


def meaning(moment):
    """What an entry means, for who points at it; its line of the journal stands behind."""
    return f"{moment.meaning}\n{moment.entry.line}"
