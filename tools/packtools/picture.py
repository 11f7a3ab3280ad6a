"""A survey as one SVG: a row a cylinder, a square a sector, a colour a file. It names nothing outside itself."""
import html

from packtools.pack import CYLINDER, HEADS, TRACK
from packtools.survey import HINTS, KINDS

# pixels: from square to square, and a square's side
PITCH, CELL = 13, 12
HEAD_GAP, ROW_LABEL, BLOCK_GAP, MARGIN, LINE = 6, 26, 20, 16, 16
BLOCK = ROW_LABEL + CYLINDER * PITCH + HEAD_GAP
NARROWEST, HINTS_LEFT = 700, 330
# the most rows of a block, and blocks beside each other
ROWS, BESIDE = 52, 4
# of a character of the legend, at most
LETTER = 6.6
STYLE = """
text{font:11px sans-serif;fill:#222}
text.small{font-size:8px;fill:#888}
text.large{font-size:15px;font-weight:bold}
text.false{fill:#b00020}
g.file:hover rect{stroke:#000;stroke-width:2}
g.leaders,g.marks{pointer-events:none}
.mark{stroke:#fff;stroke-width:.7}
"""
# hatched and dotted squares, a white dot on leader pages, and marks that can be told apart on one square
DEFINITIONS = """
<pattern id="stray" width="4" height="4" patternUnits="userSpaceOnUse"><rect width="4" height="4" fill="#fff"/>\
<path d="M0,4L4,0" stroke="#d2691e" stroke-width="1.6"/></pattern>
<pattern id="lost" width="4" height="4" patternUnits="userSpaceOnUse"><rect width="4" height="4" fill="#e4d9f2"/>\
<circle cx="2" cy="2" r="1" fill="#6a3d9a"/></pattern>
<circle id="lead" cx="6" cy="6" r="1.8" fill="#fff"/>
<path id="next" class="mark" d="M7,2L12,6L7,10z"/>
<path id="previous" class="mark" d="M5,2L0,6L5,10z"/>
<circle id="entry" class="mark" cx="6" cy="3" r="2.8"/>
<path id="table" class="mark" d="M0,12L0,5.5L6.5,12z"/>
"""
FILLS = {"free": "#e9edf0", "boot": "#7d8790", "bad": "#111", "stray": "url(#stray)", "lost": "url(#lost)"}
NO_FILE, SOME_FILE, PALE = "#6a3d9a", "#4a7fb5", "#c9d1d8"


def colour_of(index):
    """A colour for each file: each hue is far from the ones before it."""
    return f"hsl({index * 137.508 % 360:.0f},{(70, 55, 85)[index % 3]}%,{(45, 62, 72)[index // 2 % 3]}%)"


def clean(text):
    """A text as XML can have it. What stands on a pack needs none of it: names have no such characters."""
    return html.escape("".join(it if it.isprintable() else "?" for it in text))


def text_at(x, y, text, kind=""):
    return f'<text x="{x:g}" y="{y:g}" class="{kind}">{text}</text>\n'


def used(name, corner):
    """One of the definitions, on the square at a corner."""
    return f'<use href="#{name}" x="{corner[0]:g}" y="{corner[1]:g}"/>\n'


def square(corner, kind, colour=None):
    """The attributes of a square. Without a colour it has that of its group."""
    x, y = corner
    if kind == "copy":
        return f'x="{x + 1.5:g}" y="{y + 1.5:g}" width="9" height="9" fill="#fff" stroke="{colour}" stroke-width="3"'
    if kind == "past":
        return f'x="{x + 2:g}" y="{y + 2:g}" width="8" height="8" fill="{colour}" stroke="{PALE}" stroke-width="4"'
    return f'x="{x:g}" y="{y:g}" width="{CELL}" height="{CELL}"' + (f' fill="{colour}"' if colour else "")


class Grid:
    """Where each sector stands: cylinders are rows, with both heads beside each other; long drives are several blocks of rows."""

    def __init__(self, pack, top):
        self.pack, self.top = pack, top
        blocks = -(-pack.cylinders // ROWS)
        self.rows = -(-pack.cylinders // blocks)
        self.block_height = self.rows * PITCH + 2 * LINE + BLOCK_GAP
        # with two drives each has a line above it
        self.line = LINE if pack.drives == 2 else 0
        self.drive_height = -(-blocks // BESIDE) * self.block_height + self.line
        self.bottom = top + pack.drives * self.drive_height
        self.width = 2 * MARGIN + min(blocks, BESIDE) * (BLOCK + BLOCK_GAP) - BLOCK_GAP
        self.columns = [ROW_LABEL + it * PITCH + it // TRACK * HEAD_GAP for it in range(CYLINDER)]

    def row(self, drive, cylinder):
        """The corner of a cylinder's row."""
        block, row = divmod(cylinder, self.rows)
        down, right = divmod(block, BESIDE)
        above = self.top + drive * self.drive_height + self.line + down * self.block_height
        return MARGIN + right * (BLOCK + BLOCK_GAP), above + 2 * LINE + row * PITCH

    def corners(self):
        """The corner of each sector's square, by rising address."""
        for drive in range(self.pack.drives):
            for cylinder in range(self.pack.cylinders):
                x, y = self.row(drive, cylinder)
                yield from ((x + column, y) for column in self.columns)

    def texts(self):
        """The numbers of cylinders, heads and sectors."""
        for drive in range(self.pack.drives):
            if self.line:
                yield text_at(MARGIN, self.top + drive * self.drive_height + CELL, f"drive {drive}")
            for cylinder in range(self.pack.cylinders):
                x, y = self.row(drive, cylinder)
                if cylinder % self.rows == 0:
                    yield from self.heading(x, y)
                yield text_at(x, y + CELL - 3, cylinder, "small")

    def heading(self, x, y):
        """What stands above the first row of a block."""
        for head in range(HEADS):
            yield text_at(x + self.columns[head * TRACK], y - LINE, f"head {head}")
        for at, column in enumerate(self.columns):
            yield text_at(x + column + 2, y - 4, at % TRACK, "small")


class Picture:
    """The parts of the SVG and where they stand: a heading, the grid, the legend of kinds and marks, and that of files."""

    def __init__(self, survey, title):
        self.survey, self.title = survey, title
        self.remarks = list(survey.remarks())
        self.grid = Grid(survey.pack, MARGIN + LINE * (2 + len(self.remarks)))
        self.corners = list(self.grid.corners())
        self.files = survey.listed()
        self.colours = {file.full_name: colour_of(index) for index, file in enumerate(self.files)}
        self.names = [self.legend_text(file) for file in self.files]
        self.width = max(self.grid.width, NARROWEST)
        self.name_width = 2 * MARGIN + LETTER * max(map(len, self.names), default=0)
        columns = max(1, int((self.width - MARGIN) // self.name_width))
        self.names_rows = -(-len(self.files) // columns)
        self.kinds_top = self.grid.bottom
        self.names_top = self.kinds_top + LINE * (len(KINDS) + 1)
        self.height = self.names_top + LINE * self.names_rows + MARGIN

    def legend_text(self, file):
        remark = file.remark()
        return f"{self.survey.path(file)} {file.length} bytes, {len(file.pages)} pages" + (f", {remark}" if remark else "")

    def drawn(self):
        """The SVG, piece by piece."""
        size = f'width="{self.width:g}" height="{self.height:g}"'
        yield f'<svg xmlns="http://www.w3.org/2000/svg" {size} viewBox="0 0 {self.width:g} {self.height:g}">\n'
        yield f'<style>{STYLE}</style>\n<defs>{DEFINITIONS}</defs>\n<rect width="100%" height="100%" fill="#fff"/>\n'
        yield text_at(MARGIN, MARGIN + LINE, clean(self.title), "large")
        for row, remark in enumerate(self.remarks, 2):
            yield text_at(MARGIN, MARGIN + LINE * row, remark, "false" if remark.startswith("false") else "remark")
        yield from self.grid.texts()
        yield from self.without_file()
        for index, file in enumerate(self.files):
            yield from self.file_group(index, file)
        yield from self.overlay()
        yield from self.kinds_legend()
        yield from self.marks_legend()
        yield "</svg>\n"

    def sector(self, at, kind, colour=None):
        """A sector's square with its hover text."""
        attributes = square(self.corners[at], kind, colour)
        return f'<rect id="s{at}" class="{kind}" {attributes}><title>{self.survey.hover(at)}</title></rect>\n'

    def without_file(self):
        """The sectors that no file uses, a group a kind. Second copies and pages after the end have their file's colour."""
        by_kind = {kind: [] for kind in KINDS}
        for at, kind in enumerate(self.survey.kinds):
            by_kind[kind].append(at)
        for kind in [*FILLS, "copy", "past"]:
            yield f'<g fill="{FILLS.get(kind, PALE)}">\n'
            for at in by_kind[kind]:
                label = self.survey.pack.labels[at]
                yield self.sector(at, kind, None if kind in FILLS else self.colours.get(label.file, NO_FILE))
            yield "</g>\n"

    def file_group(self, index, file):
        """The pages of a file and its line of the legend, which are outlined together."""
        right, down = divmod(index, self.names_rows)
        corner = MARGIN + right * self.name_width, self.names_top + down * LINE
        yield f'<g class="file" fill="{self.colours[file.full_name]}">\n'
        yield from (self.sector(at, self.survey.kinds[at]) for at in file.pages)
        yield f"<rect {square(corner, 'key')}/>" + text_at(corner[0] + MARGIN + 2, corner[1] + CELL - 2, self.names[index], "name")
        yield "</g>\n"

    def overlay(self):
        """The dots of leader pages, and the marks of false hints."""
        yield '<g class="leaders">\n'
        yield from (used("lead", self.corners[at]) for at, kind in enumerate(self.survey.kinds) if kind == "leader")
        yield '</g>\n<g class="marks">\n'
        for at, hints in sorted(self.survey.false.items()):
            yield from (used(hint, self.corners[at]) for hint in dict.fromkeys(hint for hint, _ in hints))
        yield "</g>\n"

    def kinds_legend(self):
        """A line a kind of sectors, with their number."""
        counts = self.survey.counts()
        for row, (kind, text) in enumerate(KINDS.items()):
            corner = MARGIN, self.kinds_top + row * LINE
            yield f"<rect {square(corner, kind, FILLS.get(kind, SOME_FILE))}/>\n"
            if kind == "leader":
                yield used("lead", corner)
            yield text_at(corner[0] + MARGIN + 2, corner[1] + CELL - 2, f"{text}: {counts[kind]}", f"kind {kind}")

    def marks_legend(self):
        """A line a sort of hints, with the number of false ones."""
        counts = self.survey.false_counts()
        yield text_at(HINTS_LEFT, self.kinds_top + CELL - 2, "false hints:")
        for row, (hint, text) in enumerate(HINTS.items(), 1):
            corner = HINTS_LEFT, self.kinds_top + row * LINE
            yield f"<rect {square(corner, hint, PALE)}/>\n" + used(hint, corner)
            yield text_at(corner[0] + MARGIN + 2, corner[1] + CELL - 2, f"{text}: {counts[hint]}", f"hint {hint}")
