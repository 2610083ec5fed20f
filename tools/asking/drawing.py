"""The picture as an SVG file. Each cell says its number, place, weight and cost when pointed at. Nothing hides a weight: digits lie on top."""
from html import escape

from asking.terminal import fault_name

LEAST_SIZE, GREATEST_SIZE, WHOLE = 15, 56, 960
LEFT, TOP = 34, 18
LEAST_WIDTH = 660
LINE = 20

FLOOR = {
    0: "#3d4550", 1: "#f7f6f2", 2: "#fdeec2", 3: "#fde2a0", 4: "#fbd07f", 5: "#f8ba63",
    6: "#f3a04e", 7: "#ec833f", 8: "#e06434", 9: "#cf4429",
}
# From pale to deep, by cost.
NEAR, FAR = (168, 205, 236), (18, 62, 130)
ROUTE, START, GOAL, WRONG, INK = "#1f7a3a", "#1d4ed8", "#7e22ce", "#c81e1e", "#4a3b22"
ENDS = {"S": START, "G": GOAL, "!": WRONG}
# Letters in the middle of a height; not every viewer knows baselines.
MIDDLE = 'dy=".35em"'
# a route's line
JOINED = 'fill="none" stroke-linejoin="round" stroke-linecap="round" pointer-events="none"'

STYLE = (
    "text{font-family:'DejaVu Sans',Verdana,Arial,sans-serif;fill:#222}"
    ".cell{stroke:#d8d4c8;stroke-width:.5}"
    ".weight{fill:" + INK + ";text-anchor:middle;pointer-events:none}"
    ".light{fill:#fff}"
    ".halo{fill:#fff;stroke:#fff;stroke-width:3;stroke-linejoin:round}"
    ".settled{pointer-events:none}"
    ".end{fill:#fff;font-weight:bold;text-anchor:middle;pointer-events:none}"
    ".scale{fill:#777;font-size:10px}"
)


def size_of(floor):
    return max(LEAST_SIZE, min(GREATEST_SIZE, WHOLE // max(floor.width, floor.height)))


def shade(part):
    """Between pale and deep blue."""
    return "#" + "".join(f"{round(near + (far - near) * part):02x}" for near, far in zip(NEAR, FAR))


class Drawing:
    def __init__(self, view, headline):
        self.view = view
        self.headline = headline
        self.size = size_of(view.floor)
        self.top = TOP + LINE * len(headline) + 12
        self.parts = []
        # the cells that the route's line lies on
        self.crossed = set(view.route_cells)

    def add(self, part):
        self.parts.append(part)

    def centre(self, number):
        width = self.view.floor.width
        x, y = number % width, number // width
        return LEFT + (x + 0.5) * self.size, self.top + (y + 0.5) * self.size

    def hint(self, cell):
        weight = "blocked" if cell.weight == 0 else f"weight {cell.weight}"
        cost = "" if cell.cost is None else f", cost {cell.cost}"
        return f"({cell.x},{cell.y}) cell {cell.number}: {weight}{cost}"

    def add_cell(self, cell):
        x, y, size = LEFT + cell.x * self.size, self.top + cell.y * self.size, self.size
        self.add(
            f'<rect class="cell" x="{x}" y="{y}" width="{size}" height="{size}" fill="{FLOOR[cell.weight]}">'
            f"<title>{self.hint(cell)}</title></rect>"
        )

    def add_settled(self, cell):
        x, y = self.centre(cell.number)
        part = cell.cost / self.view.dearest if self.view.dearest else 0
        radius = self.size * 0.27
        if cell.weight > 1:
            # on warm floor the dot stands aside, in the corner that the digit leaves free
            radius = self.size * 0.12
            x, y = x - self.size * 0.34, y - self.size * 0.34
        self.add(f'<circle class="settled" cx="{x:g}" cy="{y:g}" r="{radius:.2f}" fill="{shade(part)}"/>')

    def add_weight(self, cell):
        """The digit; where a line or a letter lies under it, with a pale edge and in the corner."""
        x, y = self.centre(cell.number)
        aside = self.size * (0.26 if cell.mark in ("start", "goal", "both", "fault") else 0.1)
        height = self.size * 0.5
        place = f'x="{x + aside:g}" y="{y + aside:g}" {MIDDLE} font-size="{height:.1f}"'
        crossed = cell.mark is not None or cell.number in self.crossed
        if crossed:
            self.add(f'<text class="weight halo" {place}>{cell.weight}</text>')
        light = " light" if cell.weight >= 8 and not crossed else ""
        self.add(f'<text class="weight{light}" {place}>{cell.weight}</text>')

    def add_floor(self):
        cells = self.cells()
        for cell in cells:
            self.add_cell(cell)
        for cell in cells:
            if cell.cost is not None:
                self.add_settled(cell)

    def add_weights(self):
        for cell in self.cells():
            if cell.weight > 1:
                self.add_weight(cell)

    def cells(self):
        return [cell for row in self.view.rows() for cell in row]

    def step_of_scale(self):
        """How many cells lie between two numbers at the edge."""
        return 5 if max(self.view.floor.width, self.view.floor.height) > 10 else 1

    def add_scale(self):
        floor, size, step = self.view.floor, self.size, self.step_of_scale()
        for x in range(0, floor.width, step):
            self.add(f'<text class="scale" x="{LEFT + (x + 0.5) * size:g}" y="{self.top - 5}" text-anchor="middle">{x}</text>')
        for y in range(0, floor.height, step):
            middle = self.top + (y + 0.5) * size
            self.add(f'<text class="scale" x="{LEFT - 6}" y="{middle:g}" {MIDDLE} text-anchor="end">{y}</text>')

    def add_route(self):
        if not self.view.route_cells:
            return
        points = " ".join("{:g},{:g}".format(*self.centre(cell)) for cell in self.view.route_cells)
        line = min(self.size * 0.24, 6)
        # a pale edge keeps the line apart from the dots and from warm floor
        self.add(f'<polyline class="edge" points="{points}" {JOINED} stroke="#ffffff" stroke-width="{line * 1.7:.1f}"/>')
        self.add(f'<polyline class="route" points="{points}" {JOINED} stroke="{ROUTE}" stroke-width="{line:.1f}"/>')

    def add_end(self, x, y, radius, letter, colour):
        self.add(f'<circle class="{letter}" cx="{x:g}" cy="{y:g}" r="{radius:.1f}" fill="{colour}" stroke="#fff" pointer-events="none"/>')
        self.add(f'<text class="end" x="{x:g}" y="{y:g}" {MIDDLE} font-size="{radius * 1.3:.1f}">{letter}</text>')

    def add_ends(self):
        """The ends side by side where they are one cell."""
        view, marks = self.view, self.view.marks()
        radius = min(max(self.size * 0.45, 8), 14)
        if "both" in marks:
            x, y = self.centre(view.start)
            self.add_end(x + radius * 0.6, y, radius * 0.7, "G", GOAL)
            self.add_end(x - radius * 0.6, y, radius * 0.7, "S", START)
        for mark, number, letter in (("goal", view.goal, "G"), ("start", view.start, "S"), ("fault", view.fault, "!")):
            if mark in marks:
                self.add_end(*self.centre(number), radius, letter, ENDS[letter])

    def add_headline(self):
        for place, line in enumerate(self.headline):
            weight = "bold" if place == 0 else "normal"
            self.add(f'<text x="{LEFT}" y="{TOP + LINE * place + 6}" font-size="14" font-weight="{weight}">{escape(line, quote=False)}</text>')

    def swatch(self, x, y, colour, words):
        self.add(f'<rect class="key" x="{x}" y="{y - 11}" width="14" height="14" fill="{colour}" stroke="#999" stroke-width=".5"/>')
        self.add(f'<text x="{x + 20}" y="{y}" font-size="12">{escape(words, quote=False)}</text>')

    def add_floor_key(self, y):
        weights = ([1] if self.view.has(1) else []) + self.view.weights()
        keys = [(FLOOR[weight], str(weight) if place else f"weight {weight}") for place, weight in enumerate(weights)]
        if self.view.has(0):
            keys.append((FLOOR[0], "blocked"))
        x = LEFT
        for colour, words in keys:
            self.swatch(x, y, colour, words)
            x += 34 + 8 * len(words)

    def add_marks_key(self, y):
        marks, x = self.view.marks(), LEFT
        letters = [letter for letter, mark in (("S", "start"), ("G", "goal"), ("!", "fault")) if mark in marks or (mark != "fault" and "both" in marks)]
        for letter in letters:
            words = {"S": "start", "G": "goal", "!": fault_name(self.view)}[letter]
            self.add_end(x + 7, y - 4, 8, letter, ENDS[letter])
            self.add(f'<text x="{x + 20}" y="{y}" font-size="12">{words}</text>')
            x += 34 + 7 * len(words)
        if self.view.route_cells:
            self.add(f'<line x1="{x}" y1="{y - 4}" x2="{x + 28}" y2="{y - 4}" stroke="{ROUTE}" stroke-width="4"/>')
            self.add(f'<text x="{x + 36}" y="{y}" font-size="12">route</text>')

    def add_settled_key(self, y):
        shades = 5 if self.view.dearest else 1
        for place in range(shades):
            self.add(f'<circle class="key" cx="{LEFT + 7 + 16 * place}" cy="{y - 4}" r="6" fill="{shade(place / 4)}"/>')
        words = self.view.settled_name + (f", from cost 0 to cost {self.view.dearest}" if self.view.dearest else ", at cost 0")
        self.add(f'<text x="{LEFT + 12 + 16 * shades}" y="{y}" font-size="12">{words}</text>')

    def add_key(self):
        y = self.top + self.view.floor.height * self.size + 28
        self.add_floor_key(y)
        self.add_marks_key(y + 24)
        if self.view.settled:
            self.add_settled_key(y + 48)

    def text(self):
        floor, size = self.view.floor, self.size
        width = max(LEAST_WIDTH, LEFT + floor.width * size + 20)
        height = self.top + floor.height * size + 92
        self.add_headline()
        self.add_floor()
        self.add_scale()
        self.add_route()
        self.add_ends()
        self.add_weights()
        self.add_key()
        head = f'<svg xmlns="http://www.w3.org/2000/svg" width="{width}" height="{height}" viewBox="0 0 {width} {height}">'
        title = f"<title>{escape(self.headline[0], quote=False)}</title><style>{STYLE}</style>"
        paper = f'<rect class="paper" width="{width}" height="{height}" fill="#fff"/>'
        return "\n".join(['<?xml version="1.0" encoding="UTF-8"?>', head, title, paper, *self.parts, "</svg>", ""])
