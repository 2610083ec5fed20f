"""The picture of a large floor as an SVG file. A shape, a hint, a dot and a digit for each cell would take 400 MB for a floor of 1,024 by 1,024; here it stays
below 2 MB. Cells that look alike and follow each other in a row are one shape, and all of one look one path. A floor of more runs than MOST_RUNS, such as
weights strewn at random, is an image inside the file instead, a byte and a pixel for each cell: with a third blocked at random, weights from 1 to 9 and all
settled it takes 0.84 MB, and if nothing could be packed it would take 1.4 MB.

A cell's colour tells its weight; where it is settled, that is tinted by its cost, in sixteen steps. The route stays a line, as wide as one can see."""
import base64
import re
import struct
import zlib
from itertools import groupby

from asking.drawing import FLOOR, JOINED, LEFT, ROUTE, WHOLE, Drawing, shade
from asking.programs import DIRECTIONS, MARK

SHADES = 16
WEIGHTS = 9
MOST_RUNS = 50000  # at 8 to 13 bytes each
RUN = re.compile(rb"(.)\1*", re.DOTALL)
LEAST_LINE = 2  # pixels
STEPS_OF_SCALE = (5, 10, 20, 50, 100, 200)
BETWEEN_NUMBERS = 36  # pixels


# ---- looks: one byte that says how a cell looks. 0 is blocked, 1 to 9 are weights, and then come the settled ones, weight by weight.


def look_of_settled(weight, step):
    return WEIGHTS + 1 + SHADES * (weight - 1) + step


def looks_of(view):
    """The look of every cell. Settled cells are open."""
    most, first = view.dearest + 1, look_of_settled(1, 0)
    return bytes(
        weight if cost == MARK else first + SHADES * (weight - 1) + cost * SHADES // most for weight, cost in zip(view.floor.cells, view.costs)
    )


def mixed(one, other):
    """The colour half way between two."""
    return "#" + "".join(f"{(int(one[at : at + 2], 16) + int(other[at : at + 2], 16)) // 2:02x}" for at in (1, 3, 5))


def colour_of(look):
    if look <= WEIGHTS:
        return FLOOR[look]
    weight, step = divmod(look - WEIGHTS - 1, SHADES)
    return mixed(FLOOR[weight + 1], shade(step / (SHADES - 1)))


def name_of(look, view):
    """What a shape says when pointed at."""
    if look <= WEIGHTS:
        return f"weight {look}" if look else "blocked"
    weight, step = divmod(look - WEIGHTS - 1, SHADES)
    least, next_least = (-(-place * (view.dearest + 1) // SHADES) for place in (step, step + 1))
    return f"weight {weight + 1}, {view.settled_name} at cost {least} to {next_least - 1}"


# ---- the floor


def runs_of(looks, width):
    """The runs of cells that look alike, as look, x, y and length; None if they are too many."""
    runs = []
    for y in range(len(looks) // width):
        for found in RUN.finditer(looks, y * width, (y + 1) * width):
            runs.append((looks[found.start()], found.start() - y * width, y, found.end() - found.start()))
        if len(runs) > MOST_RUNS:
            return None
    return runs


def chunk(name, data):
    return struct.pack(">I", len(data)) + name + data + struct.pack(">I", zlib.crc32(name + data))


def png(looks, width, height):
    """An image of one pixel a cell, its colours from a table."""
    head = struct.pack(">2I5B", width, height, 8, 3, 0, 0, 0)
    table = b"".join(bytes.fromhex(colour_of(look)[1:]) for look in range(max(looks) + 1))
    rows = b"".join(b"\0" + looks[y * width : (y + 1) * width] for y in range(height))
    return b"\x89PNG\r\n\x1a\n" + chunk(b"IHDR", head) + chunk(b"PLTE", table) + chunk(b"IDAT", zlib.compress(rows, 9)) + chunk(b"IEND", b"")


def moves(route):
    """A route as moves of a path, in cells; steps in one direction are one move."""
    made = []
    for direction, steps in groupby(route):
        _, dx, dy = DIRECTIONS[direction]
        count = sum(1 for _ in steps)
        made.append(f"h{dx * count}" if dy == 0 else f"v{dy * count}" if dx == 0 else f"l{dx * count} {dy * count}")
    return "".join(made)


class LargeDrawing(Drawing):
    def __init__(self, view, headline):
        super().__init__(view, headline)
        self.size = max(1, WHOLE // max(view.floor.width, view.floor.height))
        self.looks = looks_of(view)

    def in_cells(self, more=""):
        """An attribute that makes a cell the unit, counted from the floor's corner."""
        return f'transform="translate({LEFT} {self.top}) scale({self.size}){more}"'

    def add_floor(self):
        runs = runs_of(self.looks, self.view.floor.width)
        if runs is None:
            self.add_image()
        else:
            self.add_runs(runs)

    def add_runs(self, runs):
        """Strokes as wide as a cell, which take fewer bytes than rectangles."""
        self.add(f'<g class="runs" {self.in_cells(" translate(0 .5)")} fill="none" stroke-width="1" shape-rendering="crispEdges">')
        for look, alike in groupby(sorted(runs), key=lambda run: run[0]):
            path = "".join(f"M{x} {y}h{length}" for _, x, y, length in alike)
            self.add(f'<path stroke="{colour_of(look)}" d="{path}"><title>{name_of(look, self.view)}</title></path>')
        self.add("</g>")

    def add_image(self):
        floor = self.view.floor
        data = base64.b64encode(png(self.looks, floor.width, floor.height)).decode("ascii")
        place = f'x="{LEFT}" y="{self.top}" width="{floor.width * self.size}" height="{floor.height * self.size}" preserveAspectRatio="none"'
        # viewers know one or the other way of saying that pixels stay squares
        sharp = 'image-rendering="optimizeSpeed" style="image-rendering:pixelated"'
        self.add(f'<image class="cells" {place} {sharp} xmlns:xlink="http://www.w3.org/1999/xlink" xlink:href="data:image/png;base64,{data}"/>')

    def step_of_scale(self):
        return next(step for step in STEPS_OF_SCALE if step * self.size >= BETWEEN_NUMBERS)

    def add_route(self):
        """One path, which may have a million steps; so there is no second one for a pale edge."""
        if not self.view.route_cells:
            return
        y, x = divmod(self.view.start, self.view.floor.width)
        line = max(min(self.size * 0.24, 6), LEAST_LINE) / self.size
        path = f"M{x + 0.5:g} {y + 0.5:g}{moves(self.view.route)}"
        self.add(f'<path class="route" {self.in_cells()} d="{path}" {JOINED} stroke="{ROUTE}" stroke-width="{line:g}"/>')

    def add_weights(self):
        """No digits: the colours tell."""

    def add_settled_key(self, y):
        weight = min(set(self.view.floor.cells) - {0})
        shades = 5 if self.view.dearest else 1
        for place in range(shades):
            colour = colour_of(look_of_settled(weight, place * (SHADES - 1) // 4))
            self.add(f'<rect class="tint" x="{LEFT + 16 * place}" y="{y - 11}" width="14" height="14" fill="{colour}"/>')
        cost = f"from cost 0 to cost {self.view.dearest}" if self.view.dearest else "at cost 0"
        words = f"{self.view.settled_name}, {cost}: the weight's colour, tinted"
        self.add(f'<text x="{LEFT + 12 + 16 * shades}" y="{y}" font-size="12">{words}</text>')
