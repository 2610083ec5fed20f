"""The picture in the terminal of a floor that is too large for a place of its own for each cell: a character stands for a block of cells.

A block is twice as high as wide, as characters are. Of what lies in it the first of these is shown: an end, the route, walls, settled cells, the weight. So
nothing that lies beside a route hides it. The route is drawn in braille, a dot for each eighth of a block that it enters; walls are half blocks. As in the
picture of a small floor characters tell all, and colour comes on top: the weight is then the ground's shade. Without colours the weights of the same blocks
are drawn once more by themselves, where something lies on them."""
from collections import namedtuple

from asking.programs import MARK, PROGRAM_SIDE
from asking.terminal import BLOCKED, DOTS, FLOOR, LETTERS, MARKED, PLAIN, fault_name, joined, sampled, weight_colours

MARGIN = 5  # the number of a row has up to four digits

# The bits of a braille character's dots, by row and column.
DOT = ((0x01, 0x08), (0x02, 0x10), (0x04, 0x20), (0x40, 0x80))
# Which halves of a block are walls, the northern and the southern, for each of the marks' half blocks.
HALVES = ((True, False), (False, True), (True, True))

# What is known of a block. `weight` is the mean of the open cells, rounded up so that no surcharge is lost, and 0 if none is open. `walls` says of each half
# whether two thirds of it or more are blocked; `blocked`, whether any cell is. `cost` is the least settled one, or None. `dots` are those of the route.
Block = namedtuple("Block", "weight walls blocked cost letter dots")


class Overview:
    def __init__(self, view, size):
        self.view = view
        self.factor = self.factor_for(max(size.columns - MARGIN - 2, 1), max(PROGRAM_SIDE, size.lines))
        self.across, self.down = -(-view.floor.width // self.factor), -(-view.floor.height // (2 * self.factor))
        self.letters, self.dots = self.all_letters(), self.all_dots()
        self.rows = [[self.block(column, row) for column in range(self.across)] for row in range(self.down)]

    def factor_for(self, columns, lines):
        """The least whole number of cells that a character can be wide. The lines are at most as many as a floor that is drawn cell by cell may have."""
        floor = self.view.floor
        return max(-(-floor.width // columns), -(-floor.height // (2 * lines)))

    def place_of(self, cell):
        y, x = divmod(cell, self.view.floor.width)
        return x // self.factor, y // (2 * self.factor)

    def all_letters(self):
        """The blocks of both ends, which may be one, and of a faulty cell."""
        view, letters = self.view, {}
        for mark, cell in (("start", view.start), ("goal", view.goal), ("fault", view.fault)):
            if cell is not None and cell < len(view.floor.cells):
                place = self.place_of(cell)
                letters[place] = "both" if mark == "goal" and place in letters else mark
        return letters

    def all_dots(self):
        """The dots of the blocks that the route enters."""
        width, factor, dots = self.view.floor.width, self.factor, {}
        for cell in self.view.route_cells:
            y, x = divmod(cell, width)
            place = x // factor, y // (2 * factor)
            dots[place] = dots.get(place, 0) | DOT[2 * (y % (2 * factor)) // factor][2 * (x % factor) // factor]
        return dots

    def block(self, column, row):
        floor, factor = self.view.floor, self.factor
        left, right = column * factor, min((column + 1) * factor, floor.width)
        sizes, blocked, weights, least = [0, 0], [0, 0], 0, MARK
        for y in range(2 * row * factor, min(2 * (row + 1) * factor, floor.height)):
            half, begin, end = y // factor % 2, y * floor.width + left, y * floor.width + right
            cells = floor.cells[begin:end]
            sizes[half] += len(cells)
            blocked[half] += cells.count(0)
            weights += sum(cells)
            least = min(least, *self.view.costs[begin:end])
        opened = sum(sizes) - sum(blocked)
        walls = tuple(size > 0 and 3 * count >= 2 * size for size, count in zip(sizes, blocked))
        mean, place = -(-weights // opened) if opened else 0, (column, row)
        return Block(mean, walls, any(blocked), None if least == MARK else least, self.letters.get(place), self.dots.get(place, 0))


# ---- what stands for a block: a character and its colours


def shown_weight(block, marks):
    """Its floor alone."""
    if any(block.walls):
        return marks.halves[HALVES.index(block.walls)], (BLOCKED[0], FLOOR.get(block.weight, BLOCKED[1]))
    if block.weight > 1:
        return str(block.weight), weight_colours(block.weight)
    return (marks.partly if block.blocked else " "), (BLOCKED[0], FLOOR[1])


def shown(view, block, marks):
    if block.letter:
        return LETTERS[block.letter], MARKED[block.letter]
    if block.dots:
        return marks.trail[block.dots], MARKED["route"]
    if block.cost is not None and not any(block.walls):
        band = view.band(block.cost)
        return (marks.among if block.blocked else marks.dots)[band], (DOTS[band], FLOOR[block.weight])
    return shown_weight(block, marks)


def framed(overview, lines, marks, colour):
    """Lines of characters in a frame, with the numbers of columns and rows."""
    edge, scale = marks.across * overview.across, ""
    for column in range(0, overview.across, 10):
        number = str(column * overview.factor)
        scale += (number if column + len(number) <= overview.across else "").ljust(10)
    made = [" " * (MARGIN + 1) + scale.rstrip(" "), " " * MARGIN + marks.corners[0] + edge + marks.corners[1]]
    for row, line in enumerate(lines):
        number = 2 * row * overview.factor if row % 5 == 0 else ""
        made.append(f"{number:>{MARGIN - 1}} {marks.down}{joined(line, colour)}{marks.down}")
    return [*made, " " * MARGIN + marks.corners[2] + edge + marks.corners[3]]


# ---- the legend: what stands in the picture, and nothing else


def marks_legend(overview, marks, sample, there):
    view = overview.view
    apart = "" if view.start == view.goal else ", in one block"
    names = {"fault": fault_name(view), "both": f"start and goal{apart}", "start": "start", "goal": "goal"}
    line = [f"{sample(LETTERS[mark], MARKED[mark])} {name}" for mark, name in names.items() if LETTERS[mark] in there]
    if there & set(marks.trail):
        line.append(sample(marks.trail[-1], MARKED["route"]) + " route" + ("" if marks is PLAIN else ", a dot for each eighth of a block that it enters"))
    return line


def walls_legend(marks, sample, there):
    pair = BLOCKED[0], FLOOR[1]
    halves = [character for character in marks.halves if character in there]
    line = ["".join(sample(character, pair) for character in halves) + " two thirds or more of that half or of all blocked"] if halves else []
    return line + ([f"{sample(marks.partly, pair)} less than that"] if marks.partly in there else [])


def weights_legend(overview, sample, there, colour):
    """Weights that stand there as digits; in colour those too whose shade is seen."""
    blocks = [block for row in overview.rows for block in row] if colour else []
    shades = {block.weight for block in blocks if not (block.letter or block.dots or all(block.walls))}
    weights = [weight for weight in range(2, 10) if weight in shades or str(weight) in there]
    named = " ".join(sample(str(weight), weight_colours(weight)) for weight in weights)
    return [f"{named} mean weight of the open cells, rounded up"] if weights else []


def settled_legend(overview, marks, sample, there):
    """Each band that is shown, with the least and the greatest of its blocks' costs."""
    view, costs = overview.view, {}
    for block in (block for row in overview.rows for block in row):
        character, _ = shown(view, block, marks)
        if character in marks.dots + marks.among:
            costs.setdefault(view.band(block.cost), []).append(block.cost)
    parts = []
    for band, found in sorted(costs.items()):
        most = f" to {max(found)}" if max(found) != min(found) else ""
        parts.append(f"{sample(marks.dots[band], (DOTS[band], FLOOR[1]))} {min(found)}{most}")
    lines = [f"{view.settled_name}, by the least cost: " + "   ".join(parts)] if parts else []
    among = [sample(marks.among[band], (DOTS[band], FLOOR[1])) for band in sorted(costs) if marks.among[band] in there]
    return lines + (["".join(among) + " the same, with blocked cells among them"] if among else [])


def picture(view, size, colour, marks):
    """The lines of the overview."""
    overview, sample = Overview(view, size), sampled(colour)
    first = [[shown(view, block, marks) for block in row] for row in overview.rows]
    second = [[shown_weight(block, marks) for block in row] for row in overview.rows]
    pairs = [(block, character) for blocks, line in zip(overview.rows, first) for block, (character, _) in zip(blocks, line)]
    twice = not colour and any(block.weight > 1 and not character.isdigit() for block, character in pairs)
    there = {character for line in first + (second if twice else []) for character, _ in line}
    lines = [f"overview: a character stands for {overview.factor} x {2 * overview.factor} cells", *framed(overview, first, marks, colour)]
    lines += ["the weights of the same floor", *framed(overview, second, marks, colour)] if twice else []
    legend = [marks_legend(overview, marks, sample, there), walls_legend(marks, sample, there), weights_legend(overview, sample, there, colour)]
    legend = ["   ".join(line) for line in legend if line] + settled_legend(overview, marks, sample, there)
    return lines + [" " * (MARGIN + 1) + line for line in legend]
