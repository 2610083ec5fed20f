"""The picture in the terminal. A cell has a mark and a weight, each with a place of its own, so that neither hides the other. Every mark is a character, so
that it is readable without colour; colour comes on top."""
from collections import namedtuple

from asking.programs import DIRECTIONS, PROGRAM_SIDE

# The last four are the overview's alone (overview.py); `trail` is the route's there, by the eighths of a block that it enters.
Marks = namedtuple("Marks", "arrows dots blocked root corners across down halves partly among trail")
BRAILLE = "".join(map(chr, range(0x2800, 0x2900)))
UNICODE = Marks("↑↗→↘↓↙←↖", "·•●", "█", "√2", "┌┐└┘", "─", "│", "▀▄█", "▚", "░▒▓", BRAILLE)
# one character for each direction here too, though no letter looks like an arrow: the legend names them
PLAIN = Marks("^/>\\v,<`", "-=%", "#", " sqrt(2)", "++++", "-", "|", '"_#', "+", "~&$", "*" * len(BRAILLE))
LETTERS = {"fault": "!", "both": "B", "start": "S", "goal": "G"}

# Where a mark stands there is no dot.
SETTLED_TOO = {"both": "start and goal", "start": "the start", "goal": "the goal", "route": "the cells of the route"}

MARGIN = 4

# Colours of the 256-colour table, all with their own background, so that they read on dark and on light terminals.
FLOOR = {1: 255, 2: 230, 3: 229, 4: 222, 5: 221, 6: 215, 7: 209, 8: 203, 9: 196}
BLOCKED = (240, 240)
INK, LIGHT_INK = 52, 231
DOTS = (75, 32, 19)
MARKED = {"fault": (231, 160), "both": (231, 90), "start": (231, 20), "goal": (231, 90), "route": (231, 28)}


def marks_for(stream):
    """The finer marks, if the stream can carry them."""
    try:
        "".join("".join(part) for part in UNICODE).encode(stream.encoding or "ascii")
        return UNICODE
    except (UnicodeError, LookupError):
        return PLAIN


def mark_of(view, cell, marks):
    """The character of the cell's mark, or a blank; a blocked cell fills both its places."""
    if cell.mark in LETTERS:
        return LETTERS[cell.mark]
    if cell.mark == "route":
        return marks.arrows[cell.direction]
    if cell.cost is not None:
        return marks.dots[view.band(cell.cost)]
    return marks.blocked if cell.weight == 0 else " "


def weight_of(cell, marks):
    """The character of the cell's weight; a blank is weight 1."""
    return marks.blocked if cell.weight == 0 else " " if cell.weight == 1 else str(cell.weight)


def weight_colours(weight):
    if weight == 0:
        return BLOCKED
    return (LIGHT_INK if weight >= 8 else INK), FLOOR[weight]


def mark_colours(view, cell):
    if cell.mark:
        return MARKED[cell.mark]
    if cell.cost is not None:
        return DOTS[view.band(cell.cost)], FLOOR[cell.weight]
    return weight_colours(cell.weight)


def painted(text, pair):
    return f"\033[38;5;{pair[0]};48;5;{pair[1]}m{text}\033[0m"


def sampled(colour):
    """A function that shows a piece of the picture in a legend, in its colours if there are any."""
    return painted if colour else lambda text, _: text


def joined(pieces, colour):
    """Characters with their colours as one text; neighbours of one colour are painted together."""
    if not colour:
        return "".join(character for character, _ in pieces)
    stretches = []
    for character, pair in pieces:
        if stretches and stretches[-1][1] == pair:
            stretches[-1][0] += character
        else:
            stretches.append([character, pair])
    return "".join(painted(text, pair) for text, pair in stretches)


def both_places(view, cell, marks):
    """Mark and weight of a cell, each with its colours."""
    return (mark_of(view, cell, marks), mark_colours(view, cell)), (weight_of(cell, marks), weight_colours(cell.weight))


# How a row of the floor is laid out.
BESIDE, OVER, ALONE = "each cell has its mark and then its weight", "each row of the floor is two lines, marks over weights", None


def layout(view, columns):
    """Beside each other if the columns suffice, else one over the other; one place for both where no cell has both."""
    if MARGIN + 2 + 2 * view.floor.width <= columns:
        return BESIDE
    both = any((cell.mark or cell.cost is not None) and cell.weight != 1 for row in view.rows() for cell in row)
    return OVER if both else ALONE


def row_lines(view, row, marks, laid):
    """The lines of a row, as characters with colours."""
    places = [both_places(view, cell, marks) for cell in row]
    if laid == BESIDE:
        return [[place for both in places for place in both]]
    if laid == OVER:
        return [[mark for mark, _ in places], [weight for _, weight in places]]
    return [[mark if mark[0] != " " else weight for mark, weight in places]]


def scale(width, cell_width):
    """The numbers of the columns over them, as many as there is room for."""
    step = 1 if width <= 10 and cell_width == 2 else 5 if cell_width == 2 else 10
    line = ""
    for x in range(0, width, step):
        line = line.ljust(x * cell_width) + str(x)
    return " " * (MARGIN + 1) + line


def bands(view):
    """Each band that a dot shows, with the least and greatest cost of its dots."""
    found = {}
    for row in view.rows():
        for cell in row:
            if cell.cost is not None and cell.mark is None:
                low, high = found.get(view.band(cell.cost), (cell.cost, cell.cost))
                found[view.band(cell.cost)] = (min(low, cell.cost), max(high, cell.cost))
    return sorted(found.items())


def fault_name(view):
    """What the mark of a faulty cell says, with the end that it stands on."""
    ends = [name for name, number in (("start", view.start), ("goal", view.goal)) if number == view.fault]
    return "where the claimed route goes wrong" + (f", at the {' and '.join(ends)}" if ends else "")


def legend(view, marks, laid, colour):
    """What stands in this picture, and nothing else."""
    sample = sampled(colour)
    names = {"fault": fault_name(view), "both": "start and goal", "start": "start", "goal": "goal"}
    shown = view.marks()
    marked = [f"{sample(LETTERS[mark], MARKED[mark])} {name}" for mark, name in names.items() if mark in shown]
    if "route" in shown:
        arrows = sorted({cell.direction for row in view.rows() for cell in row if cell.mark == "route"})
        names = {direction: f" {DIRECTIONS[direction][0]} " if marks is PLAIN else "" for direction in arrows}
        shown_arrows = "".join(sample(marks.arrows[direction], MARKED["route"]) + names[direction] for direction in arrows)
        marked.append(shown_arrows.rstrip(" ") + " route, each cell with the step that leaves it")
    floor = []
    if view.has(0):
        floor.append(sample(marks.blocked, BLOCKED) + " blocked")
    if view.weights():
        weights = " ".join(sample(str(weight), weight_colours(weight)) for weight in view.weights())
        floor.append(f"{weights} weight" + ("; where none stands, 1" if view.has(1) else ""))
    dots = [
        sample(marks.dots[band], (DOTS[band], FLOOR[1])) + (f" {low} to {high}" if low != high else f" {low}") for band, (low, high) in bands(view)
    ]
    lines = ["   ".join(part) for part in (marked, floor) if part]
    lines += [f"{view.settled_name}, by cost: " + "   ".join(dots)] if dots else []
    settled = {cell.mark for row in view.rows() for cell in row if cell.mark and cell.cost is not None}
    lines += ["settled too: " + ", ".join(name for mark, name in SETTLED_TOO.items() if mark in settled)] if settled else []
    lines += [laid] if laid and view.weights() else []
    return [" " * MARGIN + " " + line for line in lines]


def fits(floor, size):
    """Whether a floor can be drawn cell by cell. What is too wide would be broken; what is too high only scrolls, so that the greatest floor of the program
    is drawn in full whatever the terminal's height."""
    return MARGIN + 2 + floor.width <= size.columns and floor.height <= max(PROGRAM_SIDE, size.lines)


def picture(view, size, colour, marks):
    """The lines of the picture of a floor that fits."""
    width = view.floor.width
    laid = layout(view, size.columns)
    cell_width = 2 if laid == BESIDE else 1
    edge = marks.across * (width * cell_width)
    lines = [scale(width, cell_width), " " * MARGIN + marks.corners[0] + edge + marks.corners[1]]
    for y, row in enumerate(view.rows()):
        number = str(y) if y % 5 == 0 or view.floor.height <= 10 else ""
        for line in row_lines(view, row, marks, laid):
            lines.append(f"{number:>{MARGIN - 1}} {marks.down}{joined(line, colour)}{marks.down}")
            number = ""
    lines.append(" " * MARGIN + marks.corners[2] + edge + marks.corners[3])
    return lines + legend(view, marks, laid, colour)
