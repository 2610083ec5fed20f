"""Pictures read back, cell by cell, and held against what must be in them: the map's text and a search of the test's own."""
import os
import pty
import re
import subprocess
import xml.etree.ElementTree as tree
from collections import namedtuple
from pathlib import Path

import reference
from common import ASK, HALLS, environment, expect, expect_run, run, text_of, written

MARGIN = 4
ARROWS, PLAIN_ARROWS = "↑↗→↘↓↙←↖", "^/>\\v,<`"
NAMES = ("N", "NE", "E", "SE", "S", "SW", "W", "NW")
DOTS, PLAIN_DOTS = "·•●", "-=%"
LETTERS = {"S": "start", "G": "goal", "B": "both", "!": "fault"}
# What a cell must show: a mark (a letter's name, a direction, a band, or None) and a weight.
Due = namedtuple("Due", "mark weight cost")


# ---- what is due


def floor_due(rows, start, goal, ways, limit=None, route=None, fault=None, settled=True, astar=False):
    """What each cell must show, from the map and a search that shares nothing with the front end; `route` stands for that of a claim. With `astar` the
    settled cells are those of A*."""
    width = len(rows[0])
    costs = reference.least_costs(rows, ways, start) if settled else {}
    listed = sorted(costs, key=lambda cell: (costs[cell], cell))
    most = len(listed) if limit is None else min(limit, len(listed))
    found = goal in costs and listed.index(goal) < most
    if route is None:
        route = reference.first_route(rows, ways, costs, start, goal) if found else []
    listed = listed[: listed.index(goal) + 1] if found else listed[:most]
    costs = {cell: costs[cell] for cell in (reference.settled_by_astar(rows, ways, costs, goal) if astar else listed)}
    dearest = max(costs.values(), default=0)
    leaving, cell = {}, start
    for direction in route:
        leaving[cell] = direction
        dx, dy = reference.STEPS[direction]
        cell += dy * width + dx

    def mark(cell):
        if cell == fault:
            return "fault"
        if cell in (start, goal):
            return "both" if start == goal else "start" if cell == start else "goal"
        if cell in leaving:
            return "arrow", leaving[cell]
        return ("dot", costs[cell] * 3 // (dearest + 1)) if cell in costs else None

    return {cell: Due(mark(cell), rows[cell // width][cell % width], costs.get(cell)) for cell in range(width * len(rows))}


# ---- what a terminal shows

Shown = namedtuple("Shown", "character ink ground")


def characters(line):
    """The characters of a line with their colours."""
    shown, pair = [], (None, None)
    for colour, character in re.findall(r"\033\[([0-9;]*)m|(.)", line):
        if character:
            shown.append(Shown(character, *pair))
        else:
            found = re.fullmatch(r"38;5;(\d+);48;5;(\d+)", colour)
            pair = (int(found[1]), int(found[2])) if found else (None, None)
    return shown


def picture_in(out):
    """The lines inside the frame, and the legend's, as characters with colours."""
    lines = [characters(line) for line in out.split("\n")]
    plain = ["".join(shown.character for shown in line) for line in lines]
    edges = [place for place, line in enumerate(plain) if re.fullmatch(r" {4}([┌└][─]+[┐┘]|\+-+\+)", line)]
    if len(edges) != 2:
        return None
    inside = [line[MARGIN + 1 : -1] for line in lines[edges[0] + 1 : edges[1]]]
    return inside, [line for line in lines[edges[1] + 1 :] if line]


def cells_in(inside, width, height):
    """Mark and weight of each cell as they are shown; one of them is None where a cell has one place only."""
    if len(inside) == height and all(len(line) == 2 * width for line in inside):
        return "beside", {y * width + x: (inside[y][2 * x], inside[y][2 * x + 1]) for y in range(height) for x in range(width)}
    if len(inside) == 2 * height and all(len(line) == width for line in inside):
        return "over", {y * width + x: (inside[2 * y][x], inside[2 * y + 1][x]) for y in range(height) for x in range(width)}
    if len(inside) == height and all(len(line) == width for line in inside):
        return "alone", {y * width + x: (inside[y][x], None) for y in range(height) for x in range(width)}
    return None, {}


def mark_meaning(character, arrows, dots):
    if character in arrows:
        return "arrow", arrows.index(character)
    return ("dot", dots.index(character)) if character in dots else LETTERS.get(character)


def weight_meaning(character, blocked):
    return 0 if character == blocked else 1 if character == " " else int(character) if character.isdigit() else None


def meanings(mark, weight, arrows, dots, blocked):
    """What a cell's characters mean."""
    if weight is not None:
        return mark_meaning(mark.character, arrows, dots), weight_meaning(weight.character, blocked)
    if weight_meaning(mark.character, blocked) not in (None, 1):
        return None, weight_meaning(mark.character, blocked)
    return mark_meaning(mark.character, arrows, dots), 1


def legend_due(cells, due, layout, arrows, dots, blocked):
    """The legend's lines: all that stands in the picture, and nothing else."""
    shown = {each.mark if isinstance(each.mark, str) else each.mark and each.mark[0] for each in due.values()}
    lines = []
    fault = next((cell for cell, each in due.items() if each.mark == "fault"), None)
    names = {"fault": "! where the claimed route goes wrong", "both": "B start and goal", "start": "S start", "goal": "G goal"}
    if fault is not None:
        names["fault"] += cells["ends"].get(fault, "")
    marked = [words for mark, words in names.items() if mark in shown]
    directions = sorted({each.mark[1] for each in due.values() if isinstance(each.mark, tuple) and each.mark[0] == "arrow"})
    if directions:
        named = " ".join(f"{arrows[direction]} {NAMES[direction]}" for direction in directions)
        marked.append(("".join(arrows[direction] for direction in directions) if arrows == ARROWS else named) + " route, each cell with the step that leaves it")
    lines += ["   ".join(marked)] if marked else []
    weights = sorted({each.weight for each in due.values()})
    floor = [f"{blocked} blocked"] if 0 in weights else []
    heavy = [str(weight) for weight in weights if weight > 1]
    if heavy:
        floor.append(" ".join(heavy) + " weight" + ("; where none stands, 1" if 1 in weights else ""))
    lines += ["   ".join(floor)] if floor else []
    bands = []
    for band in range(3):
        costs = [each.cost for each in due.values() if each.mark == ("dot", band)]
        if costs:
            bands.append(f"{dots[band]} {min(costs)}" + (f" to {max(costs)}" if min(costs) != max(costs) else ""))
    lines += [f"settled{cells['by']}, by cost: " + "   ".join(bands)] if bands else []
    marks = {each.mark if isinstance(each.mark, str) else "arrow" for each in due.values() if each.cost is not None and each.mark and each.mark[0] != "dot"}
    too = {"both": "start and goal", "start": "the start", "goal": "the goal", "arrow": "the cells of the route"}
    lines += ["settled too: " + ", ".join(words for mark, words in too.items() if mark in marks)] if marks else []
    words = {"beside": "each cell has its mark and then its weight", "over": "each row of the floor is two lines, marks over weights"}
    lines += [words[layout]] if heavy and layout in words else []
    return [" " * 5 + line for line in lines]


def colours_hold(what, cells, legend, due, layout, out):
    """In colour: what is in the legend has the colours that it has in the picture, weights have shades of their own, and a dot lies on its weight's."""
    samples = {}
    for line in legend:
        for shown in line:
            if shown.ink is not None:
                samples.setdefault(shown.character, set()).add((shown.ink, shown.ground))
    grounds = {}
    for cell, (mark, weight) in cells.items():
        each = due[cell]
        for shown in (mark, weight):
            if shown is None:
                continue
            if shown.ink is None:
                expect(f"{what}: cell {cell} is coloured", False, out)
                return
            is_dot = shown is mark and isinstance(each.mark, tuple) and each.mark[0] == "dot" and shown.character != " " and not shown.character.isdigit()
            if is_dot:
                expect(f"{what}: a dot's ink is the legend's", shown.ink in {ink for ink, _ in samples.get(shown.character, ())}, out)
            elif shown.character != " ":
                expect(f"{what}: {shown.character!r} has the legend's colours", (shown.ink, shown.ground) in samples.get(shown.character, ()), out)
        place = weight if weight is not None else mark
        if weight is not None or each.mark is None:
            grounds.setdefault(each.weight, set()).add(place.ground)
        if weight is not None and isinstance(each.mark, tuple) and each.mark[0] == "dot":
            expect(f"{what}: a dot lies on its weight's shade", mark.ground == weight.ground, out)
    shades = [next(iter(found)) for found in grounds.values() if len(found) == 1]
    expect(f"{what}: one shade for each weight", len(shades) == len(grounds) == len(set(shades)), f"{grounds}\n{out}")


def expect_picture(what, out, rows, due, start, goal, layout, colour=False, plain=False, by=""):
    """The picture in what a run printed shows what is due, cell by cell, and its legend says so; `by` is what it says of an engine."""
    width, height = len(rows[0]), len(rows)
    read = picture_in(out)
    if read is None:
        expect(f"{what}: a picture", False, out)
        return
    inside, legend = read
    found, cells = cells_in(inside, width, height)
    expect(f"{what}: laid out {layout}", found == layout, out)
    arrows, dots, blocked = (PLAIN_ARROWS, PLAIN_DOTS, "#") if plain else (ARROWS, DOTS, "█")
    for cell, each in due.items():
        if cell not in cells:
            return
        saw = meanings(*cells[cell], arrows, dots, blocked)
        if saw != (each.mark, each.weight):
            expect(f"{what}: cell {cell} shows {saw}, due is {(each.mark, each.weight)}", False, out)
            return
    ends = {start: ", at the start", goal: ", at the goal"} if start != goal else {start: ", at the start and goal"}
    lines = ["".join(shown.character for shown in line) for line in legend]
    wanted = legend_due({"ends": ends, "by": by}, due, found, arrows, dots, blocked)
    # what comes after the legend is not part of the picture
    expect(f"{what}: the legend", lines[: len(wanted)] == wanted and not any(line.startswith(" " * 5) for line in lines[len(wanted) :]), f"due {wanted}\n{out}")
    if colour:
        colours_hold(what, cells, legend[: len(wanted)], due, found, out)
    else:
        expect(f"{what}: no colour", "\033" not in out, out)


FLOORS = {
    "row": None,
    "furnace": None,
    "mixed": ["..2@9", "34.5.", "6@7.8", "9..2."],
    "level": [".....", ".@.@.", "....."],
    "warm": ["222", "333"],
}


def rows_named(name):
    return reference.rows_of((HALLS / f"{name}.map").read_bytes() if FLOORS[name] is None else text_of(FLOORS[name]).encode())


def questions():
    """Floor, ends, ways, limit; and for each count of columns the layout that is due."""
    yield "row", (0, 0), (40, 0), 8, None, {80: "over", 120: "beside", 47: "over"}
    yield "row", (5, 0), (5, 0), 8, None, {80: "over"}
    yield "furnace", (3, 12), (43, 12), 8, None, {80: "over", 120: "beside"}
    yield "furnace", (3, 12), (43, 12), 4, 100, {80: "over", 120: "beside"}
    yield "mixed", (0, 0), (4, 3), 8, None, {80: "beside", 12: "over"}
    yield "mixed", (0, 0), (4, 3), 8, 2, {80: "beside", 12: "alone"}
    yield "mixed", (0, 0), (4, 3), 8, 3, {12: "over"}  # the third settled cell has weight 3
    yield "mixed", (2, 0), (2, 0), 8, None, {80: "beside", 12: "over"}
    yield "level", (0, 0), (4, 2), 8, None, {80: "beside", 12: "alone"}
    yield "level", (0, 0), (4, 2), 4, 5, {12: "alone"}
    yield "warm", (0, 0), (2, 1), 8, None, {80: "beside", 11: "over"}


def test_terminal(folder):
    """Wide and narrow, in colour and without, in plain characters."""
    count = 0
    for name, start, goal, ways, limit, layouts in questions():
        rows = rows_named(name)
        path = written(folder, f"{name}.map", text_of(FLOORS[name])) if FLOORS[name] else HALLS / f"{name}.map"
        begin, end = (y * len(rows[0]) + x for x, y in (start, goal))
        due = floor_due(rows, begin, end, ways, limit)
        words = [path, "--from", "%d,%d" % start, "--to", "%d,%d" % goal, "--ways", ways, *(["--limit", limit] if limit is not None else [])]
        for columns, layout in layouts.items():
            for colour, plain in ((False, False), (True, False), (False, True)):
                what = f"{name} from {start} to {goal}, {columns} columns{', colour' * colour}{', plain' * plain}"
                env = {"COLUMNS": str(columns), **({"PYTHONIOENCODING": "ascii"} if plain else {})}
                _, out, _ = run([*words, "--color", "always" if colour else "never"], env=env)
                expect_picture(what, out, rows, due, begin, end, layout, colour, plain)
                expect(f"{what}: no picture line is too long", all(len(line) <= columns for line in out.split("\n") if "│" in line and not colour), out)
                count += 1
    _, out, _ = run([HALLS / "open.map", "--from", "0,0", "--to", "1,0"], env={"COLUMNS": "69"})
    expect("a picture that does not fit is not drawn cell by cell", picture_in(out) is None and "overview: a character stands for 2 x 4 cells" in out, out)
    print(f"tools: {count} pictures in the terminal, read back cell by cell, and their legends")


def test_no_color(folder):
    """NO_COLOR, TERM=dumb and an output that is no terminal: no colour; --color always has the last word."""
    words = [HALLS / "row.map", "--from", "0,0", "--to", "40,0"]
    for env, colour in (({}, True), ({"NO_COLOR": "1"}, False), ({"TERM": "dumb"}, False)):
        out = in_terminal(words, {"TERM": "xterm-256color", **env})
        expect(f"colour in a terminal with {env}", ("\033[38" in out) == colour, out)
    _, out, _ = run(words)
    expect("no colour where no terminal is", "\033" not in out, out)
    _, out, _ = run([*words, "--color", "always"], env={"NO_COLOR": "1"})
    expect("--color always", "\033[38" in out, out)
    print("tools: colour where a terminal is, and not with NO_COLOR")


def in_terminal(words, env):
    """What a run writes to a terminal."""
    controller, terminal = pty.openpty()
    process = subprocess.Popen([*ASK, *map(str, words)], stdin=terminal, stdout=terminal, stderr=terminal, env=environment(**env))
    os.close(terminal)
    out = b""
    while True:
        try:
            piece = os.read(controller, 65536)
        except OSError:
            break
        if not piece:
            break
        out += piece
    process.wait()
    os.close(controller)
    return out.decode("utf-8").replace("\r\n", "\n")


# ---- the picture as a file

SVG = "{http://www.w3.org/2000/svg}"


class Svg:
    """A picture as a file, with its parts in the order in which they are painted."""

    def __init__(self, data, rows):
        self.parts = list(tree.fromstring(data))
        self.width, self.height = len(rows[0]), len(rows)
        cells = self.of("rect", "cell")
        self.size, self.left, self.top = (float(cells[0].get(word)) for word in ("width", "x", "y"))

    def of(self, kind, name=None):
        return [part for part in self.parts if part.tag == SVG + kind and (name is None or name in (part.get("class") or "").split())]

    def cell_at(self, x, y):
        column, row = int((x - self.left) // self.size), int((y - self.top) // self.size)
        return row * self.width + column if 0 <= column < self.width and 0 <= row < self.height else None

    def placed(self, parts, x="x", y="y"):
        """Parts by the cell that their middle lies in."""
        found = {}
        for part in parts:
            found.setdefault(self.cell_at(float(part.get(x)), float(part.get(y))), []).append(part)
        found.pop(None, None)
        return found

    def order(self, part):
        return self.parts.index(part)


def digit_box(part):
    """About what a digit covers: its middle, half its width, half its height."""
    size = float(part.get("font-size"))
    return float(part.get("x")), float(part.get("y")), 0.32 * size, 0.37 * size


def apart(circle, box):
    """Whether a dot and a digit do not touch."""
    x, y, half_width, half_height = box
    dx = max(abs(float(circle.get("cx")) - x) - half_width, 0)
    dy = max(abs(float(circle.get("cy")) - y) - half_height, 0)
    return dx * dx + dy * dy > float(circle.get("r")) ** 2


def expect_svg(what, data, rows, due, start, goal, route_cells):
    """Cells by their shade, dots, digits on top, the route's line, both ends, and a key for what is there and nothing else."""
    picture = Svg(data, rows)
    cells = picture.of("rect", "cell")
    expect(f"{what}: cells drawn", len(cells) == len(due))
    keys = {part.get("fill"): part for part in picture.of("rect", "key")}
    shades = {}
    for cell, rect in enumerate(cells):
        shades.setdefault(due[cell].weight, set()).add(rect.get("fill"))
        hint = rect.find(f"{SVG}title").text
        weight = "blocked" if due[cell].weight == 0 else f"weight {due[cell].weight}"
        cost = "" if due[cell].cost is None else f", cost {due[cell].cost}"
        expect(f"{what}: the hint of cell {cell}", hint == f"({cell % picture.width},{cell // picture.width}) cell {cell}: {weight}{cost}", hint)
    expect(f"{what}: a shade for each weight", all(len(found) == 1 for found in shades.values()) and len(set().union(*shades.values())) == len(shades))
    expect(f"{what}: the key has the shades", set().union(*shades.values()) == set(keys), f"{shades} {set(keys)}")
    words = [part.text for part in picture.of("text")]
    expect(f"{what}: the key's words", ("blocked" in words) == (0 in shades) and ("weight 1" in words) == (1 in shades), words)
    # dots
    dots = picture.placed(picture.of("circle", "settled"), "cx", "cy")
    expect(f"{what}: a dot on each settled cell", set(dots) == {cell for cell, each in due.items() if each.cost is not None})
    by_cost = sorted((due[cell].cost, parts[0].get("fill")) for cell, parts in dots.items() if cell in due and due[cell].cost is not None)
    expect(f"{what}: dearer dots are deeper", all(one[1] >= other[1] for one, other in zip(by_cost, by_cost[1:])), by_cost)
    # digits, on top of the line and of the ends
    digits = picture.placed([part for part in picture.of("text", "weight") if "halo" not in part.get("class")])
    heavy = {cell: each.weight for cell, each in due.items() if each.weight > 1}
    expect(f"{what}: the weights", {cell: int(parts[0].text) for cell, parts in digits.items()} == heavy)
    ends = [part for letter in "SG" for part in picture.of("circle", letter) if picture.placed([part], "cx", "cy")]
    last = max((picture.order(part) for part in picture.of("polyline") + ends), default=-1)
    halos = picture.placed([part for part in picture.of("text", "halo")])
    for cell, parts in digits.items():
        expect(f"{what}: the digit of cell {cell} lies on top", picture.order(parts[0]) > last)
        expect(f"{what}: the dot leaves the digit of cell {cell} free", all(apart(dot, digit_box(parts[0])) for dot in dots.get(cell, ())))
        if cell in route_cells or cell in (start, goal):
            expect(f"{what}: the digit of cell {cell} has a pale edge", cell in halos and picture.order(halos[cell][0]) < picture.order(parts[0]))
    # the line and the ends
    lines = picture.of("polyline", "route")
    visited = [picture.cell_at(*map(float, point.split(","))) for line in lines for point in line.get("points").split()]
    expect(f"{what}: the route drawn", visited == route_cells and ("route" in words) == bool(route_cells), f"{visited}\n{route_cells}")
    for letter, cell in (("S", start), ("G", goal)):
        drawn = picture.placed(picture.of("circle", letter), "cx", "cy")
        named = picture.placed([part for part in picture.of("text", "end") if part.text == letter])
        expect(f"{what}: {letter} drawn", list(drawn) == [cell] and list(named) == [cell], f"{drawn} {named}")
    return picture


def route_visits(rows, start, route):
    cells = [start]
    for direction in route:
        dx, dy = reference.STEPS[direction]
        cells.append(cells[-1] + dy * len(rows[0]) + dx)
    return cells if route else []


def test_svg(folder):
    asked = [(name, start, goal, ways, limit) for name, start, goal, ways, limit, _ in questions()]
    wide = ["".join("123456789@"[(3 * x + 5 * y + x * y) % 10] if (x, y) not in ((0, 0), (63, 63)) else "4" for x in range(64)) for y in range(64)]
    FLOORS["wide"] = wide
    asked += [("wide", (0, 0), (63, 63), 8, None), ("wide", (0, 0), (0, 0), 8, None)]
    for name, start, goal, ways, limit in asked:
        rows = rows_named(name)
        path = written(folder, f"{name}.map", text_of(FLOORS[name])) if FLOORS[name] else HALLS / f"{name}.map"
        begin, end = (y * len(rows[0]) + x for x, y in (start, goal))
        due = floor_due(rows, begin, end, ways, limit)
        words = [path, "--from", "%d,%d" % start, "--to", "%d,%d" % goal, "--ways", ways, *(["--limit", limit] if limit is not None else [])]
        drawn = Path(folder, "picture.svg")
        expect_run([*words, "--quiet", "--svg", drawn], 0, [f"the picture is in {drawn}"])
        costs = reference.least_costs(rows, ways, begin)
        found = end in costs and (limit is None or sorted(costs, key=lambda cell: (costs[cell], cell)).index(end) < limit)
        route = reference.first_route(rows, ways, costs, begin, end) if found else []
        what = f"{name} from {start} to {goal} as SVG"
        picture = expect_svg(what, drawn.read_bytes(), rows, due, begin, end, route_visits(rows, begin, route))
        if begin == end:
            circles = [picture.of("circle", letter)[0] for letter in "SG"]
            expect(f"{what}: both ends are seen", abs(float(circles[0].get("cx")) - float(circles[1].get("cx"))) >= float(circles[0].get("r")) * 1.2)
    ended, out, err = run([HALLS / "row.map", "--from", "0,0", "--to", "40,0", "--svg", "-"])
    expect("--svg - writes the picture alone", ended == 0 and tree.fromstring(out) is not None and "found at cost 11130" in err, out[:200] + err)
    print(f"tools: {len(asked)} pictures as SVG, read back cell by cell: shades, dots, digits on top, the route, the ends, the key")


def test_stored_picture(folder):
    """The pictures that README.md and examples/halls/README.md show are what the front end draws."""
    for name, words in (
        ("furnace", ["--from", "3,12", "--to", "43,12"]), ("bay", ["--from", "1,10", "--to", "58,11", "--engine", "both"]),
        ("works", ["--from", "4,4", "--to", "196,60"]),
    ):
        drawn = Path(folder, f"{name}.svg")
        expect_run([HALLS / f"{name}.map", *words, "--quiet", "--svg", drawn], 0, ["the picture is in"])
        expect(f"examples/halls/{name}.svg", drawn.read_bytes() == (HALLS / f"{name}.svg").read_bytes())
    print("tools: the pictures of the pages")
