"""Floors beyond the program's: full halls of 1,024 by 1,024, the overview in the terminal, the file in runs and in an image, rooms and stack. Pictures are read
back and held against the map's text and what the test itself knows of the answer."""
import base64
import random
import re
import struct
import xml.etree.ElementTree as tree
import zlib
from collections import namedtuple
from pathlib import Path

import reference
from common import ASK, TESTED, expect, expect_run, run, text_of, written
from pictures import ARROWS, SVG, characters, route_visits
from troubles import with_programs

SIDE = 1024
DOTS, AMONG, HALVES, PARTLY = "·•●", "░▒▓", "▀▄█", "▚"
PLAIN_DOTS, PLAIN_AMONG, PLAIN_HALVES, PLAIN_PARTLY, PLAIN_ROUTE = "-=%", "~&$", '"_#', "+", "*"
# What is asked and what is due: weights cell by cell, the least costs of the settled cells, the cells of the route.
Shown = namedtuple("Shown", "width height cells start goal costs route fault", defaults=(None,))


# ---- floors


def serpentine(side, weights):
    """Every second row is a wall with one gap, by turns at the east and at the west end: one way only, through all open cells."""
    rows = []
    for y in range(side):
        row = [weights[y]] * side if y % 2 == 0 else [0] * side
        if y % 2 == 1:
            row[side - 1 if y % 4 == 1 else 0] = weights[y]
        rows.append(row)
    return rows


def steps_of_serpentine(side):
    """Its way, from the north west corner to the last cell of the last row that is no wall."""
    route = []
    for y in range(0, side - 1, 2):
        route += [2 if y % 4 == 0 else 6] * (side - 1)
        route += [4, 4] if y + 2 < side else []
    return route


def along(rows, route):
    """The costs of the cells along a way from cell 0, by 01's rule and R-3's."""
    width, cell, cost = len(rows[0]), 0, 0
    costs = {0: 0}
    for direction in route:
        dx, dy = reference.STEPS[direction]
        entered = cell + dy * width + dx
        cost += (99 if dx and dy else 70) * (rows[cell // width][cell % width] + rows[entered // width][entered % width])
        costs[entered], cell = cost, entered
    return costs


def strewn(side, generator):
    """A third blocked at random, weights from 1 to 9 at random; a goal in the south east that is walled in."""
    cells = generator.choices(range(10), [9 / 2] + [1] * 9, k=side * side)
    rows = [cells[y * side : (y + 1) * side] for y in range(side)]
    for y in range(30):  # from here the greater part can be reached
        rows[y][:30] = [1] * 30
    for y in range(side - 3, side):
        rows[y][-3:] = [0] * 3
    rows[side - 2][side - 2] = 1
    return rows


def reachable(rows):
    """The cells that can be reached from cell 0 with 4 ways, which are those with 8 too: no corner is cut."""
    width, cells = len(rows[0]), [weight for row in rows for weight in row]
    seen, waiting = bytearray(len(cells)), [0]
    seen[0] = 1
    while waiting:
        cell = waiting.pop()
        x = cell % width
        for beside in (cell - width, cell + width, *([cell - 1] if x else []), *([cell + 1] if x + 1 < width else [])):
            if 0 <= beside < len(cells) and cells[beside] and not seen[beside]:
                seen[beside] = 1
                waiting.append(beside)
    return seen


def text_of_weights(rows):
    characters_of = "@.23456789"
    return text_of(["".join(map(characters_of.__getitem__, row)) for row in rows])


# ---- the overview: what is due of a block

Block = namedtuple("Block", "letter eighths walls blocked band weight cost")


class Gathered:
    """What lies in a block, cell by cell."""

    def __init__(self):
        self.letters, self.eighths, self.least = set(), set(), None
        self.cells, self.blocked, self.weights = [0, 0], [0, 0], 0

    def due(self, dearest):
        blocked, opened = sum(self.blocked), sum(self.cells) - sum(self.blocked)
        letter = "!" if "!" in self.letters else "B" if {"S", "G"} <= self.letters else next(iter(self.letters), None)
        walls = tuple(cells and closed / cells >= 2 / 3 - 1e-9 for cells, closed in zip(self.cells, self.blocked))
        weight = 0 if not opened else self.weights // opened + (self.weights % opened > 0)
        band = None if self.least is None else self.least * 3 // (dearest + 1)
        return Block(letter, frozenset(self.eighths), tuple(map(bool, walls)), blocked > 0, band, weight, self.least)


def blocks_due(shown, factor):
    """What each block holds: `factor` cells wide and twice as high."""
    gathered, width = {}, shown.width
    marks = {cell: letter for cell, letter in ((shown.start, "S"), (shown.goal, "G"), (shown.fault, "!")) if cell is not None}

    def block_at(x, y):
        return gathered.setdefault((x // factor, y // factor // 2), Gathered())

    for cell, weight in enumerate(shown.cells):
        block, half = block_at(cell % width, cell // width), cell // width // factor % 2
        block.cells[half] += 1
        block.blocked[half] += weight == 0
        block.weights += weight
    for cell, cost in shown.costs.items():
        block = block_at(cell % width, cell // width)
        block.least = cost if block.least is None else min(block.least, cost)
    for cell in shown.route:
        x, y = cell % width, cell // width
        block_at(x, y).eighths.add((int(x % factor / (factor / 2)), int(y % (2 * factor) / (factor / 2))))
    for cell in {shown.start, shown.goal, shown.fault} - {None}:
        block = block_at(cell % width, cell // width)
        block.letters |= {letter for letter, at in (("S", shown.start), ("G", shown.goal), ("!", shown.fault)) if at == cell}
    dearest = max(shown.costs.values(), default=0)
    return {place: block.due(dearest) for place, block in gathered.items()}, marks


def braille(eighths):
    """The character with these dots; dots are counted 1 2 3 7 down the west side and 4 5 6 8 down the east side."""
    numbers = ((1, 2, 3, 7), (4, 5, 6, 8))
    return chr(0x2800 + sum(1 << (numbers[column][row] - 1) for column, row in eighths))


def floor_character(block, plain):
    halves = PLAIN_HALVES if plain else HALVES
    if any(block.walls):
        return halves[{(True, False): 0, (False, True): 1, (True, True): 2}[block.walls]]
    if block.weight > 1:
        return str(block.weight)
    return (PLAIN_PARTLY if plain else PARTLY) if block.blocked else " "


def character(block, plain):
    if block.letter:
        return block.letter
    if block.eighths:
        return PLAIN_ROUTE if plain else braille(block.eighths)
    if block.band is not None and not any(block.walls):
        dots, among = (PLAIN_DOTS, PLAIN_AMONG) if plain else (DOTS, AMONG)
        return (among if block.blocked else dots)[block.band]
    return floor_character(block, plain)


def weights_due(blocks, there, colour):
    """Weights that are seen: as a digit, or in colour as the ground of what is neither a mark nor wall all over."""
    grounds = {block.weight for block in blocks.values() if colour and block.letter is None and not block.eighths and block.walls != (True, True)}
    return sorted({int(digit) for digit in there if digit in tuple("23456789")} | grounds - {0, 1})


def legend_due(shown, blocks, there, plain, by, colour):
    halves, partly = (PLAIN_HALVES, PLAIN_PARTLY) if plain else (HALVES, PARTLY)
    dots, among = (PLAIN_DOTS, PLAIN_AMONG) if plain else (DOTS, AMONG)
    on_end = [name for name, cell in (("start", shown.start), ("goal", shown.goal)) if cell == shown.fault]
    names = {
        "!": "where the claimed route goes wrong" + (f", at the {' and '.join(on_end)}" if on_end else ""),
        "B": "start and goal" + ("" if shown.start == shown.goal else ", in one block"), "S": "start", "G": "goal",
    }
    first = [f"{letter} {name}" for letter, name in names.items() if letter in there]
    if any(block.eighths and not block.letter for block in blocks.values()):
        first.append("* route" if plain else "⣿ route, a dot for each eighth of a block that it enters")
    walls = "".join(half for half in halves if half in there)
    second = ([f"{walls} two thirds or more of that half or of all blocked"] if walls else []) + ([f"{partly} less than that"] if partly in there else [])
    weights = weights_due(blocks, there, colour)
    third = [" ".join(map(str, weights)) + " mean weight of the open cells, rounded up"] if weights else []
    lines = ["   ".join(part) for part in (first, second, third) if part]
    costs = {}
    for block in blocks.values():
        if character(block, plain) in dots + among:
            costs.setdefault(block.band, []).append(block.cost)
    bands = [f"{dots[band]} {min(found)}" + (f" to {max(found)}" if max(found) > min(found) else "") for band, found in sorted(costs.items())]
    lines += [f"settled{by}, by the least cost: " + "   ".join(bands)] if bands else []
    shaded = "".join(among[band] for band in range(3) if among[band] in there)
    return lines + ([f"{shaded} the same, with blocked cells among them"] if shaded else [])


# ---- the overview: what is there

Frame = namedtuple("Frame", "scale rows numbers ends")


def frames_in(lines):
    """The framed pictures in lines of characters with colours: the line of numbers over each, the rows inside, their numbers, and where the frame ends."""
    found, begin = [], None
    for place, line in enumerate(lines):
        text = "".join(shown.character for shown in line)
        if re.fullmatch(r" {5}(┌─+┐|\+-+\+)", text) and begin is None:
            begin = place
        elif re.fullmatch(r" {5}(└─+┘|\+-+\+)", text) and begin is not None:
            inside = lines[begin + 1 : place]
            numbers = ["".join(shown.character for shown in line[:5]).strip() for line in inside]
            found.append(Frame("".join(shown.character for shown in lines[begin - 1]), [line[6:-1] for line in inside], numbers, place))
            begin = None
    return found


def numbers_hold(frame, factor, across):
    """Numbers stand over the column and beside the row that they name."""
    places = [(match.start() - 6, int(match[0])) for match in re.finditer(r"\d+", frame.scale)]
    rows = [(place, int(number)) for place, number in enumerate(frame.numbers) if number]
    good = places[:1] == [(0, 0)] and all(at < across and number == at * factor for at, number in places)
    return good and rows[:1] == [(0, 0)] and all(number == 2 * factor * at for at, number in rows)


def factor_due(shown, columns, lines):
    """The least factor with which the picture fits: five places and two edges beside it, and no more lines than a floor that is drawn cell by cell may have."""
    factor = 1
    while -(-shown.width // factor) + 7 > columns or -(-shown.height // (2 * factor)) > max(64, lines):
        factor += 1
    return factor


def expect_rows(what, frame, blocks, due, out):
    """Each character of a framed picture is the one that is due."""
    across, down = (1 + max(place[axis] for place in blocks) for axis in (0, 1))
    saw = [[shown.character for shown in row] for row in frame.rows]
    wanted = [[due(blocks[column, row]) for column in range(across)] for row in range(down)]
    expect(f"{what}: the blocks", saw == wanted, "\n".join(f"{''.join(one)} due is {''.join(other)}" for one, other in zip(saw, wanted) if one != other) or out)


def expect_grounds(what, frame, blocks, legend, out):
    """In colour: marks have the legend's colours, and all else lies on the shade that the legend has for the block's weight."""
    samples = {}
    for shown in (shown for line in legend for shown in line if shown.ink is not None):
        samples.setdefault(shown.character, (shown.ink, shown.ground))
    route = samples.get("⣿")
    for row, line in enumerate(frame.rows):
        for column, shown in enumerate(line):
            block = blocks[column, row]
            if block.letter or block.eighths:
                good = (shown.ink, shown.ground) == (samples.get(shown.character) if block.letter else route)
            else:
                good = shown.ink is not None and (block.weight < 2 or block.walls == (True, True) or shown.ground == samples[str(block.weight)][1])
                good = good and (shown.character in " 0123456789" or shown.ink == samples[shown.character][0])
            if not good:
                expect(f"{what}: the colours of block {column},{row}", False, f"{shown} {block} {samples}\n{out}")
                return
    shades = [ground for name, (_, ground) in samples.items() if name.isdigit()]
    expect(f"{what}: a shade for each weight", len(shades) == len(set(shades)), samples)


def expect_overview(what, out, shown, columns, lines=24, colour=False, plain=False, by=""):
    """The overview in what a run printed."""
    read = [characters(line) for line in out.split("\n")]
    frames = frames_in(read)
    said = re.search(r"^overview: a character stands for (\d+) x (\d+) cells$", out, re.MULTILINE)
    factor = factor_due(shown, columns, lines)
    expect(f"{what}: the factor", said and (int(said[1]), int(said[2])) == (factor, 2 * factor), f"due is {factor}\n{out}")
    if not said or not frames:
        expect(f"{what}: an overview", False, out)
        return
    blocks, _ = blocks_due(shown, factor)
    across, down = -(-shown.width // factor), -(-shown.height // (2 * factor))
    hidden = any(block.weight > 1 and not character(block, plain).isdigit() for block in blocks.values())
    expect(f"{what}: one picture, and one of the weights where there is no colour", len(frames) == 1 + (hidden and not colour), out)
    for frame in frames:
        expect(f"{what}: its size", len(frame.rows) == down and all(len(row) == across for row in frame.rows), out)
        expect(f"{what}: its numbers", numbers_hold(frame, factor, across), f"{frame.scale}\n{frame.numbers}\n{out}")
    expect_rows(what, frames[0], blocks, lambda block: character(block, plain), out)
    if len(frames) > 1:
        expect_rows(f"{what}, weights", frames[1], blocks, lambda block: floor_character(block, plain), out)
        expect(f"{what}: they are named", "\nthe weights of the same floor\n" in out, out)
    there = {character(block, plain) for block in blocks.values()} | ({floor_character(block, plain) for block in blocks.values()} if len(frames) > 1 else set())
    wanted = [" " * 6 + line for line in legend_due(shown, blocks, there, plain, by, colour)]
    legend = read[frames[-1].ends + 1 : frames[-1].ends + 1 + len(wanted)]
    expect(f"{what}: the legend", ["".join(one.character for one in line) for line in legend] == wanted, f"due {wanted}\n{out}")
    if colour:
        expect_grounds(what, frames[0], blocks, legend, out)
    else:
        expect(f"{what}: no colour", "\033" not in out, out)
    expect(f"{what}: no line of the picture is too wide", all(len(line) <= columns for line in read if re.match(r"^( {5}|[ \d]{4} )[┌│└|+]", "".join(one.character for one in line))), out)


# ---- the overview: floors that show all there is


def hall_rows(width, height, generator):
    """Walls one cell thick and thicker, a warm stretch, a block of walls, floor that is walled in, single blocked cells."""
    rows = [[1] * width for _ in range(height)]
    for place, x in enumerate(range(width // 5, width - 4, width // 5)):
        for y in range(height):
            if (y < height - height // 6) if place % 2 == 0 else (y > height // 6):
                rows[y][x : x + 1 + place] = [0] * (1 + place)
    for y in range(height // 4, height // 2):
        for x in range(width // 2, width * 3 // 4):
            rows[y][x] = generator.choice((2, 2, 5, 9)) if rows[y][x] else 0
    for y in range(height // 2, height * 3 // 4):
        rows[y][4 : width // 9] = [0] * (width // 9 - 4)
    for y in range(height - 12, height - 2):
        rows[y][width - 12 : width - 2] = [0 if x in (0, 9) or y in (height - 12, height - 3) else 3 for x in range(10)]
    for _ in range(width * height // 90):
        rows[generator.randrange(height)][generator.randrange(1, width)] = 0
    rows[0][0] = 1
    return rows


def asked_on(rows, start, goal, limit=None, astar=False):
    """The words of a question and what is to be shown of its answer, by the reference's search; with `astar` the settled cells are those of A*."""
    width, costs = len(rows[0]), reference.least_costs(rows, 8, start)
    listed = sorted(costs, key=lambda cell: (costs[cell], cell))
    most = len(listed) if limit is None else min(limit, len(listed))
    found = goal in costs and listed.index(goal) < most
    route = reference.first_route(rows, 8, costs, start, goal) if found else []
    settled = listed[: listed.index(goal) + 1] if found else listed[:most]
    settled = reference.settled_by_astar(rows, 8, costs, goal) if astar else settled
    cells = bytes(weight for row in rows for weight in row)
    shown = Shown(width, len(rows), cells, start, goal, {cell: costs[cell] for cell in settled}, route_visits(rows, start, route))
    ends = [f"{cell % width},{cell // width}" for cell in (start, goal)]
    return ["--from", ends[0], "--to", ends[1], *(["--limit", limit] if limit else [])], shown


def overviews():
    """Floors, ends and limits, with the columns and lines in which they are shown."""
    generator = random.Random(3)
    hall, tall, row = hall_rows(203, 121, generator), hall_rows(31, 300, generator), [[1] + [2] * 400]
    yield "hall", hall, 0, 203 * 60 - 8, None, ((74, 24), (50, 24), (200, 24))
    yield "hall", hall, 0, 203 * 60 - 8, 6000, ((80, 24),)
    yield "hall", hall, 203 * 3 + 3, 203 * 3 + 4, None, ((80, 24),)  # both in one block
    yield "hall", hall, 203 * 3 + 3, 203 * 3 + 3, None, ((80, 24),)
    yield "hall", hall, 203 * 114 + 195, 0, None, ((80, 24),)  # walled in: none
    yield "tall", tall, 0, 31 * 290 + 16, None, ((80, 24), (80, 200), (20, 24))
    yield "row", row, 400, 0, None, ((80, 24), (20, 24))


def test_overview(folder):
    """Wide and narrow, high and low, in colour and without, in plain characters."""
    count = 0
    for name, rows, start, goal, limit, sizes in overviews():
        path = written(folder, f"{name}.map", text_of_weights(rows))
        words, shown = asked_on(rows, start, goal, limit)
        for columns, lines in sizes:
            for colour, plain in ((False, False), (True, False), (False, True)):
                what = f"overview of {name} from {start} to {goal}, limit {limit}, {columns} x {lines}{', colour' * colour}{', plain' * plain}"
                env = {"COLUMNS": str(columns), "LINES": str(lines), **({"PYTHONIOENCODING": "ascii"} if plain else {})}
                _, out, _ = run([path, *words, "--color", "always" if colour else "never"], env=env)
                expect_overview(what, out, shown, columns, lines, colour, plain)
                count += 1
    print(f"tools: {count} overviews in the terminal, read back block by block, and their legends")


def test_overview_of_claims(folder):
    """Where a claimed route goes wrong, and a route past single blocked cells, which do not hide it."""
    width, height = 150, 30
    rows = [[1] * width for _ in range(height)]
    for x in range(2, width, 2):
        rows[11][x] = rows[9][x] = 0
    rows[10][120] = 0
    path, start = written(folder, "claim.map", text_of_weights(rows)), 10 * width
    cells = bytes(weight for row in rows for weight in row)
    for steps, fault in ((119, None), (140, 120), (119, 119)):
        words = [path, "--from", "0,10", "--to", f"{140 if fault else steps},10", "--check", f"{steps} E", "--cost", 140 * steps]
        out = expect_run([*words, "--color", "never"], 0 if fault is None else 1)
        ends, at = start + (140 if fault else steps), None if fault is None else start + fault
        visited = [start + step for step in range((120 if steps == 140 else steps) + 1)]
        expect_overview(f"claim of {steps} steps", out, Shown(width, height, cells, start, ends, {}, visited, at), 80)
    print("tools: overviews of claimed routes")


def test_overview_of_astar(folder):
    """The cells that A* has settled, and not those of the plain search; the legend and the file's key name it."""
    rows = hall_rows(203, 121, random.Random(3))
    path, drawn = written(folder, "hall.map", text_of_weights(rows)), Path(folder, "astar.svg")
    for engine in ("astar", "both"):
        words, shown = asked_on(rows, 0, 203 * 60 - 8, astar=True)
        out = expect_run([path, *words, "--engine", engine, "--color", "never", "--svg", drawn], 0)
        expect_overview(f"--engine {engine}", out, shown, 80, by=" by A*")
        expect_file(f"--engine {engine} as a file", drawn.read_bytes(), shown, "runs")
        texts = [part.text for part in tree.fromstring(drawn.read_bytes()).iter(f"{SVG}text")]
        key = f"settled by A*, from cost 0 to cost {max(shown.costs.values())}: the weight's colour, tinted"
        expect(f"--engine {engine} as a file: whose cells they are", key in texts, texts)
    print("tools: overviews of A*")


def test_cell_by_cell(folder):
    """What fits is drawn cell by cell: up to 64 rows whatever the terminal, and more where it has the lines; then the overview."""
    for width, height, columns, lines, fits in ((20, 64, 80, 24, True), (20, 65, 80, 24, False), (20, 65, 80, 65, True), (74, 3, 80, 24, True), (75, 3, 80, 24, False)):
        path = written(folder, "fits.map", text_of_weights([[1] * width] * height))
        _, out, _ = run([path, "--from", "0,0", "--to", f"{width - 1},{height - 1}", "--color", "never"], env={"COLUMNS": str(columns), "LINES": str(lines)})
        drawn = sum(line.count(arrow) for line in out.split("\n") if "│" in line for arrow in ARROWS)
        expect(f"{width} x {height} in {columns} x {lines}", ("overview" not in out, drawn > 0) == (fits, fits), out)
    print("tools: cell by cell where it fits")


# ---- the file


def colours_of_runs(group, shown):
    """The colour of each cell, from paths of runs; None where no run lies, and trouble where two do."""
    colours = [None] * len(shown.cells)
    for path in group:
        for x, y, length in re.findall(r"M(\d+) (\d+)h(\d+)", path.get("d")):
            begin = int(y) * shown.width + int(x)
            expect("runs do not overlap and end with their row", int(x) + int(length) <= shown.width and not any(colours[begin : begin + int(length)]))
            colours[begin : begin + int(length)] = [path.get("stroke")] * int(length)
        expect("a path holds runs alone", re.fullmatch(r"(M\d+ \d+h\d+)+", path.get("d")))
    return colours


def colours_of_image(image):
    """The colour of each cell from an image of one pixel a cell: 8 bits that name a colour of the table, no filter."""
    data = base64.b64decode(image.get("{http://www.w3.org/1999/xlink}href").removeprefix("data:image/png;base64,"))
    expect("it is a PNG", data[:8] == b"\x89PNG\r\n\x1a\n")
    at, parts = 8, {}
    while at < len(data):
        length, name = struct.unpack(">I4s", data[at : at + 8])
        body = data[at + 8 : at + 8 + length]
        expect(f"the check sum of {name}", struct.unpack(">I", data[at + 8 + length : at + 12 + length])[0] == zlib.crc32(name + body))
        parts[name] = body
        at += 12 + length
    width, height, *form = struct.unpack(">2I5B", parts[b"IHDR"])
    expect("its form", form == [8, 3, 0, 0, 0] and list(parts) == [b"IHDR", b"PLTE", b"IDAT", b"IEND"], form)
    table = ["#" + parts[b"PLTE"][place : place + 3].hex() for place in range(0, len(parts[b"PLTE"]), 3)]
    rows = zlib.decompress(parts[b"IDAT"])
    expect("its size", len(rows) == (width + 1) * height and not any(rows[:: width + 1]))
    return [table[pixel] for y in range(height) for pixel in rows[y * (width + 1) + 1 : (y + 1) * (width + 1)]]


def expect_colours(what, colours, keys, shown, has_costs=True):
    """Blocked cells and those not settled have the key's colours; settled ones others, deeper by cost, and no two weights look alike."""
    expect(f"{what}: a colour for every cell", len(colours) == len(shown.cells) and None not in colours)
    tints = {}
    for cell, (weight, colour) in enumerate(zip(shown.cells, colours)):
        if cell in shown.costs:
            tints.setdefault(weight, {}).setdefault(colour, []).append(shown.costs[cell])
        elif colour != keys[weight]:
            expect(f"{what}: cell {cell} of weight {weight} is {colour}, due is {keys[weight]}", False)
            return
    of_settled = [colour for found in tints.values() for colour in found]
    expect(f"{what}: no two looks are alike", len(set(of_settled)) == len(of_settled) and not set(of_settled) & set(keys.values()), tints.keys())
    if not has_costs:
        return
    for weight, found in tints.items():
        ordered = sorted(found.items(), key=lambda pair: min(pair[1]))
        apart = all(max(one[1]) < min(other[1]) for one, other in zip(ordered, ordered[1:]))
        deeper = all(sum(bytes.fromhex(one[0][1:])) > sum(bytes.fromhex(other[0][1:])) for one, other in zip(ordered, ordered[1:]))
        expect(f"{what}: weight {weight} is deeper by cost", apart and deeper, [(colour, min(costs), max(costs)) for colour, costs in ordered])


def visited_by(path, shown):
    """The cells that a path of moves passes, one after the other; none if it does not lead through their middles."""
    head = re.match(r"M([\d.]+) ([\d.]+)", path)
    x, y = (float(number) - 0.5 for number in head.groups())
    if not (x.is_integer() and y.is_integer()):
        return []
    cells = [int(y) * shown.width + int(x)]
    for letter, first, second in re.findall(r"([hvl])(-?\d+)(?: (-?\d+))?", path):
        dx, dy = (int(first), 0) if letter == "h" else (0, int(first)) if letter == "v" else (int(first), int(second))
        count = max(abs(dx), abs(dy))
        step = dy // count * shown.width + dx // count
        cells += range(cells[-1] + step, cells[-1] + step * (count + 1), step)
    return cells


def keys_of(picture):
    """The colours of the key by weight, from the squares and the words beside them."""
    parts, keys = list(picture), {}
    for square, words in zip(parts, parts[1:]):
        if square.get("class") == "key" and square.tag == SVG + "rect":
            keys[0 if words.text == "blocked" else int(words.text.split()[-1])] = square.get("fill")
    return keys


def expect_file(what, data, shown, kind, has_costs=True):
    """The file of a large floor: below 2 MB, its cells, route, ends and key as they must be."""
    expect(f"{what}: below 2 MB", len(data) < 2_000_000, len(data))
    picture = tree.fromstring(data)
    group, image = picture.find(f"{SVG}g[@class='runs']"), picture.find(f"{SVG}image")
    expect(f"{what}: cells as {kind}", (group is not None, image is not None) == (kind == "runs", kind == "image"), data[:300])
    keys = keys_of(picture)
    expect(f"{what}: the key", set(keys) == set(shown.cells), keys)
    if kind == "runs":
        place = re.fullmatch(r"translate\((\d+) (\d+)\) scale\((\d+)\) translate\(0 .5\)", group.get("transform"))
        left, top, size = map(int, place.groups())
        colours = colours_of_runs(group, shown)
    else:
        left, top = (int(image.get(word)) for word in "xy")
        size = int(image.get("width")) // shown.width
        expect(f"{what}: the image's place", (int(image.get("width")), int(image.get("height"))) == (size * shown.width, size * shown.height))
        colours = colours_of_image(image)
    expect_colours(what, colours, keys, shown, has_costs)
    expect(f"{what}: a hint for each look at most", sum(1 for _ in picture.iter(f"{SVG}title")) < 160)
    lines = [part for part in picture if part.get("class") == "route"]
    expect(f"{what}: a line for the route, if there is one", len(lines) == bool(shown.route))
    for line in lines:
        expect(f"{what}: the route", visited_by(line.get("d"), shown) == shown.route and f"scale({size})" in line.get("transform"), line.get("d")[:200])
        expect(f"{what}: it can be seen", float(line.get("stroke-width")) * size >= 2)
    for letter, cell in (("S", shown.start), ("G", shown.goal)):
        circle = next(part for part in picture if part.get("class") == letter)
        middle = tuple(float(circle.get(word)) for word in ("cx", "cy"))
        due = (left + (cell % shown.width + 0.5) * size, top + (cell // shown.width + 0.5) * size)
        expect(f"{what}: {letter}", max(abs(one - other) for one, other in zip(middle, due)) < 0.01, f"{middle} {due}")


def test_large_file(folder):
    """Floors of more than 4,096 cells as files: in runs, and in an image where there are too many."""
    generator = random.Random(8)
    noise = [[generator.choice((0, 1, 1, 2, 5, 9)) for _ in range(300)] for _ in range(250)]
    noise[0][0] = 1
    beyond = [[1] * 65 for _ in range(64)]
    floors = [("hall", hall_rows(203, 121, generator), 203 * 60 - 8, None, "runs"), ("hall", hall_rows(203, 121, generator), 203 * 60 - 8, 5000, "runs")]
    floors += [("noise", noise, 300 * 249 + 40, None, "image"), ("beyond", beyond, 64, None, "runs"), ("beyond", beyond, 0, None, "runs")]
    for name, rows, goal, limit, kind in floors:
        rows[goal // len(rows[0])][goal % len(rows[0])] = 1
        path, drawn = written(folder, f"{name}.map", text_of_weights(rows)), Path(folder, "large.svg")
        words, shown = asked_on(rows, 0, goal, limit)
        expect_run([path, *words, "--quiet", "--svg", drawn], 0, [f"the picture is in {drawn}"])
        if shown.start != shown.goal:
            expect_file(f"{name} with limit {limit} as a file", drawn.read_bytes(), shown, kind)
        else:
            picture = tree.fromstring(drawn.read_bytes())
            circles = [next(part for part in picture if part.get("class") == letter) for letter in "SG"]
            expect(f"{name}: both ends are seen", abs(float(circles[0].get("cx")) - float(circles[1].get("cx"))) >= float(circles[0].get("r")) * 1.2)
    print(f"tools: {len(floors)} large floors as SVG, read back cell by cell")


# ---- full halls


def test_serpentine(folder):
    """The longest way that a full hall has, through all its rows: 524,798 steps."""
    generator = random.Random(7)
    rows = serpentine(SIDE, [generator.randint(1, 9) for _ in range(SIDE)])
    route = steps_of_serpentine(SIDE)
    costs = along(rows, route)
    visited = list(costs)
    shown = Shown(SIDE, SIDE, bytes(weight for row in rows for weight in row), 0, visited[-1], costs, visited)
    path, drawn = written(folder, "serpentine.map", text_of_weights(rows)), Path(folder, "serpentine.svg")
    p, q = reference.sums(rows, 0, route)
    said = [
        f"found at cost {costs[visited[-1]]} in {len(route)} steps; {len(visited)} cells settled\ntrue length {p} + {q}√2 ",
        f"checked as a claimed route: holds at cost {70 * p + 99 * q}\nroute: {SIDE - 1} E, 2 S, {SIDE - 1} W, 2 S, ",
        "answered by the library; the program takes sides up to 64\n", f"the picture is in {drawn}",
    ]
    end = f"{visited[-1] % SIDE},{visited[-1] // SIDE}"
    out = expect_run([path, "--from", "0,0", "--to", end, "--svg", drawn], 0, said)
    expect_overview("serpentine", out, shown, 80)
    expect_file("serpentine as a file", drawn.read_bytes(), shown, "runs")
    told = re.findall(r"(\d+) ([NESW])\b", out.split("\nroute: ")[1].split("\nanswered by")[0])
    names = {"E": 2, "S": 4, "W": 6}
    expect("serpentine: the route in words", [names[name] for count, name in told for _ in range(int(count))] == route)
    print(f"tools: a serpentine of {SIDE} x {SIDE}: {len(route)} steps at cost {costs[visited[-1]]}, {len(drawn.read_bytes())} bytes of SVG")


def expect_overview_of_strewn(out, shown):
    """The overview of settled cells whose costs are not known here: all but the bands."""
    read = [characters(line) for line in out.split("\n")]
    frames, (blocks, _) = frames_in(read), blocks_due(shown, 15)
    expect("strewn: an overview", "a character stands for 15 x 30 cells" in out and len(frames) == 1, out)
    expect_grounds("strewn", frames[0], blocks, read[frames[0].ends + 1 :], out)
    near = str.maketrans(AMONG[1:] + DOTS[1:], AMONG[0] * 2 + DOTS[0] * 2)
    rows = [[one._replace(character=one.character.translate(near)) for one in row] for row in frames[0].rows]
    expect_rows("strewn", frames[0]._replace(rows=rows), blocks, lambda block: character(block, False), out)


def test_strewn(folder):
    """A third blocked at random, weights at random, and all that can be reached settled: the greatest file."""
    rows = strewn(SIDE, random.Random(11))
    seen, goal = reachable(rows), SIDE * (SIDE - 2) + SIDE - 2
    # what each settled cell costs is not known here, so that its tint is not looked at
    shown = Shown(SIDE, SIDE, bytes(weight for row in rows for weight in row), 0, goal, {cell: 0 for cell, there in enumerate(seen) if there}, [])
    path, drawn = written(folder, "strewn.map", text_of_weights(rows)), Path(folder, "strewn.svg")
    count = sum(seen)
    expect("nearly all open cells can be reached", count > 0.6 * SIDE * SIDE, count)
    line = f"none: no route leads to the goal; {count} cells settled, all that can be reached\nanswered by the library; "
    out = expect_run([path, "--from", "0,0", "--to", f"{SIDE - 2},{SIDE - 2}", "--color", "always", "--svg", drawn], 0, [line])
    expect_overview_of_strewn(out, shown)
    expect_file("strewn as a file", drawn.read_bytes(), shown, "image", has_costs=False)
    print(f"tools: {SIDE} x {SIDE} strewn cells: {count} settled, {len(drawn.read_bytes())} bytes of SVG")


# ---- sides, rooms and the stack


def test_greatest_side(folder):
    """1,024 is taken and 1,025 refused; a text of few bytes that says it is a full hall is refused for what is missing, and not for a room."""
    full, row = f"type octile\nheight {SIDE}\nwidth {SIDE}\nmap\n", "." * SIDE + "\n"
    for name, text, status, said in (
        ("wide", text_of(["." * SIDE]), 0, [f"found at cost {140 * (SIDE - 1)} in {SIDE - 1} steps; {SIDE} cells settled"]),
        ("wider", text_of(["." * (SIDE + 1)]), 1, ["map refused 23 at 21: the third line is not 'width W' with W from 1 to 1024, one", "it reads 'width 1025'"]),
        ("higher", text_of(["."] * (SIDE + 1)), 1, ["map refused 22 at 12: the second line is not 'height H' with H from 1 to 1024, one", "it reads 'height 1025'"]),
        ("empty", full, 1, [f"map refused 27 at {len(full)}", "rows are missing"]),
        ("cut", full + row * 3, 1, [f"map refused 27 at {len(full) + 3 * len(row)}"]),
        ("bad", full + row * 3 + "x", 1, [f"map refused 25 at {len(full) + 3 * len(row)}", "line 8, column 1: the byte is 'x'"]),
        ("more", full + row * SIDE + ".", 1, ["map refused 28 at 1049639"]),
        ("much more", full + row * (SIDE + 20), 1, ["map refused 28 at 1049639"]),
    ):
        path = written(folder, f"{name}.map", text)
        expect_run([path, "--from", "0,0", "--to", f"{SIDE - 1},0", "--quiet"], status, said)
    high = written(folder, "high.map", text_of(["."] * SIDE))
    expect_run([high, "--from", "0,0", "--to", f"0,{SIDE - 1}", "--quiet"], 0, [f"found at cost {140 * (SIDE - 1)} in {SIDE - 1} steps"])
    # more steps than any claim has, and as many as there are cells: both are 12, and what comes before 12 still does
    for steps in (SIDE - 1, SIDE, 999999, 2 * 999999):
        route = ", ".join(["999999 S"] * (steps // 999999) + [f"{steps % 999999} S"] * (steps % 999999 > 0))
        line = f"the claim holds: {steps} steps" if steps < SIDE else "the claim is refused 12: the claimed route is longer than"
        words = [high, "--from", "0,0", "--check", route, "--cost", 140 * steps, "--quiet"]
        expect_run([*words, "--to", f"0,{SIDE - 1}"], 0 if steps < SIDE else 1, [line])
        expect_run([*words, "--to", f"1,{SIDE - 1}"], 1, ["the claim is refused 6: the goal is not on the map"])
    print("tools: sides of 1024 and 1025, and texts and claims around the greatest")


def test_rooms(folder):
    """The program calls gets rooms for the greatest hall where they are needed, and only there."""
    noted = Path(folder, "noted")
    script = f'echo "$4" >>"{noted}"; exec $real "$3" ${{4:+"$4"}}'
    env = with_programs(folder, "noting", f'case $3 in */calls) {script} ;; *) exec $real "$3" ;; esac')
    found, missing = (0, ["found at cost 140 in 1 step"]), (1, ["map refused 27 at "])
    floors = {name: text_of(["." * width] * height) for name, width, height in (("small", 3, 2), ("usual", 60, 1024), ("greater", 65, 1016), ("hall", 80, 1024))}
    for name, text, due, (status, said) in (
        ("small", floors["small"], [""], found), ("usual", floors["usual"], [""], found), ("greater", floors["greater"], ["hall"], found),
        ("hall", floors["hall"], ["hall"], found), ("cut", floors["hall"][:1000], ["", "hall"], missing),
    ):
        path = written(folder, f"{name}.map", text)
        noted.write_text("")
        expect_run([path, "--from", "0,0", "--to", "0,1", "--quiet"], status, said, env=env)
        expect(f"{name}: how calls is started", noted.read_text().split("\n")[:-1] == due, noted.read_text())
    print("tools: calls is started for a hall where its usual rooms are too short")


def test_stack(folder):
    """tools/start asks for a stack of 32 MiB, and goes on where that is not allowed; the front end then says what is wrong with a large map."""
    start = [str(TESTED / "tools" / "start"), "calls"]
    env = with_programs(folder, "telling", "ulimit -S -s")
    for limits, due in (("ulimit -S -s 8192", 32768), ("ulimit -S -s unlimited", 32768), ("ulimit -S -s 8192; ulimit -H -s 8192", 8192)):
        ended, out, err = run(["-c", f'{limits}; exec "$@"', "bash", *start], command=["bash"], env=env)
        expect(f"the stack with {limits}", (ended, out, err) == (0, f"{due}\n", ""), f"{ended} {out}{err}")
    large, small = (written(folder, f"{width}.map", text_of(["." * width] * SIDE)) for width in (80, 3))
    low = ["-c", 'ulimit -S -s 8192; ulimit -H -s 8192; exec "$@"', "bash", *ASK]
    asked = ["--from", "0,0", "--to", "0,1", "--quiet"]
    complained = ["a map or a text this large needs a stack of 32768 kB, and the limit here is 8192 kB (ulimit -H -s)", "at most 66000 bytes of text"]
    expect_run([*low, large, *asked], 2, [], complained, command=["bash"])
    expect_run([*low, small, *asked], 0, ["found at cost 140 in 1 step"], command=["bash"])
    print("tools: a stack of 32 MiB, or a line that says what is wrong")
