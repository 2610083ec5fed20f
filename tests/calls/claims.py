"""Claimed routes and cost tables, and what the checks must answer, worked out from the paper alone.

The step into a cell is found by trying every step from every cell, sums are whole numbers without bound, and the right tables come
from a plain search: nothing here is shared with the checks, or done as they do it.
"""
import heapq

import wire
from paper import GREATEST_SIDE as SIDE

MARK = 4294967295
OTHER_SIDE = 64  # a floor of the greatest side and this one fills the program's rooms
DIRECTIONS = [(0, -1, 70), (1, -1, 99), (1, 0, 70), (1, 1, 99), (0, 1, 70), (-1, 1, 99), (-1, 0, 70), (-1, -1, 99)]
CELLS = {".": 1, "@": 0, "*": 10}


class Floor:
    def __init__(self, rows, ways=8, width=None, height=None, cells=None):
        """Rows as the paper draws them, parted by /; or width, height and the cells themselves."""
        lines = rows.split("/") if rows else []
        self.ways = ways
        self.width = len(lines[0]) if width is None else width
        self.height = len(lines) if height is None else height
        self.cells = [CELLS[c] if c in CELLS else int(c) for line in lines for c in line] if cells is None else cells

    def weight(self, x, y):
        if 0 <= x < self.width and 0 <= y < self.height:
            return self.cells[y * self.width + x]
        return 0

    def step(self, cell, direction):
        """The fault of a step from an open cell, or None, then the cell that it enters and its cost."""
        if direction > 7 or (self.ways == 4 and direction % 2 == 1):
            return 41, None, None
        dx, dy, unit = DIRECTIONS[direction]
        x, y = cell % self.width, cell // self.width
        if not (0 <= x + dx < self.width and 0 <= y + dy < self.height):
            return 42, None, None
        if self.weight(x + dx, y + dy) == 0:
            return 43, None, None
        if dx != 0 and dy != 0 and (self.weight(x + dx, y) == 0 or self.weight(x, y + dy) == 0):
            return 44, None, None
        return None, (y + dy) * self.width + x + dx, unit * (self.weight(x, y) + self.weight(x + dx, y + dy))

    def steps(self):
        """Every allowed step, as the cell left, the cell entered and the cost."""
        for cell, weight in enumerate(self.cells):
            for direction in range(8) if weight else ():
                fault, to, cost = self.step(cell, direction)
                if fault is None:
                    yield cell, to, cost

    def refusal(self, start, goal=None, route=None, costs=None):
        """The lowest number that applies and its place, or None."""
        count = self.width * self.height
        if not (1 <= self.width <= SIDE and 1 <= self.height <= SIDE):
            return 1, 0
        if len(self.cells) != count:
            return 2, 0
        for place, weight in enumerate(self.cells):
            if weight > 9:
                return 3, place
        if self.ways not in (4, 8):
            return 4, 0
        if start >= count:
            return 5, 0
        if goal is not None and goal >= count:
            return 6, 0
        if self.cells[start] == 0:
            return 7, 0
        if goal is not None and self.cells[goal] == 0:
            return 8, 0
        if costs is not None and len(costs) < count:
            return 9, 0
        if route is not None and len(route) > count - 1:
            return 12, 0
        return None


def route_answer(floor, start, goal, cost, route):
    """The kind of the answer (0 refused, 1 holds, 2 a fault), then number and place, or the cost."""
    refusal = floor.refusal(start, goal=goal, route=route)
    if refusal:
        return [0, *refusal]
    cell, spent = start, 0
    for place, direction in enumerate(route):
        fault, to, paid = floor.step(cell, direction)
        if fault:
            return [2, fault, place]
        cell, spent = to, spent + paid
    if cell != goal:
        return [2, 45, len(route)]
    if spent != cost:
        return [2, 46, len(route)]
    return [1, 0, 0, spent]


def collected(kind, number, place, cost=0):
    """The same answer as the collector gets it, low half first: that is the place, or the cost; the high half is the number."""
    return [cost if kind == 1 else place, number]


def table_answer(floor, start, costs):
    """The kind of the answer (0 refused, 1 right, 2 breaks), then number and place, or the cell."""
    refusal = floor.refusal(start, costs=costs)
    if refusal:
        return [0, *refusal]
    offers = [[] for _ in floor.cells]
    for cell, to, cost in floor.steps():
        if costs[cell] != MARK:
            offers[to].append(costs[cell] + cost)
    for cell, weight in enumerate(floor.cells):
        if weight == 0:
            due = MARK
        elif cell == start:
            due = 0
        else:
            due = min(offers[cell], default=MARK)
        if costs[cell] != due:
            return [2, 0, cell]
    return [1, 0, 0]


def right_table(floor, start):
    onward = [[] for _ in floor.cells]
    for cell, to, cost in floor.steps():
        onward[cell].append((to, cost))
    table = [MARK] * len(floor.cells)
    seen = [(0, start)]
    while seen:
        spent, cell = heapq.heappop(seen)
        if spent < table[cell]:
            table[cell] = spent
            for to, cost in onward[cell]:
                heapq.heappush(seen, (spent + cost, to))
    return table


def repeated(entries, length):
    return [entries[i % len(entries)] for i in range(length)] if entries else []


class Claims:
    """Makes calls of claims, as they are listed below."""

    def __init__(self, made):
        self.made = made

    def route(self, about, floor, start, goal, cost, route, steps=None, cells=None):
        """`steps` and `cells` are the lengths to which the route and the map are repeated. Each claim is checked, and then, as it is in the rooms,
        once more for the collector."""
        size, length = len(floor.cells) if cells is None else cells, len(route) if steps is None else steps
        asked = {"floor": (floor.width, floor.height, floor.ways), "start": start, "goal": goal, "limit": cost}
        given = {"map": (size, floor.cells), "route": (length, route)}
        kept = {"map": (size, ()), "route": (length, ())}
        floor.cells, route = repeated(floor.cells, size), repeated(route, length)
        answer = route_answer(floor, start, goal, cost, route)
        self.made.call(wire.CHECK_ROUTE, about, lambda **_: answer, **asked, **given)
        self.made.call(wire.C_CHECK_ROUTE, about, lambda **_: collected(*answer), **asked, **kept)

    def table(self, about, floor, start, costs, cells=None):
        size = len(floor.cells) if cells is None else cells
        given = {"map": (size, floor.cells), "costs": (len(costs), costs)}
        floor.cells = repeated(floor.cells, size)
        answer = table_answer(floor, start, costs)
        self.made.call(wire.CHECK_TABLE, about, lambda **_: answer, (floor.width, floor.height, floor.ways), start, **given)


def with_entry(table, cell, value):
    return table[:cell] + [value] + table[cell + 1:]


A, C, E, F, L = ".@./...", ".../.../...", "../.9", ".9./...", ".@/@."


def cases_of_01(claims):
    """The cases of the paper, as claims."""
    claims.route("case a", Floor(A), 0, 2, 560, [4, 2, 2, 0])
    claims.route("case c", Floor(C), 0, 8, 396, [3, 3])
    claims.route("case d", Floor(C, 4), 0, 8, 560, [4, 4, 2, 2])
    claims.route("case e", Floor(E), 0, 3, 840, [4, 2])
    claims.route("not of least cost", Floor(E), 0, 3, 990, [3])
    claims.route("case f", Floor(F), 0, 2, 396, [3, 1])
    claims.route("case i, empty route", Floor("."), 0, 0, 0, [])
    claims.route("case j", Floor(".9"), 0, 1, 700, [2])
    claims.route("case k", Floor(".9"), 1, 0, 700, [6])
    claims.route("case l, corner cut", Floor(L), 0, 3, 198, [3])


def both_cells(claims):
    """R-3: half the step lies on the cell left. Each step there and back, at its cost, at what either cell alone would make it, at half and at one more; then a
    table of two cells with the same values."""
    for left in (1, 2, 9):
        for entered in (1, 2, 9):
            for unit, rows, there, goal in (70, "%d%d" % (left, entered), 2, 1), (99, "%d5/5%d" % (left, entered), 3, 3):
                right = unit * (left + entered)
                for cost in sorted({right, unit * left, unit * entered, 2 * unit * left, 2 * unit * entered, right // 2, right + 1}):
                    claims.route("a step there", Floor(rows), 0, goal, cost, [there])
                    claims.route("the step back", Floor(rows), goal, 0, cost, [there + 4])
                    if goal == 1:
                        claims.table("a step there", Floor(rows), 0, [0, cost])
                        claims.table("the step back", Floor(rows), 1, [cost, 0])


def faults(claims):
    claims.route("direction above seven", Floor(C), 0, 8, 396, [3, 8])
    claims.route("greatest direction", Floor(C), 0, 8, 396, [255])
    claims.route("odd direction with four ways", Floor(C, 4), 0, 8, 396, [4, 3])
    claims.route("odd direction that also leaves the map", Floor(C, 4), 0, 8, 396, [1])
    claims.route("leaves to the north", Floor(C), 1, 8, 396, [0])
    claims.route("leaves to the east", Floor(C), 2, 8, 396, [2])
    claims.route("leaves to the south", Floor(C), 4, 8, 396, [4, 4])
    claims.route("leaves to the west", Floor(C), 3, 8, 396, [6])
    claims.route("leaves over a corner of the map", Floor(C), 0, 8, 396, [2, 1])
    claims.route("leaves to the west by a diagonal", Floor(C), 3, 8, 396, [5])
    claims.route("leaves, with a blocked cell beside", Floor(".@/.."), 0, 3, 396, [1])
    claims.route("enters a blocked cell", Floor(A), 0, 2, 560, [2])
    claims.route("enters a blocked cell later", Floor(A), 0, 2, 560, [4, 2, 0])
    claims.route("blocked cell past a corner", Floor(".@/@@/.."), 0, 4, 198, [3])
    claims.route("corner with the east cell blocked", Floor(".@/.."), 0, 3, 198, [3])
    claims.route("corner with the south cell blocked", Floor("../@."), 0, 3, 198, [3])
    claims.route("corner cut on the way back", Floor(".@/.."), 3, 0, 198, [7])
    claims.route("first of two faults", Floor(A), 0, 2, 560, [4, 4, 2])
    claims.route("not at the goal", Floor(A), 0, 2, 420, [4, 2, 2])
    claims.route("neither the goal nor the cost", Floor(A), 0, 2, 1, [4, 2, 2])
    claims.route("cost one less", Floor(A), 0, 2, 559, [4, 2, 2, 0])
    claims.route("cost one more", Floor(A), 0, 2, 561, [4, 2, 2, 0])
    claims.route("greatest number as cost", Floor(A), 0, 2, MARK, [4, 2, 2, 0])
    claims.route("empty route to another cell", Floor(".."), 0, 1, 0, [])
    claims.route("empty route at a cost", Floor("."), 0, 0, 1, [])
    claims.route("there and back", Floor("..."), 0, 0, 280, [2, 6])


class Rolled(Floor):
    """A floor whose rows go on into each other: a neighbour is taken for the cell that its offset leads to, past an edge too."""

    def step(self, cell, direction):
        if direction > 7 or (self.ways == 4 and direction % 2 == 1):
            return 41, None, None
        dx, dy, unit = DIRECTIONS[direction]
        to = cell + dy * self.width + dx
        if any(not 0 <= number < len(self.cells) or self.cells[number] == 0 for number in (to, cell + dx, cell + dy * self.width)):
            return 42, None, None
        return None, to, unit * (self.cells[cell] + self.cells[to])


def edges(claims):
    """R-5: a neighbour's number is an offset from the cell's, and an offset knows no edges. Each step of each cell of small floors, claimed to lead where its
    offset does, on the map or past an edge; then of each start the right table, and the one of a floor whose rows go on into each other."""
    for rows in "...", "./3/5", "12/34", "123/456", "12/34/56", "1@2/345", "@12/34@":
        for ways in 4, 8:
            floor = Floor(rows, ways)
            for cell in (cell for cell, weight in enumerate(floor.cells) if weight):
                for direction, (dx, dy, unit) in enumerate(DIRECTIONS):
                    number = cell + dy * floor.width + dx
                    goal = number if 0 <= number < len(floor.cells) and floor.cells[number] else cell
                    cost = unit * (floor.cells[cell] + floor.cells[goal])
                    claims.route("a step by its offset", Floor(rows, ways), cell, goal, cost, [direction])
                claims.table("right up to the edges", Floor(rows, ways), cell, right_table(floor, cell))
                claims.table("rows that go on into each other", Floor(rows, ways), cell, right_table(Rolled(rows, ways), cell))


def refusals(claims):
    claims.route("no width", Floor("", width=0, height=1, cells=[]), 0, 0, 0, [])
    claims.route("no height", Floor("", width=1, height=0, cells=[]), 0, 0, 0, [])
    claims.route("greatest width", Floor("", width=SIDE, height=1, cells=[1]), 0, 2, 280, [2, 2], cells=SIDE)
    claims.route("greatest height", Floor("", width=1, height=SIDE, cells=[1]), 0, SIDE - 1, 140 * (SIDE - 1), [4], steps=SIDE - 1, cells=SIDE)
    claims.route("too wide", Floor("", width=SIDE + 1, height=1, cells=[1]), 0, 2, 280, [2, 2], cells=SIDE + 1)
    claims.route("too high", Floor("", width=1, height=SIDE + 1, cells=[1]), 0, 2, 280, [4, 4], cells=SIDE + 1)
    claims.route("too wide and too high", Floor("", width=SIDE + 1, height=SIDE + 1, cells=[1]), 0, 2, 280, [2, 2], cells=SIDE + 1)
    claims.route("a row of 257", Floor("", width=257, height=1, cells=[1]), 0, 256, 140 * 256, [2], steps=256, cells=257)
    claims.route("a column of 257", Floor("", width=1, height=257, cells=[1]), 256, 0, 140 * 256, [0], steps=256, cells=257)
    claims.route("a row of the greatest side, one cell short", Floor("", width=SIDE, height=1, cells=[1]), 0, 2, 280, [2, 2], cells=SIDE - 1)
    claims.route("a row of the greatest side, a bad byte at its end", Floor("", width=SIDE, height=1, cells=[1] * (SIDE - 1) + [10]), 0, 2, 280, [2, 2])
    claims.route("a start after the greatest row", Floor("", width=SIDE, height=1, cells=[1]), SIDE, SIDE, 0, [], cells=SIDE)
    claims.route("as many steps as the greatest row has cells", Floor("", width=SIDE, height=1, cells=[1]), 0, 0, 140 * SIDE, [2, 6], steps=SIDE, cells=SIDE)
    claims.route("one step fewer on the greatest row", Floor("", width=SIDE, height=1, cells=[1]), 0, 1, 140 * (SIDE - 1), [2, 6], steps=SIDE - 1, cells=SIDE)
    claims.route("a product that would wrap to nothing", Floor("", width=2**31, height=2, cells=[]), 0, 0, 0, [])
    claims.route("map too short", Floor("", width=2, height=2, cells=[1, 1, 1]), 0, 1, 140, [2])
    claims.route("map too long", Floor("", width=2, height=2, cells=[1, 1, 1, 1, 1]), 0, 1, 140, [2])
    claims.route("no map", Floor("", width=2, height=2, cells=[]), 0, 1, 140, [2])
    claims.route("weights nine", Floor("99/99"), 0, 3, 1782, [3])
    claims.route("a weight ten", Floor("../.*"), 0, 3, 198, [3])
    claims.route("lowest of two bad bytes", Floor("", width=2, height=2, cells=[1, 255, 1, 10]), 0, 3, 198, [3])
    for ways in 0, 5, 6, 7, 9, 260, MARK:
        claims.route("no such ways", Floor(C, ways), 0, 8, 396, [3, 3])
    claims.route("start off the map", Floor(A), 6, 2, 560, [4])
    claims.route("start far off the map", Floor(A), MARK, 2, 560, [4])
    claims.route("goal off the map", Floor(A), 0, 6, 560, [4])
    claims.route("both off the map", Floor(A), 6, 7, 560, [4])
    claims.route("start blocked", Floor(A), 1, 2, 560, [4])
    claims.route("goal blocked", Floor(A), 0, 1, 560, [4])
    claims.route("both blocked", Floor(L), 1, 2, 198, [4])
    claims.route("start blocked and goal off the map", Floor(A), 1, 6, 560, [4])
    claims.route("one step on a map of one cell", Floor("."), 0, 0, 140, [2])
    claims.route("as many steps as cells", Floor("..."), 0, 0, 420, [2, 6, 2])
    claims.route("one step fewer", Floor("..."), 0, 0, 280, [2, 6])
    claims.route("too many steps to a blocked goal", Floor(L), 0, 1, 0, [2, 2, 2, 2])
    claims.route("too wide and too short", Floor("", width=SIDE + 1, height=2, cells=[1]), 0, 0, 0, [])
    claims.route("too short, with a bad byte", Floor("", width=2, height=2, cells=[10]), 0, 0, 0, [])
    claims.route("bad byte and bad ways", Floor(".*", 5), 0, 0, 0, [])
    claims.route("bad ways and a start off the map", Floor("..", 5), 2, 0, 0, [])


def longest_routes(claims):
    """On floors that fill the program's rooms, wide and high; `halls` has those of a full hall."""
    ALL = SIDE * OTHER_SIDE
    for width, height in (SIDE, OTHER_SIDE), (OTHER_SIDE, SIDE):
        floor = lambda: Floor("", width=width, height=height, cells=[9])
        SNAKE = [2] * (width - 1) + [4] + [6] * (width - 1) + [4]
        claims.route("a snake through every cell", floor(), 0, ALL - width, (ALL - 1) * 70 * 18, SNAKE, steps=ALL - 1, cells=ALL)
        claims.route("the snake to another goal", floor(), 0, 1, (ALL - 1) * 70 * 18, SNAKE, steps=ALL - 1, cells=ALL)
        claims.route("the longest route by diagonal steps", floor(), 0, width + 1, (ALL - 1) * 99 * 18, [3, 7], steps=ALL - 1, cells=ALL)
        claims.route("one step more", floor(), 0, 0, ALL * 99 * 18, [3, 7], steps=ALL, cells=ALL)


def tables(claims):
    a = right_table(Floor(A), 0)
    claims.table("case a", Floor(A), 0, a)
    claims.table("case a with one entry less by one", Floor(A), 0, with_entry(a, 5, 419))
    claims.table("case a with a number on the blocked cell", Floor(A), 0, with_entry(a, 1, 140))
    claims.table("case a with a start that is not zero", Floor(A), 0, with_entry(a, 0, 1))
    claims.table("case a with a goal that has none", Floor(A), 0, with_entry(a, 2, MARK))
    claims.table("case a with entries past the cells", Floor(A), 0, a + [1, 2, 3])
    claims.table("case a, one entry short", Floor(A), 0, a[:5])
    claims.table("no costs", Floor(A), 0, [])
    for rows, ways, start in (C, 8, 0), (C, 4, 0), (E, 8, 0), (F, 8, 0), (".@.", 8, 0), (".@.", 8, 2), (".", 8, 0), (".9", 8, 0), (".9", 8, 1), (L, 8, 0), (L, 8, 3):
        claims.table("a right one", Floor(rows, ways), start, right_table(Floor(rows, ways), start))
    claims.table("the costs of eight ways with four", Floor(C, 4), 0, right_table(Floor(C), 0))
    claims.table("the costs of four ways with eight", Floor(C), 0, right_table(Floor(C, 4), 0))
    claims.table("a corner cut", Floor(L), 0, [0, MARK, MARK, 198])
    claims.table("cells that hold each other up", Floor(".@.."), 0, [0, MARK, 140, 280])
    claims.table("a sum that is exactly the mark", Floor("..."), 2, [MARK, MARK - 140, 0])
    claims.table("a sum one below the mark", Floor("..."), 2, [MARK - 1, MARK - 141, 0])
    claims.table("a sum one above the mark", Floor("..."), 2, [MARK, MARK - 139, 0])
    claims.table("a sum past the mark, wrapped", Floor("..."), 2, [0, MARK - 139, 0])
    claims.table("a sum past the mark by much", Floor("..."), 2, [138, MARK - 1, 0])
    claims.table("the mark is no value to add to", Floor("..."), 2, [139, MARK, 0])
    claims.table("all marks but the start", Floor(C), 4, with_entry([MARK] * 9, 4, 0))
    claims.table("all marks", Floor(C), 4, [MARK] * 9)
    claims.table("all zeros", Floor(C), 4, [0] * 9)
    claims.table("greatest width", Floor("", width=SIDE, height=1, cells=[1]), 0, [140 * x for x in range(SIDE)], cells=SIDE)
    claims.table("greatest height, last entry wrong", Floor("", width=1, height=SIDE, cells=[1]), 0, [140 * y for y in range(SIDE - 1)] + [MARK], cells=SIDE)
    claims.table("too wide", Floor("", width=SIDE + 1, height=1, cells=[1]), 0, [0], cells=SIDE + 1)
    claims.table("too high", Floor("", width=1, height=SIDE + 1, cells=[1]), 0, [0], cells=SIDE + 1)
    claims.table("a row of 257", Floor("", width=257, height=1, cells=[1]), 0, [140 * x for x in range(257)], cells=257)
    claims.table("a row of the greatest side, one entry short", Floor("", width=SIDE, height=1, cells=[1]), 0, [140 * x for x in range(SIDE - 1)], cells=SIDE)
    claims.table("no width", Floor("", width=0, height=1, cells=[]), 0, [])
    claims.table("map too short", Floor("", width=2, height=1, cells=[1]), 0, [0, 140])
    claims.table("a weight ten", Floor("..*"), 0, [0, 140, 280])
    claims.table("no such ways", Floor("..", 6), 0, [0, 140])
    claims.table("start off the map", Floor(".."), 2, [0, 140])
    claims.table("start blocked", Floor("@."), 0, [0, 140])
    claims.table("start blocked and costs too short", Floor("@."), 0, [0])
    claims.table("start off the map and costs too short", Floor("@."), 2, [0])


class Draw:
    """Numbers below n, the same in every run."""

    def __init__(self):
        self.state = 1

    def __call__(self, n):
        self.state = (self.state * 1103515245 + 12345) % 2**31
        return self.state // 2**12 % n


def drawn_floors(claims):
    """Many small floors: a right table, the same with one entry changed, and a route of some steps."""
    draw = Draw()
    for _ in range(40):
        width, height, ways = 1 + draw(5), 1 + draw(5), 4 + 4 * draw(2)
        cells = [draw(10) if draw(4) else 0 for _ in range(width * height)]
        start = draw(width * height)
        cells[start] = 1 + draw(9)
        floor = Floor("", ways, width, height, cells)
        table = right_table(floor, start)
        claims.table("drawn, right", Floor("", ways, width, height, cells), start, table)
        cell = draw(width * height)
        changed = [table[cell] + 1, table[cell] - 1, 0, MARK, MARK - 140][draw(5)] % 2**32
        claims.table("drawn, one entry changed", Floor("", ways, width, height, cells), start, with_entry(table, cell, changed))
        route, cell, spent = [], start, 0
        for _ in range(draw(width * height + 1)):
            direction = draw(8)
            fault, to, cost = floor.step(cell, direction)
            if fault is None:
                route, cell, spent = route + [direction], to, spent + cost
            elif draw(8) == 0:
                route.append(direction)
                break
        claims.route("drawn", Floor("", ways, width, height, cells), start, cell, spent + draw(3) // 2, route)


def add_calls(made):
    claims = Claims(made)
    cases_of_01(claims)
    both_cells(claims)
    faults(claims)
    edges(claims)
    refusals(claims)
    longest_routes(claims)
    tables(claims)
    drawn_floors(claims)
