"""A handful of calls, one of each form, with replies written out from the text of 01, R-2, R-3, R-4 and R-6 as plainly as can be: least costs by relaxing every
step until nothing changes, P and Q by walking the route, the claims by their rules. Here it is that a call's parts are read in their order and that a reply has
all of its own.
"""
import wire

MARK = 4294967295
DIRECTIONS = [(0, -1, 70), (1, -1, 99), (1, 0, 70), (1, 1, 99), (0, 1, 70), (-1, 1, 99), (-1, 0, 70), (-1, -1, 99)]


class Floor:
    def __init__(self, picture, ways):
        rows = picture.split("/")
        self.width, self.height, self.ways = len(rows[0]), len(rows), ways
        self.cells = bytes("@.23456789".index(mark) for row in rows for mark in row)

    def weight(self, x, y):
        return self.cells[y * self.width + x]

    def step(self, cell, direction):
        """The cell entered and the cost, or the number of the fault."""
        if direction > 7 or self.ways == 4 and direction % 2 == 1:
            return 41
        dx, dy, unit = DIRECTIONS[direction]
        x, y = cell % self.width, cell // self.width
        if not (0 <= x + dx < self.width and 0 <= y + dy < self.height):
            return 42
        if self.weight(x + dx, y + dy) == 0:
            return 43
        if self.weight(x + dx, y) == 0 or self.weight(x, y + dy) == 0:
            return 44
        return (y + dy) * self.width + x + dx, unit * (self.weight(x, y) + self.weight(x + dx, y + dy))

    def steps(self):
        """Every allowed step: cell, direction, cell entered, cost."""
        for cell in range(len(self.cells)):
            for direction in range(8):
                step = self.step(cell, direction)
                if self.cells[cell] != 0 and isinstance(step, tuple):
                    yield cell, direction, step[0], step[1]


def least_costs(floor, start):
    costs = {start: 0}
    while True:
        before = dict(costs)
        for cell, _, to, cost in floor.steps():
            if cell in costs:
                costs[to] = min(costs.get(to, MARK), costs[cell] + cost)
        if costs == before:
            return costs


def first_route(floor, costs, start, goal):
    route = []
    while goal != start:
        last = [(d, cell) for cell, d, to, cost in floor.steps() if to == goal and cell in costs and costs[cell] + cost == costs[goal]]
        direction, goal = min(last)
        route.insert(0, direction)
    return route


def two_sums(floor, start, route):
    """P and Q: the weights of both cells of each step, over the straight steps and over the diagonal ones."""
    cell, p, q = start, 0, 0
    for direction in route:
        to, _ = floor.step(cell, direction)
        if direction % 2 == 0:
            p += floor.cells[cell] + floor.cells[to]
        else:
            q += floor.cells[cell] + floor.cells[to]
        cell = to
    return p, q


def found(floor, start, settled, cost, route):
    """The numbers of a found answer."""
    p, q = two_sums(floor, start, route)
    assert cost == 70 * p + 99 * q
    return [1, 0, 0, settled, cost, len(route), p, q]


def shape(floor):
    return floor.width, floor.height, floor.ways


def search(made, floor, start, goal, limit, more):
    """A search in rooms that are longer than needed by `more`."""
    size = len(floor.cells)
    least = least_costs(floor, start)
    cells = sorted(least, key=lambda cell: (least[cell], cell))

    def answer(costs, work, route, **_):
        steps = []
        if goal in cells and cells.index(goal) < limit:
            steps = first_route(floor, least, start, goal)
            numbers = found(floor, start, cells.index(goal) + 1, least[goal], steps)
        elif goal not in cells and len(cells) <= limit:
            numbers = [2, 0, 0, len(cells), MARK, 0]
        else:
            numbers = [3, 0, 0, limit, least[cells[limit]], 0]
        costs[:] = [least[cell] if cell in cells[: numbers[3]] else MARK for cell in range(size)] + wire.OLD_COST * more
        work[:] = [0] * (2 * size) + wire.OLD_WORK * more
        route[:] = steps + wire.OLD_BYTE * (size + more - len(steps))
        return numbers

    rooms = {"costs": (size + more, wire.OLD_COST), "work": (2 * size + more, wire.OLD_WORK), "route": (size + more, wire.OLD_BYTE)}
    made.call(wire.SEARCH, "plain", answer, shape(floor), start, goal, limit, map=(size, floor.cells), **rooms)


def octile(floor, cell, goal):
    small, large = sorted((abs(cell % floor.width - goal % floor.width), abs(cell // floor.width - goal // floor.width)))
    return 140 * (small + large) if floor.ways == 4 else 198 * small + 140 * (large - small)


def astar(made, floor, start, goal, more):
    """The same for A*, which has no limit."""
    size = len(floor.cells)
    least = least_costs(floor, start)
    settled = [cell for cell in least if goal not in least or least[cell] + octile(floor, cell, goal) <= least[goal]]

    def answer(costs, work, route, **_):
        steps = first_route(floor, least, start, goal) if goal in least else []
        costs[:] = [least[cell] if cell in settled else MARK for cell in range(size)] + wire.OLD_COST * more
        work[:] = [0] * (2 * size) + wire.OLD_WORK * more
        route[:] = steps + wire.OLD_BYTE * (size + more - len(steps))
        return found(floor, start, len(settled), least[goal], steps) if goal in least else [2, 0, 0, len(settled), MARK, 0]

    rooms = {"costs": (size + more, wire.OLD_COST), "work": (2 * size + more, wire.OLD_WORK), "route": (size + more, wire.OLD_BYTE)}
    made.call(wire.ASTAR, "plain", answer, shape(floor), start, goal, map=(size, floor.cells), **rooms)


def refused_search(made, floor, limit, lengths, number, place):
    """A search in rooms of these lengths, which stay as they are."""
    rooms = dict(zip(("costs", "work", "route"), zip(lengths, (wire.OLD_COST, wire.OLD_WORK, wire.OLD_BYTE))))
    made.call(wire.SEARCH, "plain, refused", lambda **_: [0, number, place], shape(floor), 0, 0, limit, map=(len(floor.cells), floor.cells), **rooms)


def route_verdict(floor, start, goal, cost, route):
    cell, total = start, 0
    for place, direction in enumerate(route):
        step = floor.step(cell, direction)
        if not isinstance(step, tuple):
            return [2, step, place]
        cell, total = step[0], total + step[1]
    if cell != goal:
        return [2, 45, len(route)]
    if total != cost:
        return [2, 46, len(route)]
    return [1, 0, 0, total]


def route_claim(made, floor, start, goal, cost, route):
    verdict = route_verdict(floor, start, goal, cost, route)
    rooms = {"map": (len(floor.cells), floor.cells), "route": (len(route), route)}
    made.call(wire.CHECK_ROUTE, "plain", lambda **_: verdict, shape(floor), start, goal, cost, **rooms)


def table_verdict(floor, start, costs):
    for cell in range(len(floor.cells)):
        offers = [costs[left] + cost for left, _, to, cost in floor.steps() if to == cell and costs[left] != MARK]
        due = 0 if cell == start else min(offers, default=MARK)
        if costs[cell] != due:
            return [2, 0, cell]
    return [1, 0, 0]


def table_claim(made, floor, start, costs):
    verdict = table_verdict(floor, start, costs)
    rooms = {"map": (len(floor.cells), floor.cells), "costs": (len(costs), costs)}
    made.call(wire.CHECK_TABLE, "plain", lambda **_: verdict, shape(floor), start, **rooms)


def text_of(floor):
    rows = [floor.cells[y * floor.width : (y + 1) * floor.width] for y in range(floor.height)]
    drawn = "".join("".join("@.23456789"[weight] for weight in row) + "\n" for row in rows)
    return ("type octile\nheight %d\nwidth %d\nmap\n" % (floor.height, floor.width) + drawn).encode()


def reading(made, floor, more):
    """The floor's text, read into a room that is longer than needed."""
    size, text = len(floor.cells), text_of(floor)

    def answer(map, **_):
        map[:] = [*floor.cells, *wire.OLD_BYTE * more]
        return [1, 0, 0, floor.width, floor.height, 8]

    made.call(wire.READ_MAP, "plain", answer, map=(size + more, wire.OLD_BYTE), text=(len(text), text))


def refused_reading(made, text, number, place):
    made.call(wire.READ_MAP, "plain, refused", lambda **_: [0, number, place], map=(7, wire.OLD_BYTE), text=(len(text), text))


def writing(made, floor, more):
    due = text_of(floor)

    def answer(text, **_):
        text[:] = [*due, *wire.OLD_BYTE * more]
        return [1, 0, 0, len(due)]

    made.call(wire.WRITE_MAP, "plain", answer, shape(floor), map=(len(floor.cells), floor.cells), text=(len(due) + more, wire.OLD_BYTE))


def add_calls(made):
    a, d, l, both = Floor(".@./...", 8), Floor(".../.../...", 4), Floor(".@/@.", 8), Floor(".29/934", 8)
    wide = Floor("/".join(["." * 1024] * 2), 8)
    wrong = Floor(".@./...", 8)
    wrong.cells = bytes([1, 0, 1, 10, 1, 11])
    table = [0, MARK, 560, 140, 280, 420]
    search(made, a, 0, 2, 5, 0)
    search(made, a, 0, 2, 4, 2)
    search(made, d, 0, 8, 9, 1)
    search(made, l, 0, 3, 4, 0)
    search(made, wide, 1024 + 30, 5, MARK, 3)
    search(made, a, 0, 3, 1, 1)
    search(made, both, 0, 5, 6, 0)
    refused_search(made, wrong, 9, (2, 3, 4), 3, 3)
    refused_search(made, a, 0, (6, 12, 6), 15, 0)
    refused_search(made, a, 0, (6, 12, 5), 11, 0)
    route_claim(made, a, 0, 2, 560, [4, 2, 2, 0])
    route_claim(made, a, 0, 2, 561, [4, 2, 2, 0])
    route_claim(made, l, 0, 3, 198, [3])
    table_claim(made, a, 0, table)
    table_claim(made, a, 0, table[:5] + [419])
    table_claim(made, a, 0, table + [77])
    reading(made, a, 1)
    refused_reading(made, b"type octile\nheight 2\nwidth 3\nmap\n.@.\n.S.\n", 25, 38)
    refused_reading(made, b"type octile\r\n", 21, 0)
    writing(made, a, 4)
    search(made, a, 0, 2, 5, 0)
    astar(made, a, 0, 2, 0)
    astar(made, d, 0, 8, 1)
    astar(made, l, 0, 3, 2)
    astar(made, both, 5, 0, 1)
