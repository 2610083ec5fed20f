"""A search, A*, records and a route log of its own for the tests: 01's rules, R-1's to R-4's and R-6's, a heap, and nothing of the project."""
import heapq
import struct

MARK = 4294967295
RECORD = 32  # "All records grow to 32 bytes"
STEPS = ((0, -1), (1, -1), (1, 0), (1, 1), (0, 1), (-1, 1), (-1, 0), (-1, -1))


def rows_of(text):
    """Weights by row of map text that the reader takes."""
    lines = text.decode("ascii").split("\n")
    return [[{"@": 0, "O": 0, "T": 0, ".": 1, "G": 1}.get(c) if c in "@OT.G" else int(c) for c in line] for line in lines[4:-1]]


def step(rows, ways, x, y, direction):
    """The cell entered and the cost, or None."""
    dx, dy = STEPS[direction]
    if ways == 4 and direction % 2 == 1:
        return None
    if not (0 <= x + dx < len(rows[0]) and 0 <= y + dy < len(rows)):
        return None
    if 0 in (rows[y][x], rows[y + dy][x + dx], rows[y][x + dx], rows[y + dy][x]):
        return None
    return x + dx, y + dy, (99 if dx and dy else 70) * (rows[y][x] + rows[y + dy][x + dx])


def least_costs(rows, ways, start):
    width = len(rows[0])
    costs, waiting = {}, [(0, start)]
    while waiting:
        cost, cell = heapq.heappop(waiting)
        if cell in costs:
            continue
        costs[cell] = cost
        for direction in range(8):
            entered = step(rows, ways, cell % width, cell // width, direction)
            if entered:
                heapq.heappush(waiting, (cost + entered[2], entered[1] * width + entered[0]))
    return costs


def first_route(rows, ways, costs, start, goal):
    """Back from the goal, each time by the lowest direction that a least-cost route can end with."""
    width, cell, route = len(rows[0]), goal, []
    while cell != start:
        for direction, (dx, dy) in enumerate(STEPS):
            x, y = cell % width - dx, cell // width - dy
            if not (0 <= x < width and 0 <= y < len(rows)):
                continue
            entered = step(rows, ways, x, y, direction)
            if entered and costs.get(y * width + x, MARK) + entered[2] == costs.get(cell):
                route.append(direction)
                cell = y * width + x
                break
        else:
            raise ValueError(f"no route leads to cell {cell}")
    return route[::-1]


def estimate(width, ways, cell, goal):
    """R-4's, from the two coordinate distances."""
    small, large = sorted((abs(cell % width - goal % width), abs(cell // width - goal // width)))
    return 140 * (small + large) if ways == 4 else 198 * small + 140 * (large - small)


def settled_by_astar(rows, ways, costs, goal):
    """The cells that R-4 names, of those with a least cost: no A* is run."""
    if goal not in costs:
        return set(costs)
    return {cell for cell, cost in costs.items() if cost + estimate(len(rows[0]), ways, cell, goal) <= costs[goal]}


def sums(rows, start, route):
    """P and Q of a route: both cells' weights of its straight steps and of its diagonal ones."""
    x, y, due = start % len(rows[0]), start // len(rows[0]), [0, 0]
    for direction in route:
        dx, dy = STEPS[direction]
        due[direction % 2] += rows[y][x] + rows[y + dy][x + dx]
        x, y = x + dx, y + dy
    return due


def asked(start, goal, limit=MARK, ways=8, zeros=bytes(19)):
    """A question record; it "ends in 19 zeros"."""
    return struct.pack("<3IB19s", start, goal, limit, ways, zeros)


def answered(kind, settled=0, number=0, length=0, p=0, q=0, refusal=0):
    """An answer record: "P and Q after the route length and eight zeros"."""
    return struct.pack("<BB2x5I8x", kind, refusal, settled, number, length, p, q)


def numbers_in(answer):
    """Kind, refusal, settled count, number returned, route length, P and Q of an answer record."""
    return struct.unpack("<BB2x5I8x", answer)


def refusal(rows, start, goal, limit, ways, zeros):
    cells = [weight for row in rows for weight in row]
    tests = (
        (13, any(zeros)), (4, ways not in (4, 8)), (5, start >= len(cells)), (6, goal >= len(cells)),
        (7, start < len(cells) and cells[start] == 0), (8, goal < len(cells) and cells[goal] == 0), (15, limit == 0),
    )
    return next((number for number, applies in tests if applies), 0)


def answer(text, record):
    """The answer record to a question record."""
    rows = rows_of(text)
    start, goal, limit, ways, zeros = struct.unpack("<3IB19s", record)
    number = refusal(rows, start, goal, limit, ways, zeros)
    if number:
        return answered(0, refusal=number)
    costs = least_costs(rows, ways, start)
    listed = sorted(costs, key=lambda cell: (costs[cell], cell))
    if goal in costs and listed.index(goal) < limit:
        route = first_route(rows, ways, costs, start, goal)
        return answered(1, listed.index(goal) + 1, costs[goal], len(route), *sums(rows, start, route))
    if goal not in costs and len(listed) <= limit:
        return answered(2, len(listed), MARK)
    return answered(3, limit, costs[listed[limit]])


def entry(record, given, route=()):
    """An entry of a route log: question, answer, and the directions in records, the last filled up with 255."""
    return record + given + bytes(route) + b"\xff" * (-len(route) % RECORD)


def entry_on(text, record):
    """The entry for a question record on a map."""
    rows, given = rows_of(text), answer(text, record)
    start, goal, _, ways, _ = struct.unpack("<3IB19s", record)
    route = first_route(rows, ways, least_costs(rows, ways, start), start, goal) if given[0] == 1 else ()
    return entry(record, given, route)


def records(data):
    """The records of a file."""
    return [data[at : at + RECORD] for at in range(0, len(data), RECORD)]
