"""Questions to the search, and what it must answer and leave.

How the expectation is produced: from the text of 01, of R-2 about limit 0, of R-3 about what a step costs and of R-6 about P and Q, alone, as plainly
as it can be written, and with nothing of the search's own code or method. The least costs come from relaxing every step of the map again and again, in
sweeps in both directions, until a sweep changes nothing. L is the reachable cells, sorted by cost and cell number; answer,
settled count and rooms are read off L. The route is walked back from the goal: of the steps that give a cell its cost the one
with the lowest direction is the last. P and Q are summed along the route, from the start on, and held against its cost.
All cases that are not listed one by one come from a generator with a fixed seed.
"""
import random

import wire
from paper import GREATEST_SIDE

MARK = 4294967295

# number: dx, dy, unit
DIRECTIONS = [(0, -1, 70), (1, -1, 99), (1, 0, 70), (1, 1, 99), (0, 1, 70), (-1, 1, 99), (-1, 0, 70), (-1, -1, 99)]


# ---- the floor -----------------------------------------------------------------------------------------------------


def allowed_step(width, height, ways, cells, cell, direction):
    """The cell entered and the step's cost, or None where the step is not allowed."""
    if ways == 4 and direction % 2 == 1:
        return None
    dx, dy, unit = DIRECTIONS[direction]
    x, y = cell % width, cell // width
    u, v = x + dx, y + dy
    if not (0 <= u < width and 0 <= v < height):
        return None
    to = v * width + u
    if cells[cell] == 0 or cells[to] == 0:
        return None
    if direction % 2 == 1 and (cells[y * width + u] == 0 or cells[v * width + x] == 0):
        return None
    return to, unit * (cells[cell] + cells[to])


def steps_of(width, height, ways, cells):
    """For each cell its allowed steps: direction, cell entered, cost."""
    table = []
    for cell in range(len(cells)):
        steps = []
        for direction in range(8):
            step = allowed_step(width, height, ways, cells, cell, direction)
            if step is not None:
                steps.append((direction, step[0], step[1]))
        table.append(steps)
    return table


# ---- least costs, L and the first route ------------------------------------------------------------------------------


def least_costs(table, start):
    """None for a cell that no route reaches."""
    costs = [None] * len(table)
    costs[start] = 0
    changed = True
    onwards = True
    while changed:
        changed = False
        for cell in range(len(table)) if onwards else range(len(table) - 1, -1, -1):
            if costs[cell] is None:
                continue
            for _, to, cost in table[cell]:
                sum_ = costs[cell] + cost
                if costs[to] is None or sum_ < costs[to]:
                    costs[to] = sum_
                    changed = True
        onwards = not onwards
    return costs


def first_route(table, costs, start, goal):
    """Backwards from the goal, at each cell by the lowest direction of a step that gives it its cost."""
    into = [[] for _ in table]
    for cell in range(len(table)):
        for direction, to, cost in table[cell]:
            into[to].append((direction, cell, cost))
    backwards = []
    cell = goal
    while cell != start:
        giving = [(d, came) for d, came, cost in into[cell] if costs[came] is not None and costs[came] + cost == costs[cell]]
        direction, cell = min(giving)
        backwards.append(direction)
    return backwards[::-1]


def two_sums(case, steps):
    """P and Q of a route from the start: the weights of both cells of each step, summed over the straight and over the diagonal ones."""
    cells, cell = case["cells"], case["start"]
    straight = diagonal = 0
    for direction in steps:
        dx, dy, _ = DIRECTIONS[direction]
        entered = cell + dy * case["width"] + dx
        pair = cells[cell] + cells[entered]
        if dx != 0 and dy != 0:
            diagonal += pair
        else:
            straight += pair
        cell = entered
    return straight, diagonal


# ---- what the search must answer and leave ----------------------------------------------------------------------------


def refusal(case):
    """The lowest number that applies, with its place, or None."""
    width, height, cells = case["width"], case["height"], case["cells"]
    size = width * height
    if not (1 <= width <= GREATEST_SIDE and 1 <= height <= GREATEST_SIDE):
        return 1, 0
    if len(cells) != size:
        return 2, 0
    above = [cell for cell in range(size) if cells[cell] > 9]
    if above:
        return 3, above[0]
    if case["ways"] not in (4, 8):
        return 4, 0
    if case["start"] >= size:
        return 5, 0
    if case["goal"] >= size:
        return 6, 0
    if cells[case["start"]] == 0:
        return 7, 0
    if cells[case["goal"]] == 0:
        return 8, 0
    if case["costs"] < size:
        return 9, 0
    if case["work"] < 2 * size:
        return 10, 0
    if case["route"] < size:
        return 11, 0
    if case["limit"] == 0:
        return 15, 0
    return None


KNOWN = {}  # several cases ask about the same map and start


def known_costs(case):
    name = (case["width"], case["height"], case["ways"], case["cells"], case["start"])
    if name not in KNOWN:
        table = steps_of(*name[:4])
        KNOWN[name] = table, least_costs(table, case["start"])
    return KNOWN[name]


def found(case, settled, cost, steps):
    """The numbers of a found answer, of either engine."""
    p, q = two_sums(case, steps)
    assert cost == 70 * p + 99 * q, case
    return [1, 0, 0, settled, cost, len(steps), p, q]


def answer(case, costs, work, route):
    """Kind, refusal, place, settled, number returned, route length, P and Q; alters the rooms as the search must."""
    refused = refusal(case)
    if refused is not None:
        return [0, *refused, 0, 0, 0, 0, 0]
    size = len(case["cells"])
    table, least = known_costs(case)
    reached = sorted((least[cell], cell) for cell in range(size) if least[cell] is not None)
    limit, goal = case["limit"], case["goal"]
    places = [place for place in range(len(reached)) if reached[place][1] == goal]
    steps = []
    if places and places[0] < limit:
        steps = first_route(table, least, case["start"], goal)
        numbers = found(case, places[0] + 1, least[goal], steps)
    elif not places and len(reached) <= limit:
        numbers = [2, 0, 0, len(reached), MARK, 0, 0, 0]
    else:
        numbers = [3, 0, 0, limit, reached[limit][0], 0, 0, 0]
    costs[:size] = [MARK] * size
    for cost, cell in reached[: numbers[3]]:
        costs[cell] = cost
    work[: 2 * size] = [0] * (2 * size)
    route[: len(steps)] = steps
    return numbers


# ---- the cases --------------------------------------------------------------------------------------------------------


def case_of(width, height, ways, weights, start, goal, limit, **changes):
    """A case with rooms that just suffice, but for `changes`."""
    size = width * height
    case = {"width": width, "height": height, "ways": ways, "start": start, "goal": goal, "limit": limit}
    case.update(costs=size, work=2 * size, route=size, cells=bytes(weights))
    case.update(changes)
    return case


def drawn(picture, ways, start, goal, limit, **changes):
    """A case whose map is drawn as 01 draws it, rows parted by /."""
    rows = picture.split("/")
    weights = [0 if mark == "@" else 1 if mark == "." else int(mark) for row in rows for mark in row]
    case = case_of(len(rows[0]), len(rows), ways, weights, start, goal, limit)
    case.update(changes)
    return case


def cases_of_01():
    return [
        drawn(".@./...", 8, 0, 2, 5),
        drawn(".@./...", 8, 0, 2, 4),
        drawn(".../.../...", 8, 0, 8, 9),
        drawn(".../.../...", 4, 0, 8, 9),
        drawn("../.9", 8, 0, 3, 4),
        drawn(".9./...", 8, 0, 2, 6),
        drawn(".@.", 8, 0, 2, 1),
        drawn(".@.", 8, 0, 2, 0),
        drawn(".", 8, 0, 0, 1),
        drawn(".9", 8, 0, 1, 2),
        drawn(".9", 8, 1, 0, 2),
        drawn(".@/@.", 8, 0, 3, 4),
    ]


def single_refusals():
    """Each refusal alone, and next to it what is just taken."""
    row = [1] * 1025
    return [
        case_of(0, 3, 8, [], 0, 0, 5),
        case_of(3, 0, 8, [], 0, 0, 5),
        case_of(0, 0, 8, [], 0, 0, 5),
        case_of(1025, 1, 8, row, 0, 1024, 1100),
        case_of(1, 1025, 8, row, 0, 1024, 1100),
        case_of(1025, 1025, 8, row, 0, 1024, 1100, costs=1025, work=2050, route=1025),
        case_of(MARK, MARK, 8, [], 0, 0, 5, costs=9, work=9, route=9),
        case_of(65536, 65536, 8, [], 0, 0, 5, costs=9, work=9, route=9),
        case_of(1024, 1, 8, row[:1024], 0, 1023, 1100),
        case_of(1, 1024, 8, row[:1024], 1023, 0, 1100),
        case_of(1024, 1, 8, row[:1023], 0, 1022, 1100),
        case_of(1024, 1, 8, row, 0, 1023, 1100),
        case_of(257, 1, 8, row[:257], 0, 256, 300),
        case_of(1, 257, 8, row[:257], 256, 0, 300),
        case_of(3, 2, 8, [1] * 5, 0, 2, 5),
        case_of(3, 2, 8, [1] * 7, 0, 2, 5),
        case_of(3, 2, 8, [], 0, 2, 5),
        drawn(".../...", 8, 0, 2, 5, cells=bytes([1, 1, 1, 10, 1, 1])),
        drawn(".../...", 8, 0, 2, 5, cells=bytes([1, 1, 1, 1, 1, 255])),
        drawn(".../...", 8, 0, 2, 5, cells=bytes([46, 64, 46, 46, 46, 46])),
        drawn(".../...", 8, 0, 2, 5, cells=bytes([9, 9, 9, 9, 9, 9])),
        drawn(".../...", 8, 0, 2, 5, cells=bytes([9, 9, 9, 9, 255, 10])),
    ] + [drawn(".../...", ways, 0, 2, 5) for ways in (0, 1, 2, 3, 5, 6, 7, 9, 12, 260, 264, MARK)] + later_refusals()


def later_refusals():
    cases = [drawn(".@./...", 8, start, 2, 5) for start in (5, 6, 7, 65536, MARK)]
    cases += [drawn(".@./...", 8, 0, goal, 5) for goal in (5, 6, 7, 65536, MARK)]
    cases += [drawn(".@./...", 8, 1, 2, 5), drawn(".@./...", 8, 0, 1, 5), drawn(".@./...", 8, 1, 1, 5)]
    cases += [drawn(".@./...", 8, 0, 2, 5, costs=costs) for costs in (0, 5, 6, 7)]
    cases += [drawn(".@./...", 8, 0, 2, 5, work=work) for work in (0, 6, 11, 12, 13)]
    cases += [drawn(".@./...", 8, 0, 2, 5, route=route) for route in (0, 4, 5, 6, 7)]
    return cases


# The goal is the start, beside it, farther, or not reached: map, start, goal, and kind, settled, number and length at limit 1.
LIMIT_1 = [
    (".", 0, 0, (1, 1, 0, 0)),
    ("9", 0, 0, (1, 1, 0, 0)),
    (".@./...", 5, 5, (1, 1, 0, 0)),
    (".@./...", 0, 3, (3, 1, 140, 0)),
    (".@./...", 0, 2, (3, 1, 140, 0)),
    ("2.", 1, 0, (3, 1, 210, 0)),
    (".@9/@@8", 5, 2, (3, 1, 1190, 0)),
    (".@.", 0, 2, (2, 1, MARK, 0)),
    (".@/@.", 0, 3, (2, 1, MARK, 0)),
]

# Floors of the greatest side that fill the program's rooms.
WIDE, HIGH = (1024, 64), (64, 1024)

# Limits that are not 0 and whose lowest byte is.
LOW_BYTE_0 = (256, 65536, 16777216, 2147483648)


def least_limits():
    """Limit 0, which is refused whatever the search would answer, and limit 1, which is taken; on floors of the greatest side too."""
    size = 65536
    cases = [case_of(*sides, 8, [1] * size, 0, size - 1, limit) for sides in (WIDE, HIGH) for limit in (0, 1)]
    cases += [drawn(".@./...", 8, 0, 2, limit) for limit in LOW_BYTE_0]
    for picture, start, goal, (kind, *three) in LIMIT_1:
        for ways in (4, 8):
            for limit, due in ((0, [0, 15, 0, 0, 0, 0, 0, 0]), (1, [kind, 0, 0, *three, 0, 0])):
                case = drawn(picture, ways, start, goal, limit)
                assert answer(case, *([0] * case[name] for name in ("costs", "work", "route"))) == due, case
                cases.append(case)
    return cases


def refused_before_15():
    """Limit 0 beside 1, 2 or 3 and nothing else, which `joint_refusals` has not got."""
    row = [1] * 1025
    return [
        case_of(1025, 1, 8, row, 0, 1024, 0),
        case_of(1, 1025, 8, row, 1024, 0, 0),
        case_of(3, 2, 8, [1] * 5, 0, 2, 0),
        case_of(3, 2, 8, [1] * 7, 0, 2, 0),
        drawn(".../...", 8, 0, 2, 0, cells=bytes([1, 1, 1, 1, 1, 10])),
        drawn(".../...", 8, 0, 2, 0, cells=bytes([10, 1, 1, 1, 1, 1])),
    ]


def joint_refusals():
    """Several refusals at once: the lowest number wins. Each pair, and all from a number on."""
    spoil = {
        4: {"ways": 5},
        5: {"start": 6},
        6: {"goal": 77},
        7: {"start": 1},
        8: {"goal": 1},
        9: {"costs": 5},
        10: {"work": 11},
        11: {"route": 5},
        15: {"limit": 0},
    }
    good, bad = drawn(".@./...", 8, 0, 2, 5), bytes([1, 0, 1, 12, 1, 99])
    cases = []
    for first in spoil:
        cases += [{**good, **spoil[second], **spoil[first]} for second in spoil if second > first]
    for first in spoil:
        spoiled = dict(good)
        for number in sorted(spoil, reverse=True):
            spoiled.update(spoil[number] if number >= first else {})
        cases.append(spoiled)
        cases.append({**spoiled, "cells": bad})
        cases.append({**spoiled, "cells": bad[:5]})
        cases.append({**spoiled, "cells": bad, "width": 0})
        cases.append({**spoiled, "height": 300})
        cases.append({**spoiled, "height": 1025})
    return cases


def every_limit():
    """All limits from 0, which is refused, to n + 1 on small floors, with goals that are reached and that are not."""
    asked = [
        ("1234/5@67/8912", 0, [0, 7, 11]),
        ("...@./...@./9.2@./..1@.", 6, [0, 17, 4, 19]),
        (".@.@/@.@./.@.@", 0, [0, 2, 5]),
        ("123456789", 4, [0, 8, 4]),
        ("1/9/2/8/@/3", 1, [0, 3, 5]),
        ("...../...../...../.....", 7, [0, 19, 7, 12]),
    ]
    cases = []
    for picture, start, goals in asked:
        size = len(picture.replace("/", ""))
        for goal in goals:
            for ways in (4, 8):
                cases += [drawn(picture, ways, start, goal, limit) for limit in range(size + 2)]
    return cases


def longer_rooms():
    cases = []
    for limit in (0, 1, 3, 4, 5, MARK):
        for ways in (4, 8):
            cases.append(drawn(".@./...", ways, 0, 2, limit, costs=11, work=19, route=23))
            cases.append(drawn("..@./.9@.", ways, 0, 3, limit, costs=9, work=17, route=9))
            cases.append(drawn("5", ways, 0, 0, limit, costs=66000, work=132000, route=66000))
    return cases


def rows_and_columns():
    generator = random.Random(4)
    cases = []
    for length in (2, 3, 7, 40, 256, 257, 1023, 1024):
        cells = [generator.choice([1, 1, 2, 5, 9]) for _ in range(length)]
        gap = cells[:]
        gap[length // 2] = 0
        for line in (cells, gap):
            for start, goal in ((0, length - 1), (length - 1, 0), (0, 0)):
                if line[start] == 0 or line[goal] == 0:
                    continue
                for limit in (0, 1, length // 2, length, MARK):
                    ways = generator.choice([4, 8])
                    cases.append(case_of(length, 1, ways, line, start, goal, limit))
                    cases.append(case_of(1, length, ways, line, start, goal, limit))
    return cases


def edges():
    """R-5: a neighbour's number is an offset from the cell's, and an offset knows no edges. Between any two cells of floors where every cell is at one."""
    cases = []
    for picture in ("12/34", "123/456", "12/34/56"):
        size = len(picture.replace("/", ""))
        for ways in (4, 8):
            cases += [drawn(picture, ways, start, goal, size) for start in range(size) for goal in range(size)]
    return cases


def equal_costs():
    """Many cells of the same cost in one band: at the cut the cell's number decides."""
    cases = []
    side = 15
    middle = side * side // 2
    for ways in (4, 8):
        for limit in list(range(1, 30)) + list(range(30, 227, 7)) + [224, 225, 226]:
            cases.append(case_of(side, side, ways, [1] * (side * side), middle, side * side - 1, limit))
    # all straight steps from the start cost the same, and so do all diagonal ones
    ring = [2, 1, 2, 1, 1, 1, 2, 1, 2]
    for weights in (ring, [9] * 9, [7, 9, 7, 9, 1, 9, 7, 9, 7]):
        for ways in (4, 8):
            for goal in range(9):
                cases += [case_of(3, 3, ways, weights, 4, goal, limit) for limit in (1, 4, 5, 6, 8, 9)]
    return cases


def random_floors(generator, count):
    cases = []
    for _ in range(count):
        width, height = generator.randint(1, 9), generator.randint(1, 9)
        size = width * height
        weights = generator.choice([[1], [9], [1, 2], [1, 9], [6, 7, 8, 9], list(range(1, 10))])
        blocked = generator.choice([0.0, 0.1, 0.3, 0.5])
        cells = [0 if generator.random() < blocked else generator.choice(weights) for _ in range(size)]
        start, goal = generator.randrange(size), generator.randrange(size)
        if generator.random() < 0.95:
            cells[start] = cells[start] or 1
            cells[goal] = cells[goal] or 3
        limit = generator.choice([generator.randint(0, size + 1), generator.randint(0, size + 1), size, MARK])
        more = generator.choice([0, 0, 0, 3])
        ways = generator.choice([4, 8])
        cases.append(
            case_of(width, height, ways, cells, start, goal, limit, costs=size + more, work=2 * size + more, route=size + more)
        )
    return cases


def there_and_back():
    """R-3: "it is the same piece of floor". Both ways between two cells of weighted floors, whose costs must be the same; heavy ends too, each of which counts
    as much as the other."""
    generator = random.Random(3)
    ends = [(".9", 0, 1), ("9.", 0, 1), ("99", 0, 1), ("9.../...9", 0, 7), ("2../.../..3", 0, 8), ("19/91", 0, 3), ("91/19", 0, 3)]
    asked = [(drawn(picture, 8, start, goal, MARK)) for picture, start, goal in ends]
    for _ in range(60):
        width, height = generator.randint(2, 8), generator.randint(1, 8)
        size = width * height
        cells = [generator.choice([0, 1, 2, 5, 8, 9]) for _ in range(size)]
        start, goal = generator.sample(range(size), 2)
        cells[start], cells[goal] = generator.choice([1, 9]), generator.choice([1, 9])
        asked.append(case_of(width, height, 8, cells, start, goal, MARK))
    cases = []
    for case in asked:
        for ways in (4, 8):
            there = {**case, "ways": ways}
            back = {**there, "start": case["goal"], "goal": case["start"]}
            costs = [answer(each, *([0] * each[name] for name in ("costs", "work", "route")))[4] for each in (there, back)]
            assert costs[0] == costs[1], case
            cases += [there, back]
    return cases


def winding(width, height, thick):
    """One corridor that winds from the top to the bottom, `thick` cells wide; each of its stretches has its own weight."""
    cells = [1 + cell // width // (thick + 1) % 9 for cell in range(width * height)]
    for wall, y in enumerate(range(thick, height - 1, thick + 1)):
        for x in range(width):
            if x != (width - 1 if wall % 2 == 0 else 0):
                cells[y * width + x] = 0
    return cells


def large_floors():
    """Floors of the greatest side that fill the program's rooms, wide and high; `halls` has full halls."""
    generator = random.Random(256)
    size = 65536
    patchy = [0 if generator.random() < 1 / 3 else generator.randint(1, 9) for _ in range(size)]
    middle = 32 * 1024 + 512
    for cell in (0, middle, size - 1):
        patchy[cell] = 1
    limits = (1, 1000, 65536, MARK)
    cases = [case_of(*WIDE, 8, [1] * size, middle, size - 1, limit) for limit in limits]
    cases += [case_of(*HIGH, 8, [9] * size, 0, size - 1, limit) for limit in limits]
    for limit, goal in zip(limits, (0, size - 1, 0, size - 1)):
        cases.append(case_of(*WIDE, 8, patchy, middle, goal, limit))
    cases.append(case_of(*HIGH, 4, patchy, middle, size - 1, 40000))
    cases.append(case_of(*WIDE, 4, [9] * size, 0, size - 1, 65535))
    walled = winding(*HIGH, 63)
    cases.append(case_of(*HIGH, 8, walled, 0, size - 64, MARK, costs=66000, work=132000, route=66000))
    walled[63 * 64 + 63] = 0
    cases.append(case_of(*HIGH, 8, walled, 0, size - 64, 65536))
    return cases


def all_cases():
    cases = cases_of_01() + single_refusals() + least_limits() + refused_before_15() + joint_refusals() + every_limit() + longer_rooms()
    cases += rows_and_columns() + edges() + equal_costs() + random_floors(random.Random(20), 400) + large_floors() + there_and_back()
    return cases


def ask(made, what, turn, case, answer):
    """A question from C in the case's rooms, of which every fifth call has other contents before; `answer` gives what is due."""
    about = ", ".join("%s %d" % (name, value) for name, value in case.items() if name != "cells") + ", cells %r" % case["cells"][:100]
    old = (wire.OLD_COST, wire.OLD_WORK, wire.OLD_BYTE) if turn % 5 else ([turn, MARK, 0], [MARK, turn], [turn % 256, 9, 255])
    rooms = {name: (case[name], before) for name, before in zip(("costs", "work", "route"), old)}
    asked = {"floor": (case["width"], case["height"], case["ways"]), "start": case["start"], "goal": case["goal"], "limit": case["limit"], **rooms}
    due = lambda costs, work, route, **_: answer(case, costs, work, route)
    made.call(what, about, due, map=(len(case["cells"]), made.given("map", case["cells"])), **asked)


def add_calls(made):
    """Each question is asked of the call from C, which hands it to the search and gives the numbers of its answer."""
    for turn, case in enumerate(all_cases()):
        ask(made, wire.SEARCH, turn, case, answer)
