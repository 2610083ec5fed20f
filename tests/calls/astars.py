"""Questions to A*, and what it must answer and leave.

How the expectation is produced: from the text of R-4 alone, by its definition and not by running an A*. The least costs of all cells are those of the
reference of the search (`searches`), and so is the first route. Then each cell by itself is settled or not, as R-4's sentence says of its least cost, its
estimate and the goal's least cost. R-4's other sentence, that kind, cost and route are the plain search's with the limit at the cell count, is asserted of
every question. A case has a limit since the head of a call has a place for one, which A* does not look at.
"""
import heapq
import random

import searches
import wire
from searches import HIGH, MARK, WIDE, case_of, drawn


# ---- what A* must answer and leave -------------------------------------------------------------------------------------


def estimate(case, cell):
    """"With small and large the two coordinate distances, 198 × small + 140 × (large − small); with four ways 140 × (small + large)." """
    width, goal = case["width"], case["goal"]
    columns, rows = abs(cell % width - goal % width), abs(cell // width - goal // width)
    small, large = min(columns, rows), max(columns, rows)
    return 140 * (small + large) if case["ways"] == 4 else 198 * small + 140 * (large - small)


def is_settled(case, least, cell):
    """"It settles exactly the reachable cells whose least cost plus estimate is at most the goal's cost, or all reachable cells for none." """
    goal_cost = least[case["goal"]]
    return least[cell] is not None and (goal_cost is None or least[cell] + estimate(case, cell) <= goal_cost)


def refusal(case):
    """"Refusals 1 to 11 apply": those of a search whose limit is not 0."""
    return searches.refusal({**case, "limit": 1})


def answer(case, costs, work, route):
    """Kind, refusal, place, settled, number returned, route length, P and Q; alters the rooms as A* must."""
    refused = refusal(case)
    if refused is not None:
        return [0, *refused, 0, 0, 0, 0, 0]
    start, goal, size = case["start"], case["goal"], len(case["cells"])
    table, least = searches.known_costs(case)
    settled = [cell for cell in range(size) if is_settled(case, least, cell)]
    costs[:size] = [MARK] * size
    for cell in settled:
        costs[cell] = least[cell]
    work[: 2 * size] = [0] * (2 * size)
    if least[goal] is None:
        return [2, 0, 0, len(settled), MARK, 0, 0, 0]
    steps = searches.first_route(table, least, start, goal)
    route[: len(steps)] = steps
    return searches.found(case, len(settled), least[goal], steps)


def asked(case, answer_of):
    """The numbers of an answer, and the three rooms afterwards."""
    rooms = [[7] * case[name] for name in ("costs", "work", "route")]
    return answer_of(case, *rooms), rooms


def assert_as_search(case):
    """"Found, cost and first route are proved equal to the plain search's with the limit at the cell count"; work and the route room, and what lies beyond,
    "are left as the plain search leaves them"."""
    size = case["width"] * case["height"]
    numbers, (costs, work, route) = asked(case, answer)
    searched, (plain_costs, plain_work, plain_route) = asked({**case, "limit": size or 1}, searches.answer)
    without_settled = lambda eight: eight[:3] + eight[4:]
    assert without_settled(numbers) == without_settled(searched), case
    assert (costs[size:], work, route) == (plain_costs[size:], plain_work, plain_route), case


# ---- the cases ---------------------------------------------------------------------------------------------------------


def unlimited(cases):
    """The questions of cases of the search, each once, with 0 where they have a limit: A* is not refused as 15."""
    questions = []
    for case in cases:
        question = {**case, "limit": 0}
        if question not in questions:
            questions.append(question)
    return questions


# Map, ways, start, goal, and how many cells are settled, worked out by hand, of the cases of 01: in c every cell off the diagonal is too dear, in d every
# cell lies on some least-cost route, in f the heavy cell and both ends of the lower row are too dear.
BY_HAND = [
    (".@./...", 8, 0, 2, 5),
    (".../.../...", 8, 0, 8, 3),
    (".../.../...", 4, 0, 8, 9),
    ("../.9", 8, 0, 3, 4),
    (".9./...", 8, 0, 2, 3),
    (".@.", 8, 0, 2, 1),
    (".", 8, 0, 0, 1),
    (".9", 8, 0, 1, 2),
    (".9", 8, 1, 0, 2),
    (".@/@.", 8, 0, 3, 1),
]


def cases_by_hand():
    cases = []
    for picture, ways, start, goal, settled in BY_HAND:
        case = drawn(picture, ways, start, goal, 0)
        assert asked(case, answer)[0][3] == settled, case
        cases.append(case)
    return cases


def any_limit():
    """What stands in the limit's place is not looked at."""
    return [drawn(".@./...", 8, 0, 2, limit) for limit in (1, 4, 5, 6, MARK)] + [drawn(".@.", 8, 0, 2, limit) for limit in (1, 2, MARK)]


def ends_of_floors():
    """The start is the goal, alone on the floor, shut in, or in a corner; the goal is shut in, or beside the start."""
    pictures = [(".", 0, 0), ("9", 0, 0), (".@./...", 5, 5), (".../.../...", 4, 4), (".@./@@./...", 0, 0)]
    pictures += [(".@./@@./...", 0, 8), (".@./@@./...", 8, 0), (".../@@@/...", 0, 8), (".../@@@/...", 7, 1), ("12@/@@@/@34", 1, 7)]
    pictures += [(".@.@/@.@./.@.@", 0, 2), (".@.@/@.@./.@.@", 5, 5), (".../...", 1, 4), (".../...", 4, 1), (".../...", 3, 4), (".../...", 4, 3)]
    return [drawn(picture, ways, start, goal, 0) for picture, start, goal in pictures for ways in (4, 8)]


def every_pair():
    """Every start and every goal of small floors: the goal on all sides of the start."""
    cases = []
    for picture in (".9./...", "@2/3./.@"):
        floor = drawn(picture, 8, 0, 0, 0)
        size = len(floor["cells"])
        cases += [{**floor, "ways": ways, "start": start, "goal": goal} for ways in (4, 8) for start in range(size) for goal in range(size)]
    return cases


# How a list of open cells may choose among cells of the same sum: by the lower or the higher number, by the higher cost first, by the last that came.
CHOICES = {
    "low": lambda cost, cell, turn: cell,
    "high": lambda cost, cell, turn: -cell,
    "deep": lambda cost, cell, turn: (-cost, cell),
    "last": lambda cost, cell, turn: -turn,
}


def hasty_route(case, choice):
    """The route that comes of ending when the goal comes off the list, of which R-4 warns: walked back over the cells that came off until then."""
    table, goal = searches.known_costs(case)[0], case["goal"]
    seen, done, turn = {case["start"]: 0}, set(), 0
    listed = [(estimate(case, case["start"]), choice(0, case["start"], 0), case["start"])]
    while goal not in done:
        cell = heapq.heappop(listed)[2]
        if cell in done:
            continue
        done.add(cell)
        for _, to, cost in table[cell]:
            turn += 1
            sum_ = seen[cell] + cost
            if sum_ < seen.get(to, MARK):
                seen[to] = sum_
                heapq.heappush(listed, (sum_ + estimate(case, to), choice(sum_, to, turn), to))
    return searches.first_route(table, [seen[cell] if cell in done else None for cell in range(len(table))], case["start"], goal)


# Map, ways, start, goal, the first route, and the choices among equal sums with which ending at the goal misses a cell of it.
HASTE = [
    ("../..", 4, 3, 0, [6, 0], "low deep"),
    ("../..", 4, 2, 1, [2, 0], "low deep"),
    ("../..", 4, 1, 2, [6, 4], "high"),
    ("../..", 4, 0, 3, [4, 2], "deep"),
    (".../...", 8, 3, 2, [2, 1], "low deep"),
    (".../...", 8, 2, 3, [6, 5], "high deep"),
    ("../../..", 8, 0, 5, [4, 3], "high deep"),
    ("../../..", 8, 4, 1, [1, 0], "low"),
    ("..@./....", 4, 0, 3, [4, 2, 2, 2, 0], "deep last"),
    (".@./.../...", 8, 6, 2, [2, 1, 0], "low deep last"),
    (".../..@/...", 8, 0, 8, [4, 3, 2], "high deep last"),
    (".../.../.@.", 8, 2, 6, [6, 5, 4], "high deep last"),
]


def needed_after_the_goal():
    """Floors on which ending when the goal comes off the list changes the route: a cell that the first route needs has the goal's sum and comes off later."""
    cases = []
    for picture, ways, start, goal, route, choices in HASTE:
        case = drawn(picture, ways, start, goal, 0)
        assert asked(case, answer)[1][2][: len(route)] == route, case
        for choice in choices.split():
            assert hasty_route(case, CHOICES[choice]) != route, (case, choice)
        cases.append(case)
    return cases


# Map, start, goal, a cell that no least-cost route to the goal visits, and its least cost plus estimate less the goal's cost.
NEARLY = [
    ("8./55", 0, 3, 2, 0),
    ("448/347", 4, 5, 3, 0),
    ("8.89/3797/3986", 11, 8, 4, 1),
    ("83/74", 0, 3, 2, 2),
    ("425/84.", 3, 5, 1, -2),
    ("463/885/783/538", 0, 10, 9, -1),
]


def nearly_too_dear():
    """A cell whose sum is just the goal's cost, a little more or a little less."""
    cases = []
    for picture, start, goal, cell, excess in NEARLY:
        case = drawn(picture, 8, start, goal, 0)
        least, back = searches.known_costs(case)[1], searches.known_costs({**case, "start": goal})[1]
        assert least[cell] + back[cell] > least[goal], case
        assert least[cell] + estimate(case, cell) - least[goal] == excess, case
        assert is_settled(case, least, cell) == (excess <= 0), case
        cases.append(case)
    return cases


def exact_estimates():
    """Open floors of weight 1, where the estimate is what is left: the settled cells are those of all least-cost routes, and each has the goal's sum. With
    weight 2 the estimate is half of it."""
    cases = []
    width, height = 9, 6
    for weight in (1, 2):
        for start, goal in ((0, 53), (53, 0), (8, 45), (45, 8), (0, 8), (0, 45), (20, 26), (20, 38), (21, 47), (30, 31), (31, 22)):
            cases += [case_of(width, height, ways, [weight] * (width * height), start, goal, 0) for ways in (4, 8)]
    return cases


def longer_rooms():
    """What lies beyond stays, for found and none; the route room's rest too."""
    roomy = {"costs": 29, "work": 51, "route": 37}
    pictures = [(".@./...", 0, 2), ("..@./.9@.", 0, 3), ("..../.2../....", 0, 11), ("5", 0, 0)]
    cases = [drawn(picture, ways, start, goal, 0, **roomy) for picture, start, goal in pictures for ways in (4, 8)]
    return cases + [drawn("5", 8, 0, 0, 0, costs=66000, work=132000, route=66000)]


def rows_and_columns():
    """The greatest coordinate distances, one of them 0, and a row with a gap."""
    generator = random.Random(4)
    cases = []
    for length in (2, 3, 40, 257, 1024):
        line = [generator.choice([1, 1, 2, 9]) for _ in range(length)]
        gap = [0 if place == length // 2 else 1 for place in range(length)]
        for cells, start, goal in ((line, 0, length - 1), (line, length - 1, 0), ([1] * length, length // 3, length - 1), (gap, 0, length - 1)):
            if cells[goal] != 0:
                ways = generator.choice([4, 8])
                cases += [case_of(length, 1, ways, cells, start, goal, 0), case_of(1, length, ways, cells, start, goal, 0)]
    return cases


def large_floors():
    """Floors of the greatest side that fill the program's rooms: open ones, every cell settled by a tie, a detour round blocked cells, a long corridor, and one
    that is shut."""
    generator = random.Random(256)
    size = 65536
    patchy = [0 if generator.random() < 1 / 3 else 1 for _ in range(size)]
    middle = 32 * 1024 + 512
    patchy[0] = patchy[middle] = 1
    walled = searches.winding(*HIGH, 63)
    shut = walled[:]
    shut[63 * 64 + 63] = 0
    return [
        case_of(*HIGH, 8, [1] * size, 0, size - 1, 0),
        case_of(*WIDE, 4, [1] * size, 0, size - 1, 0),
        case_of(*WIDE, 8, [9] * size, middle, size - 1, 0),
        case_of(*WIDE, 8, patchy, middle, 0, 0),
        case_of(*HIGH, 8, walled, 0, size - 64, 0, costs=66000, work=132000, route=66000),
        case_of(*HIGH, 8, shut, 0, size - 64, 0),
    ]


def all_cases():
    cases = cases_by_hand() + unlimited(searches.single_refusals() + searches.joint_refusals()) + any_limit() + ends_of_floors() + every_pair()
    cases += needed_after_the_goal() + nearly_too_dear() + exact_estimates() + longer_rooms() + rows_and_columns()
    return cases + unlimited(searches.random_floors(random.Random(44), 150)) + large_floors()


def add_calls(made):
    """Each question is asked of the call from C, which hands it to A* and gives the numbers of its answer."""
    for turn, case in enumerate(all_cases()):
        assert_as_search(case)
        searches.ask(made, wire.ASTAR, turn, case, answer)
