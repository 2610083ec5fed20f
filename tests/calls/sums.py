"""Questions to both engines whose answers are told apart by P and Q (R-6).

How the expectation is produced: by the references of the search and of A*, which sum P and Q along the first route and hold them against its cost. Here they
are held against sums that are worked out by hand too, and, where routes of one cost differ in them, against the sums of all least-cost routes.
"""
import random

import astars
import searches
import wire
from searches import MARK, case_of, drawn


def numbers_of(case, answer):
    return astars.asked(case, answer)[0]


def assert_sums(case, due):
    """Both engines find a route with these two sums."""
    for answer in (searches.answer, astars.answer):
        kind, *_, p, q = numbers_of(case, answer)
        assert (kind, p, q) == (1, *due), case


# Map, ways, start, goal, P and Q, worked out by hand: straight steps alone, diagonal ones alone, both; the heavy cell entered, left, or between; four ways
# where eight would go by diagonals; a route without a step. The answer of 129/934 goes east and then south-east.
BY_HAND = [
    ("...", 8, 0, 2, 4, 0),
    ("1234", 8, 0, 3, 15, 0),
    ("1234", 8, 3, 0, 15, 0),
    ("1/2/3", 8, 0, 2, 8, 0),
    (".9", 8, 0, 1, 10, 0),
    ("9.", 8, 0, 1, 10, 0),
    ("191", 8, 0, 2, 20, 0),
    ("919", 8, 0, 2, 20, 0),
    ("19/92", 8, 0, 3, 0, 3),
    ("91/29", 8, 1, 2, 0, 3),
    ("199/929/993", 8, 0, 8, 0, 8),
    ("199/929/993", 8, 8, 0, 0, 8),
    ("199/929/993", 4, 0, 8, 44, 0),
    ("129/934", 8, 0, 5, 3, 6),
    ("129/934", 8, 5, 0, 3, 6),
    ("129/934", 4, 0, 5, 15, 0),
    ("1@9/19@/191/1.1", 8, 0, 8, 4, 4),
    ("9", 8, 0, 0, 0, 0),
    ("9999", 4, 2, 2, 0, 0),
]


def by_hand():
    for picture, ways, start, goal, *due in BY_HAND:
        case = drawn(picture, ways, start, goal, MARK)
        assert_sums(case, due)
        yield case


def every_pair_of_weights():
    """One step between any two weights, in each of the eight directions in turn. Beside a diagonal one stand cells that are too heavy to go over."""
    turn = 0
    for left in range(1, 10):
        for entered in range(1, 10):
            straight = [("%d%d", 0, 1), ("%d/%d", 0, 1)][turn // 2 % 2]
            diagonal = [("%d9/9%d", 0, 3), ("9%d/%d9", 1, 2)][turn // 2 % 2]
            for (picture, start, goal), due in ((straight, (left + entered, 0)), (diagonal, (0, left + entered))):
                weights, ends = ((left, entered), (start, goal)) if turn % 2 else ((entered, left), (goal, start))
                case = drawn(picture % weights, 8, *ends, MARK)
                assert_sums(case, due)
                yield case
            turn += 1


# ---- routes of one cost that differ in P and Q -------------------------------------------------------------------------

# Between two corners there are eight diagonal steps with Q = 140 and, along two sides, sixteen straight ones with P = 198: 70 × 198 = 99 × 140. Half of that
# cannot be: whether P + Q of a route is even depends on its two ends alone, and one of 99 and 70 is even.
TIED = [
    "966666666",
    "999@@@@@6",
    "@999@@@@6",
    "@@999@@@6",
    "@@@999@@6",
    "@@@@999@6",
    "@@@@@9896",
    "@@@@@@986",
    "@@@@@@@99",
]
STRAIGHT, DIAGONAL = (198, 0), (0, 140)


def transposed(rows):
    return ["".join(column) for column in zip(*rows)]


def mirrored(rows):
    return [row[::-1] for row in rows]


# The floor, start and goal, and whose sums are the first route's: the last step of each way is compared, by the direction's number.
TIES = [
    (TIED, 0, 80, DIAGONAL),  # 3 before 4
    (TIED, 80, 0, STRAIGHT),  # 6 before 7
    (transposed(TIED), 0, 80, STRAIGHT),  # 2 before 3
    (transposed(TIED), 80, 0, STRAIGHT),  # 0 before 7
    (mirrored(TIED), 8, 72, STRAIGHT),  # 4 before 5
    (mirrored(TIED), 72, 8, DIAGONAL),  # 1 before 2
    (mirrored(transposed(TIED)), 8, 72, DIAGONAL),  # 5 before 6
    (mirrored(transposed(TIED)), 72, 8, STRAIGHT),  # 0 before 1
]


def two_in_a_row():
    """Two such floors that meet in a corner: the first route takes the diagonal steps of one and the straight ones of the other."""
    first = [row + "@" * 8 for row in TIED]
    second = ["@" * 8 + row for row in transposed(TIED)]
    return [*first[:8], first[8][:8] + second[0][8:], *second[1:]]


def sums_of_all(case):
    """P and Q of every least-cost route to the goal."""
    table, least = searches.known_costs(case)
    reached = sorted((least[cell], cell) for cell in range(len(table)) if least[cell] is not None)
    sums = {cell: set() for _, cell in reached}
    sums[case["start"]] = {(0, 0)}
    for cost, cell in reached:
        for direction, to, step in table[cell]:
            if cost + step == least[to]:
                pair = case["cells"][cell] + case["cells"][to]
                sums[to] |= {(p, q + pair) if direction % 2 else (p + pair, q) for p, q in sums[cell]}
    return sums[case["goal"]]


def ties():
    """Each case with the sums that are due."""
    for rows, start, goal, due in TIES:
        case = drawn("/".join(rows), 8, start, goal, MARK)
        assert sums_of_all(case) == {STRAIGHT, DIAGONAL}, case
        yield case, due
    rows = two_in_a_row()
    for start, goal, due in ((0, 288, (198, 140)), (288, 0, (396, 0))):
        case = drawn("/".join(rows), 8, start, goal, MARK)
        assert sums_of_all(case) == {(396, 0), (198, 140), (0, 280)}, case
        yield case, due


def tied():
    """With the limit that just suffices and the one before it too, whose answer has no sums."""
    for case, due in ties():
        assert_sums(case, due)
        settled = numbers_of(case, searches.answer)[3]
        assert numbers_of({**case, "limit": settled - 1}, searches.answer)[5:] == [0, 0, 0]
        yield from (case, {**case, "limit": settled}, {**case, "limit": settled - 1})


# ---- long routes and random floors -------------------------------------------------------------------------------------


def slanting(side, thick):
    """One corridor of weight 9 that goes to and fro along the diagonals of the floor, `thick` of them wide, with a wall of one between; each wall is open at
    one end. Where it is two wide only straight steps are allowed, in stairs; where it is three wide diagonal ones lead along the middle."""
    cells = [0 if (x - y) % (thick + 1) == thick else 9 for y in range(side) for x in range(side)]
    walls = [number for number in range(1 - side, side) if number % (thick + 1) == thick]
    for turn, wall in enumerate(walls):
        x, y = (max(wall, 0), max(-wall, 0)) if turn % 2 else (side - 1 + min(wall, 0), side - 1 - max(wall, 0))
        cells[y * side + x] = 9
    return cells


def long_routes():
    """Between two corners of a square floor that fills the program's rooms: 43,350 straight steps, over two thirds of its cells, and 16,001 diagonal ones among
    16,511. There, back, and with a limit that stops the search just before the goal."""
    side, size = 256, 65536
    for thick, due in ((2, (780300, 0)), (3, (9180, 288018))):
        there = case_of(side, side, 8, slanting(side, thick), size - side, side - 1, MARK)
        assert_sums(there, due)
        settled = numbers_of(there, searches.answer)[3]
        yield from (there, {**there, "start": side - 1, "goal": size - side}, {**there, "limit": settled - 1})


def random_floors():
    """Floors that are large enough for routes with steps of both kinds, of every weight."""
    generator = random.Random(6)
    for _ in range(60):
        width, height = generator.randint(6, 18), generator.randint(6, 18)
        size, blocked = width * height, generator.choice([0.0, 0.1, 0.25])
        weights = generator.choice([[1], [1, 1, 9], [1, 2, 3], list(range(1, 10))])
        cells = [0 if generator.random() < blocked else generator.choice(weights) for _ in range(size)]
        start, goal = generator.randrange(width), size - 1 - generator.randrange(width)
        cells[start], cells[goal] = generator.randint(1, 9), generator.randint(1, 9)
        yield case_of(width, height, generator.choice([4, 8, 8, 8]), cells, start, goal, generator.choice([MARK, MARK, size // 2]))


def all_cases():
    return [*by_hand(), *every_pair_of_weights(), *tied(), *long_routes(), *random_floors()]


def add_calls(made):
    """Each question is asked of the search, and of A* if it has no limit: then the map is as the search left it."""
    for turn, case in enumerate(all_cases()):
        searches.ask(made, wire.SEARCH, turn, case, searches.answer)
        if case["limit"] == MARK:
            astars.assert_as_search(case)
            searches.ask(made, wire.ASTAR, turn, case, astars.answer)
