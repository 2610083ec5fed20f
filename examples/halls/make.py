#!/usr/bin/env python3
"""Makes the halls of this folder anew: maps, question records, the answers of the proved planner to them, and route logs.

    python3 examples/halls/make.py [FOLDER]      into this folder, or into another one to compare

Maps and questions are always the same; the tests compare them with the stored ones.
"""
import sys
from pathlib import Path

HERE = Path(__file__).resolve().parent
sys.path.insert(0, str(HERE.parents[1] / "tools"))
sys.dont_write_bytecode = True

from asking.programs import LARGEST, RECORD, Calls, Planner, clean_up, is_for_program, question, record_of, whole_records  # noqa: E402
from asking.questions import first_route  # noqa: E402

ALL = 4096


def text_of(rows):
    """Map text of rows of weights; 0 is blocked."""
    characters = {0: "@", 1: ".", **{weight: str(weight) for weight in range(2, 10)}}
    lines = ["type octile", f"height {len(rows)}", f"width {len(rows[0])}", "map"]
    lines += ["".join(characters[weight] for weight in row) for row in rows]
    return "".join(line + "\n" for line in lines).encode()


def level(width, height):
    return [[1] * width for _ in range(height)]


def fill(rows, left, top, right, bottom, weight):
    """All cells from (left, top) to (right, bottom), both included."""
    for y in range(top, bottom + 1):
        rows[y][left : right + 1] = [weight] * (right - left + 1)


def walled(width, height):
    rows = level(width, height)
    fill(rows, 0, 0, width - 1, 0, 0)
    fill(rows, 0, height - 1, width - 1, height - 1, 0)
    fill(rows, 0, 0, 0, height - 1, 0)
    fill(rows, width - 1, 0, width - 1, height - 1, 0)
    return rows


def warm(rows, left, top, right, bottom, weights):
    """Floor around a furnace: the first weight beside it, the next one cell further, and so on; the hottest counts."""
    for y in range(1, len(rows) - 1):
        for x in range(1, len(rows[0]) - 1):
            away = max(left - x, x - right, top - y, y - bottom)
            if 0 < away <= len(weights) and rows[y][x] != 0:
                rows[y][x] = max(rows[y][x], weights[away - 1])


def furnace():
    """Three furnaces with warm floor around them, the row of forty warm cells under their shield, and a level walkway."""
    rows = walled(48, 24)
    furnaces = ((6, 3, 15, 6), (19, 3, 28, 6), (32, 3, 41, 6))
    for place in furnaces:
        fill(rows, *place, 0)
    fill(rows, 4, 11, 43, 11, 0)  # the shield
    fill(rows, 4, 13, 43, 13, 0)  # racks along the row
    for place, heat in zip(furnaces, ((6, 4, 2), (9, 7, 5, 3), (6, 4, 2))):
        warm(rows, *place, heat)
    fill(rows, 4, 12, 43, 12, 2)  # the row: forty cells
    fill(rows, 10, 17, 21, 18, 0)  # the lehr
    warm(rows, 10, 17, 21, 18, (3, 2))
    fill(rows, 30, 16, 36, 20, 0)  # the booth, shut
    fill(rows, 31, 17, 35, 19, 1)
    return rows


class Dice:
    """Always the same numbers, on every machine."""

    def __init__(self, seed):
        self.state = seed

    def below(self, most):
        self.state = (self.state * 6364136223846793005 + 1442695040888963407) % 2**64
        return (self.state >> 33) % most


def maze():
    """Passages one cell wide, a few of them joined twice, some warm, and one cell walled in."""
    width, height, dice = 63, 39, Dice(7)
    rows = [[0] * width for _ in range(height)]
    rows[1][1] = 1
    trail = [(1, 1)]
    while trail:
        x, y = trail[-1]
        onward = [(x + dx, y + dy) for dx, dy in ((0, -2), (2, 0), (0, 2), (-2, 0)) if 0 < x + dx < width and 0 < y + dy < height]
        onward = [(a, b) for a, b in onward if rows[b][a] == 0]
        if not onward:
            trail.pop()
            continue
        a, b = onward[dice.below(len(onward))]
        rows[b][a] = rows[(y + b) // 2][(x + a) // 2] = 1
        trail.append((a, b))
    for _ in range(60):
        x, y = 1 + 2 * dice.below(30), 2 + 2 * dice.below(17)
        rows[y][x] = 1
    for _ in range(160):
        x, y = 1 + dice.below(width - 2), 1 + dice.below(height - 2)
        if rows[y][x]:
            rows[y][x] = 2 + dice.below(4)
    fill(rows, 30, 18, 32, 20, 0)
    rows[19][31] = 1
    return rows


def open_hall():
    """64 by 64, level, with pillars."""
    rows = level(64, 64)
    for y in range(10, 60, 14):
        for x in range(10, 60, 14):
            fill(rows, x, y, x + 1, y + 1, 0)
    return rows


def bay():
    """A long bay, level and swept empty: nothing stands between its gates."""
    return walled(60, 22)


def racks():
    """A mould store: racks from wall to wall, each with a gap one cart wide, by turns at the east and at the west end."""
    rows = walled(48, 19)
    for place, y in enumerate(range(3, 18, 3)):
        fill(rows, 1, y, 46, y, 0)
        rows[y][1 if place % 2 else 46] = 1
    return rows


def works():
    """A whole works, beyond the program's side: the lehr's bay in the west, three furnaces with wide warm floor in the middle, racks in the east. Two walls
    part them, each with one gate, far from each other."""
    rows = walled(200, 120)
    fill(rows, 20, 24, 26, 92, 0)  # the lehr
    warm(rows, 20, 24, 26, 92, (4, 4, 3, 3, 2, 2))
    fill(rows, 36, 98, 52, 112, 0)  # a booth, shut
    fill(rows, 38, 100, 50, 110, 1)
    furnaces = ((88, 14, 112, 28), (88, 50, 112, 64), (88, 86, 112, 100))
    for place in furnaces:
        fill(rows, *place, 0)
    for place in furnaces:
        warm(rows, *place, (9, 9, 8, 7, 6, 5, 4, 4, 3, 3, 2, 2))
    for x, gate in ((66, 104), (133, 10)):
        fill(rows, x, 1, x + 1, 118, 0)
        fill(rows, x, gate, x + 1, gate + 5, 1)
    for place, x in enumerate(range(144, 196, 9)):
        fill(rows, x, 1, x + 2, 118, 0)  # racks, by turns open in the south and in the north
        fill(rows, x, 1 if place % 2 else 110, x + 2, 9 if place % 2 else 118, 1)
    return rows


def row():
    """The row of the furnace hall alone: a level cell, then forty warm ones."""
    return [[1] + [2] * 40]


def asked(rows, start, goal, limit=ALL, ways=8):
    """A question from x,y to x,y."""
    width = len(rows[0])
    return record_of(question(start[1] * width + start[0], goal[1] * width + goal[0], limit, ways))


def furnace_questions(rows):
    west, east = (3, 12), (43, 12)
    return [
        asked(rows, west, east),  # the story
        asked(rows, west, east, ways=4),
        asked(rows, east, west),  # back, at the same cost: it is the same floor
        asked(rows, west, east, limit=300),
        asked(rows, west, east, limit=0),  # left empty
        asked(rows, (10, 7), (37, 7)),  # from furnace to furnace, past the hottest
        asked(rows, (10, 7), (37, 7), ways=4),
        asked(rows, (1, 1), (46, 22), limit=LARGEST),
        asked(rows, (5, 21), (44, 2)),
        asked(rows, (2, 20), (33, 18)),  # into the shut booth
        asked(rows, (2, 20), (33, 18), limit=100),
        asked(rows, (24, 15), (24, 15)),
        asked(rows, (10, 4), (24, 15)),  # out of a furnace
        asked(rows, (24, 15), (10, 4)),
        asked(rows, (24, 15), (0, 24)),  # a row below the map
        asked(rows, (0, 24), (24, 15)),
        asked(rows, west, east, ways=6),
        asked(rows, west, east)[:-1] + b"\1",  # no zeros up to the end
    ]


def maze_questions(rows):
    return [
        asked(rows, (1, 1), (61, 37)),
        asked(rows, (61, 37), (1, 1)),
        asked(rows, (1, 1), (61, 37), ways=4),
        asked(rows, (61, 1), (1, 37)),
        asked(rows, (1, 1), (61, 37), limit=400),
        asked(rows, (1, 1), (31, 19)),  # walled in
        asked(rows, (31, 19), (1, 1)),
        asked(rows, (1, 1), (31, 19), limit=200),
        asked(rows, (31, 1), (31, 37)),
    ]


def open_questions(rows):
    return [
        asked(rows, (0, 0), (63, 63)),
        asked(rows, (0, 0), (63, 63), ways=4),
        asked(rows, (0, 0), (63, 63), limit=1000),
        asked(rows, (0, 63), (63, 0)),
        asked(rows, (32, 32), (0, 0)),
        asked(rows, (9, 9), (12, 12)),  # around a pillar
        asked(rows, (31, 31), (32, 31)),
        asked(rows, (0, 0), (63, 0), limit=1),
        asked(rows, (0, 0), (10, 10)),  # onto a pillar
    ]


def bay_questions(rows):
    west, east = (1, 10), (58, 11)
    return [
        asked(rows, west, east),  # from gate to gate
        asked(rows, east, west),
        asked(rows, west, east, ways=4),
        asked(rows, west, east, limit=114),  # as many cells as A* settles are too few here
        asked(rows, (1, 1), (58, 20)),
    ]


def racks_questions(rows):
    first, last = (1, 1), (1, 17)
    return [
        asked(rows, first, last),  # near by as the crow flies, and all aisles apart
        asked(rows, last, first),
        asked(rows, first, last, ways=4),
        asked(rows, first, last, limit=500),
        asked(rows, (24, 1), (24, 17)),
    ]


def works_questions(rows):
    west, east = (4, 4), (196, 60)
    return [
        asked(rows, west, east, limit=LARGEST),  # through both gates
        asked(rows, east, west, limit=LARGEST),
        asked(rows, west, east, limit=LARGEST, ways=4),
        asked(rows, west, east),  # 4,096 cells are too few here
        asked(rows, west, (44, 105), limit=LARGEST),  # into the shut booth
    ]


def row_questions(rows):
    return [asked(rows, (0, 0), (40, 0)), asked(rows, (40, 0), (0, 0))]


HALLS = (
    ("furnace", furnace, furnace_questions),
    ("maze", maze, maze_questions),
    ("open", open_hall, open_questions),
    ("row", row, row_questions),
    ("bay", bay, bay_questions),
    ("racks", racks, racks_questions),
    ("works", works, works_questions),
)


def answers(text, records):
    """The answers of the program, or of its library where the map is beyond the program's side."""
    with Calls() as calls:
        floor = calls.read_map(text)
        if not is_for_program(floor, text):
            return calls.answers(floor, records)
    with Planner(text) as planner:
        return planner.answers(records)


def log(text, records):
    """What ./run --replay --log appends for these questions."""
    answered = answers(text, records)
    with Calls() as calls:
        floor = calls.read_map(text)
        pairs = zip(whole_records(records), whole_records(answered))
        return b"".join(calls.write_entry(record, answer, first_route(calls, floor, record, answer)) for record, answer in pairs)


def main():
    folder = Path(sys.argv[1]) if len(sys.argv) > 1 else HERE
    for name, hall, questions in HALLS:
        rows = hall()
        text, records = text_of(rows), b"".join(questions(rows))
        (folder / f"{name}.map").write_bytes(text)
        (folder / f"{name}.questions").write_bytes(records)
        (folder / f"{name}.answers").write_bytes(answers(text, records))
        if name == "row":
            # a log as of a planner that drops the smallest surcharge: to it the row is level floor, in cost, P and Q
            dropped = text_of([[1 if weight == 2 else weight for weight in line] for line in rows])
            (folder / "row.old.answers").write_bytes(answers(dropped, records))
            (folder / "row.old.log").write_bytes(log(dropped, records))
        if name == "furnace":
            (folder / "furnace.log").write_bytes(log(text, records))
        print(f"{name}: {len(records) // RECORD} questions")


if __name__ == "__main__":
    try:
        main()
    finally:
        clean_up()
