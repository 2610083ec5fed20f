#!/usr/bin/env python3
"""Full halls, 1,024 by 1,024 (R-7): calls of the program `calls` started with the word `hall`, whose rooms hold them, and the replies that are due.

How the expectation is produced: from the papers, by floors that say by themselves what is due, since a reference that tries every step again and again would
take hours. On an open floor of one weight the least costs are a closed form. Two floors are one way, from end to end, on which every cell has a step to the
next and a step back and no other: it is counted that there are no more steps, so that the costs are those of walking it. L, the answers and the rooms are then
read off the costs, as 01's table and R-4's sentence say. What is due of claims, texts and refusals is written out.

    halls.py COMMAND WORD ..      the words that start the program, on this machine
"""
import subprocess
import sys
from operator import and_

import astars
import claims
import drive
import maptexts
import records
import searches
import wire
from paper import GREATEST_SIDE as SIDE
from searches import MARK

SIZE = SIDE * SIDE
GREATEST_COST = 1868560650  # "1,048,575 × 99 × 18", R-7
LONGEST_TEXT = 1049639
SHORT_ROOMS = {"costs": 3, "work": 3, "route": 3}
WHOLE_ROOMS = {name: wire.HALL_LENGTHS[name] for name in ("costs", "work", "route")}


# ---- halls -----------------------------------------------------------------------------------------------------------


def open_hall(weight, wall=None):
    """Cells of one weight; `wall` is a column that is blocked."""
    return bytes(0 if x == wall else weight for x in range(SIDE)) * SIDE


def corridors():
    """Rows of weight 9, each joined to the next at one end, east and west in turn, through a row that is otherwise blocked."""
    cells = bytearray([9] * SIDE + [0] * SIDE) * (SIDE // 2)
    for turn, y in enumerate(range(1, SIDE, 2)):
        cells[y * SIDE + (0 if turn % 2 else SIDE - 1)] = 9
    return bytes(cells)


def opening(wall):
    """Where x - y is `wall`, at the north-west end: the cell that joins the stairs on both sides, and those that would be a second way round it."""
    if wall >= 0:
        return (wall, 0), [(wall - 1, 0), (wall - 2, 0), (wall - 1, 1)]
    return (0, -wall), [(1, -wall - 1), (0, -wall - 1), (0, -wall - 2)]


def stairs():
    """Stairs of weight 9 along the diagonals of the floor, two diagonals wide, with a wall of one between that is open at one end, in turn. A diagonal step
    would cut a corner everywhere, so that the way leads through about two thirds of all cells by straight steps."""
    cells = bytearray(0 if (x - y) % 3 == 2 else 9 for y in range(SIDE) for x in range(SIDE))
    for turn, wall in enumerate(number for number in range(1 - SIDE, SIDE) if number % 3 == 2):
        joined, second_way = opening(wall if turn % 2 else -wall)
        for (x, y), weight in [(joined, 9), *((cell, 0) for cell in second_way)]:
            x, y = (x, y) if turn % 2 else (SIDE - 1 - x, SIDE - 1 - y)
            if 0 <= x < SIDE and 0 <= y < SIDE:
                cells[y * SIDE + x] = weight
    return bytes(cells)


# ---- what is known of a hall from a start --------------------------------------------------------------------------------


class Known:
    """Least costs, MARK where no route leads, and L; `listed` is given where it is known."""

    def __init__(self, cells, ways, start, least, listed=None, route=None):
        self.cells, self.ways, self.start, self.least, self.route = cells, ways, start, least, route
        self.listed = listed or sorted((cell for cell in range(SIZE) if least[cell] != MARK), key=least.__getitem__)

    def case(self, goal):
        return {"width": SIDE, "height": SIDE, "cells": self.cells, "ways": self.ways, "start": self.start, "goal": goal}

    def first_route(self, goal):
        """Back from the goal, at each cell by the lowest direction of a step that gives it its cost; or the only way, as far as the goal."""
        if self.route is not None:
            return self.route[: self.listed.index(goal)]
        backwards = []
        while goal != self.start:
            direction, goal = min(self.giving(goal))
            backwards.append(direction)
        return backwards[::-1]

    def giving(self, cell):
        for direction, (dx, dy, _) in enumerate(searches.DIRECTIONS):
            x, y = cell % SIDE - dx, cell // SIDE - dy
            if 0 <= x < SIDE and 0 <= y < SIDE:
                step = searches.allowed_step(SIDE, SIDE, self.ways, self.cells, y * SIDE + x, direction)
                if step is not None and self.least[y * SIDE + x] + step[1] == self.least[cell]:
                    yield direction, y * SIDE + x


def of_open_hall(weight, ways, start, wall=SIDE):
    """An open rectangle, the columns before the wall: a diagonal step costs less than two straight ones and more than one, so that there are as many of them as
    can be."""
    columns = [abs(x - start % SIDE) for x in range(wall)]
    least = []
    for y in range(SIDE):
        rows = abs(y - start // SIDE)
        if ways == 4:
            least += [2 * weight * 70 * (x + rows) for x in columns]
        else:
            least += [2 * weight * (99 * min(x, rows) + 70 * abs(x - rows)) for x in columns]
        least += [MARK] * (SIDE - wall)
    return Known(open_hall(weight, None if wall == SIDE else wall), ways, start, least)


def straight_pairs_and_squares(cells):
    """How many pairs of open cells lie side by side, and how many squares of four open cells there are: no diagonal step is allowed but in such a square."""
    is_open = bytes(map(bool, cells))
    rows = [is_open[at : at + SIDE] for at in range(0, SIZE, SIDE)]
    pairs, squares = sum(sum(map(and_, row, row[1:])) for row in rows), 0
    for row, below in zip(rows, rows[1:]):
        both = bytes(map(and_, row, below))
        pairs += sum(both)
        squares += sum(map(and_, both, both[1:]))
    return pairs, squares


def walked(cells, start):
    """The cells and the directions of a way by straight steps, until there is none but back."""
    way, route, came = [start], [], None
    while True:
        x, y = way[-1] % SIDE, way[-1] // SIDE
        for direction in (0, 2, 4, 6):
            u, v = x + searches.DIRECTIONS[direction][0], y + searches.DIRECTIONS[direction][1]
            to = v * SIDE + u
            if 0 <= u < SIDE and 0 <= v < SIDE and cells[to] and to != came:
                break
        else:
            return way, route
        came = way[-1]
        way.append(to)
        route.append(direction)


def of_one_way(cells, start):
    """A hall of weight 9 that is one way from the start on. That it has every open cell once, and that there are no other steps than along it, is asserted."""
    way, route = walked(cells, start)
    count = sum(map(bool, cells))
    assert len(way) == len(set(way)) == count
    assert straight_pairs_and_squares(cells) == (count - 1, 0)
    least = [MARK] * SIZE
    for place, cell in enumerate(way):
        least[cell] = 1260 * place
    return Known(cells, 8, start, least, way, route)


def turned_round(known):
    """The same way from its other end."""
    way = known.listed[::-1]
    back = [(direction + 4) % 8 for direction in reversed(known.route)]
    least = [known.least[way[0]] - cost if cost != MARK else MARK for cost in known.least]
    return Known(known.cells, known.ways, way[0], least, way, back)


# ---- what is due -----------------------------------------------------------------------------------------------------------


def leave(known, others, steps, costs, work, route):
    """`others` are the cells of L that are not settled."""
    costs[:SIZE] = known.least
    for cell in others:
        costs[cell] = MARK
    work[: 2 * SIZE] = [0] * (2 * SIZE)
    route[: len(steps)] = steps


def search_answer(known, goal, limit, costs, work, route):
    """01's table."""
    listed, steps = known.listed, []
    is_reached = known.least[goal] != MARK
    place = listed.index(goal) if is_reached else None
    if is_reached and place < limit:
        steps = known.first_route(goal)
        numbers = searches.found(known.case(goal), place + 1, known.least[goal], steps)
    elif not is_reached and len(listed) <= limit:
        numbers = [2, 0, 0, len(listed), MARK, 0, 0, 0]
    else:
        numbers = [3, 0, 0, limit, known.least[listed[limit]], 0, 0, 0]
    leave(known, listed[numbers[3] :], steps, costs, work, route)
    return numbers


def estimates(ways, goal):
    """R-4's estimate of every cell, row by row; of some it is held against the reference of A*."""
    columns, every = [abs(x - goal % SIDE) for x in range(SIDE)], []
    for rows in (abs(y - goal // SIDE) for y in range(SIDE)):
        every += [140 * (x + rows) if ways == 4 else 198 * min(x, rows) + 140 * abs(x - rows) for x in columns]
    case = {"width": SIDE, "ways": ways, "goal": goal}
    assert all(every[cell] == astars.estimate(case, cell) for cell in range(0, SIZE, 4099))
    return every


def astar_answer(known, goal, costs, work, route):
    """R-4's sentence, of each cell by itself."""
    least, listed = known.least, known.listed
    if least[goal] == MARK:
        leave(known, [], [], costs, work, route)
        return [2, 0, 0, len(listed), MARK, 0, 0, 0]
    estimate = estimates(known.ways, goal)
    others = [cell for cell in listed if least[cell] + estimate[cell] > least[goal]]
    steps = known.first_route(goal)
    leave(known, others, steps, costs, work, route)
    return searches.found(known.case(goal), len(listed) - len(others), least[goal], steps)


# ---- calls -----------------------------------------------------------------------------------------------------------------


def lent(lengths):
    """The rooms of a search, of these lengths."""
    return {name: (lengths[name], old) for name, old in (("costs", wire.OLD_COST), ("work", wire.OLD_WORK), ("route", wire.OLD_BYTE))}


class Hall:
    """Asks about one hall and start. A room that a call gives nothing for is as the call before left it, so that tables and routes are claimed as they were
    left."""

    def __init__(self, made, name, known):
        self.made, self.name, self.known = made, name, known

    def asked(self, start, goal, limit):
        cells = self.known.cells
        return {"floor": (SIDE, SIDE, self.known.ways), "start": start, "goal": goal, "limit": limit, "map": (SIZE, self.made.given("map", cells))}

    def rooms(self, **lengths):
        return lent({"costs": SIZE, "work": 2 * SIZE, "route": SIZE, **lengths})

    def search(self, goal, limit, **lengths):
        due = lambda costs, work, route, **_: search_answer(self.known, goal, limit, costs, work, route)
        return self.made.call(wire.SEARCH, f"{self.name}, limit {limit}", due, **self.asked(self.known.start, goal, limit), **self.rooms(**lengths))

    def astar(self, goal, **lengths):
        due = lambda costs, work, route, **_: astar_answer(self.known, goal, costs, work, route)
        return self.made.call(wire.ASTAR, self.name, due, **self.asked(self.known.start, goal, 0), **self.rooms(**lengths))

    def refused(self, number, start=None, goal=0, limit=MARK, **lengths):
        """By both engines, but for 15."""
        asked = self.asked(self.known.start if start is None else start, goal, limit)
        for what in (wire.SEARCH, wire.ASTAR)[: 1 if number == 15 else 2]:
            self.made.call(what, f"{self.name}, refused as {number}", lambda **_: [0, number], **asked, **self.rooms(**lengths))

    def record(self, goal):
        """The desk, with a question record."""
        record = records.question(self.known.start, goal, MARK, self.known.ways)

        def due(costs, work, route, text, **_):
            kind, refusal, _, *numbers = search_answer(self.known, goal, MARK, costs, work, route)
            text[:] = records.ANSWER_FORM.pack(kind, refusal, *numbers)
            return [len(record)]

        asked = {**self.asked(0, 0, 0), "floor": (SIDE, SIDE, 0)}
        self.made.call(wire.ANSWER_RECORDS, self.name, due, text=(len(record), record), **asked, **self.rooms())

    def table(self, due, changed=None):
        """The costs as they were left, or with an entry changed, which is given."""
        given = ()
        if changed is not None:
            cell, value = changed
            given = claims.with_entry(self.made.rooms["costs"][:SIZE], cell, value)
        self.made.call(wire.CHECK_TABLE, f"{self.name}, a table, {due}", lambda **_: due, **self.asked(self.known.start, 0, 0), costs=(SIZE, given))

    def route(self, goal, cost, due, route=(), length=None):
        """A claimed route, for the collector too: what is given is repeated up to the length, and nothing is the route that was left."""
        asked = self.asked(self.known.start, goal, cost)
        length = len(route) if length is None else length
        self.made.call(wire.CHECK_ROUTE, f"{self.name}, a route, {due}", lambda **_: due, **asked, route=(length, route))
        asked["map"] = (SIZE, ())
        self.made.call(wire.C_CHECK_ROUTE, f"{self.name}, a route, {due}", lambda **_: claims.collected(*due), **asked, route=(length, ()))


# ---- each hall -----------------------------------------------------------------------------------------------------------------


def open_floor(made):
    """Weight 9: the last cell is the last of L. The table that is left when all cells but one are settled breaks at that one."""
    hall = Hall(made, "open, weight 9", of_open_hall(9, 8, 300 * SIDE + 400))
    last = hall.known.listed[-1]
    assert last == SIZE - 1
    hall.search(last, MARK)
    hall.table([1, 0, 0])
    hall.table([2, 0, SIZE - 1], changed=(SIZE - 1, hall.known.least[SIZE - 1] - 1))
    hall.search(last, SIZE - 1, **WHOLE_ROOMS)
    hall.table([2, 0, SIZE - 1])
    hall.search(last, 1)
    hall.astar(last)
    for number, lengths in ((9, {"costs": SIZE - 1}), (10, {"work": 2 * SIZE - 1}), (11, {"route": SIZE - 1})):
        hall.refused(number, **lengths)
    hall.refused(5, start=SIZE, **SHORT_ROOMS)
    hall.refused(6, goal=SIZE, **SHORT_ROOMS)
    hall.refused(15, limit=0)


def longest_claims(made):
    """On the same floor, from its first cell: to and fro at the greatest cost of all, and through every cell."""
    hall = Hall(made, "open, weight 9", Known(open_hall(9), 8, 0, [MARK] * SIZE, [0]))
    assert GREATEST_COST == (SIZE - 1) * 99 * 18 < MARK
    hall.route(SIDE + 1, GREATEST_COST, [1, 0, 0, GREATEST_COST], [3, 7], SIZE - 1)
    hall.route(SIDE + 1, GREATEST_COST - 1, [2, 46, SIZE - 1], [3, 7], SIZE - 1)
    hall.route(0, GREATEST_COST, [2, 45, SIZE - 1], [3, 7], SIZE - 1)
    hall.route(0, GREATEST_COST + 99 * 18, [0, 12, 0], [3, 7], SIZE)
    snake = [2] * (SIDE - 1) + [4] + [6] * (SIDE - 1) + [4]
    hall.route(SIZE - SIDE, (SIZE - 1) * 1260, [1, 0, 0, (SIZE - 1) * 1260], snake, SIZE - 1)
    hall.route(SIZE - SIDE, (SIZE - 1) * 1260, [2, 42, SIZE - 2], (snake * (SIDE // 2))[: SIZE - 2] + [4])


def ties(made):
    """Weight 1 from corner to corner: with four ways every cell lies on some least-cost route, with eight only those of the diagonal do. Then a limit at half of
    the cells, in the middle of the 1,024 that lie as far from the start as from the goal: the lower numbers are settled."""
    for ways, settled in ((4, SIZE), (8, SIDE)):
        hall = Hall(made, f"open, {ways} ways", of_open_hall(1, ways, 0))
        assert hall.astar(SIZE - 1, **WHOLE_ROOMS)[3] == settled
        if ways == 4:
            hall.search(SIZE - 1, SIZE)
            assert hall.search(SIZE - 1, SIZE // 2)[3:5] == [SIZE // 2, 140 * (SIDE - 1)]


def walled(made):
    """A column is blocked before the last: none of the cells behind it is reached."""
    hall = Hall(made, "a wall", of_open_hall(2, 8, SIDE * 1000, wall=SIDE - 2))
    reached = SIDE * (SIDE - 2)
    assert len(hall.known.listed) == reached
    hall.search(SIZE - 1, reached)
    hall.table([1, 0, 0])
    hall.search(SIDE - 1, reached - 1)
    hall.astar(SIDE - 1)
    hall.refused(7, start=SIZE - 2, **SHORT_ROOMS)
    hall.refused(8, goal=SIZE - 2, **SHORT_ROOMS)


def one_ways(made):
    """Serpentines whose least cost is near the greatest: there, back, with four ways, stopped before the last cell; the costs and the route that are left
    hold as claims."""
    known = of_one_way(corridors(), 0)
    assert known.listed[-1] == SIZE - SIDE and known.least[SIZE - SIDE] == 661246740
    serpentine(made, "corridors", known)
    known = of_one_way(stairs(), (SIDE - 2) * SIDE)
    assert known.listed[-1] == SIDE - 1 and known.least[SIDE - 1] == 879085620
    serpentine(made, "stairs", known)
    Hall(made, "stairs", known).record(SIDE - 1)


def serpentine(made, name, known):
    hall, goal, count = Hall(made, name, known), known.listed[-1], len(known.listed)
    cost = known.least[goal]
    hall.search(goal, MARK)
    hall.table([1, 0, 0])
    hall.route(goal, cost, [1, 0, 0, cost], length=count - 1)
    hall.route(goal, cost + 1, [2, 46, count - 1], length=count - 1)
    hall.search(goal, count - 1)
    hall.astar(goal)
    back = Hall(made, f"{name}, back, 4 ways", turned_round(known))
    back.known.ways = 4
    assert back.search(known.start, count)[4] == cost
    back.table([1, 0, 0])
    back.astar(known.start)


def too_long(made):
    """Sides of 1,025, with as many cells as that, and a full map with a cell less, one more, and a bad byte at its end; before rooms that are too short."""
    short = lent(SHORT_ROOMS)
    bad = bytes(SIZE - 1) + b"\n"
    for width, height, length, cells, refused in (
        (SIDE + 1, SIDE, SIZE + SIDE, [1], (1, 0)),
        (SIDE, SIDE + 1, SIZE + SIDE, [1], (1, 0)),
        (SIDE, SIDE, SIZE + 1, [1], (2, 0)),
        (SIDE, SIDE, SIZE - 1, [1], (2, 0)),
        (SIDE, SIDE, SIZE, bad, (3, SIZE - 1)),
    ):
        about = f"{width} by {height}, {length} cells, refused as {refused[0]}"
        for what in (wire.SEARCH, wire.ASTAR, wire.CHECK_TABLE):
            made.call(what, about, lambda **_: [0, *refused], (width, height, 8), 0, 1, 1, map=(length, cells), **short)
        made.call(wire.CHECK_ROUTE, about, lambda **_: [0, *refused], (width, height, 8), 0, 1, 140, map=(length, cells), route=(1, [2]))
        made.call(wire.WRITE_MAP, about, lambda **_: [0, *refused], (width, height, 8), map=(length, cells), text=(3, wire.OLD_BYTE))


def texts(made):
    """A full map, written and read back, and its text with something wrong at its very end, or in its header."""
    cells = bytes((x + 7 * y) % 10 for y in range(SIDE) for x in range(SIDE))
    whole = maptexts.written(SIDE, SIDE, cells)
    assert len(whole) == LONGEST_TEXT
    full = {"floor": (SIDE, SIDE, 0), "map": (SIZE, cells)}
    for length in (LONGEST_TEXT - 1, wire.HALL_LENGTHS["text"], LONGEST_TEXT):
        due = lambda text, **_: write_whole(whole, text)
        made.call(wire.WRITE_MAP, f"a text room of {length}", due, text=(length, wire.OLD_BYTE), **full)
    for room in (SIZE, wire.HALL_LENGTHS["map"]):
        read(made, f"what was written, a room of {room}", (LONGEST_TEXT, ()), room, [1, 0, 0, SIDE, SIDE, 8], cells)
    read(made, "a room that is too short", (LONGEST_TEXT, ()), SIZE - 1, [0, 29, 0])
    end = LONGEST_TEXT - 1
    for about, text, refused in (
        ("no last LF", whole[:-1], (27, end)),
        ("no last cell", whole[:-2], (27, end - 1)),
        ("another byte for the last LF", whole[:-1] + b".", (26, end)),
        ("no cell character for the last cell", whole[:-2] + b"S\n", (25, end - 1)),
        ("a short last row", whole[:-2] + b"\n", (25, end - 1)),
        ("a further byte", whole + b"\n", (28, LONGEST_TEXT)),
        ("height 1025", whole.replace(b"height 1024", b"height 1025"), (22, 12)),
        ("width 1025", whole.replace(b"width 1024", b"width 1025"), (23, 24)),
    ):
        read(made, about, (len(text), text), SIZE, [0, *refused])
    made.call(wire.USE_MAP, "a full text", lambda **_: [0, 14, 0], map=(4096, wire.OLD_BYTE), text=(LONGEST_TEXT, whole))


def write_whole(whole, text):
    if len(text) < len(whole):
        return [0, 30, 0]
    text[: len(whole)] = whole
    return [1, 0, 0, len(whole)]


def read(made, about, text, room, numbers, cells=b""):
    """A text is judged and read; the text room has it already, or it is given."""

    def due(map, **_):
        map[: len(cells)] = cells
        return numbers

    made.call(wire.JUDGE_MAP, about, lambda **_: numbers, map=(room, wire.OLD_BYTE), text=text)
    made.call(wire.READ_MAP, about, due, map=(room, wire.OLD_BYTE), text=(text[0], ()))


# ---- all of it --------------------------------------------------------------------------------------------------------------------


class Sent(wire.Wire):
    """Calls that go to the program as they are made, so that it answers one while the next is worked out. The replies are short, and are read at the end."""

    def __init__(self, program):
        super().__init__(wire.HALL_LENGTHS)
        self.program = program

    def call(self, *words, **named):
        numbers = super().call(*words, **named)
        self.program.stdin.write(self.made[-1][1])
        return numbers


def main():
    command = sys.argv[1:]
    with subprocess.Popen(command, stdin=subprocess.PIPE, stdout=subprocess.PIPE) as program:
        made = Sent(program)
        try:
            for part in (texts, too_long, open_floor, longest_claims, ties, walled, one_ways):
                part(made)
            program.stdin.close()
        except BrokenPipeError:
            print("calls: the program ended before the calls did; with the rooms of a hall it needs a stack of 32 MiB, which tools/start asks for")
        output = program.stdout.read()
    drive.compare(made.made, output)
    print(f"calls: {len(made.made)} calls about full halls, answered as due")
    drive.try_endings(command, wire.HALL_LENGTHS)


if __name__ == "__main__":
    main()
