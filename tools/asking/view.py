"""What both pictures show of a question: the floor, the two ends, the settled stretch by cost, the route, a faulty cell."""
from collections import namedtuple

from asking.programs import MARK, cells_of

BANDS = 3

# What stands on a cell. `mark` is "fault", "both", "start", "goal", "route" or None; `direction` that of the step that leaves it.
Cell = namedtuple("Cell", "number x y weight cost mark direction")


class View:
    def __init__(self, floor, question, costs=None, route=b"", fault=None, settled_by=None):
        """`route` are steps that can be taken on the floor; `fault` is the cell where a claimed route goes wrong; `settled_by` names the engine that has
        left the costs, where that is not the plain search."""
        size = floor.width * floor.height
        self.floor = floor
        self.start = question.start
        self.goal = question.goal
        self.fault = fault
        self.settled_name = f"settled by {settled_by}" if settled_by else "settled"
        self.costs = costs or (MARK,) * size
        self.route = route
        self.route_cells = cells_of(floor, self.start, route) if route else []
        # a claimed route may come by a cell again: the last step that leaves it is shown
        self.leaving = dict(zip(self.route_cells, route))
        self.settled = [cost for cost in self.costs if cost != MARK]
        self.dearest = max(self.settled, default=0)

    def mark(self, number):
        if number == self.fault:
            return "fault"
        if number == self.start:
            return "both" if number == self.goal else "start"
        if number == self.goal:
            return "goal"
        return "route" if number in self.leaving else None

    def cell(self, x, y):
        number = y * self.floor.width + x
        cost = self.costs[number]
        return Cell(number, x, y, self.floor.cells[number], None if cost == MARK else cost, self.mark(number), self.leaving.get(number))

    def rows(self):
        for y in range(self.floor.height):
            yield [self.cell(x, y) for x in range(self.floor.width)]

    def marks(self):
        """The marks that stand somewhere. No cell is looked at: there may be a million."""
        ends = {cell for cell in (self.start, self.goal, self.fault) if cell is not None and cell < len(self.floor.cells)}
        route = len(self.leaving) > sum(cell in self.leaving for cell in ends)
        return {self.mark(cell) for cell in ends} | ({"route"} if route else set())

    def weights(self):
        """The weights above 1 that occur."""
        return sorted(set(self.floor.cells) - {0, 1})

    def has(self, weight):
        return weight in self.floor.cells

    def band(self, cost):
        """Which third of the settled costs a cost is in: 0 near the start, 2 far from it."""
        return cost * BANDS // (self.dearest + 1)
