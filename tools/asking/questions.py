"""One question, one claimed route, or all least costs: asked of the proved programs, told in lines, as an object, as a picture."""
import shutil
import sys
from collections import namedtuple

from asking import overview, terminal, words
from asking.drawing import Drawing
from asking.large import LargeDrawing
from asking.logfile import Log
from asking.names import base_name, visible
from asking.output import write_file
from asking.programs import (
    DIRECTIONS, FAULT, FOUND, HOLDS, LARGEST, MARK, NONE, PROGRAM_SIDE, REFUSED, STOPPED, Planner, Refusal, Trouble,
    answer_of, answer_record, cells_of, is_for_program, question, question_of, record_of,
)
from asking.view import View

ANSWERED, DIFFERENT = 0, 1

# All about one question to one engine. `holds`: the check of claimed routes takes the route that was found. `sums`: its P and Q, as they are summed here.
# `by`: who answered.
Outcome = namedtuple("Outcome", "floor question answer rooms holds sums by")
# What is told: lines, the same as an object, the picture (None: there is none), the lines over it in a file, the exit status, and trouble that has come up
# after the answer and is raised once that is told.
Told = namedtuple("Told", "lines object view headline status trouble", defaults=(None,))

TWO_BUILDS = "planner and calls answer differently, so they are not of one build: run 'tools/program planner calls'"
BY_BOTH, BY_LIBRARY = "the program and the library, alike", f"the library; the program takes sides up to {PROGRAM_SIDE}"
BY_ASTAR = "the library's A*; the program has the plain search alone"


def cell_number(floor, cell):
    """The number of x,y. What is off the map gets a number that is off every map, for the planner to refuse."""
    x, y = cell
    if 0 <= x < floor.width and 0 <= y < floor.height:
        return y * floor.width + x
    return MARK


def sizes(path, floor):
    return f"{base_name(path)}: {floor.width} wide, {floor.height} high"


def about_map(path, floor):
    return {"map": base_name(path), "width": floor.width, "height": floor.height}


def place_words(floor, cell):
    off = "" if cell_number(floor, cell) != MARK else " off the map"
    return f"({cell[0]},{cell[1]}){off}"


def how_words(given):
    """How many cells may be settled, and by which engine, if not by the plain search alone."""
    limit = "no limit" if given.limit == LARGEST else f"limit {given.limit}"
    return {words.ASTAR: "by A*", words.BOTH: f"by A*, and by the plain search with {limit}"}.get(given.engine, limit)


def subject_of(given, floor):
    """The line over an answer: the map, and what was asked."""
    ends = f"from {place_words(floor, given.start)} to {place_words(floor, given.goal)}"
    return f"{sizes(given.map, floor)}; {ends}, {given.ways} ways, {how_words(given)}"


def map_refused(given, text, refusal):
    lines = words.map_refused(refusal, text)
    line, column = words.line_and_column(text, refusal.place)
    told = {"map": base_name(given.map), "kind": "map refused", "refusal": refusal.number, "place": refusal.place, "line": line, "column": column}
    return Told([f"{base_name(given.map)}:", *lines], {**told, "why": words.meaning(refusal.number)}, None, None, DIFFERENT)


def refusal_object(refused):
    return {"refusal": refused.number, "why": words.meaning(refused.number)}


def verdict_object(verdict):
    """What the check says of a claimed route."""
    told = {"kind": {HOLDS: "holds", FAULT: "fault"}.get(verdict.kind, "refused")}
    if verdict.kind == HOLDS:
        return {**told, "cost": verdict.cost}
    return {**told, "number": verdict.number, "place": verdict.place, "why": words.meaning(verdict.number)}


def answer_object(answer):
    """An answer with the names of its numbers."""
    told = {"kind": words.KINDS.get(answer.kind, answer.kind)}
    if answer.kind == REFUSED:
        return {**told, **refusal_object(Refusal(answer.refusal, 0))}
    names = {
        FOUND: {"cost": answer.number, "steps": answer.length, "p": answer.p, "q": answer.q}, NONE: {}, STOPPED: {"floor": answer.number},
    }
    return {**told, **names.get(answer.kind, {"number": answer.number, "length": answer.length}), "settled": answer.settled}


# ---- P and Q


def sums_of(floor, start, route, verdict):
    """P and Q of a claimed route, summed here; None where the check says that its steps cannot be followed."""
    # with 45 and 46 each step is allowed
    followed = verdict.kind == HOLDS or (verdict.kind == FAULT and verdict.number in (45, 46))
    return words.sums(floor, start, route) if followed else None


def sums_differ(found, sums):
    """Whether P and Q of a found answer are not those of its route, as far as that has any."""
    return sums is not None and sums != (found.p, found.q)


def sums_object(found, sums):
    """How P and Q of a found answer compare with those of its route."""
    if not sums_differ(found, sums):
        return {"sums": None if sums is None else "same"}
    return {"sums": "differs", "route_p": sums[0], "route_q": sums[1]}


# ---- a question


def question_in(given, floor):
    """The question that the words ask."""
    return question(cell_number(floor, given.start), cell_number(floor, given.goal), given.limit, given.ways)


def checked(calls, floor, asked, answer, rooms, by):
    """An answer with what the check of claimed routes says of the route that was found."""
    holds, sums = False, None
    if answer.kind == FOUND:
        verdict = calls.check_route(floor, asked, answer.number, rooms.route)
        holds = verdict.kind == HOLDS and verdict.cost == answer.number
        sums = sums_of(floor, asked.start, rooms.route, verdict)
    return Outcome(floor, asked, answer, rooms, holds, sums, by)


def search(calls, floor, text, asked):
    """The outcome of the plain search: of the library, and of the program too where it takes the map."""
    answer, rooms = calls.search(floor, asked)
    by = BY_LIBRARY
    if is_for_program(floor, text):
        by = BY_BOTH
        with Planner(text) as planner:
            if answer_of(planner.answers(record_of(asked))) != answer:
                raise Trouble(TWO_BUILDS)
    return checked(calls, floor, asked, answer, rooms, by)


def aimed(calls, floor, asked):
    """The outcome of A*: of the library alone, since the program answers by the plain search."""
    answer, rooms = calls.astar(floor, asked)
    return checked(calls, floor, asked, answer, rooms, BY_ASTAR)


def first_route(calls, floor, asked, answered):
    """The directions that belong to an answer's record, from the library, which must give the same answer."""
    if answer_of(answered).kind != FOUND:
        return b""
    answer, rooms = calls.search(floor, question_of(asked))
    if answer_record(answer) != answered:
        raise Trouble(TWO_BUILDS)
    return rooms.route


def advice(outcome):
    """What to do about a question that is refused, where the refusal's words do not say it."""
    floor, refused = outcome.floor, outcome.answer.refusal
    if refused in (5, 6):
        return f"on this map x goes from 0 to {floor.width - 1} and y from 0 to {floor.height - 1}"
    return words.ZERO_LIMIT_IN_WORDS if refused == words.ZERO_LIMIT else None


def more_about(outcome, root):
    """Lines that say more than the answer's own line."""
    answer = outcome.answer
    if answer.kind == FOUND:
        verdict = "holds" if outcome.holds else "DOES NOT HOLD"
        differs = [f"DIFFERS: {words.other_sums(answer, outcome.sums)}"] if sums_differ(answer, outcome.sums) else []
        return [words.length_line(answer, root), *differs, f"checked as a claimed route: {verdict} at cost {answer.number}"]
    line = advice(outcome)
    return [line] if line else []


def route_lines(outcome):
    """The route that was found, as far as it has a step."""
    if not outcome.rooms or not outcome.rooms.route:
        return []
    return words.listed("route:", words.directions(outcome.rooms.route), shutil.get_terminal_size().columns)


def question_object(given, floor):
    """What was asked; the engine is named where it is not the plain search."""
    told = {**about_map(given.map, floor), "from": list(given.start), "to": list(given.goal), "ways": given.ways}
    return told if given.engine == words.PLAIN else {**told, "engine": given.engine}


def limit_object(outcome):
    """The limit; A* has none."""
    limit = outcome.question.limit
    return {} if outcome.by == BY_ASTAR else {"limit": None if limit == LARGEST else limit}


def outcome_object(outcome):
    """What one engine answers."""
    answer = outcome.answer
    told = {**limit_object(outcome), **answer_object(answer)}
    if answer.kind == FOUND:
        told |= {"route": list(outcome.rooms.route), "true_length": words.true_length(answer), **sums_object(answer, outcome.sums), "checked": outcome.holds}
    if advice(outcome):
        told["advice"] = advice(outcome)
    return {**told, "answered_by": ["planner", "library"] if outcome.by == BY_BOTH else ["library"]}


def logged(told, log, outcome):
    """Appends an outcome to the log, and adds what has become of it to what is told."""
    route = outcome.rooms.route if outcome.rooms else b""
    entry = log.calls.write_entry(record_of(outcome.question), answer_record(outcome.answer), route)
    if isinstance(entry, Refusal):
        lines = [*told.lines, words.not_logged(entry, outcome.answer)]
        return told._replace(lines=lines, object={**told.object, "logged": refusal_object(entry)}, status=DIFFERENT)
    try:
        log.append([entry])
    except Trouble as trouble:
        return told._replace(object={**told.object, "logged": None}, trouble=trouble)
    begin = log.end - len(entry)
    lines = [*told.lines, f"logged in {visible(log.path)} as entry {log.count}, bytes {begin} to {log.end - 1}"]
    return told._replace(lines=lines, object={**told.object, "logged": {"entry": log.count, "byte": begin, "bytes": len(entry)}})


def is_good(outcome):
    """Whether a question is answered, and a route that was found holds and has the answer's P and Q."""
    if outcome.answer.kind == FOUND:
        return outcome.holds and not sums_differ(outcome.answer, outcome.sums)
    return outcome.answer.kind != REFUSED


def view_of(outcome):
    """The floor with what the engine has settled, and the route."""
    by = "A*" if outcome.by == BY_ASTAR else None
    if outcome.rooms is None:
        return View(outcome.floor, outcome.question)
    return View(outcome.floor, outcome.question, outcome.rooms.costs, outcome.rooms.route, settled_by=by)


def ask(given, calls, floor, text):
    """One question to one engine."""
    log = None if given.log is None else Log(calls, given.log)
    if log and given.svg != "-":
        log.must_not_be("the picture", given.svg)
    asked = question_in(given, floor)
    outcome = aimed(calls, floor, asked) if given.engine == words.ASTAR else search(calls, floor, text, asked)
    subject, root = subject_of(given, floor), terminal.marks_for(sys.stdout).root
    lines = [subject, words.answer(outcome.answer), *more_about(outcome, root), *route_lines(outcome), f"answered by {outcome.by}"]
    headline = [words.answer(outcome.answer), *more_about(outcome, "√2")[:1], subject]
    told = {**question_object(given, floor), **outcome_object(outcome)}
    told = Told(lines, told, view_of(outcome), headline, ANSWERED if is_good(outcome) else DIFFERENT)
    return told if log is None else logged(told, log, outcome)


# ---- a claimed route


def fault_cell(floor, start, route, verdict):
    """The cell where a claimed route goes wrong: the one that it must not enter, or the one that it should not have left or ended at; none if only its
    cost is wrong."""
    if verdict.kind != FAULT or verdict.number == 46:
        return None
    cells = cells_of(floor, start, route[: verdict.place])
    if verdict.number in (43, 44):
        return cells_of(floor, cells[-1], route[verdict.place : verdict.place + 1])[-1]
    return cells[-1]


def shown_steps(route, verdict):
    """The steps of a claimed route up to its fault; a step into a cell of the map that it must not enter is shown too."""
    if verdict.kind == REFUSED:
        return b""
    if verdict.kind == FAULT:
        return route[: verdict.place + (verdict.number in (43, 44))]
    return route


def check(given, calls, floor, _):
    """What the route check says of a claim."""
    asked = question(cell_number(floor, given.start), cell_number(floor, given.goal), LARGEST, given.ways)
    verdict = calls.check_route(floor, asked, given.cost, given.check)
    fault = fault_cell(floor, asked.start, given.check, verdict)
    view = View(floor, asked, route=shown_steps(given.check, verdict), fault=fault)
    ends = f"from {place_words(floor, given.start)} to {place_words(floor, given.goal)}, {given.ways} ways"
    subject = f"{sizes(given.map, floor)}; a claimed route {ends}, {words.count(len(given.check), 'step')}, cost {given.cost}"
    line = words.verdict(verdict, floor, given.check, asked.start)
    told = {**about_map(given.map, floor), "from": list(given.start), "to": list(given.goal), "ways": given.ways, "route": list(given.check)}
    told |= {"claimed_cost": given.cost, **verdict_object(verdict)}
    if verdict.kind != HOLDS:
        told |= {"cell": None if fault is None else [fault % floor.width, fault // floor.width]}
    lines = [subject, line, "judged by the library's check of claimed routes"]
    return Told(lines, told, view, [line, subject], ANSWERED if verdict.kind == HOLDS else DIFFERENT)


def route_of(text):
    """A claimed route's directions, from digits, from names, or from what the front end prints: '4220', 'S E E N', '1 S, 2 E, 1 N'."""
    names = {name: number for number, (name, _, _) in enumerate(DIRECTIONS)}
    if text.isascii() and text.isdigit():
        return bytes(int(digit) for digit in text)
    route, times = [], 1
    parts = text.upper().replace(",", " ").split()
    for place, part in enumerate(parts):
        if part in names:
            route += [names[part]] * times
            times = 1
        elif part.isascii() and part.isdigit() and len(part) <= 6 and parts[place + 1 : place + 2] and parts[place + 1] in names:
            times = int(part)
        else:
            raise ValueError(f"a route is digits 0 to 7 such as 4220, or directions such as 1 S, 2 E, 1 N; {visible(part)} is neither")
    return bytes(route)


# ---- all least costs


def all_costs(calls, floor, start, ways):
    """The least costs from a start, all of them: a search that finds its goal leaves those that it settled, one that finds none has settled all. So a
    goal that is not settled yet is asked for, until there is none, or none that can be reached."""
    costs = (MARK,) * len(floor.cells)
    width = floor.width
    while True:
        open_cells = [cell for cell, weight in enumerate(floor.cells) if weight and costs[cell] == MARK]
        if not open_cells:
            return costs
        far = max(open_cells, key=lambda cell: abs(cell % width - start % width) + abs(cell // width - start // width))
        answer, rooms = calls.search(floor, question(start, far, LARGEST, ways))
        if answer.kind == REFUSED:
            return answer
        costs = rooms.costs
        if answer.kind == NONE:
            return costs


def costs_table(given, calls, floor, _):
    """Least costs from one start, as CSV or as an object."""
    start = cell_number(floor, given.start)
    asked = question(start, start, LARGEST, given.ways)
    answer, _rooms = calls.search(floor, asked)
    if answer.kind == REFUSED:
        line = words.answer(answer)
        return Told([f"{sizes(given.map, floor)}; least costs from {place_words(floor, given.start)}", line], answer_object(answer), None, None, DIFFERENT)
    costs = all_costs(calls, floor, start, given.ways)
    if not calls.table_is_right(floor, given.ways, start, costs):
        raise Trouble("the check of cost tables does not take the costs that the search has left: run 'tools/program calls'")
    lines = ["x,y,weight,cost"]
    lines += [
        f"{cell % floor.width},{cell // floor.width},{floor.cells[cell]},{'' if cost == MARK else cost}" for cell, cost in enumerate(costs)
    ]
    rows = [[None if cost == MARK else cost for cost in costs[y * floor.width : (y + 1) * floor.width]] for y in range(floor.height)]
    told = {**about_map(given.map, floor), "from": list(given.start), "ways": given.ways, "costs": rows}
    return Told(lines, told, None, None, ANSWERED)


# ---- told


def picture(view, stream, colour):
    """The lines of the picture in the terminal: cell by cell, or where that does not fit, an overview."""
    size = shutil.get_terminal_size()
    draw = terminal.picture if terminal.fits(view.floor, size) else overview.picture
    return draw(view, size, colour, terminal.marks_for(stream))


def svg(view, headline):
    """The picture as a file: cell by cell up to the program's greatest floor, which takes less than 2 MB."""
    draw = Drawing if len(view.floor.cells) <= PROGRAM_SIDE * PROGRAM_SIDE else LargeDrawing
    return draw(view, headline).text()


def tell(given, told, out, colour):
    """Lines or an object, then the pictures. What has been answered is told before a picture can fail."""
    if given.json:
        out.object(told.object)
    else:
        out.lines(told.lines)
        if told.view is not None and not given.quiet:
            out.lines(["", *picture(told.view, out.stream, colour)])
    if given.svg is not None and told.view is not None:
        write_file(given.svg, svg(told.view, told.headline).encode("utf-8"), "the picture")
        if given.svg != "-" and not given.json:
            out.lines([f"the picture is in {visible(given.svg)}"])
    if told.trouble:
        raise told.trouble
    return told.status


def read_floor(calls, given, text):
    """The floor, or what is told about a map that is refused."""
    floor = calls.read_map(text)
    return map_refused(given, text, floor) if isinstance(floor, Refusal) else floor
