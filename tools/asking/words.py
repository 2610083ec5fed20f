"""Answers, refusals and differences in words."""
import math

from asking.programs import (
    ANSWER_ZEROS, DIRECTIONS, FOUND, HOLDS, LARGEST, LONGEST_LOGGED_ROUTE, MARK, MOST_SIDE, NONE, QUESTION_ZEROS, RECORD, REFUSED, STOPPED, cells_of,
)

# Refusals and faults, as docs/MANUAL.md has them ("Refusals and faults").
NUMBERS = {
    1: f"width or height is 0 or above {MOST_SIDE}",
    2: "the map's length is not width x height",
    3: "a map byte is above 9",
    4: "ways is neither 4 nor 8",
    5: "the start is not on the map",
    6: "the goal is not on the map",
    7: "the start is blocked",
    8: "the goal is blocked",
    9: "the costs room is shorter than width x height",
    10: "the work room is shorter than 2 x width x height",
    11: "the route room is shorter than width x height",
    12: "the claimed route is longer than width x height - 1",
    13: f"the last {len(QUESTION_ZEROS)} bytes of the question are not all 0",
    14: "the map is too big for the program",
    15: "the limit is 0 (left empty?), and must be at least 1",
    21: "the first line is not 'type octile'",
    22: f"the second line is not 'height H' with H from 1 to {MOST_SIDE}, one space and no leading zero",
    23: f"the third line is not 'width W' with W from 1 to {MOST_SIDE}, one space and no leading zero",
    24: "the fourth line is not 'map'",
    25: "a byte that is no cell character stands where a cell is due",
    26: "another byte than LF follows a full row",
    27: "the text ends too soon",
    28: "there is a further byte after the last row",
    29: "the map has more cells than the room for them",
    30: "the text room is too short",
    41: "a direction is above 7, or odd with four ways",
    42: "a step leaves the map",
    43: "a step enters a blocked cell",
    44: "a step cuts a corner",
    45: "the route does not end at the goal",
    46: "the route costs something else than was claimed",
    61: "the file ends inside an entry",
    62: "the answer is none that can be logged",
    63: "a direction is above 7, or a filler is not 255",
    64: "the room is shorter than the route or the entry",
}
KINDS = {REFUSED: "refused", FOUND: "found", NONE: "none", STOPPED: "stopped"}
# The engines that can be asked, by the names of the command line.
ENGINES = PLAIN, ASTAR, BOTH = "plain", "astar", "both"

# What to do about a limit that was left empty or sent as 0.
ZERO_LIMIT = 15
LEAVE_OUT = "leave out --limit to search the whole map"
EMPTY_LIMIT = f"it is empty; a limit is a whole number from 1 to {LARGEST}; {LEAVE_OUT}"
ZERO_LIMIT_IN_WORDS = f"nothing can be settled with limit 0; {LEAVE_OUT}"
ZERO_LIMIT_IN_A_RECORD = f"nothing can be settled with limit 0; a record that is to search the whole map has limit {LARGEST}"

CELL_CHARACTERS = "cells are . and G (weight 1), 1 to 9 (their own weight), @, O and T (blocked)"


def count(number, thing):
    several = f"{thing[:-1]}ies" if thing.endswith("y") else f"{thing}s"
    return f"{number} {thing if number == 1 else several}"


def meaning(number):
    return NUMBERS.get(number, "there is no such refusal or fault")


def refusal(number):
    return f"refused {number}: {meaning(number)}"


def verdict(given, floor, route, start):
    """One line for what the check says of a claimed route."""
    if given.kind == HOLDS:
        return f"the claim holds: {count(len(route), 'step')} at cost {given.cost}"
    return f"the claim is {'' if given.kind == REFUSED else 'wrong, '}{objection(given, floor, route, start)}"


def objection(given, floor, route, start):
    """Why the check does not take a claimed route."""
    if given.kind == REFUSED:
        return refusal(given.number)
    if given.number in (45, 46):
        return f"fault {given.number} after all {count(given.place, 'step')}: {meaning(given.number)}"
    left = place(floor, cells_of(floor, start, route[: given.place])[-1])
    way = DIRECTIONS[route[given.place]][0] if route[given.place] < len(DIRECTIONS) else str(route[given.place])
    return f"fault {given.number} at step {given.place + 1}, {way} from {left}: {meaning(given.number)}"


def p_and_q(p, q):
    return f"P {p}, Q {q}"


def answer(given, sums=False):
    """One line for an answer record, right or wrong; with P and Q of a found one, where no true length is told beside it."""
    settled = f"{count(given.settled, 'cell')} settled"
    if given.kind == REFUSED:
        return refusal(given.refusal)
    if given.kind == FOUND:
        more = f", {p_and_q(given.p, given.q)}" if sums else ""
        return f"found at cost {given.number} in {count(given.length, 'step')}{more}; {settled}"
    if given.kind == NONE:
        return f"none: no route leads to the goal; {settled}, all that can be reached"
    if given.kind == STOPPED:
        return f"stopped after {count(given.settled, 'cell')} at floor {given.number}: no route to the goal costs less"
    return f"kind {given.kind}, which is no kind of answer"


def oddities(given):
    """What is in an answer record that no answer has; the line in words would hide it."""
    odd = []
    if given.zeros != b"\0\0":
        odd.append("bytes 2 and 3 are not 0")
    if given.kind == REFUSED and (given.settled or given.number or given.length):
        odd.append("a refused answer has numbers")
    if given.kind != REFUSED and given.refusal:
        odd.append(f"refusal number {given.refusal} in an answer that is not refused")
    if given.kind == NONE and given.number != MARK:
        odd.append(f"number {given.number} in place of MARK")
    if given.kind in (NONE, STOPPED) and given.length:
        odd.append(f"route length {given.length}")
    if given.kind != FOUND and (given.p or given.q):
        odd.append(f"{p_and_q(given.p, given.q)} in an answer that is not found")
    if given.end != ANSWER_ZEROS:
        odd.append(f"bytes {RECORD - len(ANSWER_ZEROS)} to {RECORD - 1} are not 0")
    return odd


def place(floor, cell):
    """A cell as x,y, as far as it is on the map; as its number where there is no map."""
    if floor is None:
        return f"cell {cell}"
    if cell >= floor.width * floor.height:
        return f"cell {cell} (off the map)"
    return f"({cell % floor.width},{cell // floor.width})"


def spoiled_zeros(question):
    """What stands where a question must end in zeros, from the first byte that is not 0 to the last; nothing if all are 0."""
    spoiled = question.zeros.strip(b"\0")
    if not spoiled:
        return ""
    first = RECORD - len(question.zeros.lstrip(b"\0"))
    where = f"byte {first} is" if len(spoiled) == 1 else f"bytes {first} to {first + len(spoiled) - 1} are"
    return f", {where} {spoiled.hex(' ')}"


def asked(floor, question):
    limit = "no limit" if question.limit == LARGEST else f"limit {question.limit}"
    return f"{place(floor, question.start)} to {place(floor, question.goal)}, {question.ways} ways, {limit}{spoiled_zeros(question)}"


def sums(floor, start, route):
    """P and Q: the steps' weights, each that of both its cells, over straight steps and over diagonal ones."""
    cells = cells_of(floor, start, route)
    weights = [floor.cells[left] + floor.cells[entered] for left, entered in zip(cells, cells[1:])]
    straight = sum(weight for weight, direction in zip(weights, route) if direction % 2 == 0)
    diagonal = sum(weight for weight, direction in zip(weights, route) if direction % 2 == 1)
    return straight, diagonal


def true_length(found):
    return found.p + found.q * math.sqrt(2)


def length_line(found, root):
    return f"true length {found.p} + {found.q}{root} = {true_length(found):.3f}; a straight step on level floor is 2"


def other_sums(found, sums):
    """What is said of a found answer whose P and Q are not those of its route."""
    return f"the answer has {p_and_q(found.p, found.q)}, and its route {p_and_q(*sums)}"


def directions(route):
    """A route as a crew would read it out: so many steps in each direction, in turn."""
    stretches = []
    for direction in route:
        if stretches and stretches[-1][1] == direction:
            stretches[-1][0] += 1
        else:
            stretches.append([1, direction])
    return [f"{steps} {DIRECTIONS[direction][0]}" for steps, direction in stretches]


def listed(name, parts, columns):
    """Lines of parts with commas; a part is not broken."""
    lines = [name]
    for place, part in enumerate(parts):
        part += "," if place + 1 < len(parts) else ""
        if len(lines[-1]) + 1 + len(part) > columns:
            lines.append(" ")
        lines[-1] += " " + part
    return lines


def not_logged(refused, answer):
    """One line for an answer that the log's writer refuses."""
    line = f"NOT LOGGED: {refusal(refused.number)}"
    if answer.length > LONGEST_LOGGED_ROUTE:
        line += f"; its route has {count(answer.length, 'step')}, and a logged one at most {LONGEST_LOGGED_ROUTE}"
    return line


def torn_log_advice(number, at):
    """What to do about a log that is not to be appended to, since what begins at that byte is refused."""
    if at == 0:
        return "log to another file; this one may be no route log"
    if number == 61:
        return f"log to another file, or cut this one with truncate -s {at}"
    return "log to another file; this one is damaged there"


def line_and_column(text, offset):
    line = text.count(b"\n", 0, offset) + 1
    column = offset - (text.rfind(b"\n", 0, offset) + 1) + 1
    return line, column


def shown(data):
    """Bytes of a file as a person may see them, cut short."""
    return ascii(data[:40].decode("latin-1")) + ("..." if len(data) > 40 else "")


CARRIAGE_RETURN = "lines end in LF alone, so save the map with Unix line ends"


def advice_on_byte(text, offset, otherwise):
    byte = text[offset : offset + 1]
    if byte == b"\r":
        return f"the byte is a carriage return; {CARRIAGE_RETURN}"
    if byte == b"\n":
        return "the row ends too soon; every row has as many cells as the width says"
    return f"the byte is {shown(byte)}; {otherwise}"


def advice_on_header(text, offset):
    line = text[offset:].split(b"\n", 1)[0]
    if offset >= len(text):
        return "the text ends before it"
    if line.endswith(b"\r"):
        return f"the line ends in a carriage return; {CARRIAGE_RETURN}"
    return f"it reads {shown(line)}"


def map_advice(refused, text):
    """What to do about a map's refusal."""
    if refused.number in (21, 22, 23, 24):
        return advice_on_header(text, refused.place)
    if refused.number == 25:
        return advice_on_byte(text, refused.place, CELL_CHARACTERS)
    if refused.number == 26:
        return advice_on_byte(text, refused.place, "the row is longer than the width says")
    if refused.number == 27:
        return "rows are missing, or the last row is not whole; every row ends in LF, the last too"
    if refused.number == 28:
        return f"the byte is {shown(text[refused.place : refused.place + 1])}; there are more rows than the height says, or an empty line"
    return "this should not happen to a map that is read"


def map_refused(refused, text):
    """Lines about a map that the reader refuses."""
    line, column = line_and_column(text, refused.place)
    return [
        f"map refused {refused.number} at {refused.place}: {meaning(refused.number)}",
        f"line {line}, column {column}: {map_advice(refused, text)}",
    ]
