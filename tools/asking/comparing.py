"""One question asked of both engines. They settle different cells; kind, cost, P, Q and route must be the same."""
import sys

from asking import terminal, words
from asking.questions import (
    ANSWERED, DIFFERENT, Told, aimed, is_good, more_about, outcome_object, question_in, question_object, route_lines, search, subject_of, view_of,
)

ASTAR, PLAIN = "A*", "the plain search"


def differences(one, other):
    """What two outcomes differ in, of what must be the same for both engines."""
    pairs = {
        "kind": (one.answer.kind, other.answer.kind),
        "refusal": (one.answer.refusal, other.answer.refusal),
        "cost": (one.answer.number, other.answer.number),
        "P": (one.answer.p, other.answer.p),
        "Q": (one.answer.q, other.answer.q),
        "route": (one.rooms and one.rooms.route, other.rooms and other.rooms.route),
    }
    return [name for name, (of_one, of_other) in pairs.items() if of_one != of_other]


def verdict(differ):
    """One line that says whether the engines agree."""
    if differ:
        return f"DIFFERS: {ASTAR} and {PLAIN} have not the same {' and '.join(differ)}"
    return f"{ASTAR} and {PLAIN} have the same kind, cost, P, Q and route"


def named(name, lines):
    return [f"{name}: {line}" for line in lines]


def counted(by_astar, by_plain):
    """The answers of both, each with its own count of settled cells."""
    return [*named(ASTAR, [words.answer(by_astar.answer)]), *named(PLAIN, [words.answer(by_plain.answer)])]


def routes(by_astar, by_plain, differ):
    """Length, check and route: once where they are the same, else of each engine."""
    root = terminal.marks_for(sys.stdout).root
    of_astar, of_plain = ([*more_about(outcome, root), *route_lines(outcome)] for outcome in (by_astar, by_plain))
    return [*named(ASTAR, of_astar), *named(PLAIN, of_plain)] if differ else of_astar


def ask(given, calls, floor, text):
    """The question by A*, and by the plain search with the limit at the cell count. The picture shows what A* has settled."""
    given.limit = floor.width * floor.height
    asked, subject = question_in(given, floor), subject_of(given, floor)
    by_astar, by_plain = aimed(calls, floor, asked), search(calls, floor, text, asked)
    differ = differences(by_astar, by_plain)
    heads = [*counted(by_astar, by_plain), verdict(differ)]
    by = f"{ASTAR} answered by the library; {PLAIN} by {by_plain.by}"
    lines = [subject, *heads, *routes(by_astar, by_plain, differ), by]
    told = {**question_object(given, floor), "astar": outcome_object(by_astar), "plain": outcome_object(by_plain)}
    told |= {"compared": "differs", "differ": differ} if differ else {"compared": "same"}
    good = not differ and is_good(by_astar) and is_good(by_plain)
    return Told(lines, told, view_of(by_astar), [*heads, subject], ANSWERED if good else DIFFERENT)
