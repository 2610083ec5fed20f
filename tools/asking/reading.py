"""A route log shown entry by entry. Where a map is given, each logged route goes through the check of claimed routes, and each question is asked again."""
import shutil
from collections import namedtuple
from contextlib import nullcontext

from asking import words
from asking.logfile import Entries, all_bytes
from asking.names import base_name
from asking.programs import FOUND, HOLDS, answer_of, is_for_program, question_of
from asking.questions import (
    ANSWERED, BY_LIBRARY, DIFFERENT, about_map, answer_object, first_route, refusal_object, sizes, sums_differ, sums_object, sums_of, verdict_object,
)
from asking.replaying import Noted, Progress, answering, asked_object

INDENT = 6


class Shown(namedtuple("Shown", "number begin entry verdict sums proved route")):
    """An entry: its number from 1, the byte where it begins, and, with a map, what the check says of a found one's route, the P and Q of that route, the
    proved answer's record, and the route that belongs to that."""

    def is_wrong(self):
        """Whether its own route is none that it claims to be."""
        return self.verdict is not None and self.verdict.kind != HOLDS

    def has_other_sums(self):
        """Whether its own P and Q are not those of its own route, which the log does not test (02, R-6)."""
        return sums_differ(answer_of(self.entry.answered), self.sums)

    def answer_differs(self):
        return self.proved is not None and self.proved != self.entry.answered

    def route_differs(self):
        """Whether both answers have a route, but not the same."""
        return self.verdict is not None and answer_of(self.proved).kind == FOUND and self.route != self.entry.route

    def differs(self):
        return self.answer_differs() or self.route_differs()

    def is_fine(self):
        return not (self.is_wrong() or self.has_other_sums() or self.differs())

    def same_cost(self):
        return answer_of(self.proved).number == answer_of(self.entry.answered).number


def judged(number, begin, entry, calls, floor, answers_to):
    """An entry with what is to be said of it."""
    if floor is None:
        return Shown(number, begin, entry, None, None, None, b"")
    asked, answered, proved = question_of(entry.asked), answer_of(entry.answered), answers_to(entry.asked)
    verdict = calls.check_route(floor, asked, answered.number, entry.route) if answered.kind == FOUND else None
    sums = sums_of(floor, asked.start, entry.route, verdict) if verdict else None
    return Shown(number, begin, entry, verdict, sums, proved, first_route(calls, floor, entry.asked, proved))


# ---- what is told


def route_lines(name, route):
    columns = shutil.get_terminal_size().columns - INDENT
    return [" " * INDENT + line for line in words.listed(name, words.directions(route) or ["no step"], columns)]


def entry_lines(shown, floor):
    entry, asked, answered = shown.entry, question_of(shown.entry.asked), answer_of(shown.entry.answered)
    where = f"entry {shown.number} (bytes {shown.begin} to {shown.begin + entry.taken - 1})"
    yield f"{shown.number:>4}  {words.asked(floor, asked)}"
    yield f"      {words.answer(answered, sums=True)}"
    if entry.route:
        yield from route_lines("route:", entry.route)
    if shown.is_wrong():
        yield f"      WRONG: {where}, checked as a claimed route: {words.objection(shown.verdict, floor, entry.route, asked.start)}"
    if shown.has_other_sums():
        yield f"      WRONG: {where}: {words.other_sums(answered, shown.sums)}"
    if shown.answer_differs():
        yield f"      DIFFERS: {where}; the proved answer is {words.answer(answer_of(shown.proved), sums=True)}"
        yield f"        logged {entry.answered.hex(' ')}"
        yield f"        proved {shown.proved.hex(' ')}"
    if shown.route_differs():
        which = "the proved route is" if shown.is_wrong() or not shown.same_cost() else "its route holds, but the first of this cost is"
        yield from route_lines(f"DIFFERS: {where}; {which}", shown.route)


def entry_object(shown, floor):
    entry = shown.entry
    told = {"entry": shown.number, "byte": shown.begin, "bytes": entry.taken, **asked_object(floor, question_of(entry.asked))}
    told |= {**answer_object(answer_of(entry.answered)), "asked_hex": entry.asked.hex(), "answered_hex": entry.answered.hex()}
    if answer_of(entry.answered).kind == FOUND:
        told["route"] = list(entry.route)
    if shown.verdict:
        told |= {"check": verdict_object(shown.verdict), **sums_object(answer_of(entry.answered), shown.sums)}
    if shown.proved:
        told["compared"] = "differs" if shown.differs() else "same"
    if shown.proved and shown.differs():
        told["proved"] = {**answer_object(answer_of(shown.proved)), "hex": shown.proved.hex(), "route": list(shown.route)}
    return told


class Tally:
    """What the entries come to."""

    def __init__(self):
        self.checked = 0
        self.wrong, self.other_sums, self.differ = Noted(), Noted(), Noted()

    def add(self, shown):
        self.checked += shown.verdict is not None
        for noted, so in ((self.wrong, shown.is_wrong()), (self.other_sums, shown.has_other_sums()), (self.differ, shown.differs())):
            if so:
                noted.add(shown.number)

    def lines(self, entries, floor):
        if entries.refusal:
            yield f"the log {entries.breaks_off()}"
        line = f"{words.count(entries.count, 'entry')} in {words.count(entries.at, 'byte')}"
        if floor:
            line += f"; {words.count(self.checked, 'route')} checked; {self.wrong.of('route', 'is wrong', 'are wrong')}"
            if self.other_sums.count:
                line += f"; {self.other_sums.of('answer', 'has other sums than its route', 'have other sums than their routes')}"
            line += f"; {self.differ.of('entry', 'differs', 'differ')}"
        yield line

    def object(self, entries, floor, by):
        told = {"entries": entries.count, "bytes": entries.at}
        told |= {"torn": {"byte": entries.at, **refusal_object(entries.refusal)} if entries.refusal else None}
        counts = {"checked": self.checked, "wrong": self.wrong.count, "other_sums": self.other_sums.count, "differ": self.differ.count}
        return {"summary": told | ({**counts, "answered_by": by} if floor else {})}

    def status(self, entries):
        return DIFFERENT if entries.refusal or self.wrong.count or self.other_sums.count or self.differ.count else ANSWERED


# ---- the log


def headline(given, floor, text):
    name = "standard input" if given.read_log == "-" else base_name(given.read_log)
    if floor is None:
        return f"{name}; without a map cells are numbers, and nothing is checked or asked again"
    return f"{sizes(given.map, floor)}; {name}, asked again and answered by {'the program' if is_for_program(floor, text) else BY_LIBRARY}"


def tell_entries(given, calls, floor, text, out, entries):
    """Tells the entries as they are read, or only what is wrong or differs."""
    tally, progress = Tally(), Progress(given.quiet, "entries read")
    try:
        with answering(calls, floor, text) if floor else nullcontext() as answers_to:
            for begin, entry in entries:
                shown = judged(entries.count, begin, entry, calls, floor, answers_to)
                tally.add(shown)
                if given.quiet and shown.is_fine():
                    pass
                elif given.json:
                    out.object(entry_object(shown, floor))
                else:
                    out.lines(entry_lines(shown, floor))
                progress.at(entries.count)
    finally:
        progress.done()
    return tally


def read_log(given, calls, floor, text, out):
    """Shows a log; gives the exit status."""
    entries = Entries(calls, given.read_log, all_bytes(given.read_log))
    if not given.json:
        out.lines([headline(given, floor, text)])
    tally = tell_entries(given, calls, floor, text, out, entries)
    if given.json:
        by = ["planner"] if floor and is_for_program(floor, text) else ["library"]
        out.object({"log": base_name(given.read_log), **(about_map(given.map, floor) if floor else {}), **tally.object(entries, floor, by)})
    else:
        out.lines(tally.lines(entries, floor))
    return tally.status(entries)
