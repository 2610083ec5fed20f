"""A file of question records answered as it is read, compared with given answers, and logged; question records written."""
import csv
import os
import re
import sys
import time
from collections import namedtuple
from contextlib import contextmanager

from asking import earlier, words
from asking.logfile import Log
from asking.names import visible
from asking.output import write_file
from asking.programs import (
    AT_A_TIME, LARGEST, MARK, RECORD, Planner, Refusal, Trouble,
    answer_of, is_for_program, open_file, question, question_of, record_of, whole_records,
)
from asking.questions import (
    ANSWERED, BY_BOTH, BY_LIBRARY, DIFFERENT, about_map, answer_object, cell_number, first_route, place_words, refusal_object, sizes,
)

NAMED = 8  # so many numbers of answers a summary names
QUESTIONS, ANSWERS = "the file of questions", "the file of answers"


# ---- what is read


def arriving(path):
    """The bytes of a file or of standard input, as they come: what is there is handed on before more is waited for."""
    if path == "-":
        if sys.stdin is None:
            raise Trouble("standard input is closed, so there are no questions")
        file = sys.stdin.buffer
    else:
        file = open_file(path, QUESTIONS)
    try:
        while piece := file.read1(AT_A_TIME * RECORD):
            yield piece
    except OSError as error:
        raise Trouble(f"{QUESTIONS} {visible(path)} cannot be read: {error.strerror}") from None


class GivenAnswers:
    """The answers to compare with, record by record."""

    def __init__(self, path):
        self.path = path
        self.file = open_file(path, ANSWERS, plain=True)
        earlier.refuse_answers(ANSWERS, path, self.read(AT_A_TIME))
        self.file.seek(0)
        size = os.fstat(self.file.fileno()).st_size
        if size % RECORD:
            torn = f"is torn: {words.count(size, 'byte')} are no whole number of records of {RECORD}{earlier.half_a_record(size, 'an answer')}"
            raise Trouble(f"{ANSWERS} {visible(path)} {torn}")

    def read(self, count):
        """So many records more, or as many as are left."""
        try:
            return whole_records(self.file.read(count * RECORD))
        except OSError as error:
            raise Trouble(f"{ANSWERS} {visible(self.path)} cannot be read: {error.strerror}") from None

    def left(self):
        """How many are left."""
        return (os.fstat(self.file.fileno()).st_size - self.file.tell()) // RECORD


# ---- who answers


@contextmanager
def answering(calls, floor, text):
    """A function from whole records to their answers: the program's where it takes the map, else the library's."""
    if is_for_program(floor, text):
        with Planner(text) as planner:
            yield planner.answers
    else:
        yield lambda records: calls.answers(floor, records)


# ---- what is told

# One question of a replay: its number from 0, the records, how the given answer compares (None, "same", "differs" or "missing"), and the refusal of an
# answer that the log does not take.
Turn = namedtuple("Turn", "place asked proved given compared unlogged", defaults=(None,))


def turn_lines(turn, floor):
    yield f"{turn.place + 1:>4}  {words.asked(floor, question_of(turn.asked))}"
    yield f"      {words.answer(answer_of(turn.proved), sums=True)}"
    if answer_of(turn.proved).refusal == words.ZERO_LIMIT:
        yield f"      {words.ZERO_LIMIT_IN_A_RECORD}"
    at = f"answer {turn.place + 1} (bytes {turn.place * RECORD} to {turn.place * RECORD + RECORD - 1})"
    if turn.compared == "missing":
        yield f"      MISSING: {at} is not in {ANSWERS}"
    if turn.compared == "differs":
        odd = "".join(f"; {each}" for each in words.oddities(answer_of(turn.given)))
        yield f"      DIFFERS: {at} says {words.answer(answer_of(turn.given), sums=True)}{odd}"
        yield f"        given  {turn.given.hex(' ')}"
        yield f"        proved {turn.proved.hex(' ')}"
    if turn.unlogged:
        yield f"      {words.not_logged(turn.unlogged, answer_of(turn.proved))}"


def cell_object(floor, cell):
    return [cell % floor.width, cell // floor.width] if floor and cell < floor.width * floor.height else cell


def asked_object(floor, asked):
    told = {"from": cell_object(floor, asked.start), "to": cell_object(floor, asked.goal), "ways": asked.ways}
    return {**told, "limit": None if asked.limit == LARGEST else asked.limit}


def turn_object(turn, floor):
    told = {"question": turn.place + 1, **asked_object(floor, question_of(turn.asked)), **answer_object(answer_of(turn.proved))}
    if answer_of(turn.proved).refusal == words.ZERO_LIMIT:
        told["advice"] = words.ZERO_LIMIT_IN_A_RECORD
    if turn.compared:
        told["compared"] = turn.compared
    if turn.compared == "differs":
        told["given"] = {**answer_object(answer_of(turn.given)), "hex": turn.given.hex()}
    if turn.unlogged:
        told["not_logged"] = refusal_object(turn.unlogged)
    return told


class Noted:
    """How many of a kind there are, and the numbers of the first few."""

    def __init__(self):
        self.count = 0
        self.first = []

    def add(self, number):
        self.count += 1
        if len(self.first) < NAMED:
            self.first.append(number)

    def of(self, thing, one, several):
        """How many things are so, in words."""
        more = self.count - len(self.first)
        named = f" (number {', '.join(map(str, self.first))}{f' and {more} more' if more else ''})" if self.first else ""
        return f"{words.count(self.count, thing)} {one if self.count == 1 else several}{named}"


class Counts:
    """What a replay comes to."""

    def __init__(self):
        self.answered = 0
        self.differs, self.missing, self.unlogged = Noted(), Noted(), Noted()
        self.further = 0
        self.broken = 0

    def add(self, turn):
        self.answered += 1
        for noted, so in ((self.differs, turn.compared == "differs"), (self.missing, turn.compared == "missing"), (self.unlogged, turn.unlogged)):
            if so:
                noted.add(turn.place + 1)

    def lines(self, comparing, log):
        if self.broken:
            hint = "" if self.answered else earlier.half_a_record(self.broken, "a question")
            yield f"the last question is broken: it has {self.broken} of {RECORD} bytes, and gets no answer{hint}"
        line = f"{words.count(self.answered, 'question')} answered"
        if comparing:
            line += f"; {self.differs.of('given answer', 'differs', 'differ')}"
            if self.missing.count:
                line += f"; {self.missing.of('answer', 'is missing', 'are missing')}"
        yield line
        if self.further:
            yield f"{words.count(self.further, 'given answer')} more than questions"
        if log:
            line = f"{words.count(log.appended, 'entry')} appended to {visible(log.path)}, which has {log.count} in {words.count(log.end, 'byte')}"
            yield line + (f"; {self.unlogged.of('answer', 'is not logged', 'are not logged')}" if self.unlogged.count else "")

    def object(self, by, log):
        told = {"questions": self.answered, "differ": self.differs.count, "missing": self.missing.count}
        told |= {"further": self.further, "broken_bytes": self.broken, "answered_by": by}
        return {"summary": told | ({"logged": log.appended, "not_logged": self.unlogged.count} if log else {})}

    def status(self):
        return DIFFERENT if self.further or self.differs.count or self.missing.count or self.unlogged.count else ANSWERED


class Progress:
    """A line on a terminal that says how far a long replay has come; it is gone when the replay is done."""

    WAIT = 1.0  # seconds between two

    def __init__(self, quiet, what="questions answered"):
        self.what = what
        # where the answers themselves go to the terminal they show how far it is
        self.shown = sys.stderr is not None and sys.stderr.isatty() and (quiet or not sys.stdout.isatty())
        self.last = time.monotonic()
        self.length = 0

    def at(self, count):
        if self.shown and time.monotonic() - self.last >= self.WAIT:
            self.last = time.monotonic()
            line = f"{count} {self.what} .."
            sys.stderr.write("\r" + line)
            sys.stderr.flush()
            self.length = len(line)

    def done(self):
        if self.length:
            sys.stderr.write("\r" + " " * self.length + "\r")
            sys.stderr.flush()


# ---- the replay


def turns(path, answers_to, given, counts):
    """The questions of a file one after the other, each with its answer."""
    rest, place = b"", 0
    for piece in arriving(path):
        rest += piece
        whole = len(rest) - len(rest) % RECORD
        asked, rest = rest[:whole], rest[whole:]
        if place == 0:
            earlier.refuse_questions(QUESTIONS, path, whole_records(asked))
        for at in range(0, whole, AT_A_TIME * RECORD):
            some = asked[at : at + AT_A_TIME * RECORD]
            proved = whole_records(answers_to(some))
            claimed = given.read(len(proved)) if given else []
            batch = []
            for number, (record, answer) in enumerate(zip(whole_records(some), proved, strict=True)):
                one = claimed[number] if number < len(claimed) else None
                compared = None if given is None else "missing" if one is None else "same" if one == answer else "differs"
                batch.append(Turn(place, record, answer, one, compared))
                place += 1
            yield batch
    counts.broken = len(rest)


def logged(batch, log, calls, floor):
    """Appends the questions with their answers and routes to the log. Gives them again, with the refusals of those that it does not take, and the trouble
    that came up, if any."""
    noted, entries = [], []
    for turn in batch:
        entry = calls.write_entry(turn.asked, turn.proved, first_route(calls, floor, turn.asked, turn.proved))
        refused = isinstance(entry, Refusal)
        noted.append(turn._replace(unlogged=entry) if refused else turn)
        entries += [] if refused else [entry]
    try:
        log.append(entries)
    except Trouble as trouble:
        return noted, trouble
    return noted, None


def tell_batch(given, batch, floor, out):
    """Tells all, or only what differs, is missing or is not logged."""
    told = [turn for turn in batch if not given.quiet or turn.compared in ("differs", "missing") or turn.unlogged]
    if given.json:
        for turn in told:
            out.object(turn_object(turn, floor))
    elif told:
        out.lines([line for turn in told for line in turn_lines(turn, floor)])


def replay(given, calls, floor, text, out):
    """Answers a file of questions as it is read; gives the exit status."""
    log = None if given.log is None else Log(calls, given.log)
    if log:
        log.must_not_be(QUESTIONS, given.replay)
        log.must_not_be(ANSWERS, given.answers)
    claimed = None if given.answers is None else GivenAnswers(given.answers)
    counts, progress = Counts(), Progress(given.quiet)
    by = BY_BOTH if is_for_program(floor, text) else BY_LIBRARY
    if not given.json:
        out.lines([f"{sizes(given.map, floor)}; answered by {'the program' if by == BY_BOTH else by}"])
    try:
        with answering(calls, floor, text) as answers_to:
            for batch in turns(given.replay, answers_to, claimed, counts):
                batch, trouble = logged(batch, log, calls, floor) if log else (batch, None)
                for turn in batch:
                    counts.add(turn)
                tell_batch(given, batch, floor, out)
                if trouble:
                    raise trouble
                progress.at(counts.answered)
    finally:
        progress.done()
    counts.further = claimed.left() if claimed else 0
    if given.json:
        out.object({**about_map(given.map, floor), **counts.object(["planner"] if by == BY_BOTH else ["library"], log)})
    else:
        out.lines(counts.lines(claimed is not None, log))
    return counts.status()


# ---- questions written


def number_in(text, name, where, most, least=0, otherwise=""):
    if not re.fullmatch(r"\s*[0-9]{1,10}\s*", text) or not least <= int(text) <= most:
        raise Trouble(f"{where}: {name} is a whole number from {least} to {most}, not {visible(text)!r}{otherwise}")
    return int(text)


def questions_in(path, floor):
    """The questions of a CSV file: from_x, from_y, to_x, to_y, and if wanted ways and limit; a first line that begins with no number names the columns."""
    with open_file(path, "the CSV file") as file:
        try:
            lines = file.read().decode("utf-8-sig").splitlines()
        except (OSError, UnicodeError) as error:
            raise Trouble(f"the CSV file {visible(path)} cannot be read: {getattr(error, 'strerror', None) or 'it is no UTF-8'}") from None
    for number, fields in enumerate(csv.reader(lines), 1):
        where = f"{visible(path)}, line {number}"
        if not any(field.strip() for field in fields) or (number == 1 and not fields[0].strip().isdigit()):
            continue
        if not 4 <= len(fields) <= 6:
            raise Trouble(f"{where}: a question has from_x, from_y, to_x, to_y, and if wanted ways and limit; here are {words.count(len(fields), 'field')}")
        x, y, to_x, to_y = (number_in(field, name, where, LARGEST) for field, name in zip(fields, ("from_x", "from_y", "to_x", "to_y")))
        ways = number_in(fields[4], "ways", where, 255) if fields[4:5] and fields[4].strip() else 8
        limit = number_in(fields[5], "limit", where, LARGEST, 1, "; an empty field is no limit") if fields[5:6] and fields[5].strip() else LARGEST
        yield where, (x, y), (to_x, to_y), ways, limit


def write_questions(given, floor, out):
    """Question records from words or from a CSV file. None is written that would be refused for its cells being off the map, or for its limit."""
    if given.csv is None:
        if given.limit == 0:
            raise Trouble(f"the question: {words.meaning(words.ZERO_LIMIT)}; {words.LEAVE_OUT}")
        wanted = [("the question", given.start, given.goal, given.ways, given.limit)]
    else:
        wanted = list(questions_in(given.csv, floor))
    records = []
    for where, start, goal, ways, limit in wanted:
        for cell in (start, goal):
            if cell_number(floor, cell) == MARK:
                raise Trouble(f"{where}: {place_words(floor, cell)}; x goes from 0 to {floor.width - 1} and y from 0 to {floor.height - 1}")
        records.append(record_of(question(cell_number(floor, start), cell_number(floor, goal), limit, ways)))
    write_file(given.write_questions, b"".join(records), QUESTIONS)
    if given.write_questions != "-":
        line = f"{words.count(len(records), 'question')} in {visible(given.write_questions)}"
        if given.json:
            out.object({**about_map(given.map, floor), "questions": len(records)})
        else:
            out.lines([line])
    return ANSWERED
