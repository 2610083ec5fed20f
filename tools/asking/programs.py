"""The proved programs as the front end uses them: `planner` answers records, `calls` gives what the libraries answer.

Nothing is planned here. The layouts are those of docs/MANUAL.md ("Records") and of crates/calls/src/main.rt.
"""
import os
import resource
import secrets
import shutil
import stat
import struct
import subprocess
from collections import namedtuple
from pathlib import Path

from asking.names import visible

ROOT = Path(__file__).resolve().parents[2]
START = ROOT / "tools" / "start"

MARK = 4294967295
LARGEST = 4294967295
# the library's greatest floor, and a text longer than any map of it
MOST_SIDE = 1024
MOST_CELLS = MOST_SIDE * MOST_SIDE
MOST_TEXT = 1050000
# the most cells, directions and bytes of text in a call of `calls`; for more it is started as `calls hall`, which needs this stack (tools/start)
USUAL_ROOM = 66000
HALL_STACK = 32 << 20
# the program's
PROGRAM_SIDE = 64
PROGRAM_TEXT = 4195

REFUSED, FOUND, NONE, STOPPED = range(4)
HOLDS, FAULT = 1, 2  # kinds of a route claim's answer, beside REFUSED
RIGHT = 1  # of a table claim's
EMPTY = 2  # of what the rest of a log reads as
ROOM_TOO_SHORT = 29  # the reader's refusal of a map with more cells than the room
SEARCH, ROUTE_CLAIM, TABLE_CLAIM, READ_MAP, ANSWER_RECORDS, READ_ENTRY, WRITE_ENTRY, ASTAR = 1, 2, 3, 4, 9, 12, 13, 14

# The eight directions: name, dx, dy.
DIRECTIONS = (("N", 0, -1), ("NE", 1, -1), ("E", 1, 0), ("SE", 1, 1), ("S", 0, 1), ("SW", -1, 1), ("W", -1, 0), ("NW", -1, -1))

# Questions, answers and the records of a logged route have this size.
RECORD = 32
# Of a route log, in steps and in bytes; the longest entry is a question, an answer, and as many records as hold the longest logged route.
LONGEST_LOGGED_ROUTE = 4095
LONGEST_ENTRY = 2 * RECORD + -(-LONGEST_LOGGED_ROUTE // RECORD) * RECORD

# The fields of a question and of an answer, and the zeros that fill up their records.
QUESTION_FIELDS, ANSWER_FIELDS = "<3IB", "<BB2s5I"
QUESTION_ZEROS, ANSWER_ZEROS = (bytes(RECORD - struct.calcsize(fields)) for fields in (QUESTION_FIELDS, ANSWER_FIELDS))
QUESTION_LAYOUT = struct.Struct(f"{QUESTION_FIELDS}{len(QUESTION_ZEROS)}s")
ANSWER_LAYOUT = struct.Struct(f"{ANSWER_FIELDS}{len(ANSWER_ZEROS)}s")
HEAD_LAYOUT = struct.Struct("<18I")
NUMBERS_LAYOUT = struct.Struct("<8I")
# So many records are asked at a time: their answers fit a pipe, so that neither side waits for the other.
AT_A_TIME = 1024

Floor = namedtuple("Floor", "width height cells")
Question = namedtuple("Question", "start goal limit ways zeros")
Answer = namedtuple("Answer", "kind refusal zeros settled number length p q end")
# Of a map's text, or of an entry of a log.
Refusal = namedtuple("Refusal", "number place")
# An entry of a log: the two records, the directions, and how many bytes it takes there.
Entry = namedtuple("Entry", "asked answered route taken")
# What a search leaves: the costs of all cells, MARK where not settled, and the directions of the route.
Rooms = namedtuple("Rooms", "costs route")
# What the check says of a claimed route: kind, refusal or fault, its place, the cost if it holds.
Verdict = namedtuple("Verdict", "kind number place cost")


class Trouble(Exception):
    """A file or a program that is needed is missing or fails. The text says what to do."""


def question(start, goal, limit, ways):
    return Question(start, goal, limit, ways, QUESTION_ZEROS)


def record_of(asked):
    return QUESTION_LAYOUT.pack(*asked)


def whole_records(data):
    """The records in the data; a broken last one is left out."""
    return [data[at : at + RECORD] for at in range(0, len(data) - RECORD + 1, RECORD)]


def question_of(record):
    return Question(*QUESTION_LAYOUT.unpack(record))


def answer_of(record):
    return Answer(*ANSWER_LAYOUT.unpack(record))


def answer_record(answer):
    return ANSWER_LAYOUT.pack(*answer)


def is_plain(file):
    """Whether an open file is no folder, pipe or device."""
    return stat.S_ISREG(os.fstat(file.fileno()).st_mode)


def open_file(path, what, plain=False, how="rb"):
    """A file to read bytes from, or opened otherwise and then without a buffer; one that is to be a plain file is no folder, pipe or device."""
    try:
        file = open(path, how, buffering=-1 if how == "rb" else 0)
        if plain and not is_plain(file):
            file.close()
            raise Trouble(f"{what} {visible(path)} is no plain file")
        return file
    except (OSError, ValueError) as error:
        raise Trouble(f"{what} {visible(path)} cannot be opened: {getattr(error, 'strerror', None) or error}") from None


def read_text(path):
    """The map's text; of one that is too long only so much that the reader sees that too."""
    with open_file(path, "the map") as file:
        try:
            return file.read(MOST_TEXT)
        except OSError as error:
            raise Trouble(f"the map {visible(path)} cannot be read: {error.strerror}") from None


def is_for_program(floor, text):
    """Whether the program takes the map too."""
    return max(floor.width, floor.height) <= PROGRAM_SIDE and len(text) <= PROGRAM_TEXT


def started(program, *words, **more):
    try:
        return subprocess.Popen([str(START), program, *words], stdin=subprocess.PIPE, stdout=subprocess.PIPE, **more)
    except OSError as error:
        raise Trouble(f"tools/start cannot be started: {error.strerror}") from None


def ended(process):
    """Closes the pipes of a program and gives its status."""
    try:
        process.stdin.close()
    except BrokenPipeError:
        pass  # it has ended already; its status tells
    process.stdout.close()
    return process.wait()


def exchange(process, sent, due):
    """Sends bytes to a program and gives as many bytes as are due, or fewer if it has ended."""
    try:
        process.stdin.write(sent)
        process.stdin.flush()
    except BrokenPipeError:
        pass  # the missing answer tells
    return process.stdout.read(due)


FOLDERS = []


def temporary_place():
    """Where folders for maps go. Python's own choice would write a file to try each place, and that stays if Ctrl-C comes just then."""
    for place in (os.environ.get("TMPDIR"), "/tmp", "/var/tmp"):
        if place and os.path.isdir(place) and os.access(place, os.W_OK | os.X_OK):
            return place
    return os.getcwd()


def new_folder():
    """A folder for a map. It is noted before it is made, so that it is found again whenever Ctrl-C comes."""
    FOLDERS.append(os.path.join(temporary_place(), f"fradnumber-{os.getpid()}-{secrets.token_hex(8)}"))
    os.mkdir(FOLDERS[-1], 0o700)
    return FOLDERS[-1]


def clean_up():
    """Takes away the folders that were made."""
    for folder in FOLDERS:
        shutil.rmtree(folder, ignore_errors=True)


class Planner:
    """The program `planner` on one map, kept running: it answers each record as soon as it has come."""

    def __init__(self, text):
        self.text = text

    def __enter__(self):
        folder = new_folder()
        Path(folder, "floor.map").write_bytes(self.text)
        self.process = started("planner", cwd=folder)
        return self

    def __exit__(self, kind, *_):
        status = ended(self.process)
        if kind is None and status != 0:
            raise Trouble(self.failure(status))

    def failure(self, status):
        if status == 1:
            return "the program planner could not read or write all; the line above says how far it came"
        return f"the program planner ended with status {status}; 'tools/program planner' builds it"

    def answers(self, records):
        """The answers to whole records, at most AT_A_TIME."""
        answered = exchange(self.process, records, len(records))
        if answered.startswith(b"map "):
            raise Trouble("planner refuses a map that calls takes, so they are not of one build: run 'tools/program planner calls'")
        if len(answered) != len(records):
            status = ended(self.process)
            raise Trouble(self.failure(status) if status else "the program planner did not answer every question; 'tools/program planner' builds it anew")
        return answered


def expect_stack():
    """Trouble where the system does not allow the stack that `calls hall` needs: without it that would end with a bare signal."""
    _, most = resource.getrlimit(resource.RLIMIT_STACK)
    if most != resource.RLIM_INFINITY and most < HALL_STACK:
        raise Trouble(
            f"a map or a text this large needs a stack of {HALL_STACK >> 10} kB, and the limit here is {most >> 10} kB (ulimit -H -s): raise it, in the"
            f" shell that set it or in /etc/security/limits.conf, or ask about a map of at most {USUAL_ROOM} bytes of text"
        )


class Calls:
    """The program `calls`, started at the first call and kept running for several. Its usual rooms are the quicker ones to start with; the first call that
    needs larger ones starts it anew."""

    def __init__(self):
        self.process, self.in_hall = None, False

    def __enter__(self):
        return self

    def __exit__(self, *_):
        if self.process:
            ended(self.process)

    def make_ready(self, longest):
        """Has the program running, with rooms that are long enough."""
        hall = longest > USUAL_ROOM
        if self.process and (self.in_hall or not hall):
            return
        if hall:
            expect_stack()
        if self.process:
            ended(self.process)
        self.process, self.in_hall = started("calls", *(["hall"] if hall else [])), hall

    def call(self, what, cells, floor=(0, 0, 0), start=0, goal=0, limit=0, costs=(0, b""), work=0, route=(0, b""), text=(0, b"")):
        """The eight numbers of the reply and its rooms, as they were left: map, costs, work, route, text. A room is its length and the bytes given; of the
        work room nothing is given."""
        head = (what, 0, *floor, start, goal, limit, cells[0], len(cells[1]), costs[0], len(costs[1]) // 4, work, 0)
        sent = HEAD_LAYOUT.pack(*head, route[0], len(route[1]), text[0], len(text[1])) + cells[1] + costs[1] + route[1] + text[1]
        lengths = (NUMBERS_LAYOUT.size, cells[0], 4 * costs[0], 4 * work, route[0], text[0])
        self.make_ready(max(cells[0], costs[0], -(-work // 2), route[0], text[0]))
        reply = exchange(self.process, sent, sum(lengths))
        if len(reply) != sum(lengths):
            status = ended(self.process)
            raise Trouble(f"the program calls gave no whole reply{f' and ended with status {status}' if status else ''}; 'tools/program calls' builds it")
        parts, at = [], 0
        for length in lengths:
            parts.append(reply[at : at + length])
            at += length
        return NUMBERS_LAYOUT.unpack(parts[0]), parts[1:]

    def read_map(self, text):
        """The floor of a map's text, or its refusal. What has no place in the usual room gets one for the greatest floor."""
        for room in (MOST_CELLS,) if len(text) > USUAL_ROOM else (USUAL_ROOM, MOST_CELLS):
            (kind, number, place, width, height, *_), (cells, *_) = self.call(READ_MAP, (room, b""), text=(len(text), text))
            if kind != REFUSED:
                return Floor(width, height, cells[: width * height])
            if number != ROOM_TOO_SHORT:
                break
        return Refusal(number, place)

    def search(self, floor, asked):
        """The answer to a question, as the planner would give it, and the rooms afterwards."""
        return self.routed(SEARCH, floor, asked)

    def astar(self, floor, asked):
        """The answer of A*, which does not look at the limit, and the rooms afterwards."""
        return self.routed(ASTAR, floor, asked)

    def routed(self, engine, floor, asked):
        size = floor.width * floor.height
        shape = (floor.width, floor.height, asked.ways)
        numbers, (_, costs, _, route, _) = self.call(
            engine, (size, floor.cells), shape, asked.start, asked.goal, asked.limit, costs=(size, b""), work=2 * size, route=(size, b"")
        )
        kind, refusal, _, settled, number, length, p, q = numbers
        answer = Answer(kind, refusal, b"\0\0", settled, number, length, p, q, ANSWER_ZEROS)
        if kind == REFUSED:
            return answer, None
        return answer, Rooms(struct.unpack(f"<{size}I", costs), route[:length])

    def check_route(self, floor, asked, cost, route):
        """What the check of claimed routes, which does not know the search, says of a route at this cost. One of more steps than the longest allowed is
        refused whatever they are, so that as many as there are cells are enough to hand on."""
        size = floor.width * floor.height
        shape, route = (floor.width, floor.height, asked.ways), route[:size]
        (kind, number, place, held, *_), _ = self.call(
            ROUTE_CLAIM, (size, floor.cells), shape, asked.start, asked.goal, cost, route=(len(route), route)
        )
        return Verdict(kind, number, place, held)

    def table_is_right(self, floor, ways, start, costs):
        """Whether the check of cost tables takes these as the least costs from the start."""
        size = floor.width * floor.height
        given = struct.pack(f"<{size}I", *costs)
        numbers, _ = self.call(TABLE_CLAIM, (size, floor.cells), (floor.width, floor.height, ways), start, costs=(size, given))
        return numbers[0] == RIGHT

    def answers(self, floor, records):
        """The answers to whole records, at most AT_A_TIME, as the library of the program's decisions gives them."""
        size = floor.width * floor.height
        numbers, (_, _, _, _, text) = self.call(
            ANSWER_RECORDS, (size, floor.cells), (floor.width, floor.height, 8),
            costs=(size, b""), work=2 * size, route=(size, b""), text=(len(records), records),
        )
        if numbers[0] != len(records):
            raise Trouble("the program calls did not answer every question; 'tools/program calls' builds it anew")
        return text

    def read_entry(self, rest):
        """The entry that the rest of a log begins with, or its refusal; None if the rest is empty."""
        (kind, number, place, length, taken, *_), (records, _, _, route, _) = self.call(
            READ_ENTRY, (2 * RECORD, b""), route=(len(rest), b""), text=(len(rest), rest)
        )
        if kind == EMPTY:
            return None
        return Refusal(number, place) if kind == REFUSED else Entry(records[:RECORD], records[RECORD:], route[:length], taken)

    def write_entry(self, asked, answered, route):
        """The bytes of a log's entry, or its refusal."""
        (kind, number, place, length, *_), (_, _, _, _, text) = self.call(
            WRITE_ENTRY, (2 * RECORD, asked + answered), route=(len(route), route), text=(LONGEST_ENTRY, b"")
        )
        return Refusal(number, place) if kind == REFUSED else text[:length]


def cells_of(floor, start, route):
    """The cells that a route visits, the start first."""
    cells = [start]
    for direction in route:
        _, dx, dy = DIRECTIONS[direction]
        cells.append(cells[-1] + dy * floor.width + dx)
    return cells
