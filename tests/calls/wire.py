"""The protocol of the program `calls` (crates/calls/src/main.rt): calls as bytes, and the replies that are due.

The rooms are kept here as they are in the program: a room that a call gives nothing for is as the call before left it.
"""
import struct
import zlib
from collections import Counter

(
    SEARCH, CHECK_ROUTE, CHECK_TABLE, READ_MAP, WRITE_MAP, JUDGE_MAP, C_CHECK_ROUTE, USE_MAP, ANSWER_RECORDS, ANSWER_ARRIVED, KEEP_TAIL,
    READ_ENTRY, WRITE_ENTRY, ASTAR,
) = range(1, 15)
ENTRIES = {
    SEARCH: "fradnumber_search", CHECK_ROUTE: "check_route", CHECK_TABLE: "fradnumber_check_table", READ_MAP: "fradnumber_read_map",
    WRITE_MAP: "fradnumber_write_map", JUDGE_MAP: "fradnumber_judge_map", C_CHECK_ROUTE: "fradnumber_check_route", USE_MAP: "use_map",
    ANSWER_RECORDS: "answer_records", ANSWER_ARRIVED: "answer_arrived", KEEP_TAIL: "keep_tail",
    READ_ENTRY: "fradnumber_read_entry", WRITE_ENTRY: "fradnumber_write_entry", ASTAR: "fradnumber_astar",
}
READING, WRITING, SEARCHING = ("refused", "read"), ("refused", "written"), ("refused", "found", "none", "stopped")
# What the first number of a reply says, where it is a kind; the second is then the refusal or the fault.
WORDS = {
    SEARCH: SEARCHING, READ_MAP: READING, JUDGE_MAP: READING, USE_MAP: READING,
    CHECK_ROUTE: ("refused", "holds", "fault"), CHECK_TABLE: ("refused", "right", "breaks"), WRITE_MAP: WRITING,
    READ_ENTRY: ("refused", "an entry", "empty"), WRITE_ENTRY: WRITING, ASTAR: SEARCHING,
}
WHOLE, DIGEST = 0, 1
ROOMS = ("map", "costs", "work", "route", "text")
LENGTHS = {"map": 66000, "costs": 66000, "work": 132000, "route": 66000, "text": 66000}
HALL_LENGTHS = {"map": 1050000, "costs": 1050000, "work": 2100000, "route": 1050000, "text": 1050000}  # of the program started with a word
NUMBERS = ("costs", "work")

# What a room holds before a call, unless a case says otherwise.
OLD_COST, OLD_WORK, OLD_BYTE = [123456789], [987654321], [200]

# How many numbers a reply begins with; those that an answer does not have are 0.
FRONT = 8

# A longer reply is asked for as a digest: the rooms of a full hall are above 14 megabytes.
LONGEST_WHOLE = 300


def packed(entries, name=None):
    """Numbers of four bytes, the lowest first; the rooms of bytes as they are."""
    return bytes(entries) if name and name not in NUMBERS else struct.pack("<%dI" % len(entries), *entries)


def outcome(what, numbers):
    """The kind of an answer in words, with the number of a refusal or a fault."""
    if what not in WORDS:
        return "answered"
    return WORDS[what][numbers[0]] + (" %d" % numbers[1] if numbers[1] else "")


def repeated(given, length):
    """What is given, up to a room's length."""
    whole, rest = divmod(length, len(given))
    return given * whole + given[:rest] if rest else given * whole


def digest(reply):
    return packed([len(reply), zlib.adler32(reply)])


class Wire:
    """The calls made so far with their replies, and what is in the program's rooms after them."""

    def __init__(self, lengths=LENGTHS):
        self.rooms = {name: [0] * length for name, length in lengths.items()}
        self.made = []  # what a call is, the call, its reply
        self.outcomes = {name: Counter() for name in ENTRIES.values()}

    def given(self, name, entries):
        """What a call gives so that a room of bytes holds these: nothing where it holds them already, one where all are alike."""
        if bytes(self.rooms[name][: len(entries)]) == entries:
            return b""
        return entries[:1] if len(set(entries)) == 1 else entries

    def call(self, what, about, answer, floor=(0, 0, 0), start=0, goal=0, limit=0, **rooms):
        """Adds a call. A room is its length and what is given; `answer` gets the rooms, alters them as the entry must, and gives the numbers that the
        reply begins with."""
        lengths, bodies, lent = [], [], {}
        for name in ROOMS:
            length, given = rooms.pop(name, (0, ()))
            given = given[:length]
            room = self.rooms[name]
            if given:
                room[:length] = repeated(list(given), length)
            lengths += [length, len(given)]
            bodies.append(packed(given, name))
            lent[name] = room[:length]
        assert not rooms, rooms
        numbers = answer(**lent)
        reply = packed([*numbers, *[0] * (FRONT - len(numbers))])
        for name in ROOMS:
            assert len(lent[name]) == lengths[2 * ROOMS.index(name)]
            self.rooms[name][: len(lent[name])] = lent[name]
            reply += packed(lent[name], name)
        form = WHOLE if len(reply) <= LONGEST_WHOLE else DIGEST
        head = packed([what, form, *floor, start, goal, limit, *lengths])
        self.outcomes[ENTRIES[what]][outcome(what, numbers)] += 1
        self.made.append((f"{ENTRIES[what]}: {about}", head + b"".join(bodies), reply if form == WHOLE else digest(reply)))
        return numbers
