"""Route logs to read and entries to write, and what is due: from the text of R-1 (02) alone, with R-6's records.

How the expectation is produced: what an answer and a route of a log may be is said as patterns of their bytes, and an entry is put together from its
parts. All cases that are not listed one by one come from a generator with a fixed seed.
"""
import itertools
import random
import re

import wire
from records import ANSWER_FORM, EXAMPLE_ANSWER, EXAMPLE_QUESTION, OLD_RECORD, RECORD

MARK = 4294967295
HEAD, LONGEST = 2 * RECORD, 4095

# "An answer must be: kind 0, a refusal number from 1 to 15, zeros after it; or refusal number 0, two zeros, and kind 1 with a cost that isn't MARK and a
# length up to 4,095, kind 2 with MARK and length 0, or kind 3 with a floor that isn't MARK and length 0." The settled count may be any. R-6: "62 also if one of
# these eight isn't 0, or P or Q isn't 0 in an answer other than found; P and Q aren't tested against the cost".
ANSWER = re.compile(
    rb"""\x00 [\x01-\x0f] \x00*
       | \x01 \x00{3} .{4} (?!\xff{4}) .{4} . [\x00-\x0f] \x00{2} .{8} \x00{8}
       | \x02 \x00{3} .{4} \xff{4} \x00{4} \x00{8} \x00{8}
       | \x03 \x00{3} .{4} (?!\xff{4}) .{4} \x00{4} \x00{8} \x00{8}""",
    re.DOTALL | re.VERBOSE,
)
P_AND_Q, LAST_EIGHT = range(16, 24), range(24, 32)  # places in an answer


# ---- what is due -----------------------------------------------------------------------------------------------------


class Refused(Exception):
    """With the refusal's number; the place is 0."""


def length_of(answer):
    return int.from_bytes(answer[12:16], "little")


def read(rest, room):
    """Question, answer, directions, and how many bytes the entry has; None for an empty rest."""
    if not rest:
        return None
    question, answer, route = rest[:RECORD], rest[RECORD:HEAD], rest[HEAD:]
    if len(answer) < RECORD:
        raise Refused(61)
    if not ANSWER.fullmatch(answer):
        raise Refused(62)
    length = length_of(answer)
    filler = -length % RECORD
    if len(route) < length + filler:
        raise Refused(61)
    if not re.match(rb"[\x00-\x07]{%d}\xff{%d}" % (length, filler), route):
        raise Refused(63)
    if room < length:
        raise Refused(64)
    return question, answer, route[:length], HEAD + length + filler


def entry_of(question, answer, directions):
    return question + answer + directions + b"\xff" * (-len(directions) % RECORD)


def written(question, answer, directions, room):
    """The entry's bytes."""
    if not ANSWER.fullmatch(answer):
        raise Refused(62)
    if len(directions) != length_of(answer) or any(direction > 7 for direction in directions):
        raise Refused(63)
    entry = entry_of(question, answer, directions)
    if room < len(entry):
        raise Refused(64)
    return entry


def read_into(map, route, text, **_):
    """What the reader answers and leaves in the route room; question and answer are put into the map room, zeros if there is no entry."""
    map[:HEAD] = [0] * HEAD
    try:
        entry = read(bytes(text), len(route))
    except Refused as refused:
        return [0, *refused.args]
    if entry is None:
        return [2, 0]
    question, answer, directions, taken = entry
    map[:HEAD] = question + answer
    route[: len(directions)] = directions
    return [1, 0, 0, len(directions), taken]


def write_into(map, route, text, **_):
    """What the writer answers and leaves in the text room; question and answer are in the map room, the directions are the route room."""
    try:
        entry = written(bytes(map[:RECORD]), bytes(map[RECORD:HEAD]), bytes(route), len(text))
    except Refused as refused:
        return [0, *refused.args]
    text[: len(entry)] = entry
    return [1, 0, 0, len(entry)]


# ---- calls -----------------------------------------------------------------------------------------------------------


def shown(data):
    return data[:64].hex(" ") + (" .." if len(data) > 64 else "")


def reading(made, about, rest, room):
    """One entry from the rest of a file."""
    about = "%s; a room of %d, a rest of %d bytes %s" % (about, room, len(rest), shown(rest))
    text = len(rest), made.given("text", rest)
    return made.call(wire.READ_ENTRY, about, read_into, map=(HEAD, wire.OLD_BYTE), route=(room, wire.OLD_BYTE), text=text)


def reading_through(made, about, file, room):
    """A whole file, until its rest is empty or is refused. Each entry that is read is written back, from the rooms that it was read into."""
    rest = file
    while True:
        kind, *numbers = reading(made, about, rest, room)
        if kind != 1:
            return
        _, _, length, taken = numbers
        entry, rest = rest[:taken], rest[taken:]
        writing(made, about, entry[:RECORD], entry[RECORD:HEAD], entry[HEAD : HEAD + length])
        assert bytes(made.rooms["text"][:taken]) == entry, about


def writing(made, about, question, answer, directions, spare=0):
    """An entry, into a room that has `spare` bytes more than the directions that are given need."""
    head, room = question + answer, len(entry_of(question, answer, directions)) + spare
    about = "%s; a room of %d, question and answer %s, %d directions %s" % (about, room, shown(head), len(directions), shown(directions))
    rooms = {"map": (HEAD, made.given("map", head)), "route": (len(directions), made.given("route", directions))}
    return made.call(wire.WRITE_ENTRY, about, write_into, text=(room, wire.OLD_BYTE), **rooms)


# ---- parts of entries --------------------------------------------------------------------------------------------------

QUESTION = EXAMPLE_QUESTION


def record(kind, refusal=0, settled=5, number=560, length=0, p=0, q=0):
    return ANSWER_FORM.pack(kind, refusal, settled, number, length, p, q)


def refused(number):
    return record(0, number, 0, 0)


def found(length, p=8, q=0):
    return record(1, length=length, p=p, q=q)


NONE, STOPPED = record(2, number=MARK), record(3)


def steps(length):
    """Directions of every kind."""
    return bytes((3 * place + 1) % 8 for place in range(length))


def found_entry(length):
    return entry_of(QUESTION, found(length), steps(length))


def spoiled(data, place, byte):
    return data[:place] + bytes([byte]) + data[place + 1 :]


# ---- the cases -------------------------------------------------------------------------------------------------------


def example_of_01(made):
    """Case a's question, answer and route."""
    answer, route = EXAMPLE_ANSWER, bytes([4, 2, 2, 0])
    entry = QUESTION + answer + bytes.fromhex("04020200" + "ff" * 28)
    assert written(QUESTION, answer, route, 96) == entry
    assert read(entry, 4) == (QUESTION, answer, route, 96)
    writing(made, "01's example", QUESTION, answer, route)
    reading(made, "01's example", entry, 4)


def lengths(made):
    """Routes around the ends of records: rooms that just suffice, are too short or are longer; a count that is wrong; a rest that goes on."""
    for length in (0, 1, 31, 32, 33, 63, 64, 65):
        for spare in (0, -1, 5):
            writing(made, "length %d" % length, QUESTION, found(length), steps(length), spare)
        # what the writer left in the longer room, with the old bytes after it
        rest = found_entry(length) + bytes(wire.OLD_BYTE * 5)
        for room in sorted({length, length + 3, max(length - 1, 0), 0}):
            reading(made, "length %d and more" % length, rest, room)
        for count in (length - 1, length + 1):
            if count >= 0:
                writing(made, "length %d" % length, QUESTION, found(length), steps(count), 5)


def great_lengths(made):
    """4,095 directions, and one more, which cannot be logged; those that just fill the last record but one, and one more. They are all alike, so that they need
    not be stored."""
    for length in (4064, 4065, LONGEST):
        about, answer, alike = "length %d" % length, found(length), bytes([5]) * length
        entry = entry_of(QUESTION, answer, alike)
        for spare in (-1, 0, 9):
            writing(made, about, QUESTION, answer, alike, spare)
        for room in (length, length - 1, length + 1, 0):
            reading(made, about, entry + bytes(wire.OLD_BYTE * 9), room)
        for short in (0, 1, RECORD - 1, RECORD, RECORD + 1, LONGEST):
            reading(made, "%s, cut by %d" % (about, short), entry[: len(entry) - short], length)
        for count in (length - 1, length + 1):
            writing(made, about, QUESTION, answer, bytes([5]) * count)
    for place, byte in ((HEAD + LONGEST, 254), (HEAD + LONGEST - 1, 8)):
        reading(made, "length %d, byte %d is %d" % (LONGEST, place, byte), spoiled(entry, place, byte), LONGEST)
    one_more = found(LONGEST + 1)
    writing(made, "one more", QUESTION, one_more, bytes([5]) * (LONGEST + 1))
    reading(made, "one more", QUESTION + one_more, LONGEST + 1)


def whole_rooms(made):
    """The program's longest rest: entries without end. Rooms that are longer than what an entry needs."""
    entry = found_entry(1)
    rest, room = entry * (wire.LENGTHS["text"] // len(entry)), wire.LENGTHS["route"]
    longer = HEAD + 8
    made.call(wire.READ_ENTRY, "whole rooms", read_into, map=(longer, wire.OLD_BYTE), route=(room, wire.OLD_BYTE), text=(len(rest), entry))
    made.call(wire.WRITE_ENTRY, "whole rooms", write_into, map=(longer, ()), route=(1, ()), text=(wire.LENGTHS["text"], wire.OLD_BYTE))


def answers():
    """Answers that can be logged, and next to them those that cannot."""
    yield from (refused(number) for number in (0, 1, 15, 16, 19, 255))
    yield from (spoiled(refused(7), place, 255 if place % 3 else 1) for place in range(2, RECORD))
    yield from (record(4), record(4, number=MARK), record(255, 255, MARK, MARK, MARK), record(128, number=0))
    for kind, number in ((1, 560), (2, MARK), (3, 560)):
        yield from (spoiled(record(kind, number=number), place, 1 << place) for place in (1, 2, 3))
        yield from (record(kind, settled=settled, number=number) for settled in (0, MARK))
        yield from (record(kind, number=other) for other in (0, 0x00FFFFFF, 0xFFFF00FF, MARK - 1, MARK))
        yield from (record(kind, number=number, length=length) for length in (1, 256, LONGEST + 1, 65536, 1 << 24))
    yield from (found(length) for length in (LONGEST, 65537, 65536 + LONGEST, (1 << 24) + 1, 1 << 31, MARK))
    yield record(1, number=MARK, length=3)


def answers_of_r6():
    """P and Q of found may be any numbers; in another answer each of their bytes is 0, and in any answer each of the last eight."""
    numbers = (0, 1, 8, 560, MARK - 1, MARK)
    yield from (found(length, p, q) for length in (0, 4) for p, q in itertools.product(numbers, numbers))
    for answer in (refused(1), refused(15), NONE, STOPPED):
        yield from (spoiled(answer, place, byte) for place in P_AND_Q for byte in (1, 255))
        yield answer[:16] + b"\xff" * 8 + answer[24:]
    for answer in (refused(7), found(0), found(4, MARK, MARK), NONE, STOPPED):
        yield from (spoiled(answer, place, byte) for place in LAST_EIGHT for byte in (1, 255))
        yield answer[:24] + b"\xff" * 8


def each_answer(made):
    """In both directions, with as many steps as the answer says, if these are few."""
    for answer in [*answers(), *answers_of_r6()]:
        directions = steps(length_of(answer) if length_of(answer) <= RECORD else 7)
        writing(made, "an answer", QUESTION, answer, directions)
        reading(made, "an answer", entry_of(QUESTION, answer, directions), RECORD)


def any_if_not_found(made):
    """Directions with an answer that has no route."""
    for answer in (refused(1), refused(15), NONE, STOPPED, found(0)):
        for count in (1, RECORD):
            writing(made, "any direction", QUESTION, answer, steps(count))
        writing(made, "no such direction", QUESTION, answer, b"\xff")
        for short in (1, HEAD):
            writing(made, "a room too short by %d" % short, QUESTION, answer, b"", -short)
        reading(made, "an empty room", entry_of(QUESTION, answer, b""), 0)
        # to the reader it is the next entry's beginning
        reading(made, "an empty room, and more", entry_of(QUESTION, answer, steps(3)), 0)


def any_question(made):
    generator = random.Random(1)
    some = bytes(generator.randrange(256) for _ in range(RECORD))
    for question in (b"\0" * RECORD, b"\xff" * RECORD, some, found(3), refused(16)):
        writing(made, "any question", question, found(3), steps(3))
        reading(made, "any question", entry_of(question, found(3), steps(3)), 3)


def with_direction(length, place, byte):
    directions = spoiled(steps(length), place, byte)
    return "direction %d of %d is %d" % (place, length, byte), directions, entry_of(QUESTION, found(length), directions)


def wrong_directions(made):
    """The first byte that is no direction, at both ends of routes and at every place of one; the last that is one; the greatest."""
    ends = [(length, place, 8) for length in (1, 31, 32, 33, 63, 64) for place in sorted({0, length - 1})]
    for length, place, byte in [*ends, (32, 0, 7), (32, 31, 7), (32, 0, 255), (32, 31, 255)]:
        about, directions, entry = with_direction(length, place, byte)
        writing(made, about, QUESTION, found(length), directions)
        reading(made, about, entry, length)
    for place in range(1, 32):
        about, _, entry = with_direction(33, place, 8)
        reading(made, about, entry, 33)


def wrong_fillers(made):
    """At every place that a filler can have in a record; 254, and what is a direction elsewhere."""
    for length, wrong in ((1, (254,)), (33, (0,)), (62, (1, 200)), (31, (0, 7, 8, 254)), (63, (0, 254))):
        for place, byte in itertools.product(range(HEAD + length, len(found_entry(length))), wrong):
            reading(made, "byte %d is %d" % (place, byte), spoiled(found_entry(length), place, byte), length)


def cut_files(made):
    """A file of three entries, cut at every byte and read through: an entry after the other, each from all the rests that begin with it."""
    entries = [found_entry(33), entry_of(QUESTION, STOPPED, b""), entry_of(b"\xff" * RECORD, refused(13), b"")]
    file, at = b"".join(entries), 0
    for entry in entries:
        for end in range(len(file), at - 1, -1):
            reading(made, "a file cut at %d, from %d" % (end, at), file[at:end], 33)
        at += len(entry)


# ---- several faults at once --------------------------------------------------------------------------------------------

# In the order of R-1: what it is, the refusal, and what it changes in an entry that is good.
GOOD = found(33)
READ_ENTRY = {"answer": GOOD, "route": steps(33), "filler": b"\xff" * 31, "end": None, "room": 33}
IN_THE_HEAD = [
    ("ends inside the question", 61, {"end": 17}),
    ("ends inside the answer", 61, {"end": HEAD - 1}),
]
AFTER_THE_HEAD = [
    ("ends inside the route", 61, {"end": HEAD + 40}),
    ("a direction above seven", 63, {"route": spoiled(steps(33), 32, 8)}),
    ("a wrong filler", 63, {"filler": b"\xff" + b"\x07" * 30}),
    ("a room too short", 64, {"room": 32}),
]
WRITTEN_ENTRY = {"answer": GOOD, "route": steps(33), "more": b"", "spare": 0}
AFTER_THE_ANSWER = [
    ("a direction above seven", 63, {"route": spoiled(steps(33), 0, 8)}),
    ("a direction too many", 63, {"more": b"\x01"}),
    ("a room too short", 64, {"spare": -1}),
]
# Each alone is 62. Of the last eight bytes each is so once.
WRONG_ANSWERS = [
    ("no such kind", spoiled(GOOD, 0, 5)),
    ("MARK as the cost", record(1, number=MARK, length=33, p=8)),
    *(("byte %d of the answer" % place, spoiled(GOOD, place, 1 << place % 8)) for place in LAST_EIGHT),
]
# The same for answers that have no route, for which any direction is 63.
WITHOUT_A_ROUTE = [
    ("P of refused", record(0, 7, 0, 0, p=1)), ("Q of refused", record(0, 7, 0, 0, q=1)),
    ("P of none", record(2, number=MARK, p=MARK)), ("Q of none", record(2, number=MARK, q=1)),
    ("P of stopped", record(3, p=8)), ("Q of stopped", record(3, q=MARK)),
    *(("the last byte of an answer", spoiled(answer, RECORD - 1, 1)) for answer in (refused(7), NONE, STOPPED)),
]


def joint(good, faults):
    """Each fault alone, each two, and all from one on: what they are, the refusal of the first, and the entry. Of two ends the first one is nearer."""
    alone = [[fault] for fault in faults]
    from_one_on = [faults[first:] for first in range(len(faults) - 2)]
    for some in [*alone, *itertools.combinations(faults, 2), *from_one_on]:
        entry = dict(good)
        for _, _, changes in reversed(some):
            entry.update(changes)
        yield ", ".join(name for name, _, _ in some), some[0][1], entry


def joint_refusals(made):
    tried = set()
    for about, answer in WRONG_ANSWERS:
        wrong = (about, 62, {"answer": answer})
        for name, number, entry in joint(READ_ENTRY, [*IN_THE_HEAD, wrong, *AFTER_THE_HEAD]):
            file = QUESTION + entry["answer"] + entry["route"] + entry["filler"]
            if (reading, name) not in tried:
                assert reading(made, name, file[: entry["end"]], entry["room"]) == [0, number], name
            tried.add((reading, name))
        for name, number, entry in joint(WRITTEN_ENTRY, [wrong, *AFTER_THE_ANSWER]):
            if (writing, name) not in tried:
                assert writing(made, name, QUESTION, entry["answer"], entry["route"] + entry["more"], entry["spare"]) == [0, number], name
            tried.add((writing, name))


def joint_refusals_without_a_route(made):
    for about, answer in WITHOUT_A_ROUTE:
        for directions, spare in itertools.product((b"", b"\x01", b"\x08"), (0, -1, -HEAD)):
            assert writing(made, about, QUESTION, answer, directions, spare) == [0, 62], about
        for rest in (QUESTION + answer, QUESTION + answer + b"\x08", QUESTION + answer[:-1]):
            assert reading(made, about, rest, 0) == [0, 61 if len(rest) < HEAD else 62], about


# ---- whole files -------------------------------------------------------------------------------------------------------


def any_entry(generator):
    question = bytes(generator.randrange(256) for _ in range(RECORD))
    settled, number = generator.randrange(MARK + 1), generator.choice([0, 560, generator.randrange(MARK), MARK - 1])
    length = generator.choice([0, 1, 3, 30, 31, 32, 33, 40])
    p, q = (generator.choice([0, 8, generator.randrange(MARK), MARK]) for _ in range(2))
    answer = generator.choice([
        refused(generator.randint(1, 15)), record(1, 0, settled, number, length, p, q), record(1, 0, settled, number, length, p, q),
        record(2, 0, settled, MARK), record(3, 0, settled, number),
    ])
    return entry_of(question, answer, bytes(generator.randrange(8) for _ in range(length_of(answer))))


def torn(generator, file):
    """With a byte changed, left out or put in, cut, or with something after it."""
    place, byte = generator.randrange(len(file)), generator.choice([0, 1, 7, 8, 15, 16, 254, 255])
    return generator.choice([
        spoiled(file, place, byte), spoiled(file, place, byte), file[:place] + file[place + 1 :], file[:place] + bytes([byte]) + file[place:],
        file[:place], file + file[:place],
    ])


def whole_files(made):
    """Files as they were written, and torn ones, whose entries stand up to the first that is torn."""
    generator = random.Random(61)
    for turn in range(27):
        file = b"".join(any_entry(generator) for _ in range(generator.randint(1, 3)))
        if turn % 3:
            reading_through(made, "file %d, torn" % turn, torn(generator, file), generator.choice([40, 40, 31]))
        else:
            reading_through(made, "file %d" % turn, file, 40)
    reading_through(made, "an empty file", b"", 40)


def old_files(made):
    """"16-byte files are no longer read": question and answer of an entry as it was before R-6, then its route and the next question, are taken for a question
    and an answer."""
    question, answer, route = QUESTION[:OLD_RECORD], EXAMPLE_ANSWER[:OLD_RECORD], bytes([4, 2, 2, 0]) + b"\xff" * 12
    stopped, none = (question + each[:OLD_RECORD] for each in (STOPPED, NONE))
    entry = question + answer + route
    for file, number in ((entry, 61), (stopped, 61), (entry + entry, 62), (entry + none, 62), (stopped + none, 62), (none + entry, 62)):
        assert reading(made, "an old file", file, 40) == [0, number], file


def add_calls(made):
    example_of_01(made)
    lengths(made)
    great_lengths(made)
    whole_rooms(made)
    each_answer(made)
    any_if_not_found(made)
    any_question(made)
    wrong_directions(made)
    wrong_fillers(made)
    cut_files(made)
    joint_refusals(made)
    joint_refusals_without_a_route(made)
    whole_files(made)
    old_files(made)
