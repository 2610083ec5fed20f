"""Maps and question records for the desk, and what is due.

How the expectation is produced: from the text of 01, "The program", with R-6's records, and with the references of the map text and of the searches.
The answers to cases a to l are also held to the table of 01, to R-2 for h and to R-3's costs, with P and Q worked out by hand. All cases that are not
listed one by one come from a generator with a fixed seed.
"""
import random
import struct

import maptexts
import searches
import sums
import wire

MARK = searches.MARK
RECORD = 32
OLD_RECORD = 16  # before R-6
QUESTION_FORM = struct.Struct("<IIIB19s")  # start, goal, limit, ways, zeros
ANSWER_FORM = struct.Struct("<BBxxIIIII8x")  # kind, refusal, settled, number returned, route length, P, Q
assert QUESTION_FORM.size == ANSWER_FORM.size == RECORD
ZEROS = bytes(19)
GREATEST_TEXT, GREATEST_SIDE, ROOM = 4195, 64, 4096
PIECES = (RECORD, 1, 3, RECORD - 1, OLD_RECORD, RECORD + 1, 1000)


# ---- what is due -----------------------------------------------------------------------------------------------------


def refusal_of(text):
    """The number and place that the program refuses a map text with, or None."""
    if len(text) > GREATEST_TEXT:
        return 14, 0
    try:
        width, height, _ = maptexts.read(text, ROOM)
    except maptexts.Refused as refused:
        return refused.args
    return (14, 0) if max(width, height) > GREATEST_SIDE else None


def used(text, room):
    """What the desk answers about a map text, and leaves in the room."""
    refused = refusal_of(text)
    return [0, *refused] if refused else maptexts.read_into(text, room)


def question(start, goal, limit, ways, zeros=ZEROS):
    assert len(zeros) == len(ZEROS)
    return QUESTION_FORM.pack(start, goal, limit, ways, zeros)


def not_zero(place, byte=1):
    """What should be a question's zeros, with another byte at one place."""
    return ZEROS[:place] + bytes([byte]) + ZEROS[place + 1 :]


def old_question(start, goal, limit, ways):
    """A question as it was before R-6, with three zeros."""
    return question(start, goal, limit, ways)[:OLD_RECORD]


def answer(floor, record, costs, work, route):
    """The answer record to a question record; alters the rooms as the search must."""
    width, height, cells = floor
    start, goal, limit, ways, zeros = QUESTION_FORM.unpack(record)
    if zeros != ZEROS:
        return ANSWER_FORM.pack(0, 13, 0, 0, 0, 0, 0)
    lengths = {"costs": len(costs), "work": len(work), "route": len(route)}
    case = searches.case_of(width, height, ways, cells, start, goal, limit, **lengths)
    kind, refusal, _, *numbers = searches.answer(case, costs, work, route)
    return ANSWER_FORM.pack(kind, refusal, *numbers)


def answers(floor, records, costs, work, route):
    """The answers to all whole records."""
    whole = len(records) - len(records) % RECORD
    return b"".join(answer(floor, records[at : at + RECORD], costs, work, route) for at in range(0, whole, RECORD))


# ---- cases a to l ----------------------------------------------------------------------------------------------------

# kind, refusal, settled, number, length, P, Q
ANSWERS_OF_01 = [
    (1, 0, 5, 560, 4, 8, 0),
    (3, 0, 4, 560, 0, 0, 0),
    (1, 0, 9, 396, 2, 0, 4),
    (1, 0, 9, 560, 4, 8, 0),
    (1, 0, 4, 840, 2, 12, 0),
    (1, 0, 5, 396, 2, 0, 4),
    (2, 0, 1, MARK, 0, 0, 0),
    (0, 15, 0, 0, 0, 0, 0),
    (1, 0, 1, 0, 0, 0, 0),
    (1, 0, 2, 700, 1, 10, 0),
    (1, 0, 2, 700, 1, 10, 0),
    (2, 0, 1, MARK, 0, 0, 0),
]

# 01's example, the question and the answer of case a, at R-3's cost and in R-6's form
EXAMPLE_QUESTION = bytes.fromhex("00000000 02000000 05000000 08" + "00" * 19)
EXAMPLE_ANSWER = bytes.fromhex("01000000 05000000 30020000 04000000 08000000 00000000" + "00" * 8)


def fresh_answers(text, records):
    """The answers of the program, whose rooms are those of the greatest floor."""
    return answers(maptexts.read(text, ROOM), records, [0] * ROOM, [0] * 2 * ROOM, [0] * ROOM)


def cases_of_01():
    """The example record of 01 on case a's map, then each case with its record."""
    small = maptexts.text_of([".@.", "..."])
    assert fresh_answers(small, EXAMPLE_QUESTION) == EXAMPLE_ANSWER
    yield small, EXAMPLE_QUESTION, RECORD
    for case, numbers in zip(searches.cases_of_01(), ANSWERS_OF_01, strict=True):
        text = maptexts.written(case["width"], case["height"], case["cells"])
        record = question(case["start"], case["goal"], case["limit"], case["ways"])
        assert fresh_answers(text, record) == ANSWER_FORM.pack(*numbers)
        yield text, record, RECORD


# ---- maps that cannot be used, and those that just can -----------------------------------------------------------------


def rows(width, height, mark="."):
    return [mark * width] * height


def spoiled(text, place, byte):
    return text[:place] + byte + text[place + 1 :]


def texts_of_size():
    """14 by the text's length, and by a side; 29 comes between, and what the reader refuses comes before a side."""
    full, wide, high = (maptexts.text_of(rows(*sides)) for sides in ((64, 64), (65, 1), (1, 65)))
    assert len(full) == 4195
    yield from (full, full + b"\n", full[:-1], spoiled(full, 4194, b"."), spoiled(full, 4193, b"0"), spoiled(full, 35, b"S"))
    yield from (b"x" * 4195, b"x" * 4196, maptexts.text_of(["."]) * 150)
    yield from (maptexts.text_of(rows(64, 1)), maptexts.text_of(rows(1, 64)), wide, high, maptexts.text_of(rows(65, 63)), maptexts.text_of(rows(256, 16, "@")))
    yield from (wide + b"\n", high + b".", wide[:-1], spoiled(wide, 50, b"W"), spoiled(high, 60, b"-"))
    for height, width in (("64", "65"), ("65", "64"), ("256", "256"), ("17", "241"), ("256", "16"), ("16", "256"), *LONG_SIDES):
        yield from (maptexts.text_of(["."], height, width), maptexts.text_of(["S"], height, width))


# Sides that only the room, or nothing, keeps from being read, and sides that the reader refuses.
LONG_SIDES = (("1024", "4"), ("4", "1024"), ("1024", "5"), ("5", "1024"), ("1024", "1024"), ("1025", "1"), ("1", "1025"), ("1024", "1025"), ("1025", "1025"))


def beyond_the_program():
    """R-7: "The program stays at 64", and the reader's side limit rises in it too. Each text with what is due: 14 for a side that the reader takes, whatever the
    room is, unless its rows are wrong; 22 and 23 from 1,025 on; 14 again where the text is too long, whatever is in it."""
    text_of = maptexts.text_of
    for length in (257, 1000, 1024):
        high, wide = text_of(rows(1, length)), text_of(rows(length, 1))
        first_cell = len(wide) - length - 1
        yield from ((high, (14, 0)), (wide, (14, 0)), (wide[:-1], (27, len(wide) - 1)), (spoiled(wide, first_cell, b"S"), (25, first_cell)))
    high, wide = text_of(rows(1, 1025)), text_of(rows(1025, 1))
    yield from ((high, (22, 12)), (wide, (23, 21)))
    # 4,096 cells and fewer in a text that is short enough; texts that are too long by their rows; a refused side in a text that just is not too long, and is
    yield from ((text_of(rows(1024, 4)), (14, 0)), (text_of(rows(3, 1024)), (14, 0)), (text_of(rows(1024, 5)), (14, 0)), (text_of(rows(4, 1024)), (14, 0)))
    for length, refused in ((GREATEST_TEXT, (22, 12)), (GREATEST_TEXT + 1, (14, 0))):
        yield high + b"." * (length - len(high)), refused


def spoiled_texts():
    """Every reader's refusal, at several places."""
    small = maptexts.text_of([".@.", "..."])
    yield from (small[:length] for length in range(len(small)))
    yield from (small + further for further in (b"\n", b".", b"\0", b"type octile\n"))
    for word, others in (
        (b"type octile", (b"type tile", b"Type octile", b"type octile ", b"type octile\r")),
        (b"height 2", (b"height 0", b"height 02", b"height 257", b"height 1024", b"height 1025", b"height  2", b"height 2 ", b"width 2", b"height " + b"1" * 300)),
        (b"width 3", (b"width 0", b"width 03", b"width 257", b"width 1024", b"width 1025", b"width +3", b"width 3\r", b"height 3", b"width 4294967299")),
        (b"map", (b"Map", b"map ", b"mop", b"")),
    ):
        yield from (small.replace(word, other) for other in others)
    yield from (spoiled(small, place, byte) for place in range(33, 41) for byte in (b"W", b"\n", b".", b"0", b"\xff"))


def maps():
    """Each with two questions, of which a refused map answers none."""
    asked = question(0, 0, 1, 8) + question(0, 1, MARK, 4)
    for text, refused in beyond_the_program():
        assert refusal_of(text) == refused, (text[:40], refusal_of(text), refused)
        yield text, asked, RECORD
    for text in [*texts_of_size(), *spoiled_texts()]:
        yield text, asked, RECORD


# ---- questions that are refused -----------------------------------------------------------------------------------------


def refused_questions():
    """On case a's map: each refusal alone, each pair of them, and all from one on; the lowest number wins, but 13 goes before all. Each of the bytes that 13
    reads does so alone, beside each other refusal too."""
    good = {"start": 0, "goal": 2, "limit": 5, "ways": 8, "zeros": ZEROS}
    spoil = {4: {"ways": 5}, 5: {"start": 6}, 6: {"goal": 77}, 7: {"start": 1}, 8: {"goal": 1}, 13: {"zeros": not_zero(9)}, 15: {"limit": 0}}
    for first in spoil:
        yield {**good, **spoil[first]}
        yield from ({**good, **spoil[second], **spoil[first]} for second in spoil if second > first)
        together = dict(good)
        for number in sorted(spoil, reverse=True):
            together.update(spoil[number] if number >= first else {})
        yield from (together, {**together, "zeros": good["zeros"]}, {**together, "limit": 5}, {**together, "limit": MARK})
    yield from ({**good, "ways": ways} for ways in (0, 1, 2, 3, 4, 6, 7, 8, 9, 12, 16, 72, 255))
    yield from ({**good, end: cell} for end in ("start", "goal") for cell in (0, 1, 5, 6, 7, 255, 256, 258, 65536, 16777216, MARK))
    yield from ({**good, "limit": limit} for limit in (1, *searches.LOW_BYTE_0))
    yield {**good, "zeros": b"\xff" * len(ZEROS)}
    for place in range(len(ZEROS)):
        yield from ({**good, "zeros": not_zero(place, byte)} for byte in (1, 128, 255))
        yield from ({**good, **others, "zeros": not_zero(place, 1 << place % 8)} for number, others in spoil.items() if number != 13)


def questions_refused():
    asked = [question(**each) for each in refused_questions()]
    yield maptexts.text_of([".@.", "..."]), b"".join(asked), RECORD
    # an answer that was refused leaves the next alone
    yield maptexts.text_of([".@.", "..."]), b"".join(each + question(0, 2, 5, 8) for each in asked), RECORD + 1


def old_questions():
    """"16-byte files are no longer read": two questions of such a file are one record, which is refused as 13 since its zeros have the second one in them, and
    one more is a broken record."""
    text = maptexts.text_of([".@.", "..."])
    asked = [old_question(0, 2, 5, 8), old_question(0, 2, 4, 8), old_question(0, 0, 1, 4), old_question(3, 5, MARK, 4)]
    assert fresh_answers(text, b"".join(asked)) == ANSWER_FORM.pack(0, 13, 0, 0, 0, 0, 0) * 2
    for count in range(1, len(asked) + 1):
        yield from ((text, b"".join(asked[:count]), size) for size in (OLD_RECORD, 1000))


# ---- pieces and ends ------------------------------------------------------------------------------------------------------


def in_pieces():
    """The same questions in pieces of every size, whole and with a broken last record; files that hold no whole record."""
    text = maptexts.text_of([".@.", "..."])
    last_of_13 = question(0, 2, 5, 8, not_zero(len(ZEROS) - 1))
    asked = [question(0, 2, 5, 8), question(0, 2, 4, 8), question(1, 2, 5, 8), last_of_13, question(0, 2, 0, 8), question(3, 5, MARK, 4)]
    whole = b"".join(asked)
    for size in PIECES:
        for broken in (0, 1, OLD_RECORD, RECORD - 1):
            yield text, whole + bytes(range(1, RECORD))[:broken], size
        for short in (0, 1, OLD_RECORD, RECORD - 1, RECORD, RECORD + 1):
            yield text, whole[:short], size
    # pieces that hold many records and end inside one, and one that is far longer than what is asked
    yield text, (whole * 60)[: 300 * RECORD - 1], 1000
    yield text, whole, MARK


# ---- floors -----------------------------------------------------------------------------------------------------------------


def random_floor(generator, width, height, weights, blocked):
    return [0 if generator.random() < blocked else generator.choice(weights) for _ in range(width * height)]


def maze(generator, width, height):
    """Corridors of one cell between walls of one, with exactly one way between any two cells; every weight."""
    cells = [0] * (width * height)
    cells[0] = 1
    way = [(0, 0)]
    while way:
        x, y = way[-1]
        near = [(dx, dy) for dx, dy in ((0, -2), (2, 0), (0, 2), (-2, 0)) if 0 <= x + dx < width and 0 <= y + dy < height and cells[(y + dy) * width + x + dx] == 0]
        if not near:
            way.pop()
            continue
        dx, dy = generator.choice(near)
        for u, v in ((x + dx // 2, y + dy // 2), (x + dx, y + dy)):
            cells[v * width + u] = generator.randint(1, 9)
        way.append((x + dx, y + dy))
    return cells


def limits_for(width, height, ways, cells, start, goal):
    """0, which is refused, and 1, those around the number of reachable cells, those around the goal's place among them, and the greatest."""
    _, least = searches.known_costs(searches.case_of(width, height, ways, cells, start, goal, 1))
    reached = sorted((least[cell], cell) for cell in range(len(cells)) if least[cell] is not None)
    n = len(reached)
    limits = {0, 1, n - 1, n, n + 1, MARK}
    return sorted(limits | {limit for place in range(n) if reached[place][1] == goal for limit in (place, place + 1)})


def asked_of(generator, width, height, cells, starts, goals):
    """Questions between open cells at every limit that makes a difference, with some that are refused among them."""
    size = width * height
    open_cells = [cell for cell in range(size) if cells[cell]]
    for start in generator.sample(open_cells, min(starts, len(open_cells))):
        for goal in generator.sample(open_cells, min(goals, len(open_cells))):
            ways = generator.choice([4, 8, 8])
            yield from (question(start, goal, limit, ways) for limit in limits_for(width, height, ways, cells, start, goal))
        yield question(start, generator.randrange(size + 2), generator.randint(0, size), 8)
        yield question(generator.randrange(size + 2), start, generator.randint(0, size), generator.choice([4, 8, 8, generator.randrange(256)]))
        zeros = not_zero(generator.randrange(len(ZEROS)), generator.choice([0, 0, generator.randrange(256)]))
        yield question(start, start, generator.randint(0, 2), 8, zeros)


def floors(generator):
    """Width, height, cells, and how many starts and goals are asked for."""
    every = list(range(1, 10))
    for _ in range(40):
        width, height = generator.randint(1, 12), generator.randint(1, 12)
        weights = generator.choice([[1], [9], [1, 2], [1, 9], every])
        yield width, height, random_floor(generator, width, height, weights, generator.choice([0.0, 0.2, 0.4])), 3, 3
    for length in (2, 17, 64):
        for blocked in (0.0, 0.1):
            cells = random_floor(generator, length, 1, every, blocked)
            yield from ((length, 1, cells, 4, 3), (1, length, cells, 4, 3))
    for width, height in ((9, 9), (31, 17), (63, 63), (64, 64)):
        yield width, height, maze(generator, width, height), 2, 6
    yield 24, 24, searches.winding(24, 24, 1), 2, 6
    yield 64, 64, searches.winding(64, 64, 7), 1, 6
    yield 64, 64, [1] * 4096, 1, 8
    yield 64, 64, random_floor(generator, 64, 64, every, 0.3), 2, 6
    yield 63, 64, random_floor(generator, 63, 64, [1, 1, 1, 9], 0.42), 2, 6


def pictured(generator, width, height, cells):
    """A text that reads as these cells, each by any of its characters."""
    marks = {0: "@OT", 1: ".G1", **{weight: str(weight) for weight in range(2, 10)}}
    return maptexts.text_of(["".join(generator.choice(marks[cell]) for cell in cells[y * width : (y + 1) * width]) for y in range(height)])


def asked_floors():
    generator = random.Random(16)
    for turn, (width, height, cells, starts, goals) in enumerate(floors(generator)):
        asked = b"".join(asked_of(generator, width, height, cells, starts, goals))
        broken = bytes(generator.randrange(256) for _ in range(generator.choice([0, 0, 1, RECORD - 1])))
        yield pictured(generator, width, height, cells), asked + broken, PIECES[turn % len(PIECES)]


def ties():
    """P and Q of the first route, where another one with the same cost has other sums."""
    for case, _ in sums.ties():
        text = maptexts.written(case["width"], case["height"], case["cells"])
        yield text, question(case["start"], case["goal"], MARK, case["ways"]), RECORD


# ---- all of it ----------------------------------------------------------------------------------------------------------------

# Of more records only the arrivals that complete one are made into calls: the others would be most of all that is stored.
FEW_RECORDS = 8


def arrivals(records, piece):
    """What the program's buffer holds at each arrival: the bytes that are not answered yet, and a piece more."""
    every, tail = len(records) <= FEW_RECORDS * RECORD, b""
    for at in range(0, len(records), piece):
        arrived = tail + records[at : at + piece]
        tail = arrived[len(arrived) - len(arrived) % RECORD :]
        if every or len(arrived) >= RECORD or at + piece >= len(records):
            yield arrived


def answer_in_place(floor, costs, work, route, text):
    answered = answers(floor, bytes(text), costs, work, route)
    text[: len(answered)] = answered
    return [len(answered)]


def answer_front(floor, end, costs, work, route, text):
    """The same of the first `end` bytes."""
    front = text[:end]
    numbers = answer_in_place(floor, costs, work, route, front)
    text[:end] = front
    return numbers


def kept(first, end, text):
    tail = text[first:end]
    text[: len(tail)] = tail
    return [len(tail)]


def add_case(made, turn, text, records, piece):
    """The map, and the questions if it can be used, on the cells and in the rooms as the calls before left them."""
    about = "text of %d bytes %r" % (len(text), text[:60])
    old = wire.OLD_BYTE if turn % 5 else [turn % 256, 255, 1]
    made.call(wire.USE_MAP, about, lambda map, text, **_: used(bytes(text), map), map=(ROOM, old), text=(len(text), text))
    if refusal_of(text) is not None:
        return
    floor = width, height, cells = maptexts.read(text, ROOM)
    size = len(cells)
    rooms = {"costs": (size + 3, wire.OLD_COST), "work": (2 * size + 3, wire.OLD_WORK), "route": (size + 3, wire.OLD_BYTE)}
    for arrived in arrivals(records, piece):
        asked = "%s, pieces of %d, arrived %s" % (about, piece, arrived[:64].hex(" "))
        due = lambda costs, work, route, text, **_: answer_in_place(floor, costs, work, route, text)
        made.call(wire.ANSWER_RECORDS, asked, due, (width, height, turn), map=(size, ()), text=(len(arrived), arrived), **rooms)
        rooms = {name: (length, ()) for name, (length, _) in rooms.items()}


def refused_floors():
    """On small floors the refusals that no question to the program meets, since its map was read and its rooms are long enough; and none, in rooms that just
    suffice: number, width, height, cells, and the lengths of the rooms."""
    cells, enough = [1, 0, 1, 1, 1, 1], (6, 12, 6)
    yield from ((1, 1025, 1, [1] * 1025, (1025, 2050, 1025)), (2, 3, 2, cells[:5], enough), (3, 3, 2, [*cells[:5], 10], enough))
    yield from ((9, 3, 2, cells, (5, 12, 6)), (10, 3, 2, cells, (6, 11, 6)), (11, 3, 2, cells, (6, 12, 5)), (0, 3, 2, cells, enough))


def add_refused(made):
    """Limit 0 beside each of them, with 13 and without; then in rooms that hold what a question with a limit has left, if it was answered."""
    limit_0, limit_5 = question(0, 2, 0, 8), question(0, 2, 5, 8)
    for number, width, height, cells, lengths in refused_floors():
        rooms = dict(zip(("costs", "work", "route"), zip(lengths, (wire.OLD_COST, wire.OLD_WORK, wire.OLD_BYTE))))
        due = lambda costs, work, route, text, **_: answer_in_place((width, height, cells), costs, work, route, text)
        for records, numbers in ((limit_0 + question(0, 2, 0, 8, not_zero(len(ZEROS) - 1)), [number or 15, 13]), (limit_5 + limit_0, [number, number or 15])):
            about = "records that are refused as %s, a floor of %d by %d, rooms of %s" % (numbers, width, height, lengths)
            made.call(wire.ANSWER_RECORDS, about, due, (width, height, 8), map=(len(cells), cells), text=(len(records), records), **rooms)
            assert made.rooms["text"][1 : len(records) : RECORD] == numbers, about


TURNS = 60  # turns of the program, each with a buffer that has more bytes in it than have arrived


def add_turns(made):
    """The two functions of a turn, one after the other in one buffer: on case a's map, for any bytes that have arrived, and for ends that the buffer has
    not got."""
    generator = random.Random(47)
    text = maptexts.text_of([".@.", "..."])
    floor = width, height, cells = maptexts.read(text, ROOM)
    rooms = {"costs": (9, wire.OLD_COST), "work": (15, wire.OLD_WORK), "route": (9, wire.OLD_BYTE)}
    for turn in range(TURNS):
        asked = [question(generator.randrange(7), generator.randrange(7), generator.randrange(8), generator.choice([4, 8, 8, 5])) for _ in range(3)]
        length = generator.choice([0, 1, 16, 31, 32, 33, 63, 64, 65, 80, 96])
        end = generator.choice([0, length // 2, max(length - 3, 0), length, length + 1, MARK])
        buffer = b"".join(asked)[:length]
        about = "turn %d: %d bytes of %d, %s" % (turn, end, length, buffer.hex(" "))
        answered, = made.call(
            wire.ANSWER_ARRIVED, about, lambda costs, work, route, text, **_: answer_front(floor, end, costs, work, route, text),
            (width, height, 8), 0, 0, end, map=(len(cells), cells), text=(length, buffer), **rooms,
        )
        for first in sorted({answered, generator.choice([0, 5, length, length + 1, MARK])}):
            made.call(wire.KEEP_TAIL, about + ", from %d" % first, lambda text, first=first, **_: kept(first, end, text), (0, 0, 0), first, end, text=(length, ()))


def add_calls(made):
    cases = [*cases_of_01(), *maps(), *questions_refused(), *old_questions(), *in_pieces(), *asked_floors(), *ties()]
    for turn, case in enumerate(cases):
        add_case(made, turn, *case)
    add_refused(made)
    add_turns(made)
