#!/usr/bin/env python3
"""Starts the program in folders of its own and compares what it writes with the reference in expected.py.

    drive.py COMMAND WORD ..      the words that start the program, on this machine
"""
import os
import random
import selectors
import subprocess
import sys

from expected import MARK, RECORD, ZEROS, beyond_the_program, fresh_answers, maptexts, not_zero, old_question, output, question
from starting import COMMAND, LONG, compare, in_folder, run

import sums  # one of tests/calls, where expected.py looks

TEXT = maptexts.text_of([".@.", "..."])
LAST_OF_13 = question(0, 2, 5, 8, not_zero(len(ZEROS) - 1))


def broken_line(records):
    """What standard error says of a broken last record."""
    broken = len(records) % RECORD
    return b"planner: no answer to the last %d bytes, which are no whole record\n" % broken if broken else b""


def try_text(text, records=b""):
    said = b"" if output(text, b"") else broken_line(records)
    in_folder(text, lambda folder: compare(text[:80], run(folder, records, said), output(text, records)))


# ---- maps that cannot be used ----------------------------------------------------------------------------------------------


def rows(width, height, mark="."):
    return [mark * width] * height


def spoiled(text, place, byte):
    return text[:place] + byte + text[place + 1 :]


def refused_texts():
    good = maptexts.text_of([".@.", "..."])
    full = maptexts.text_of(rows(64, 64))
    assert len(full) == 4195
    # too long before anything of it is read, and just not too long
    yield from (full + b"\n", b"x" * 4196, good * 200, b"x" * 4195, full[:-1], spoiled(full, 4194, b"."))
    # each line of the header, and texts that end in it
    yield from (good[:length] for length in range(len(good)))
    yield from (b"type octal\n" + good[12:], b" " + good, good.replace(b"\n", b"\r\n"))
    for word, others in ((b"height 2", (b"height 0", b"height 02", b"height 257", b"height 1025", b"width 2", b"height  2")), (b"width 3", (b"width 0", b"width 300", b"width 1025", b"width +3"))):
        yield from (good.replace(word, other) for other in others)
    yield from (good.replace(b"map", b"Map"), good.replace(b"height 2", b"height " + b"1" * 300))
    # 29 comes before the rows, and a side above 64 after them
    yield from (maptexts.text_of(["."], "65", "64"), maptexts.text_of(["."], "256", "256"), maptexts.text_of(["."], "17", "241"))
    yield from (maptexts.text_of(rows(65, 1)), maptexts.text_of(rows(1, 65)), maptexts.text_of(rows(65, 63)), maptexts.text_of(rows(256, 16, "@")))
    yield from (maptexts.text_of(rows(65, 1)) + b".", spoiled(maptexts.text_of(rows(65, 2)), 100, b"S"))
    # faults in the rows, and a further byte
    yield from (spoiled(good, place, byte) for place in range(33, 41) for byte in (b"W", b"\n", b".", b"0", b"\r"))
    yield from (good + b"\n", good + b".", good[:-1])


def sides_beyond():
    """R-7: "The program stays at 64", and the reader's side limit rises in it too: what is due is written out, and the reference must say the same."""
    for text, (number, place) in beyond_the_program():
        due = b"map refused %d at %d\n" % (number, place)
        assert output(text, b"") == due, text[:80]
        yield text, due


# ---- maps that can ------------------------------------------------------------------------------------------------------------


def asked_of(generator, width, height, count):
    size = width * height
    for _ in range(count):
        start, goal = (generator.randrange(size + (generator.random() < 0.05)) for _ in range(2))
        limit = generator.choice([0, 1, generator.randint(0, size), size, size + 1, MARK])
        zeros = ZEROS if generator.random() < 0.95 else not_zero(generator.randrange(len(ZEROS)), generator.randrange(256))
        yield question(start, goal, limit, generator.choice([4, 8, 8, generator.randrange(256)]), zeros)


def least_limits():
    """On case a's map limit 0 and limit 1 in turn, without 13 and with it, between ends that are the same, neighbours, farther, blocked or off the map."""
    for start, goal in ((0, 0), (0, 3), (0, 2), (1, 2), (0, 1), (6, 2), (0, 6)):
        for limit in (0, 1):
            yield from (question(start, goal, limit, 8, zeros) for zeros in (ZEROS, not_zero(len(ZEROS) - 1)))


def floors():
    generator = random.Random(64)
    yield maptexts.text_of([".@."]), [question(0, 2, 1, 8), question(0, 2, 0, 8), question(0, 2, MARK, 4)]
    yield maptexts.text_of([".@", "@."]), [question(0, 3, 4, 8)]
    yield maptexts.text_of(["."]), [question(0, 0, limit, 8) for limit in (0, 1, MARK)]
    yield maptexts.text_of([".@.", "..."]), list(least_limits())
    for case, _ in sums.ties():
        yield maptexts.written(case["width"], case["height"], case["cells"]), [question(case["start"], case["goal"], MARK, case["ways"])]
    for width, height, count in ((1, 1, 20), (7, 5, 300), (64, 1, 100), (1, 64, 100), (64, 64, 40), (63, 64, 20)):
        picture = ["".join(generator.choice("..G123456789@TO") for _ in range(width)) for _ in range(height)]
        yield maptexts.text_of(picture), list(asked_of(generator, width, height, count))


# ---- input in pieces ------------------------------------------------------------------------------------------------------------


def dribble(folder, text, records, size):
    """Sends `size` bytes at a time, the next only when every whole record that was sent is answered."""
    program = subprocess.Popen(COMMAND, cwd=folder, stdin=subprocess.PIPE, stdout=subprocess.PIPE, stderr=subprocess.PIPE)
    got = b""
    due = output(text, records)
    with selectors.DefaultSelector() as waiting:
        waiting.register(program.stdout, selectors.EVENT_READ)
        for at in range(0, len(records), size):
            program.stdin.write(records[at : at + size])
            program.stdin.flush()
            sent = min(at + size, len(records))
            while len(got) < sent - sent % RECORD:
                if not waiting.select(LONG):
                    sys.exit(f"planner: pieces of {size}: no answer to byte {sent} while the input waits")
                got += os.read(program.stdout.fileno(), 65536)
            if waiting.select(0.001):
                sys.exit(f"planner: pieces of {size}: more than was asked after byte {sent}")
    program.stdin.close()
    got += program.stdout.read()
    program.wait(LONG)
    compare(f"pieces of {size}", got, due)
    compare(f"pieces of {size}, standard error", program.stderr.read(), broken_line(records))


def maps_that_cannot_be_used():
    records = question(0, 2, 5, 8) * 3
    texts = list(refused_texts())
    for text in texts:
        try_text(text, records)
    beyond = list(sides_beyond())
    for text, due in beyond:
        in_folder(text, lambda folder: compare(text[:80], run(folder, records), due))
    missing = b"map missing\n"
    in_folder(None, lambda folder: compare("no file", run(folder, records), missing))
    numbers = sorted({int(output(text, b"").split()[2]) for text in texts if output(text, b"")})
    print(f"planner: {len(texts)} texts, refused as {', '.join(map(str, numbers))}; {len(beyond)} with sides around 1,024; map missing")


def maps_that_can():
    kinds = set()
    count = 0
    for text, asked in floors():
        piece = asked[0][: len(asked) % RECORD]
        try_text(text, b"".join(asked) + piece)
        kinds |= {tuple(fresh_answers(text, record)[:2]) for record in asked}
        count += len(asked)
    print(f"planner: {count} questions, kinds and refusals {' '.join('%d/%d' % kind for kind in sorted(kinds))}")


def pieces():
    """Pieces of several sizes; then much at once."""
    asked = [question(0, 2, 5, 8), question(0, 2, 4, 8), question(1, 2, 5, 8), LAST_OF_13, question(0, 2, 0, 8), question(3, 5, MARK, 4)]
    records = b"".join(asked) + asked[0][:9]
    sizes = (1, 3, 16, RECORD - 1, RECORD, RECORD + 1)
    for size in sizes:
        in_folder(TEXT, lambda folder, size=size: dribble(folder, TEXT, records, size))
    many, due = b"".join(asked) * 5000, output(TEXT, b"".join(asked)) * 5000
    in_folder(TEXT, lambda folder: compare("much input", run(folder, many + records, broken_line(records)), due + output(TEXT, records)))
    print(f"planner: pieces of {', '.join(map(str, sizes))} bytes, {len(many + records) // RECORD} questions at once")


def broken_records():
    """A last record of each length that is too short, after a whole one and alone."""
    for length in range(1, RECORD):
        try_text(TEXT, question(0, 2, 5, 8) + LAST_OF_13[:length])
        try_text(TEXT, LAST_OF_13[:length])
    print(f"planner: broken records of 1 to {RECORD - 1} bytes")


def old_files():
    """"16-byte files are no longer read": two of their questions are read as one, whose zeros are not all 0, and one that is left over is no whole record."""
    refused_as_13 = bytes([0, 13]) + bytes(RECORD - 2)
    for count in (1, 2, 3, 4):
        records = old_question(0, 2, 5, 8) * count
        due = refused_as_13 * (count // 2)
        assert output(TEXT, records) == due
        in_folder(TEXT, lambda folder: compare("an old file", run(folder, records, broken_line(records)), due))
    print("planner: files of 16-byte questions, two of which are one that is refused as 13")


def main():
    maps_that_cannot_be_used()
    maps_that_can()
    pieces()
    broken_records()
    old_files()


main()
