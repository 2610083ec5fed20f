"""Writes furnace.log to standard output: a route log of the furnace hall, laid out by hand from docs/MANUAL.md, "The route log".

No part of the planner is asked. The first seven entries are answers that examples/halls/furnace.answers has too; then come two of planners that keep other
rules, and an entry that breaks off.
"""
import struct
import sys

RECORD = 32
REFUSED, FOUND, NONE, STOPPED = range(4)
MARK = 2**32 - 1
WIDTH = 48


def cell(x, y):
    return y * WIDTH + x


def entry(start, goal, limit, ways, kind, settled, number, route="", p=0, q=0, refusal=0, after=bytes(19)):
    """Question, answer, and the directions filled up with 255 to whole records; `after` is what follows the question's ways."""
    directions = bytes(int(digit) for digit in route)
    question = struct.pack("<IIIB19s", start, goal, limit, ways, after)
    answer = struct.pack("<BBHIIIII8x", kind, refusal, 0, settled, number, len(directions), p, q)
    return question + answer + directions + b"\xff" * (-len(directions) % RECORD)


row = (cell(3, 12), cell(43, 12))
walkway = entry(*row, 4096, 8, FOUND, 528, 6510, "44" + 41 * "2" + "00" + "6", p=93)
log = [
    walkway,
    entry(*row, 300, 8, STOPPED, 300, 3597),
    entry(cell(2, 20), cell(33, 18), 4096, 8, NONE, 753, MARK),
    entry(cell(24, 15), cell(24, 15), 4096, 8, FOUND, 1, 0),
    entry(cell(10, 4), cell(24, 15), 4096, 8, REFUSED, 0, 0, refusal=7),
    entry(*row, 4096, 8, REFUSED, 0, 0, refusal=13, after=bytes(18) + b"\1"),
    entry(*row, 0, 8, REFUSED, 0, 0, refusal=15),
    entry(*row, 4096, 8, FOUND, 41, 5600, 40 * "2", p=80),  # drops the surcharge of each warm cell
    entry(cell(3, 11), cell(4, 10), 4096, 8, FOUND, 4, 198, "1", q=2),  # cuts the corner of the shield
    walkway[: 2 * RECORD + 20],
]
sys.stdout.buffer.write(b"".join(log))
