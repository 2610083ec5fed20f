#!/usr/bin/env python3
"""The program calls with an engine that is wrong: each call is handed on to the program, and what it says of that engine is spoiled in one way.
tests/tools/engines.py starts it.

    spoiled.py ENGINE WAY PROGRAM ..        ENGINE is astar, plain or both
"""
import struct
import subprocess
import sys

HEAD, NUMBERS = struct.Struct("<18I"), struct.Struct("<8I")
ENGINES = {"plain": (1,), "astar": (14,), "both": (1, 14)}
# map, costs, work, route and text: bytes of an entry
SIZES = (1, 4, 4, 1, 1)
MARK = 4294967295


def spoiled(way, numbers, route):
    """Numbers and route of an answer that is wrong in one way; what it does not fit is left."""
    kind, refusal, place, settled, number, length, p, q = numbers
    head = kind, refusal, place
    if way == "cost" and kind == 1:
        return (*head, settled, number + 1, length, p, q), route
    if way in ("P", "Q") and kind == 1:
        return (*head, settled, number, length, p + (way == "P"), q + (way == "Q")), route
    if way == "exchanged":
        return (*head, settled, number, length, q, p), route
    if way == "route":
        return numbers, route[:length][::-1] + route[length:]
    if way == "lost" and length:
        return numbers, b"\0" + route[1:]
    if way == "kind" and kind == 1:
        return (2, 0, 0, settled, MARK, 0, 0, 0), route
    if way == "refusal" and kind == 0:
        return (kind, refusal + 1, *numbers[2:]), route
    if way == "settled" and kind != 0:
        return (*head, settled + 1000, number, length, p, q), route
    return numbers, route


def spoil(way, reply, lengths):
    begin = NUMBERS.size + sum(length * size for length, size in zip(lengths[:3], SIZES))
    end = begin + lengths[3]
    numbers, route = spoiled(way, NUMBERS.unpack(reply[: NUMBERS.size]), reply[begin:end])
    return NUMBERS.pack(*numbers) + reply[NUMBERS.size : begin] + route + reply[end:]


def main():
    engine, way, *program = sys.argv[1:]
    asked, answered = sys.stdin.buffer, sys.stdout.buffer
    with subprocess.Popen(program, stdin=subprocess.PIPE, stdout=subprocess.PIPE) as real:
        while len(head := asked.read(HEAD.size)) == HEAD.size:
            what, *fields = HEAD.unpack(head)
            lengths, given = fields[7::2], fields[8::2]
            real.stdin.write(head + asked.read(sum(count * size for count, size in zip(given, SIZES))))
            real.stdin.flush()
            reply = real.stdout.read(NUMBERS.size + sum(length * size for length, size in zip(lengths, SIZES)))
            answered.write(spoil(way, reply, lengths) if what in ENGINES[engine] else reply)
            answered.flush()


if __name__ == "__main__":
    main()
