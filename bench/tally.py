"""One line of bench/count's table: what was executed with the call less what was executed without it.

The emulator's log has the bytes of each instruction once, after its address, and a line with its address each time that it is executed. An emulator that can
disassemble writes the bytes beside the address and the instruction's name after them; another has a line for the bytes.
"""
import collections
import re
import sys

ADDRESS = re.compile(r"0x0*([0-9a-f]+): *((?:[0-9a-f]{2} )*)")
BYTES = re.compile(r"OBJD-T: ([0-9a-f]+)$")
EXECUTED = re.compile(r"Trace \d+: 0x[0-9a-f]+ \[[0-9a-f]+/0*([0-9a-f]+)/")


def divides(code):
    """Whether the bytes are DIV or IDIV: perhaps prefixes, then F6 or F7 with 6 or 7 in the middle of the next byte."""
    code = bytes.fromhex(code)
    while code and (code[0] == 0x66 or 0x40 <= code[0] <= 0x4F):
        code = code[1:]
    return len(code) > 1 and code[0] in (0xF6, 0xF7) and code[1] >> 3 & 7 in (6, 7)


def tally(log):
    """How many instructions were executed, and how many of them divide. One that repeats itself, as a string instruction does, counts once."""
    address, divisions, executed, last = None, set(), collections.Counter(), None
    with open(log, errors="replace") as lines:
        for line in lines:
            if found := EXECUTED.match(line):
                executed[found[1]] += found[1] != last
                last = found[1]
            elif found := ADDRESS.match(line):
                address = found[1]
                if divides(found[2]):
                    divisions.add(address)
            elif (found := BYTES.match(line)) and divides(found[1]):
                divisions.add(address)
    return sum(executed.values()), sum(executed[each] for each in divisions)


def main(call, floor, side, answer, without, with_call):
    before, after = tally(without), tally(with_call)
    with open(answer) as text:
        settled = int(text.read())
    instructions, divisions = (late - early for early, late in zip(before, after))
    print(f"| {call} | {floor} | {side} | {settled} | {instructions} | {instructions / settled:.1f} | {divisions} | {divisions / settled:.2f} |", flush=True)


main(*sys.argv[1:])
