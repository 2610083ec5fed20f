#!/usr/bin/env python3
"""Runs the program on the calls that expected.py made and names the first one whose reply differs; then on calls that end it.

    drive.py FOLDER COMMAND WORD ..      FOLDER has what expected.py wrote; the words start the program, on this machine
"""
import json
import subprocess
import sys
from pathlib import Path

import logs
import plain
import wire

LONG = 600  # seconds that no run takes


def run(command, calls):
    return subprocess.run(command, input=b"".join(calls), stdout=subprocess.PIPE, timeout=LONG, check=False).stdout


def numbers(data):
    return [int.from_bytes(data[at : at + 4], "little") for at in range(0, len(data), 4)]


def words(call, reply):
    if numbers(call[:8])[1] == wire.DIGEST:
        return "digest %s" % numbers(reply)
    rooms = 4 * wire.FRONT
    return "numbers %s, rooms %s" % (numbers(reply[:rooms]), reply[rooms:].hex(" "))


def stored(folder):
    """Each call that expected.py made: what it is, its bytes, and the reply that is due."""
    calls, due = (memoryview((folder / name).read_bytes()) for name in ("stdin", "stdout"))
    for about, size, length in json.loads((folder / "calls").read_text()):
        yield about, calls[:size], due[:length]
        calls, due = calls[size:], due[length:]


def compare(made, output):
    output = memoryview(output)
    for place, (about, call, reply) in enumerate(made):
        got, output = output[: len(reply)], output[len(reply) :]
        if got != reply:
            sys.exit(f"calls: call {place} differs: {about}\n  head {numbers(call[:72])}\n  due {words(call, reply)}\n  got {words(call, got)}")
    if output:
        sys.exit(f"calls: {len(output)} bytes were written beyond the replies")


def endings(lengths):
    """Calls that end a program with rooms of these lengths: none of them, and nothing after it, gets a reply."""
    made = wire.Wire(lengths)
    plain.search(made, plain.Floor(".@./...", 8), 0, 2, 5, 0)
    plain.route_claim(made, plain.Floor(".@./...", 8), 0, 2, 560, [4, 2, 2, 0])
    (_, first, due), (_, second, _) = made.made
    with_number = lambda place, number: second[: 4 * place] + wire.packed([number]) + second[4 * place + 4 :]
    for what in (0, len(wire.ENTRIES) + 1, 4294967295):
        yield f"the unknown call {what}", [first, with_number(0, what), first], due
    for place, name in enumerate(wire.ROOMS):
        for length in (lengths[name] + 1, 4294967295):
            yield f"a room for {name} of {length}", [first, with_number(8 + 2 * place, length), first], due
    for place, name in ((0, "map"), (3, "route")):
        length = second[32 + 8 * place]
        yield f"more given than the room for {name} has", [first, with_number(9 + 2 * place, length + 1), first], due
    for what in (wire.READ_ENTRY, wire.WRITE_ENTRY):
        for length in (0, logs.HEAD - 1):
            made.call(what, "no room for two records", lambda **_: [0, 0], map=(length, wire.OLD_BYTE))
            yield f"a map room of {length} for {wire.ENTRIES[what]}", [first, made.made[-1][1], first], due
    for length in (1, 71, 72, 77, 78, len(second) - 1):
        yield f"an input that ends after {length} bytes of a call", [first, second[:length]], due


def try_endings(command, lengths):
    tried = list(endings(lengths))
    for name, calls, due in tried:
        if run(command, calls) != due:
            sys.exit(f"calls: {name} does not end the program")
    print(f"calls: {len(tried)} calls that end the program, or end in the middle")


def main():
    folder, command = Path(sys.argv[1]), sys.argv[2:]
    made = list(stored(folder))
    compare(made, run(command, [call for _, call, _ in made]))
    print(f"calls: {len(made)} calls, answered as due")
    try_endings(command, wire.LENGTHS)


if __name__ == "__main__":
    main()
