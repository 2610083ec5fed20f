#!/usr/bin/env python3
"""Makes the test of the program `calls`: calls of every entry (crates/calls/stdin) and the replies that are due (crates/calls/stdout).

The replies come from references that follow 01, and 02's R-1 to R-4, R-6 and R-7, in another way than the libraries, and share nothing with them; each says how.

    expected.py FOLDER      writes FOLDER/stdin and FOLDER/stdout, and FOLDER/calls, which says of each call what it is and how long it and its reply are;
                            prints how many calls there are of each entry, and of each kind of answer
"""
import json
import sys
from pathlib import Path

import astars
import claims
import logs
import maptexts
import plain
import records
import searches
import sums
import wire


def all_calls():
    made = wire.Wire()
    for part in (plain, maptexts, claims, records, searches, logs, astars, sums):
        part.add_calls(made)
    return made


def last_calls():
    """An unknown call, which ends the program: what follows gets no reply."""
    made = wire.Wire()
    plain.search(made, plain.Floor(".", 8), 0, 0, 1, 0)
    _, call, _ = made.made[0]
    return [("an unknown call", wire.packed([len(wire.ENTRIES) + 1]) + call[4:], b""), ("a call after the program's end", call, b"")]


def main():
    folder = Path(sys.argv[1])
    wired = all_calls()
    made = wired.made + last_calls()
    (folder / "stdin").write_bytes(b"".join(call for _, call, _ in made))
    (folder / "stdout").write_bytes(b"".join(reply for _, _, reply in made))
    (folder / "calls").write_text(json.dumps([(about, len(call), len(reply)) for about, call, reply in made]))
    for entry, outcomes in wired.outcomes.items():
        counted = ", ".join("%s: %d" % each for each in sorted(outcomes.items()))
        print("calls: %d of %s (%s)" % (sum(outcomes.values()), entry, counted))


if __name__ == "__main__":
    main()
