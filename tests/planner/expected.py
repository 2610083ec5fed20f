#!/usr/bin/env python3
"""Makes the program's test: its map (crates/planner/data/floor.map), question records (stdin) and the answers due (stdout).

How the expectation is produced: by the reference of the desk (tests/calls/records.py), which follows 01, "The program", R-2, R-3, R-6 and R-7.
Nothing comes from the program or its libraries.

    expected.py FOLDER      writes FOLDER/floor.map, FOLDER/stdin and FOLDER/stdout, and prints how many questions there are
"""
import sys
from pathlib import Path

sys.path.insert(0, str(Path(__file__).resolve().parent.parent / "calls"))
import maptexts
from records import EXAMPLE_ANSWER, EXAMPLE_QUESTION, MARK, RECORD, ZEROS, beyond_the_program, fresh_answers, not_zero, old_question, question, refusal_of


def output(text, records):
    """All that the program writes for a map text and an input of any length."""
    refused = refusal_of(text)
    if refused is not None:
        return b"map refused %d at %d\n" % refused
    return fresh_answers(text, records)


def questions():
    """For case a, `.@.` over `...`: every cell and some that are off the map, every limit that makes a difference, each refusal, each byte that 13 reads."""
    yield question(0, 2, 5, 8)
    for limit in (4, 5, 6, 0, 1, MARK):
        for start in (0, 1, 2, 3, 5, 6, MARK):
            for goal in (0, 1, 2, 4, 6, MARK):
                for ways in (8, 4):
                    yield question(start, goal, limit, ways)
    for ways in (0, 1, 5, 6, 7, 9, 12, 255):
        for limit in (5, 0):
            yield question(0, 2, limit, ways)
    for zeros in [*(not_zero(place) for place in range(len(ZEROS))), not_zero(len(ZEROS) - 1, 128), b"\xff" * len(ZEROS)]:
        yield question(0, 2, 5, 8, zeros)
        yield question(0, 2, 0, 8, zeros)
        yield question(1, 7, 0, 3, zeros)
    # two questions as they were before R-6 are read as one, which is refused as 13
    yield old_question(0, 2, 5, 8) + old_question(0, 2, 5, 8)
    yield question(0, 2, 5, 8)


def main():
    folder = Path(sys.argv[1])
    text = maptexts.text_of([".@.", "..."])
    asked = list(questions())
    records = b"".join(asked) + asked[0][: RECORD - 1]
    due = output(text, records)
    assert (records[:RECORD], due[:RECORD]) == (EXAMPLE_QUESTION, EXAMPLE_ANSWER)
    (folder / "floor.map").write_bytes(text)
    (folder / "stdin").write_bytes(records)
    (folder / "stdout").write_bytes(due)
    print(f"{len(asked)} questions and a broken one")


if __name__ == "__main__":
    main()
