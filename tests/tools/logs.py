"""Route logs: what is appended is what R-1 and R-6 say, byte for byte; what is shown, checked and asked again; torn logs, full disks, two who append at once."""
import fcntl
import json
import os
import random
import re
import subprocess
import time
from pathlib import Path

import reference
from common import ASK, HALLS, LONG, environment, expect, expect_run, run, text_of, written
from reference import MARK, RECORD, answered, asked, records

FURNACE, QUESTIONS = HALLS / "furnace.map", HALLS / "furnace.questions"
A = ".@./..."  # case a

CASE_A = reference.entry(asked(0, 2, 5), answered(1, 5, 560, 4, 8), (4, 2, 2, 0))
NONE = reference.entry(asked(0, 2), answered(2, 1, MARK))
REFUSED = reference.entry(asked(0, 9, ways=7, zeros=b"\1\2\3" + bytes(16)), answered(0, refusal=13))


def read(log, status, said=(), words=(), **more):
    """A log that is read, in words."""
    return expect_run([*words, "--read-log", log], status, said, **more)


def objects(log, status, words=()):
    """A log that is read, as objects: its entries, and the summary."""
    *entries, last = [json.loads(line) for line in expect_run([*words, "--read-log", log, "--json"], status).split("\n")[:-1]]
    return entries, last["summary"]


def bytes_told(entries):
    """The entries as R-1 writes them, from the objects."""
    return b"".join(reference.entry(bytes.fromhex(each["asked_hex"]), bytes.fromhex(each["answered_hex"]), each.get("route", ())) for each in entries)


# ---- appended


def test_logged(folder):
    log, text = Path(folder, "shift.log"), FURNACE.read_bytes()
    due = b"".join(reference.entry_on(text, record) for record in records(QUESTIONS.read_bytes()))
    expect_run([FURNACE, "--replay", QUESTIONS, "--log", log], 0, ["18 questions answered\n", f"18 entries appended to {log}, which has 18 in {len(due)} bytes"])
    expect("a replay as logged", log.read_bytes() == due, log.read_bytes().hex(" "))
    words = [FURNACE, "--from", "3,12", "--to", "43,12", "--log", log]
    one = reference.entry_on(text, asked(12 * 48 + 3, 12 * 48 + 43))
    expect_run([*words, "--quiet"], 0, ["found at cost 6510", f"logged in {log} as entry 19, bytes {len(due)} to {len(due) + len(one) - 1}"])
    expect("a question as logged", log.read_bytes() == due + one)
    told = json.loads(expect_run([*words[:-3], "1,24", "--log", log, "--json"], 1))
    two = reference.entry_on(text, asked(12 * 48 + 3, MARK))
    expect("a refused question is logged too", log.read_bytes() == due + one + two and told["kind"] == "refused", told)
    expect("and said so", told["logged"] == {"entry": 20, "byte": len(due + one), "bytes": 64}, told)
    told = json.loads(expect_run([FURNACE, "--replay", QUESTIONS, "--log", log, "--json", "--quiet"], 0))
    expect("what was there stays", log.read_bytes() == due + one + two + due and told["summary"]["logged"] == 18, told)
    entries, summary = objects(log, 0, [FURNACE])
    expect("what is written reads back", bytes_told(entries) == log.read_bytes() and summary["entries"] == 38 and summary["torn"] is None, summary)
    expect("and is as proved", {each["compared"] for each in entries} == {"same"} and summary["checked"] == sum("route" in each for each in entries), summary)
    print("tools: logs: every kind of answer, byte for byte as the test writes it, and read back")


def serpentine(width, rows):
    """A passage one cell wide, and its cells from one end to the other."""
    lines, cells = [], []
    for y in range(2 * rows - 1):
        turn = width - 1 if y % 4 == 1 else 0
        lines.append("." * width if y % 2 == 0 else "@" * turn + "." + "@" * (width - 1 - turn))
        passed = [turn] if y % 2 else range(width) if y % 4 == 0 else range(width - 1, -1, -1)
        cells += [y * width + x for x in passed]
    return text_of(lines), cells


def test_long_routes(folder):
    """A route of 4,095 steps is logged; one more step cannot be, which is said, and the others are."""
    text, cells = serpentine(130, 33)
    hall, log, replayed = written(folder, "long.map", text), Path(folder, "long.log"), Path(folder, "all.log")
    most, more = asked(0, cells[4095]), asked(0, cells[4096])
    due = reference.entry_on(text.encode(), most)
    expect("4,095 steps", len(due) == 64 + 4096 and due[-1] == 255 and due[-2] < 8)
    questions = written(folder, "long.questions", most + more + most)
    said = ["   2  ", "NOT LOGGED: refused 62: ", "its route has 4096 steps, and a logged one at most 4095", "2 entries appended", "1 answer is not logged (number 2)"]
    expect_run([hall, "--replay", questions, "--log", replayed, "--quiet"], 1, said)
    expect("the others are logged", replayed.read_bytes() == due + due)
    goal = f"{cells[4096] % 130},{cells[4096] // 130}"
    words = [hall, "--from", "0,0", "--to", goal, "--log", log]
    expect_run([*words, "--quiet"], 1, ["in 4096 steps", "NOT LOGGED: refused 62: "])
    told = json.loads(expect_run([*words, "--json"], 1))
    expect("not logged, as an object", told["logged"]["refusal"] == 62 and told["steps"] == 4096 and log.read_bytes() == b"", told)
    entries, summary = objects(replayed, 0, [hall])
    expect("and read again", bytes_told(entries) == due + due and summary["answered_by"] == ["library"] and summary["differ"] == 0, summary)
    print("tools: logs: a route of 4095 steps is logged, one of 4096 is not")


# ---- read


def test_shown(folder):
    """Entries in words, without the map and with it, and quietly."""
    log = written(folder, "three.log", CASE_A + NONE + REFUSED)
    out = read(log, 0, [
        "three.log; without a map cells are numbers, and nothing is checked or asked again\n",
        "   1  cell 0 to cell 2, 8 ways, limit 5\n      found at cost 560 in 4 steps, P 8, Q 0; 5 cells settled\n      route: 1 S, 2 E, 1 N\n",
        "   2  cell 0 to cell 2, 8 ways, no limit\n      none: no route leads to the goal",
        "   3  cell 0 to cell 9, 7 ways, no limit, bytes 13 to 15 are 01 02 03\n      refused 13: ", "3 entries in 224 bytes\n",
    ])
    expect("nothing is claimed without a map", "WRONG" not in out and "DIFFERS" not in out and "checked;" not in out, out)
    same = written(folder, "same.log", CASE_A + REFUSED + CASE_A)
    hall = written(folder, "a.map", text_of(A))
    read(same, 0, [
        "a.map: 3 wide, 2 high; same.log, asked again and answered by the program\n", "   1  (0,0) to (2,0), 8 ways, limit 5\n      found at cost 560",
        "(0,0) to cell 9 (off the map), 7 ways, no limit, bytes 13 to 15 are 01 02 03", "3 entries in 256 bytes; 2 routes checked; 0 routes are wrong; 0 entries differ\n",
    ], [hall])
    quiet = read(same, 0, ["3 entries in 256 bytes; 2 routes checked"], [hall, "--quiet"])
    expect("quietly", quiet.count("\n") == 2, quiet)
    read(written(folder, "empty.log", b""), 0, ["0 entries in 0 bytes\n"])
    with open(same, "rb") as stream:
        read("-", 0, ["standard input; without a map", "3 entries in 256 bytes"], stdin=stream)
    pipe = Path(folder, "pipe")
    os.mkfifo(pipe)
    feed = subprocess.Popen(["cp", str(same), str(pipe)])
    read(pipe, 0, ["3 entries in 256 bytes; 2 routes checked"], [hall])
    feed.kill()
    feed.wait()
    print("tools: logs: shown without the map, with it, quietly, from a pipe")


def test_long_logs(folder):
    """Entries of every length up to the longest, at any place of a file that is longer than what is held of it."""
    generator = random.Random(3)
    lengths = [4095, 0, 448, 449, 416, 4095, 4064, *(generator.randrange(4096) for _ in range(30)), 4095, 0]
    entries = [
        reference.entry(generator.randbytes(RECORD), answered(1, 7, 5, length, 3, 4), generator.choices(range(8), k=length)) for length in lengths
    ]
    log = b"".join(entries)
    told, summary = objects(written(folder, "long.log", log), 0)
    expect("a long log", bytes_told(told) == log and summary == {"entries": len(lengths), "bytes": len(log), "torn": None}, summary)
    torn = log + entries[0][:-1]
    told, summary = objects(written(folder, "long.log", torn), 1)
    expect("a long log, torn", bytes_told(told) == log and (summary["torn"]["byte"], summary["torn"]["refusal"]) == (len(log), 61), summary)
    print(f"tools: logs: {len(log)} bytes with routes of up to 4095 steps")


# Each is a rest that no entry begins, its refusal, and how much of an entry there is.
TORN = (
    (CASE_A[:95], 61, "95 bytes"), (CASE_A[:1], 61, "1 byte"), (CASE_A[:32], 61, "32 bytes"), (NONE[:63], 61, "63 bytes"),
    (reference.entry(asked(0, 2), answered(0, refusal=16)), 62, None), (reference.entry(asked(0, 2), answered(1, 5, 560, 4096, 8)), 62, None),
    (CASE_A[:64], 61, "64 bytes"), (reference.entry(asked(0, 2), answered(1, 5, 560, 4, 8), (4, 2, 8, 0)) + CASE_A, 63, None), (CASE_A[:-1] + b"\0", 63, None),
    (CASE_A[:16], 61, "16 bytes"), (CASE_A[:48], 61, "48 bytes"), (reference.entry(asked(0, 2), answered(2, 1, MARK, p=1)), 62, None),
    (reference.entry(asked(0, 2), answered(3, 1, 140, q=1)), 62, None), (reference.entry(asked(0, 2), answered(2, 1, MARK)[:-1] + b"\1"), 62, None),
)
REASONS = {
    61: "refused 61: the file ends inside an entry, of which it has ", 62: "refused 62: the answer is none that can be logged",
    63: "refused 63: a direction is above 7, or a filler is not 255",
}


def test_torn(folder):
    """The entries before the break are shown, then where it is and why."""
    whole = CASE_A + REFUSED
    for rest, number, has in TORN:
        log = written(folder, "torn.log", whole + rest)
        out = read(log, 1, [f"the log breaks off at byte 160, where entry 3 begins: {REASONS[number]}{has or ''}\n2 entries in 160 bytes\n"])
        expect(f"the entries before {rest.hex()}", out.count(" ways, ") == 2, out)
    entries, summary = objects(log, 1)
    expect("torn, as objects", bytes_told(entries) == whole and summary["torn"]["byte"] == 160 and summary["torn"]["refusal"] == 62, summary)
    hall = written(folder, "a.map", text_of(A))
    read(log, 1, ["breaks off at byte 160", "1 route checked; 0 routes are wrong; 0 entries differ"], [hall, "--quiet"])
    read(FURNACE, 1, ["the log breaks off at byte 0, where entry 1 begins: refused 62", "0 entries in 0 bytes"])
    print(f"tools: logs: torn in {len(TORN)} ways")


def differing(text):
    """Entries on a floor of 3 by 2, each with what is said of it beside its own words."""
    to_east, four = asked(0, 5), asked(0, 2, ways=4)
    first = reference.entry_on(text, to_east)
    proved, route = first[RECORD : 2 * RECORD], first[2 * RECORD : 2 * RECORD + 2]
    another, answer, claimed = "; the proved route is ", "; the proved answer is ", ", checked as a claimed route: "
    logged = f" logged {{}} proved {proved.hex(' ')}"
    found = f"{answer}found at cost 338 in 2 steps, P 2, Q 2; 6 cells settled"
    return (
        (first, []),
        (reference.entry(to_east, proved, route[::-1]), ["DIFFERS", "; its route holds, but the first of this cost is 1 SE, 1 E"]),
        (
            reference.entry(to_east, answered(1, 6, 420, 3, 6), (4, 2, 2)),
            ["DIFFERS", f"{found}{logged.format(answered(1, 6, 420, 3, 6).hex(' '))}", "DIFFERS", f"{another}1 SE, 1 E"],
        ),
        (
            reference.entry(four, reference.answer(text, four), (2, 3)),
            ["WRONG", f"{claimed}fault 41 at step 2, SE from (1,0): a direction is", "DIFFERS", f"{another}2 E"],
        ),
        (reference.entry(to_east, answered(1, 6, 339, 2, 2, 2), route), ["WRONG", f"{claimed}fault 46 after all 2 steps", "DIFFERS", found]),
        (reference.entry(to_east, answered(1, 5, 338, 2, 2, 2), route), ["DIFFERS", found]),
        (reference.entry(to_east, answered(2, 6, MARK)), ["DIFFERS", found]),
        (reference.entry(asked(0, 5, ways=7), proved, route), ["WRONG", f"{claimed}refused 4: ways is neither", "DIFFERS", f"{answer}refused 4"]),
        (reference.entry(asked(0, 5, zeros=bytes(18) + b"\1"), proved, route), ["DIFFERS", f"{answer}refused 13"]),
        (
            reference.entry(asked(0, 0), answered(1, 1, 280, 2, 4), (2, 6)),
            ["DIFFERS", f"{answer}found at cost 0 in 0 steps, P 0, Q 0", "DIFFERS", f"{another}no step"],
        ),
    )


def with_other_sums(text):
    """Such entries whose P and Q are not their route's: one of them, both exchanged, those of a route elsewhere, and those of another rule."""
    to_east, straight = asked(0, 5), reference.answer(text, asked(0, 2))
    proved, route, sums = reference.answer(text, to_east), (3, 2), ": the answer has "
    another, answer, claimed = "; the proved route is ", "; the proved answer is found at cost ", ", checked as a claimed route: "
    return (
        (reference.entry(to_east, answered(1, 6, 338, 2, 3, 2), route), ["WRONG", f"{sums}P 3, Q 2, and its route P 2, Q 2", "DIFFERS", f"{answer}338"]),
        (
            reference.entry(asked(0, 2), straight[:16] + straight[20:24] + straight[16:20] + straight[24:], (2, 2)),
            ["WRONG", f"{sums}P 0, Q 4, and its route P 4, Q 0", "DIFFERS", f"{answer}280 in 2 steps, P 4, Q 0"],
        ),
        (
            reference.entry(to_east, proved, (2, 2)),
            ["WRONG", f"{claimed}fault 45 after all 2 steps", "WRONG", f"{sums}P 2, Q 2, and its route P 4, Q 0", "DIFFERS", f"{another}1 SE, 1 E"],
        ),
        (
            reference.entry(to_east, answered(1, 6, 169, 2, 1, 1), route),
            ["WRONG", f"{claimed}fault 46 after all 2 steps", "WRONG", f"{sums}P 1, Q 1, and its route P 2, Q 2", "DIFFERS", f"{answer}338"],
        ),
    )


def test_differs(folder):
    """Answers and routes of a log that are not the proved ones, routes that the check does not take, and P and Q that are not the route's."""
    hall = written(folder, "b.map", text_of(".../..."))
    cases = differing(hall.read_bytes()) + with_other_sums(hall.read_bytes())
    log = written(folder, "differs.log", b"".join(entry for entry, _ in cases))
    total = "14 entries in 1312 bytes; 13 routes checked; 5 routes are wrong (number 4, 5, 8, 13, 14); "
    total += "4 answers have other sums than their routes (number 11, 12, 13, 14); 13 entries differ (number 2, 3, 4, 5, 6, 7, 8, 9 and 5 more)\n"
    told = [" ".join(part.split()) for part in re.split(r"^ {2,3}(?=\d+  )", read(log, 1, [total], [hall]), flags=re.MULTILINE)[1:]]
    for number, ((entry, said), shown) in enumerate(zip(cases, told, strict=True), 1):
        begin = sum(len(before) for before, _ in cases[: number - 1])
        good = all(piece in shown for piece in said) and all(shown.count(word) == said.count(word) for word in ("DIFFERS", "WRONG"))
        good = good and shown.count(f": entry {number} (bytes {begin} to {begin + len(entry) - 1})") == len(said) // 2
        expect(f"entry {number} of a log that differs", good, shown)
    quiet = read(log, 1, [total], [hall, "--quiet"])
    expect("quietly all but the first", len(re.findall(r"^ {2,3}\d+  ", quiet, re.MULTILINE)) == 13 and "\n   1  " not in quiet, quiet)
    told, _ = objects(log, 1, [hall, "--quiet"])
    expect("and as objects", [each["entry"] for each in told] == list(range(2, 15)), told)
    entries, summary = objects(log, 1, [hall])
    expect("as objects", [each["compared"] for each in entries] == ["differs" if said else "same" for _, said in cases], entries)
    checked = ["holds"] * 3 + ["fault"] * 2 + ["holds", "refused"] + ["holds"] * 4 + ["fault"] * 2
    expect("checked", [each["check"]["kind"] for each in entries if "check" in each] == checked, entries)
    sums = ["same"] * 3 + [None] + ["same"] * 2 + [None] + ["same"] * 2 + ["differs"] * 4
    expect("summed", [each["sums"] for each in entries if "check" in each] == sums and "sums" not in entries[6], entries)
    others = [(each["p"], each["q"], each["route_p"], each["route_q"]) for each in entries if "route_p" in each]
    expect("both sums", others == [(3, 2, 2, 2), (0, 4, 4, 0), (2, 2, 4, 0), (1, 1, 2, 2)], entries)
    expect("the first route", entries[1]["proved"]["route"] == [3, 2] and entries[1]["route"] == [2, 3], entries[1])
    expect("counted", [summary[name] for name in ("wrong", "other_sums", "differ", "checked")] == [5, 4, 13, 13], summary)
    print(f"tools: logs: {len(cases)} entries whose answers, routes or sums are not the proved ones")


def test_other_sums_alone(folder):
    """An answer whose P and Q alone are not its route's is told without the rest, and is status 1."""
    hall, log = written(folder, "a.map", text_of(A)), written(folder, "a.log", reference.entry(asked(0, 2, 5), answered(1, 5, 560, 4, 8, 1), (4, 2, 2, 0)))
    read(log, 1, [
        "      WRONG: entry 1 (bytes 0 to 95): the answer has P 8, Q 1, and its route P 8, Q 0\n",
        "0 routes are wrong; 1 answer has other sums than its route (number 1); 1 entry differs (number 1)\n",
    ], [hall, "--quiet"])
    read(log, 0, ["found at cost 560 in 4 steps, P 8, Q 1; 5 cells settled\n", "1 entry in 96 bytes\n"])
    print("tools: logs: P and Q that are not the route's")


def test_limit_0_logged(folder):
    """Limit 0 is logged as refused."""
    hall, log = written(folder, "b.map", text_of(".../...")), Path(folder, "zero.log")
    zero = asked(0, 5, 0)
    due = reference.entry_on(hall.read_bytes(), zero)
    expect("limit 0 as R-2 has it", due == reference.entry(zero, answered(0, refusal=15)))
    expect_run([hall, "--from", "0,0", "--to", "2,1", "--limit", "0", "--quiet", "--log", log], 1, ["refused 15: ", "as entry 1, bytes 0 to 63"])
    expect_run([hall, "--replay", written(folder, "q", zero), "--log", log], 0, ["refused 15: ", "1 entry appended"])
    expect("limit 0 as logged", log.read_bytes() == due * 2, log.read_bytes().hex(" "))
    refused = "limit 0\n      refused 15: the limit is 0 (left empty?), and must be at least 1\n"
    read(log, 0, [f"   2  (0,0) to (2,1), 8 ways, {refused}", "2 entries in 128 bytes; 0 routes checked; 0 routes are wrong; 0 entries differ\n"], [hall])
    # a stop that no planner gives, and one from off the map
    stopped = [(0, 5, (3, 0, 0)), (6, 5, (3, 0, 0))]
    other = written(folder, "other.log", due + b"".join(reference.entry(asked(start, goal, 0), answered(*answer)) for start, goal, answer in stopped))
    differs = "DIFFERS: entry {} (bytes {} to {}); the proved answer is refused "
    read(other, 1, [differs.format(2, 64, 127) + "15: ", differs.format(3, 128, 191) + "5: ", "2 entries differ (number 2, 3)\n"], [hall])
    print("tools: logs: limit 0")


# ---- not appended


def test_not_appended(folder):
    """A log that does not end where an entry ends, and what is no plain file: nothing is asked, nothing is written."""
    hall = written(folder, "a.map", text_of(A))
    words = [hall, "--from", "0,0", "--to", "2,0", "--limit", "5", "--quiet", "--log"]
    for rest, number, _ in (TORN[0], TORN[4], TORN[8]):  # one of each number
        log = written(folder, "torn.log", CASE_A + REFUSED + rest)
        advice = "cut this one with truncate -s 160" if number == 61 else "this one is damaged there"
        complained = [f"torn.log breaks off at byte 160, where entry 3 begins: {REASONS[number]}", "2 entries before it are whole. Nothing is appended", advice]
        out = expect_run([*words, log], 2, [], complained)
        expect("nothing is asked or written then", out == "" and log.read_bytes() == CASE_A + REFUSED + rest, out)
    out = expect_run([hall, "--replay", "-", "--log", log], 2, [], ["breaks off at byte 160"], stdin=subprocess.DEVNULL)
    expect("nor replayed", out == "" and log.read_bytes() == CASE_A + REFUSED + rest, out)
    os.truncate(log, 160)
    expect_run([*words, log], 0, ["as entry 3, bytes 160 to 255"])
    expect("appended when cut as said", log.read_bytes() == CASE_A + REFUSED + CASE_A)
    held = log.read_bytes()
    for more, what in (
        (["--replay", log], "the file of questions"), (["--replay", QUESTIONS, "--answers", log], "the file of answers"), ([*words[1:-1], "--svg", log], "the picture"),
    ):
        expect_run([hall, *more, "--log", log], 2, [], [f"torn.log is {what} too; choose another file"])
    with open(log, "rb") as stream:
        expect_run([hall, "--replay", "-", "--log", log], 2, [], ["the file of questions too"], stdin=stream)
    expect("a log is no other file", log.read_bytes() == held)
    pipe = Path(folder, "pipe")
    os.mkfifo(pipe)
    for path, complained in (
        (folder, "cannot be opened: Is a directory"), ("/dev/full", "the log /dev/full is no plain file"), (pipe, "pipe is no plain file"),
        (Path(folder, "no", "such.log"), "cannot be opened: No such file or directory"), (hall, "log to another file; this one may be no route log"),
        (written(folder, "note.txt", "a note"), "0 entries before it are whole. Nothing is appended to it: log to another file; this one may be no route log"),
    ):
        expect("nothing is answered then", expect_run([*words, path], 2, [], [complained]) == "")
    expect_run([written(folder, "bad.map", "type tile\n"), *words[1:], Path(folder, "new.log")], 1, ["map refused 21"])
    expect("no log for a map that is refused", not Path(folder, "new.log").exists() and hall.read_text() == text_of(A))
    print("tools: logs: torn ones and what is no plain file are left as they are")


def test_full_disk(folder):
    """Where an entry does not fit, nothing of it is left, and what was answered is told."""
    hall = written(folder, "a.map", text_of(A))
    questions = written(folder, "some.questions", CASE_A[:RECORD] * 3)
    limited = ["bash", "-c", 'ulimit -f 4; exec "$@"', "bash", *ASK]  # 4 KB
    ends = "File too large; it ends with its last whole entry, at byte {}, and has {} entries"
    before = NONE * 63  # 64 bytes short of the limit
    log = written(folder, "full.log", before)
    words = [hall, "--from", "0,0", "--to", "2,0", "--limit", "5", "--quiet", "--log", log]
    out = expect_run(words, 2, ["found at cost 560"], [f"full.log takes no more: {ends.format(4032, 63)}"], command=limited)
    expect("the log is as it was", log.read_bytes() == before and "logged" not in out, out)
    told = json.loads(expect_run([*words, "--json"], 2, [], ["takes no more"], command=limited))
    expect("as an object", told["cost"] == 560 and told["logged"] is None and log.read_bytes() == before, told)
    before = NONE * 61  # room for two of three
    log.write_bytes(before)
    out = expect_run([hall, "--replay", questions, "--log", log], 2, ["   3  "], [ends.format(4096, 63)], command=limited)
    expect("what fits is logged", log.read_bytes() == before + CASE_A * 2 and "appended" not in out, out)
    expect_run(words, 0, ["as entry 64, bytes 4096 to 4191"])
    print("tools: logs: a disk that is full leaves whole entries alone")


def soon(holds):
    """Whether it comes to hold."""
    until = time.monotonic() + LONG
    while not holds() and time.monotonic() < until:
        time.sleep(0.02)
    return holds()


def waits(process):
    """Whether a process waits for a lock, as Linux lists them."""
    return re.search(rf"-> FLOCK .* {process.pid} ", Path("/proc/locks").read_text(encoding="ascii"))


def test_appenders(folder):
    """Who appends while another does waits; what both append is whole."""
    log, one = Path(folder, "both.log"), b"".join(reference.entry_on(FURNACE.read_bytes(), record) for record in records(QUESTIONS.read_bytes()))
    words = [*ASK, str(FURNACE), "--replay", str(QUESTIONS), "--quiet", "--log", str(log)]
    with open(log, "wb") as held:
        fcntl.flock(held, fcntl.LOCK_EX)
        both = [subprocess.Popen(words, stdout=subprocess.DEVNULL, stderr=subprocess.PIPE, env=environment()) for _ in range(2)]
        soon(lambda: all(waits(each) or each.poll() is not None for each in both))
        expect("who appends waits", [each.poll() for each in both] == [None, None] and log.read_bytes() == b"", log.read_bytes())
    for each in both:
        _, err = each.communicate(timeout=LONG)
        expect("two append", each.returncode == 0 and not err, err)
    expect("each batch is whole", log.read_bytes() == one * 2, log.read_bytes().hex())
    read(log, 0, ["36 entries in"], ["--quiet"])
    print("tools: logs: two who append at once")


def test_meanwhile(folder):
    """What happens to a log between two questions of a replay: entries of another stay, and a log that is torn or cut then is left as it is."""
    hall, log, pipe = written(folder, "a.map", text_of(A)), Path(folder, "long.log"), Path(folder, "pipe")
    os.mkfifo(pipe)
    for left, complained in (
        (CASE_A + NONE + CASE_A + b"torn", "breaks off at byte 256, where entry 4 begins: refused 61"), (NONE, "has lost entries meanwhile, and has 64 bytes in place of 256"),
    ):
        log.write_bytes(b"")
        words = [*ASK, str(hall), "--replay", str(pipe), "--log", str(log)]
        process = subprocess.Popen(words, stdout=subprocess.PIPE, stderr=subprocess.PIPE, env=environment())
        with open(pipe, "wb", buffering=0) as feed:
            feed.write(CASE_A[:RECORD])
            expect("each answer is logged at once", soon(lambda: log.read_bytes() == CASE_A), log.read_bytes())
            with open(log, "ab") as other:
                other.write(NONE)
            feed.write(CASE_A[:RECORD])
            expect("after what another has appended", soon(lambda: log.read_bytes() == CASE_A + NONE + CASE_A), log.read_bytes())
            log.write_bytes(left)
            feed.write(CASE_A[:RECORD])
        out, err = process.communicate(timeout=LONG)
        good = process.returncode == 2 and complained in err.decode() and err.count(b"\n") == 1 and out.count(b"found at cost 560") == 3
        expect(complained, good and log.read_bytes() == left, out + err)
    print("tools: logs: what another does to a log meanwhile")


def test_log_usage(folder):
    hall, log = HALLS / "row.map", Path(folder, "no.log")
    ends = ["--from", "0,0", "--to", "1,0"]
    for words, complained in (
        (["--log", log], "the following arguments are required: MAP"),
        ([*ends, "--log", log], "the following arguments are required: MAP"),
        ([hall, *ends, "--read-log", log], "--read-log does not go with --from x,y and --to x,y"),
        (["--read-log", log, "--log", log], "--read-log does not go with --log"),
        (["--read-log", log, "--replay", log], "--read-log does not go with --replay"),
        ([hall, "--read-log", log, "--answers", log, "--svg", "-"], "--read-log does not go with --svg and --answers"),
        ([hall, *ends, "--check", "2", "--cost", "1", "--log", log], "--check does not go with --log"),
        ([hall, "--from", "0,0", "--costs", "--log", log], "--costs does not go with --log"),
        ([hall, *ends, "--write-questions", log, "--log", log], "--write-questions does not go with --log"),
        ([hall, *ends, "--log", "-"], "--log appends to a plain file, and - is none"),
    ):
        expect_run(words, 2, [], ["./run: ", complained, "'./run --help' lists all words"])
    for words, complained in (
        ([hall, "--read-log", log], "no.log cannot be opened: No such file or directory"), (["--read-log", folder], "cannot be opened: Is a directory"),
        ([folder, "--read-log", log], "the map"),
    ):
        expect_run(words, 2, [], [complained])
    expect("nothing is made", not log.exists())
    ended, _, err = run(["-c", 'exec "$@" <&-', "bash", *ASK, "--read-log", "-"], command=["bash"])
    expect("a closed input", ended == 2 and "Traceback" not in err and err.count("\n") == 1, err)
    with open("/dev/full", "wb") as full:
        ended, _, err = run(["--read-log", written(folder, "a.log", CASE_A)], stdout=full)
        expect("a full disk for what is shown", ended == 2 and "No space left on device" in err and "Traceback" not in err, err)
    expect_run(["--help"], 0, ["--log FILE", "--read-log FILE", "route log"])
    print("tools: logs: wrong usage and missing files")
