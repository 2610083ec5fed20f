"""Files from before version 3.0.0, when a record had 16 bytes: they are named as such, and files of now are not, whole or torn, sound or with faults."""
import struct
import sys
from pathlib import Path

import reference
from common import HALLS, TESTED, expect, expect_run, written
from reference import RECORD, answered, asked, records

sys.path.insert(0, str(TESTED / "tools"))
from asking import earlier  # noqa: E402
from asking.programs import Trouble  # noqa: E402

THEN = "was recorded before records grew, in version 3.0.0: its records have 16 bytes, which are no longer read; "
QUESTIONS, ANSWERS = f"{THEN}write the questions anew, or replay them with the version they were written for", f"{THEN}compare them with the version that gave them"
LOG = f"{THEN}read it with the version that wrote it, and log to another file"
NAMES = sorted(path.stem for path in HALLS.glob("*.map"))
LOGS = ("furnace.log", "row.old.log")


# ---- the layout of then


def question_then(record):
    """Start, goal, limit, ways and three zeros; of what follows ways now the last three stand for them."""
    return record[:13] + record[-3:]


def answer_then(record):
    """Kind, refusal number, two zeros, settled count, number returned, route length."""
    return record[:16]


def entries(log):
    """The entries of a log of now, each as question, answer and directions."""
    at = 0
    while at < len(log):
        (length,) = struct.unpack_from("<I", log, at + RECORD + 12)
        route = log[at + 2 * RECORD :][:length]
        yield log[at : at + RECORD], log[at + RECORD : at + 2 * RECORD], route
        at += len(reference.entry(b"", b"", route)) + 2 * RECORD


def entry_then(record, given, route):
    return question_then(record) + answer_then(given) + route + b"\xff" * (-len(route) % 16)


def questions_of(name):
    return records((HALLS / f"{name}.questions").read_bytes())


def answers_of(name):
    return records((HALLS / f"{name}.answers").read_bytes())


# ---- named


def test_files_of_then(folder):
    """The halls' questions, answers and logs in the layout of then, and fronts of them."""
    count = 0
    for name in NAMES:
        hall = HALLS / f"{name}.map"
        then = [question_then(record) for record in questions_of(name)]
        given = [answer_then(record) for record in answers_of(name)]
        for many in {2, 3, len(then) - 1, len(then)} - {1}:
            path = written(folder, "q", b"".join(then[:many]))
            out = expect_run([hall, "--replay", path], 2, [], [f"the file of questions {path} {QUESTIONS}"])
            expect("none is answered, as refused or otherwise", out.count("\n") == 1, out)
            path = written(folder, "a", b"".join(given[:many]))
            expect("nothing is said then", expect_run([hall, "--replay", HALLS / f"{name}.questions", "--answers", path], 2, [], [f"{path} {ANSWERS}"]) == "")
            count += 2
        torn = written(folder, "q", b"".join(then) + b"\0\0\0")
        expect("nothing but that", expect_run([hall, "--replay", torn, "--json"], 2, [], [QUESTIONS]) == "")
    with open(written(folder, "q", b"".join(then)), "rb") as stream:
        expect_run([hall, "--replay", "-"], 2, [], [f"the file of questions - {QUESTIONS}"], stdin=stream)
    print(f"tools: {count} files of questions and answers from before records grew, named")


def test_logs_of_then(folder):
    """Logs in the layout of then are named, read and appended to, and stay as they are."""
    hall, log = HALLS / "row.map", Path(folder, "then.log")
    for name in LOGS:
        then = [entry_then(*entry) for entry in entries((HALLS / name).read_bytes())]
        refused = entry_then(asked(0, 9), answered(0, refusal=6), b"")
        for kept in (b"".join(then), then[0], then[0][:-1], then[0] + b"torn", refused * 3 + then[0]):
            log.write_bytes(kept)
            for words in (["--read-log", log], [hall, "--read-log", log]):
                out = expect_run(words, 2, [], [f"the log {log} {LOG}"])
                expect("it is not shown, as torn or otherwise", out.count("\n") == 1, out)
            expect("nor as objects", expect_run(["--read-log", log, "--json"], 2, [], [LOG]) == "")
            for words in (["--from", "0,0", "--to", "1,0", "--quiet"], ["--replay", HALLS / "row.questions"]):
                expect("nothing is asked", expect_run([hall, *words, "--log", log], 2, [], [f"the log {log} {LOG}"]) == "")
            expect("it stays", log.read_bytes() == kept)
    print("tools: logs from before records grew, named, and left as they are")


# ---- not named


def test_halves(folder):
    """The first half of a record of now is a whole one of then: a file that is no longer is told as broken or torn, with what it could be."""
    hall = HALLS / "row.map"
    half, given = written(folder, "q", questions_of("row")[0][:16]), written(folder, "a", answers_of("row")[0][:16])
    expect_run([hall, "--replay", half], 0, ["it has 16 of 32 bytes, and gets no answer; before version 3.0.0 a question had 16\n", "0 questions answered"])
    torn = "is torn: 16 bytes are no whole number of records of 32; before version 3.0.0 an answer had 16\n"
    expect_run([hall, "--replay", HALLS / "row.questions", "--answers", given], 2, [], [torn])
    for cut in (15, 17, 48):
        data = b"".join(questions_of("row"))[:cut]
        expect_run([hall, "--replay", written(folder, "q", data)], 0, [f"it has {cut % RECORD} of 32 bytes, and gets no answer\n"])
        data = b"".join(answers_of("row"))[:cut]
        torn = f"is torn: {cut} bytes are no whole number of records of 32\n"
        expect_run([hall, "--replay", HALLS / "row.questions", "--answers", written(folder, "a", data)], 2, [], [torn])
    log = written(folder, "log", (HALLS / "row.old.log").read_bytes()[:32])
    expect_run(["--read-log", log], 1, ["the log breaks off at byte 0, where entry 1 begins: refused 61: the file ends inside an entry, of which it has 32 bytes\n"])
    print("tools: halves of records are not taken for whole ones of then")


def named(refuse, data):
    """Whether the front end takes this for a file from then."""
    try:
        refuse("the file", "name", data)
    except Trouble:
        return True
    return False


def none_named(what, refuse, files):
    """How many files there are, none of which is taken for one from then."""
    count = 0
    for data in files:
        count += 1
        if named(refuse, data):
            expect(f"{what}: a file of now is not from then", False, data)
    return count


def cuts(data):
    """A file cut at any byte."""
    return (data[:cut] for cut in range(len(data) + 1))


def faults(record):
    """A record with each byte changed to each other value."""
    for place, byte in enumerate(record):
        for other in {*range(256)} - {byte}:
            yield record[:place] + bytes([other]) + record[place + 1 :]


def whole(data):
    return records(data[: len(data) - len(data) % RECORD])


# Found answers of now whose P reads as the kind, or as the refusal number, of an answer of then.
LIKE_THEN = [answered(1, 9, 70 * p + 99 * q, 5, p, q) for p in (1, 2, 3, 256, 1280, 3840) for q in (0, 1, 300)]


def test_files_of_now(_):
    """No file of now is named: each stored one cut at any byte, and each record alone, or each of two entries, with any one byte wrong."""
    count = 0
    for refuse, kept in ((earlier.refuse_questions, questions_of), (earlier.refuse_answers, answers_of)):
        for name in NAMES:
            count += none_named(f"{name}, cut", refuse, map(whole, cuts(b"".join(kept(name)))))
        for record in {*kept("furnace"), *kept("row"), *(LIKE_THEN if kept is answers_of else ())}:
            count += none_named(f"one record, {record.hex()}", refuse, ([each] for each in (record, *faults(record))))
    for name in LOGS:
        data = (HALLS / name).read_bytes()
        count += none_named(f"{name}, cut", earlier.refuse_log, cuts(data))
        for record, given, route in list(entries(data))[:2]:
            two, steps = record + given, reference.entry(b"", b"", route)
            count += none_named(f"{name}, one wrong byte", earlier.refuse_log, (spoiled + steps for spoiled in faults(two)))
    print(f"tools: {count} files of now, torn or with a fault, and none taken for one from then")


def test_more_of_now(folder):
    """Where records that read as two of then stand beside as many sound ones, the file is one of now, and they are its faults."""
    hall, then = HALLS / "row.map", [question_then(record) for record in questions_of("row")]
    sound, two = questions_of("row")[0], b"".join(then)
    expect_run([hall, "--replay", written(folder, "q", two + sound)], 0, ["refused 13: ", "2 questions answered\n"])
    expect_run([hall, "--replay", written(folder, "q", two * 2 + sound)], 2, [], [QUESTIONS])
    given, both = answers_of("row")[0], b"".join(answer_then(record) for record in answers_of("row"))
    path = written(folder, "a", both + given)
    expect_run([hall, "--replay", HALLS / "row.questions", "--answers", path], 1, ["DIFFERS: answer 1 ", "bytes 24 to 31 are not 0\n", "1 given answer differs"])
    expect_run([hall, "--replay", HALLS / "row.questions", "--answers", written(folder, "a", both * 2 + given)], 2, [], [ANSWERS])
    print("tools: records of then among sound ones are faults")
