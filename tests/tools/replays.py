"""Replays: what differs, what is missing, and that answers come while questions are still to come. The halls of examples/, and README's samples."""
import json
import os
import pty
import re
import select
import subprocess
import sys
import time
from pathlib import Path

import reference
from common import ASK, HALLS, LONG, ROOT, environment, expect, expect_run, run, text_of, written
from reference import RECORD, records


def test_halls(folder):
    ended, out, err = run([folder], command=[sys.executable, str(HALLS / "make.py")])
    expect("examples/halls/make.py", ended == 0, out + err)
    count = 0
    for path in sorted(HALLS.iterdir()):
        if path.suffix in (".map", ".questions", ".answers", ".log"):
            made = Path(folder, path.name)
            expect(f"{path.name} is what make.py makes", made.exists() and made.read_bytes() == path.read_bytes())
    for hall in sorted(HALLS.glob("*.map")):
        questions, answers = hall.with_suffix(".questions"), hall.with_suffix(".answers")
        asked, stored, text = records(questions.read_bytes()), records(answers.read_bytes()), hall.read_bytes()
        expect_run([hall, "--replay", questions, "--answers", answers], 0, [f"{len(asked)} questions answered; 0 given answers differ"])
        for place, (record, answer) in enumerate(zip(asked, stored, strict=True), 1):
            ours = reference.answer(text, record)
            expect(f"{hall.name}: answer {place}", ours == answer, ours.hex(" "))
            count += 1
    print(f"tools: {count} stored answers of the halls, replayed and compared with a search of the test's own")


def test_story(_):
    expect_run([HALLS / "row.map", "--from", "0,0", "--to", "40,0"], 0, ["found at cost 11130 in 40 steps"])
    expect_run([HALLS / "furnace.map", "--from", "3,12", "--to", "43,12"], 0, ["found at cost 6510 in 46 steps", "route: 2 S, 41 E, 2 N, 1 W"])
    expect_run([HALLS / "furnace.map", "--from", "43,12", "--to", "3,12"], 0, ["found at cost 6510 in 46 steps", "route: 1 E, 2 S, 41 W, 2 N"])
    through = "the claim holds: 40 steps at cost 11130"
    expect_run([HALLS / "furnace.map", "--from", "3,12", "--to", "43,12", "--check", "2" * 40, "--cost", "11130", "--quiet"], 0, [through])
    differs = "DIFFERS: answer 1 (bytes 0 to 31) says found at cost 5600 in 40 steps, P 80, Q 0;"
    expect_run(
        [HALLS / "row.map", "--replay", HALLS / "row.questions", "--answers", HALLS / "row.old.answers"], 1,
        ["found at cost 11130 in 40 steps, P 159, Q 0;", differs, "2 given answers differ (number 1, 2)"],
    )
    print("tools: forty warm cells: the numbers of examples/halls/README.md")


def test_replayed(_):
    """Questions and answers of every kind, in words."""
    expect_run([HALLS / "furnace.map", "--replay", HALLS / "furnace.questions"], 0, [
        "   1  (3,12) to (43,12), 8 ways, limit 4096\n      found at cost 6510 in 46 steps, P 93, Q 0; 528 cells settled\n",
        "found at cost 11374 in 31 steps, P 154, Q 6; 694 cells settled\n",
        "(24,15) to cell 1152 (off the map), 8 ways", "refused 6: the goal is not on the map",
        "limit 4096, byte 31 is 01\n      refused 13: the last 19 bytes of the question are not all 0", "6 ways", "refused 4",
        "limit 0\n      refused 15: the limit is 0", "18 questions answered\n", "answered by the program\n",
    ])
    print("tools: replays: every kind of answer in words")


def altered(answers, offset):
    return answers[:offset] + bytes([answers[offset] ^ 1]) + answers[offset + 1 :]


def test_compared(folder):
    hall, questions = HALLS / "furnace.map", HALLS / "furnace.questions"
    asked, answers = questions.read_bytes(), (HALLS / "furnace.answers").read_bytes()

    def replay(given, status, said, records=asked, complained=()):
        words = [hall, "--replay", written(folder, "q", records), "--answers", written(folder, "a", given), "--quiet"]
        out = expect_run(words, status, said, complained)
        if status < 2:
            told = [json.loads(line) for line in expect_run([*words, "--json"], status).split("\n")[:-1]]
            counts = told[-1]["summary"]
            expect("the objects count alike", (out.count("DIFFERS"), out.count("MISSING")) == (counts["differ"], counts["missing"]), told[-1])
            compared = [each["compared"] for each in told[:-1]]
            expect("each is named", (compared.count("differs"), compared.count("missing")) == (counts["differ"], counts["missing"]), told)
        return out

    out = replay(altered(answers, RECORD * 6 + 8), 1, ["DIFFERS: answer 7 (bytes 192 to 223) says found at cost 11481", "1 given answer differs (number 7)"])
    expect("one difference", out.count("DIFFERS") == 1 and "   7  (10,7) to (37,7), 4 ways" in out and "found at cost 11480" in out, out)
    each = answers * 2
    for place in range(RECORD):
        each = altered(each, (RECORD + 1) * place)
    out = replay(each, 1, ["32 given answers differ (number 1, 2, 3, 4, 5, 6, 7, 8 and 24 more)"], asked * 2)
    expect("each byte of a record counts", out.count("DIFFERS") == RECORD, out)
    out = replay(answers[:-RECORD], 1, ["MISSING: answer 18 (bytes 544 to 575) is not in the file of answers", "0 given answers differ; 1 answer is missing (number 18)"])
    expect("missing is not different", "DIFFERS" not in out, out)
    replay(b"", 1, ["0 given answers differ; 18 answers are missing (number 1, 2, 3, 4, 5, 6, 7, 8 and 10 more)"])
    replay(altered(answers[: -2 * RECORD], 8), 1, ["1 given answer differs (number 1); 2 answers are missing (number 17, 18)"])
    replay(answers + answers[:RECORD], 1, ["1 given answer more than questions", "0 given answers differ"])
    replay(answers[:-3], 2, [], complained=["the file of answers", "is torn: 573 bytes are no whole number of records of 32\n"])
    replay(answers, 0, ["the last question is broken: it has 7 of 32 bytes, and gets no answer\n", "18 questions answered; 0"], asked + b"1234567")
    replay(b"", 0, ["0 questions answered; 0 given answers differ"], b"")
    for path in (folder, "/dev/zero"):
        expect_run([hall, "--replay", questions, "--answers", path], 2, [], [f"the file of answers {path}"])
    expect_run([hall, "--replay", folder], 2, [], ["the file of questions"])
    many = asked * 3000
    expect_run([hall, "--replay", written(folder, "q", many), "--answers", written(folder, "a", answers * 3000), "--quiet"], 0, ["54000 questions answered; 0 given"])
    print("tools: replays: altered, missing and further answers, torn and broken files, 54000 questions")


# What is done to the first or the fourth answer of the furnace hall, found and stopped; and what is then said of it beside its own words.
SPOILED_ANSWERS = (
    (0, {"p": 92}, "found at cost 6510 in 46 steps, P 92, Q 0; 528 cells settled\n"), (0, {"q": 1}, "found at cost 6510 in 46 steps, P 93, Q 1; 528 cells settled\n"),
    (0, {"p": 0, "q": 93}, "found at cost 6510 in 46 steps, P 0, Q 93; 528 cells settled\n"),
    (3, {"p": 3}, "costs less; P 3, Q 0 in an answer that is not found\n"), (3, {"q": 5}, "costs less; P 0, Q 5 in an answer that is not found\n"),
)


def test_sums_compared(folder):
    """P and Q of a given answer, and the zeros after them, are compared as all else is, and told in words and as objects."""
    hall, stored = HALLS / "furnace.map", records((HALLS / "furnace.answers").read_bytes())
    words = [hall, "--replay", HALLS / "furnace.questions", "--quiet", "--answers"]
    for place, other, said in SPOILED_ANSWERS:
        kind, refusal, settled, number, length, p, q = reference.numbers_in(stored[place])
        given = reference.answered(kind, settled, number, length, **{"p": p, "q": q, **other}, refusal=refusal)
        path = written(folder, "a", b"".join([*stored[:place], given, *stored[place + 1 :]]))
        out = expect_run([*words, path], 1, [f"DIFFERS: answer {place + 1} (bytes {RECORD * place} to {RECORD * place + 31}) says ", said, "1 given answer differs"])
        expect("both in hex", f"        given  {given.hex(' ')}\n        proved {stored[place].hex(' ')}\n" in out, out)
        told = json.loads(expect_run([*words, path, "--json"], 1).split("\n")[0])
        proved, claimed = ([each.get("p"), each.get("q")] for each in (told, told["given"]))
        due = [[p, q], [other.get("p", p), other.get("q", q)]] if kind == 1 else [[None] * 2] * 2
        expect(f"{other} as an object", (told["compared"], [proved, claimed], told["given"]["hex"]) == ("differs", due, given.hex()), told)
    odd = b"".join([stored[0][:-1] + b"\1", *stored[1:]])
    expect_run([*words, written(folder, "a", odd)], 1, ["P 93, Q 0; 528 cells settled; bytes 24 to 31 are not 0\n", "1 given answer differs"])
    print("tools: replays: other P and Q, and other zeros after them")


def test_limit_0_replayed(folder):
    """Limit 0 in a file of questions: refused after all else, with what to do."""
    path, last = written(folder, "a.map", text_of(".@./...")), bytes(18) + b"\1"
    # start, goal, ways, what follows them; all with limit 0
    asked = [reference.asked(start, goal, 0, ways, zeros) for start, goal, ways, zeros in (
        (0, 2, 8, bytes(19)), (0, 2, 8, last), (0, 2, 6, bytes(19)), (6, 2, 8, bytes(19)), (0, 6, 8, bytes(19)), (1, 2, 8, bytes(19)), (0, 1, 8, bytes(19)),
        (0, 0, 4, bytes(19)),
    )]
    due = [reference.answer(path.read_bytes(), record) for record in asked]
    expect("each of the others is told before 15", [answer[:2] for answer in due] == [bytes((0, number)) for number in (15, 13, 4, 5, 6, 7, 8, 15)])
    words = [path, "--replay", written(folder, "q", b"".join(asked)), "--answers", written(folder, "a", b"".join(due))]
    advice = "nothing can be settled with limit 0; a record that is to search the whole map has limit 4294967295"
    refused = f"(0,0) to (2,0), 8 ways, limit 0\n      refused 15: the limit is 0 (left empty?), and must be at least 1\n      {advice}\n"
    out = expect_run(words, 0, [f"   1  {refused}   2  ", "8 questions answered; 0 given answers differ"])
    expect("advice where the limit is what is wrong", out.count(advice) == 2, out)
    told = [json.loads(line) for line in expect_run([*words, "--json"], 0).split("\n")[:-2]]
    expect("advice, as an object", [each["question"] for each in told if each.get("advice") == advice] == [1, 8], told)
    print("tools: replays: limit 0, beside every other refusal")


def test_spoiled_zeros(folder):
    """A question that does not end in its zeros is refused as 13, and the line says which bytes are none."""
    path = written(folder, "a.map", text_of(".@./..."))
    for first, spoiled, said in (
        (13, b"\1", "byte 13 is 01"), (31, b"\xff", "byte 31 is ff"), (16, b"\7", "byte 16 is 07"), (13, bytes(range(1, 20)), "bytes 13 to 31 are 01 02 03 04"),
        (15, b"\1\0\2", "bytes 15 to 17 are 01 00 02"), (28, b"\x08", "byte 28 is 08"),
    ):
        zeros = bytes(first - 13) + spoiled + bytes(RECORD - first - len(spoiled))
        words = [path, "--replay", written(folder, "q", reference.asked(0, 2, 5, 8, zeros)), "--answers", written(folder, "a", reference.answered(0, refusal=13))]
        expect_run(words, 0, [f"limit 5, {said}", "\n      refused 13: the last 19 bytes of the question are not all 0\n", "1 question answered; 0 given answers differ"])
    print("tools: replays: each of a question's zeros counts")


SOON = 10  # seconds in which an answer comes


def line_soon(process, lines):
    """The next line, if it comes while the program waits for more."""
    if not select.select([process.stdout], [], [], SOON)[0]:
        process.kill()
        expect("an answer before the next question", False, lines)
        return b""
    return process.stdout.readline()


def test_streams(folder):
    """A question is answered before the next one comes, and a long replay shows how far it is."""
    hall, asked = HALLS / "furnace.map", (HALLS / "furnace.questions").read_bytes()
    pipe = Path(folder, "pipe")
    os.mkfifo(pipe)
    # unbuffered here, so that what select sees is what readline gets
    process = subprocess.Popen([*ASK, str(hall), "--replay", str(pipe)], stdout=subprocess.PIPE, stderr=subprocess.PIPE, bufsize=0, env=environment())
    with open(pipe, "wb", buffering=0) as feed:
        lines = [line_soon(process, [])]
        for place in range(3):
            feed.write(asked[RECORD * place : RECORD * place + 9])
            feed.write(asked[RECORD * place + 9 : RECORD * (place + 1)])
            lines += [line_soon(process, lines), line_soon(process, lines)]
            expect(f"answer {place + 1} before the next question", lines[-2].decode().startswith(f"{place + 1:>4}  ("), lines)
    rest, err = process.communicate(timeout=LONG)
    expect("the end of a stream", rest.decode() == "3 questions answered\n" and not err, rest + err)
    done = subprocess.run([*ASK, str(hall), "--replay", "-"], input=asked, capture_output=True, env=environment(), timeout=LONG, check=False)
    expect("standard input", done.returncode == 0 and b"18 questions answered\n" in done.stdout, done.stdout + done.stderr)

    controller, terminal = pty.openpty()
    process = subprocess.Popen([*ASK, str(hall), "--replay", str(pipe), "--quiet"], stdout=subprocess.PIPE, stderr=terminal, env=environment())
    os.close(terminal)
    with open(pipe, "wb", buffering=0) as feed:
        feed.write(asked[:RECORD])
        time.sleep(1.3)
        feed.write(asked[RECORD : 3 * RECORD])
        time.sleep(0.3)
    out, _ = process.communicate(timeout=LONG)
    shown = b""
    try:
        while piece := os.read(controller, 4096):
            shown += piece
    except OSError:
        pass
    os.close(controller)
    expect("a line that says how far it is, and goes", re.fullmatch(rb"(\r\d+ questions answered \.\.)+\r +\r", shown) and b"3 questions answered\n" in out, shown)
    print("tools: a replay answers as questions come, and shows how far it is")


def samples(page):
    """The commands of a page with what it shows of their output; a line of dots stands for lines left out."""
    command, shown = None, []
    for line in [*page.split("\n"), ""]:
        if line.startswith("    $ ./run ") or (command and not line.startswith("    ")):
            if command:
                yield command, shown
            command, shown = None, []
        if line.startswith("    $ ./run "):
            command = line[len("    $ ./run ") :].split()
        elif command:
            shown.append(line[4:])


def test_samples(folder):
    """What README.md, docs/MANUAL.md and examples/halls/README.md show is what the commands print, whole or cut with a visible mark."""
    count = 0
    for page in (ROOT / "README.md", ROOT / "docs" / "MANUAL.md", HALLS / "README.md"):
        for words, shown in samples(page.read_text(encoding="utf-8")):
            words = [str(ROOT / word) if word.startswith("examples/") else os.path.join(folder, word) if word.endswith(".svg") else word for word in words]
            _, out, _ = run(words)
            pattern = "".join("(?:.*\n)*?" if line.strip() in ("..", "...") else re.escape(line.replace(" ...", "")) + "\n" for line in shown)
            expect(f"{page.name}: {' '.join(words)}", re.fullmatch(pattern, out.replace(folder + os.sep, "")), f"shown\n{chr(10).join(shown)}\nprinted\n{out}")
            count += 1
    expect("there are samples", count >= 6)
    print(f"tools: {count} samples of the pages are what the commands print")


def section(page, title):
    return page.split(f"### {title}\n")[1].split("\n#")[0]


def test_manual_records(folder):
    """The records that docs/MANUAL.md shows byte by byte, "A question and its answer" and "An entry of 96 bytes", asked, answered and read."""
    page = (ROOT / "docs" / "MANUAL.md").read_text(encoding="utf-8")
    shown = section(page, "A question and its answer")
    asked, answered = (b"".join(map(bytes.fromhex, re.findall(r"^\| `([0-9a-f ]+)` \|", part, re.MULTILINE))) for part in shown.split("and its answer:"))
    path = written(folder, "a.map", text_of(".@./..."))
    given = written(folder, "a", answered)
    expect_run([path, "--replay", written(folder, "q", asked), "--answers", given], 0, ["found at cost 560 in 4 steps, P 8, Q 0; 5 cells", "1 question answered; 0 given answers differ"])
    expect("01's example, as R-6 has it", (asked, answered) == (reference.asked(0, 2, 5), reference.answered(1, 5, 560, 4, 8)), shown)
    zeros = {"twenty": 20, "thirty": 30}
    others = [bytes.fromhex(digits) + bytes(zeros[count]) for digits, count in re.findall(r"answered `([0-9a-f ]+)` and (twenty|thirty) zeros", shown)]
    questions = written(folder, "q", reference.asked(0, 2, 1) + reference.asked(0, 2, 1, zeros=bytes(18) + b"\1") + reference.asked(0, 2, 0))
    words = [written(folder, "g.map", text_of(".@.")), "--replay", questions, "--answers", written(folder, "a", b"".join(others))]
    expect_run(words, 0, ["none: no route leads", "refused 13: ", "refused 15: ", "3 questions answered; 0 given answers differ"])
    lines = re.findall(r"^    ((?:[0-9a-f]{2} ){32})", section(page, "An entry of 96 bytes"), re.MULTILINE)
    entry = b"".join(map(bytes.fromhex, lines))
    expect("an entry of the same", entry == reference.entry(asked, answered, (4, 2, 2, 0)), entry.hex(" "))
    expect_run([path, "--read-log", written(folder, "log", entry)], 0, ["route: 1 S, 2 E, 1 N", "1 entry in 96 bytes; 1 route checked; 0 routes are wrong; 0 entries differ"])
    print("tools: the records of the manual, byte by byte")


def test_run(folder):
    command = [str(ROOT / "run")]
    expect_run([], 0, ["found at cost 11130", "2 given answers differ", "found at cost 6510", "A* and the plain search have the same kind", "18 questions answered; 0 given answers differ"], command=command, cwd=folder)
    path = written(folder, "mine.map", text_of(".@./..."))
    expect_run([path.name, "--from", "0,0", "--to", "2,0", "--quiet"], 0, ["found at cost 560"], command=command, cwd=folder)
    expect_run(["no.map", "--from", "0,0", "--to", "2,0"], 2, [], ["no.map cannot be opened"], command=command, cwd=folder)
    print("tools: ./run from another folder, alone and with words")
