"""Questions, claims, cost tables and question files: what is said, as words, as an object and as a status."""
import json
import math
import random
from pathlib import Path

import reference
from common import HALLS, HERE, bare, expect, expect_run, run, text_of, written
from pictures import Svg, expect_picture, expect_svg, floor_due

# 01's cases, h as R-2 and the costs as R-3 has them: map, ways, from, to, limit, and what is said. The map's rows are parted by /.
CASES = {
    "a": (".@./...", 8, "0,0", "2,0", 5, ["found at cost 560 in 4 steps; 5 cells settled", "true length 8 + 0√2 = 8.000; a straight step", "route: 1 S, 2 E, 1 N"]),
    "b": (".@./...", 8, "0,0", "2,0", 4, ["stopped after 4 cells at floor 560"]),
    "c": (".../.../...", 8, "0,0", "2,2", 9, ["found at cost 396 in 2 steps; 9 cells", "true length 0 + 4√2 = 5.657; a straight step", "route: 2 SE"]),
    "d": (".../.../...", 4, "0,0", "2,2", 9, ["found at cost 560 in 4 steps; 9 cells", "route: 2 S, 2 E"]),
    "e": ("../.9", 8, "0,0", "1,1", 4, ["found at cost 840 in 2 steps; 4 cells", "true length 12 + 0√2 = 12.000; a straight step", "route: 1 S, 1 E"]),
    "f": (".9./...", 8, "0,0", "2,0", 6, ["found at cost 396 in 2 steps; 5 cells", "true length 0 + 4√2 = 5.657", "route: 1 SE, 1 NE"]),
    "g": (".@.", 8, "0,0", "2,0", 1, ["none: no route leads to the goal; 1 cell settled"]),
    "h": (".@.", 8, "0,0", "2,0", 0, ["refused 15: the limit is 0 (left empty?), and must be at least 1", "leave out --limit to search the whole map"]),
    "i": (".", 8, "0,0", "0,0", 1, ["found at cost 0 in 0 steps; 1 cell settled", "true length 0 + 0√2 = 0.000; a straight step", "B start and goal"]),
    "j": (".9", 8, "0,0", "1,0", 2, ["found at cost 700 in 1 step; 2 cells", "true length 10 + 0√2 = 10.000", "route: 1 E"]),
    "k": (".9", 8, "1,0", "0,0", 2, ["found at cost 700 in 1 step; 2 cells", "true length 10 + 0√2 = 10.000", "route: 1 W"]),
    "l": (".@/@.", 8, "0,0", "1,1", 4, ["none: no route leads to the goal; 1 cell settled"]),
}


def status_due(said):
    return 1 if said[0].startswith("refused") else 0


def test_cases(folder):
    for name, (rows, ways, start, goal, limit, said) in CASES.items():
        path = written(folder, f"case_{name}.map", text_of(rows))
        words = [path, "--from", start, "--to", goal, "--ways", ways, "--limit", limit]
        out = expect_run(words, status_due(said), [*said, "answered by the program and the library, alike"])
        if any(piece.startswith("found") for piece in said):
            expect(f"case {name}: the claim", "checked as a claimed route: holds" in out, out)
    print(f"tools: the {len(CASES)} cases of the paper, in words")


def test_stored_text(folder):
    path = written(folder, "case_a.map", text_of(".@./..."))
    stored = (HERE / "case_a.txt").read_text(encoding="utf-8")
    words = [path, "--from", "0,0", "--to", "2,0", "--limit", "5", "--color", "never"]
    _, out, _ = run(words)
    expect("case a as stored", out == stored, out)
    _, out, _ = run(words, env={"PYTHONIOENCODING": "ascii"})
    expect("case a in plain characters", out.isascii() and "true length 8 + 0 sqrt(2) = 8.000; a straight step on level floor is 2\n" in out and "|> > ^ |" in out, out)
    _, out, _ = run([*words[:-1], "always"])
    expect("case a in colour", "\033[" in out and bare(out) == stored, out)
    print("tools: case a as stored, in colour, in plain characters")


def test_refused_questions(_):
    hall = HALLS / "furnace.map"
    for start, goal, said in (
        ("48,0", "1,1", ["refused 5: the start is not on the map", "x goes from 0 to 47 and y from 0 to 23"]),
        ("=-1,5", "1,1", ["refused 5: the start is not on the map", "from (-1,5) off the map"]),
        ("1,1", "1,24", ["refused 6: the goal is not on the map"]),
        ("1,1", "123456789012345678901234567890,4", ["refused 6: the goal is not on the map"]),
        ("99,99", "99,99", ["refused 5: the start is not on the map"]),
        ("0,0", "0,0", ["refused 7: the start is blocked"]),
        ("1,1", "6,3", ["refused 8: the goal is blocked"]),
    ):
        begin = [f"--from{start}"] if start.startswith("=") else ["--from", start]
        expect_run([hall, *begin, "--to", goal], 1, said)
        told = json.loads(expect_run([hall, *begin, "--to", goal, "--limit", "0", "--json"], 1))
        advice = "on this map x goes from 0 to 47 and y from 0 to 23" if told["refusal"] in (5, 6) else None
        expect(f"{said[0]}, with limit 0 too", said[0] == f"refused {told['refusal']}: {told['why']}" and told.get("advice") == advice, told)
    print("tools: questions refused as 5 to 8, with limit 0 too")


def limits(rows, start, goal):
    """The limits at which answers change: the least, and those around the goal's place in L and around its end; and the greatest."""
    costs = reference.least_costs(rows, 8, start)
    listed = sorted(costs, key=lambda cell: (costs[cell], cell))
    around = {len(listed), *([listed.index(goal)] if goal in costs else [])}
    return sorted({0, 1, 4294967295, *(max(near + more, 0) for near in around for more in (-1, 0, 1))})


def test_limits(folder):
    """Answers at the limits where they change; those to 0 and 1 asked one by one too, in words and as objects."""
    count = 0
    for text, start, goal in (
        (".@./...", 0, 2), ("..", 0, 1), (".@.", 0, 2), (".", 0, 0), ("...", 1, 1), ("9.2/.3.", 3, 2), ("." * 65, 0, 64),
    ):
        path = written(folder, "limits.map", text_of(text))
        rows = reference.rows_of(path.read_bytes())
        ends = [word for name, cell in (("--from", start), ("--to", goal)) for word in (name, f"{cell % len(rows[0])},{cell // len(rows[0])}")]
        asked = [reference.asked(start, goal, limit) for limit in limits(rows, start, goal)]
        due = [reference.answer(path.read_bytes(), record) for record in asked]
        replayed = [path, "--replay", written(folder, "q", b"".join(asked)), "--answers", written(folder, "a", b"".join(due))]
        expect_run(replayed, 0, [f"{len(asked)} questions answered; 0 given answers differ"])
        count += len(asked)
        for limit, answered in enumerate(due[:2]):
            kind, number, settled, returned, *_ = reference.numbers_in(answered)
            words = [path, *ends, "--limit", limit]
            said = ("refused 15: ", f"found at cost {returned} in 0 steps; 1 cell ", "none: ", f"stopped after 1 cell at floor {returned}: ")[kind]
            expect_run([*words, "--quiet"], 0 if kind else 1, [f"8 ways, limit {limit}\n{said}"])
            told = json.loads(expect_run([*words, "--json"], 0 if kind else 1))
            shown = told["kind"], told.get("refusal", 0), told.get("settled", 0), told["limit"]
            expect(f"{text} from {start} to {goal}, limit {limit}", shown == (("refused", "found", "none", "stopped")[kind], number, settled, limit), told)
    print(f"tools: {count} questions with limits from 0 on")


def test_limit_0(folder):
    """Limit 0 is refused with what to do about it, and its picture has no settled stretch."""
    rows = ["..2@9", "34.5.", "6@7.8", "9..2."]
    path, drawn = written(folder, "zero.map", text_of(rows)), Path(folder, "zero.svg")
    weights = reference.rows_of(path.read_bytes())
    why, advice = "the limit is 0 (left empty?), and must be at least 1", "nothing can be settled with limit 0; leave out --limit to search the whole map"
    for words, start, goal in ((["--from", "0,0", "--to", "4,3"], 0, 19), (["--from", "2,0", "--to", "2,0"], 2, 2)):
        words = [path, *words, "--limit", "0"]
        out = expect_run(words, 1, [f"8 ways, limit 0\nrefused 15: {why}\n{advice}\nanswered by the program and the library, alike\n"])
        due = floor_due(weights, start, goal, 8, settled=False, route=[])
        expect_picture("limit 0", out, weights, due, start, goal, "beside")
        told = json.loads(expect_run([*words, "--json"], 1))
        expect("limit 0 as an object", (told["refusal"], told["why"], told["advice"], told["limit"]) == (15, why, advice, 0) and "route" not in told, told)
        expect_run([*words, "--quiet", "--svg", drawn], 1, [advice])
        picture = expect_svg("limit 0 as SVG", drawn.read_bytes(), weights, due, start, goal, [])
        texts = [part.text for part in picture.of("text")]
        expect("limit 0 in the picture's headline", texts[:2] == [f"refused 15: {why}", advice] and not any("settled," in text for text in texts), texts)
    print("tools: limit 0 in words, as an object, in pictures")


def test_empty_limit(folder):
    """A box that was left empty, handed on by a script with quotes and without: what to do, and nothing is asked."""
    hall, made = HALLS / "row.map", Path(folder, "made.questions")
    ends = ["--from", "0,0", "--to", "1,0"]
    empty = ["argument --limit: it is empty; a limit is a whole number from 1 to 4294967295; leave out --limit to search the whole map"]
    for words in (["--limit", ""], ["--limit="], ["--limit", " "], ["--limit"]):
        for more in ([], ["--json"], ["--write-questions", made]):
            expect("nothing is answered then", expect_run([hall, *more, *words, *ends], 2, [], [*empty, "'./run --help' lists all words"]) == "")
            expect_run([hall, *more, *ends, *words], 2, [], empty)
    for limit in ("-1", "4294967296", "ten", "1 2", "0x1", "²"):
        expect_run([hall, *ends, f"--limit={limit}"], 2, [], [f"argument --limit: that is a whole number from 1 to 4294967295, not {limit}"])
    zero = ["the question: the limit is 0 (left empty?), and must be at least 1; leave out --limit to search the whole map"]
    expect_run([hall, "--write-questions", made, *ends, "--limit", "0"], 2, [], zero)
    expect("no question is written that would be refused for its limit", not made.exists())
    for limit, due in (("1", 1), ("4294967295", 4294967295), (None, 4294967295)):
        expect_run([hall, "--write-questions", made, *ends, *(["--limit", limit] if limit else [])], 0, ["1 question in"])
        expect(f"a question with limit {limit}", made.read_bytes() == reference.asked(0, 1, due), made.read_bytes().hex())
    print("tools: a limit that is empty, or no number, or 0 in a question that is written")


def test_refused_maps(folder):
    head = "type octile\nheight 2\nwidth 3\nmap\n"
    unix = "carriage return; lines end in LF alone, so save the map with Unix line ends"
    for name, text, said in (
        ("empty", "", ["map refused 21 at 0", "line 1, column 1", "the text ends before it"]),
        ("type", "type tile\n", ["map refused 21 at 0", "it reads 'type tile'"]),
        ("height", "type octile\nheight 02\nwidth 3\nmap\n", ["map refused 22 at 12", "line 2, column 1: it reads 'height 02'"]),
        ("width", "type octile\nheight 2\nwidth  3\nmap\n", ["map refused 23 at 21", "line 3, column 1: it reads 'width  3'"]),
        ("fourth", "type octile\nheight 2\nwidth 3\nMap\n", ["map refused 24 at 29", "line 4, column 1: it reads 'Map'"]),
        ("water", head + ".W.\n...\n", ["map refused 25 at 34", "line 5, column 2: the byte is 'W'; cells are . and G"]),
        ("short", head + "..\n...\n", ["map refused 25 at 35", "line 5, column 3: the row ends too soon"]),
        ("windows", (head + "...\n...\n").replace("\n", "\r\n"), ["map refused 21 at 0", unix]),
        ("windows_rows", head + "...\r\n...\r\n", ["map refused 26 at 36", "line 5, column 4", unix]),
        ("windows_short", head + "..\r\n...\n", ["map refused 25 at 35", unix]),
        ("long", head + "....\n...\n", ["map refused 26 at 36", "line 5, column 4: the byte is '.'; the row is longer"]),
        ("ends", head + "...\n..", ["map refused 27 at 39", "line 6, column 3: rows are missing"]),
        ("more", head + "...\n...\n\n", ["map refused 28 at 41", "line 7, column 1: the byte is '\\n'"]),
        ("huge", "type octile\nheight 1025\nwidth 1\nmap\n", ["map refused 22 at 12", "H from 1 to 1024"]),
    ):
        path = written(folder, f"{name}.map", text)
        expect_run([path, "--from", "0,0", "--to", "0,0"], 1, [f"{name}.map:", *said])
        told = json.loads(expect_run([path, "--from", "0,0", "--to", "0,0", "--json"], 1))
        expect(f"{name} as an object", told["kind"] == "map refused" and f"map refused {told['refusal']} at {told['place']}" in said[0], told)
    path = written(folder, "water.map", head + ".W.\n...\n")
    expect_run([path, "--replay", HALLS / "row.questions"], 1, ["map refused 25 at 34", "line 5, column 2"])
    print("tools: maps refused as 21 to 28, with line and column, and what to do about carriage returns")


def test_usage(folder):
    hall, questions = HALLS / "row.map", HALLS / "row.questions"
    ends = ["--from", "0,0", "--to", "1,0"]
    for words, complained in (
        ([], "the following arguments are required: MAP"),
        ([hall], "a question needs --from x,y and --to x,y"),
        ([hall, "--from", "0,0"], "a question needs --to x,y"),
        ([hall, "--from", "0;0", "--to", "1,0"], "a cell is x,y such as 3,8, not 0;0"),
        ([hall, *ends, "--ways", "5"], "invalid choice: 5"),
        ([hall, *ends, "--check", "2", "--cost", "4294967296"], "a whole number from 0 to 4294967295"),
        ([hall, *ends, "--check", "2", "--cost", ""], "a whole number from 0 to 4294967295"),
        ([hall, *ends, "--answers", questions], "a question does not go with --answers"),
        ([hall, *ends, "--cost", "5"], "a question does not go with --cost"),
        ([hall, *ends, "--replay", questions], "--replay does not go with --from x,y and --to x,y"),
        ([hall, "--replay", questions, "--limit", "5"], "--replay does not go with --limit"),
        ([hall, *ends, "--check", "22"], "--check needs --cost N"),
        ([hall, *ends, "--check", "Q", "--cost", "1"], "a route is digits 0 to 7 such as 4220"),
        ([hall, *ends, "--costs"], "--costs does not go with --to"),
        ([hall, "--costs"], "--costs needs --from x,y"),
        ([hall, "--write-questions", "-"], "--write-questions needs --from x,y and --to x,y"),
        ([hall, *ends, "--write-questions", "-", "--csv", "x"], "--write-questions does not go with --from x,y and --to x,y"),
        ([hall, *ends, "--svg", "-", "--json"], "--svg - has standard output to itself"),
        ([hall, *ends, "--\033[31mred"], "\\x1b[31mred"),
    ):
        expect_run(words, 2, [], ["./run: ", complained, "'./run --help' lists all words"])
    for words, complained in (
        ([folder, *ends], "cannot be opened: Is a directory"),
        ([Path(folder, "no.map"), *ends], "no.map cannot be opened: No such file or directory"),
        ([hall, "--replay", Path(folder, "no.questions")], "the file of questions"),
        ([hall, "--replay", questions, "--answers", Path(folder, "no")], "the file of answers"),
    ):
        expect_run(words, 2, [], ["./run: ", complained])
    expect_run(["--help"], 0, ["usage: ./run", "exit status", "--replay QUESTIONS", "examples", "sqrt(2)", "settle at most N cells, N at least 1", "Sides go up to 1,024;"])
    expect_run(["--version"], 0, ["fradnumber 4.0.0\n"])
    print("tools: wrong usage and missing files")


# ---- maps beyond the program's


def test_large_floors(folder):
    """The library answers where the program takes no map, and the front end says so."""
    generator = random.Random(5)
    for width, height, start, goal in ((65, 3, (0, 0), (64, 2)), (3, 70, (0, 0), (2, 69)), (200, 90, (0, 0), (199, 89)), (64, 64, (0, 0), (63, 63))):
        rows = ["".join(generator.choice("..12359@") for _ in range(width)) for _ in range(height)]
        for x, y in (start, goal):
            rows[y] = rows[y][:x] + "." + rows[y][x + 1 :]
        path = written(folder, "large.map", text_of(rows))
        weights = reference.rows_of(path.read_bytes())
        costs = reference.least_costs(weights, 8, 0)
        end = goal[1] * width + goal[0]
        words = [path, "--from", "0,0", "--to", "%d,%d" % goal]
        said = f"found at cost {costs[end]} in" if end in costs else "none: no route leads"
        by = "answered by the program and the library, alike" if max(width, height) <= 64 else "answered by the library; the program takes sides up to 64"
        expect_run([*words, "--quiet"], 0, [said, by])
        told = json.loads(expect_run([*words, "--json"], 0))
        expect("who answered", told["answered_by"] == (["planner", "library"] if max(width, height) <= 64 else ["library"]), told)
        expect("the route", told.get("route", []) == (reference.first_route(weights, 8, costs, 0, end) if end in costs else []), told)
        records = [reference.asked(0, generator.randrange(width * height), limit) for limit in (5, width * height)]
        due = b"".join(reference.answer(path.read_bytes(), record) for record in records)
        replayed = [path, "--replay", written(folder, "q", b"".join(records)), "--answers", written(folder, "a", due)]
        expect_run(replayed, 0, ["2 questions answered; 0 given answers differ", "answered by the library" if max(width, height) > 64 else "answered by the program"])
    print("tools: floors up to 200 wide, answered by the library, told so")


# ---- objects


def test_json(folder):
    for name, (rows, ways, start, goal, limit, said) in CASES.items():
        path = written(folder, f"case_{name}.map", text_of(rows))
        lines = expect_run([path, "--from", start, "--to", goal, "--ways", ways, "--limit", limit, "--json"], status_due(said)).split("\n")
        told = json.loads(lines[0])
        weights = reference.rows_of(path.read_bytes())
        begin, end = (int(cell.split(",")[1]) * len(weights[0]) + int(cell.split(",")[0]) for cell in (start, goal))
        kind, refused, settled, number, length, p, q = reference.numbers_in(reference.answer(path.read_bytes(), reference.asked(begin, end, limit, ways)))
        expect(f"case {name} is one line", lines[1:] == [""], lines)
        expect(f"case {name}: kind", (told["kind"], told.get("refusal", 0)) == (("refused", "found", "none", "stopped")[kind], refused), told)
        expect(f"case {name}: count", told.get("settled", 0) == settled and ("settled" in told) == (kind != 0), told)
        expect(f"case {name}: what was asked", [told["from"], told["to"]] == [list(map(int, cell.split(","))) for cell in (start, goal)] and told["limit"] == limit, told)
        if kind == 1:
            route = reference.first_route(weights, ways, reference.least_costs(weights, ways, begin), begin, end)
            expect(f"case {name}: cost and route", (told["cost"], told["steps"], told["route"], told["checked"]) == (number, length, route, True), told)
            expect(f"case {name}: its sums", 70 * told["p"] + 99 * told["q"] == number, told)
            expect(f"case {name}: P and Q", (told["p"], told["q"], told["sums"]) == (p, q, "same") and "route_p" not in told, told)
            expect(f"case {name}: true length", math.isclose(told["true_length"], told["p"] + told["q"] * math.sqrt(2)), told)
        else:
            expect(f"case {name}: no P and Q", not {"p", "q", "sums", "true_length"} & set(told), told)
        if kind == 3:
            expect(f"case {name}: floor", told["floor"] == number, told)
    told = json.loads(expect_run([HALLS / "furnace.map", "--from", "0,0", "--to", "1,1", "--json"], 1))
    expect("a refused question as an object", (told["kind"], told["refusal"], told["limit"]) == ("refused", 7, None), told)
    print("tools: the cases as objects, one a line")


# ---- claimed routes

A = ".@./..."
# map, ways, from, to, route, cost, what is said, and the cell where it goes wrong: docs/MANUAL.md, "Claimed routes"
CLAIMS = (
    (A, 8, (0, 0), (2, 0), "4220", 560, "the claim holds: 4 steps at cost 560", None),
    (A, 4, (0, 0), (2, 0), "1 S, 2 E, 1 N", 560, "the claim holds: 4 steps at cost 560", None),
    (A, 8, (0, 0), (2, 0), "s e e n", 560, "the claim holds: 4 steps at cost 560", None),
    (A, 8, (0, 0), (2, 0), "4220", 561, "fault 46 after all 4 steps: the route costs something else", None),
    (A, 8, (0, 0), (2, 0), "422", 420, "fault 45 after all 3 steps: the route does not end at the goal", (2, 1)),
    (A, 8, (0, 0), (2, 0), "421", 560, "fault 44 at step 3, NE from (1,1): a step cuts a corner", (2, 0)),
    (A, 8, (0, 0), (2, 0), "2", 560, "fault 43 at step 1, E from (0,0): a step enters a blocked cell", (1, 0)),
    (A, 8, (0, 0), (2, 0), "0", 560, "fault 42 at step 1, N from (0,0): a step leaves the map", (0, 0)),
    (A, 8, (0, 0), (2, 0), "48", 560, "fault 41 at step 2, 8 from (0,1): a direction is above 7", (0, 1)),
    (A, 4, (0, 0), (2, 0), "421", 560, "fault 41 at step 3, NE from (1,1): a direction is above 7, or odd with four ways", (1, 1)),
    ("....", 8, (0, 0), (2, 0), "226", 420, "fault 45 after all 3 steps", (1, 0)),
    ("2.3.", 8, (0, 0), (0, 0), "", 0, "the claim holds: 0 steps at cost 0", None),
    (".9", 8, (0, 0), (1, 0), "2", 700, "the claim holds: 1 step at cost 700", None),
    (".9", 8, (1, 0), (0, 0), "6", 700, "the claim holds: 1 step at cost 700", None),
    (".9", 8, (0, 0), (1, 0), "2", 630, "fault 46 after all 1 step: the route costs something else", None),
)


def test_claims(folder):
    for rows, ways, start, goal, route, cost, said, wrong in CLAIMS:
        path = written(folder, "claim.map", text_of(rows))
        holds = "holds" in said
        words = [path, "--from", "%d,%d" % start, "--to", "%d,%d" % goal, "--ways", ways, "--check", route, "--cost", cost]
        out = expect_run(words, 0 if holds else 1, [said, "judged by the library's check"])
        weights = reference.rows_of(path.read_bytes())
        width = len(weights[0])
        begin, end = (y * width + x for x, y in (start, goal))
        fault = None if wrong is None else wrong[1] * width + wrong[0]
        told = json.loads(expect_run([*words, "--json"], 0 if holds else 1))
        expect(f"claim {route} as an object", told["kind"] == ("holds" if holds else "fault") and told.get("cell") == (wrong and list(wrong)), told)
        # the steps that are shown: up to the fault, and the one into a cell of the map that must not be entered
        steps = told["route"] if holds or told["number"] in (45, 46) else told["route"][: told["place"] + (told["number"] in (43, 44))]
        due = floor_due(weights, begin, end, ways, route=steps, fault=fault, settled=False)
        expect_picture(f"claim {route}", out, weights, due, begin, end, "beside")
        drawn = Path(folder, "claim.svg")
        expect_run([*words, "--quiet", "--svg", drawn], 0 if holds else 1, [said])
        picture = Svg(drawn.read_bytes(), weights)
        marks = {letter: sorted(picture.placed(picture.of("circle", letter), "cx", "cy")) for letter in "SG!"}
        wanted = {"S": [begin] if begin != fault else [], "G": [end] if end != fault else [], "!": [] if fault is None else [fault]}
        expect(f"claim {route} as SVG: its marks", marks == wanted, f"{marks} {wanted}")
    expect_run([HALLS / "row.map", "--from", "0,0", "--to", "1,0", "--check", "2" * 41, "--cost", "1"], 1, ["the claim is refused 12"])
    expect_run([HALLS / "row.map", "--from", "0,0", "--to", "99,0", "--check", "2", "--cost", "1"], 1, ["the claim is refused 6"])
    print(f"tools: {len(CLAIMS)} claimed routes, judged, with the faulty cell in the picture")


# ---- least costs


def test_costs(folder):
    generator = random.Random(9)
    floors = [".", ".@.", A, "9.9/@@./..."] + ["/".join("".join(generator.choice("..27@") for _ in range(17)) for _ in range(9)) for _ in range(4)]
    for rows in floors:
        rows = "." + rows[1:]
        path = written(folder, "costs.map", text_of(rows))
        weights = reference.rows_of(path.read_bytes())
        width = len(weights[0])
        for ways in (8, 4):
            costs = reference.least_costs(weights, ways, 0)
            out = expect_run([path, "--from", "0,0", "--ways", ways, "--costs"], 0)
            due = ["x,y,weight,cost"] + [
                f"{x},{y},{weights[y][x]},{costs.get(y * width + x, '')}" for y in range(len(weights)) for x in range(width)
            ]
            expect(f"least costs on {rows}", out.split("\n") == [*due, ""], out)
            told = json.loads(expect_run([path, "--from", "0,0", "--ways", ways, "--costs", "--json"], 0))
            expect(f"least costs on {rows} as an object", told["costs"] == [[costs.get(y * width + x) for x in range(width)] for y in range(len(weights))], told)
    expect_run([HALLS / "furnace.map", "--from", "0,0", "--costs"], 1, ["refused 7: the start is blocked"])
    print("tools: least costs as a table")


# ---- question files


def test_questions_written(folder):
    hall, made = HALLS / "furnace.map", Path(folder, "made.questions")
    expect_run([hall, "--write-questions", made, "--from", "3,12", "--to", "43,12", "--limit", "4096"], 0, ["1 question in"])
    expect("a question from words", made.read_bytes() == reference.asked(12 * 48 + 3, 12 * 48 + 43, 4096), made.read_bytes().hex())
    table = "from_x,from_y,to_x,to_y,ways,limit\n3,12,43,12,8,4096\n1, 1 ,2,3\n\n0,0,47,23,4,\n"
    expect_run([hall, "--write-questions", made, "--csv", written(folder, "q.csv", table)], 0, ["3 questions in"])
    due = [(12 * 48 + 3, 12 * 48 + 43, 4096, 8), (49, 3 * 48 + 2, 4294967295, 8), (0, 23 * 48 + 47, 4294967295, 4)]
    expect("questions from CSV", made.read_bytes() == b"".join(reference.asked(*each) for each in due), made.read_bytes().hex())
    out = expect_run([hall, "--replay", made], 0, ["(3,12) to (43,12), 8 ways, limit 4096", "(1,1) to (2,3), 8 ways, no limit", "3 questions answered"])
    expect("what is written is asked", out.count("ways") == 3, out)
    for text, complained in (
        ("1,1,2\n", "line 1: a question has from_x, from_y, to_x, to_y"),
        ("1,1,2,2\n1,1,48,2\n", "line 2: (48,2) off the map; x goes from 0 to 47"),
        ("1,1,2,x\n", "line 1: to_y is a whole number"),
        ("1,1,2,2,8,-1\n", "line 1: limit is a whole number from 1 to 4294967295, not '-1'; an empty field is no limit"),
        ("1,1,2,2,8,\n1,1,2,2,8,0\n", "line 2: limit is a whole number from 1 to 4294967295, not '0'; an empty field is no limit"),
        (b"\xff,1,2,3\n", "it is no UTF-8"),
    ):
        made.write_bytes(b"as it was")
        expect_run([hall, "--write-questions", made, "--csv", written(folder, "q.csv", text)], 2, [], [complained])
        expect("nothing is written then", made.read_bytes() == b"as it was")
    print("tools: question records from words and from CSV")
