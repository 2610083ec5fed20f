"""The two engines: what A* answers and shows, both side by side, words that do not go with A*, and engines that are wrong."""
import json
import math
import re
import sys
from collections import namedtuple
from pathlib import Path

import reference
from common import HALLS, HERE, ROOT, expect, expect_run, run, text_of, written
from pictures import expect_picture, expect_svg, floor_due, route_visits
from troubles import with_programs

BY_ASTAR = "answered by the library's A*; the program has the plain search alone"
SAME = "A* and the plain search have the same kind, cost, P, Q and route\n"
KINDS = ("refused", "found", "none", "stopped")


# What is due of a question: the answers' numbers of the plain search with the limit at the cell count, A*'s count, and the route.
Due = namedtuple("Due", "kind refusal cost plain astar route")


class Asked:
    """A question on a map, with what is due of both engines."""

    def __init__(self, path, start, goal, ways=8):
        self.path, self.ways, self.ends = path, ways, (start, goal)
        self.text = path.read_bytes()
        self.rows = reference.rows_of(self.text)
        width = len(self.rows[0])
        self.size = width * len(self.rows)
        self.start, self.goal = (y * width + x if 0 <= x < width and 0 <= y < len(self.rows) else 4294967295 for x, y in self.ends)
        self.words = [path, "--from", "%d,%d" % start, "--to", "%d,%d" % goal, "--ways", ways]
        self.due = self.all_due()

    def all_due(self):
        answered = reference.answer(self.text, reference.asked(self.start, self.goal, self.size, self.ways))
        kind, refusal, plain, cost, *_ = reference.numbers_in(answered)
        if kind == 0:
            return Due(kind, refusal, cost, 0, 0, [])
        costs = reference.least_costs(self.rows, self.ways, self.start)
        route = reference.first_route(self.rows, self.ways, costs, self.start, self.goal) if kind == 1 else []
        return Due(kind, refusal, cost, plain, len(reference.settled_by_astar(self.rows, self.ways, costs, self.goal)), route)

    def status(self):
        return 0 if self.due.kind else 1

    def line(self, settled):
        """The answer in words, up to where the words of a refusal begin."""
        several = "" if settled == 1 else "s"
        steps = f"{len(self.due.route)} step{'' if len(self.due.route) == 1 else 's'}"
        return (
            f"refused {self.due.refusal}: ", f"found at cost {self.due.cost} in {steps}; {settled} cell{several} settled\n",
            f"none: no route leads to the goal; {settled} cell{several} settled, all that can be reached\n",
        )[self.due.kind]

    def picture(self):
        """What each cell must show of A*."""
        return floor_due(self.rows, self.start, self.goal, self.ways, astar=True, settled=self.due.kind != 0)


def questions(folder):
    """All kinds of answers, on floors where A* settles the route alone, a part, or all; and one beyond the program's side."""
    small = (
        (".@./...", (0, 0), (2, 0)), (".../.../...", (0, 0), (2, 2)), ("../.9", (0, 0), (1, 1)), (".9./...", (0, 0), (2, 0)), (".@.", (0, 0), (2, 0)),
        (".", (0, 0), (0, 0)), (".@/@.", (0, 0), (1, 1)), ("..2@9/34.5./6@7.8/9..2.", (0, 0), (4, 3)), ("222/333", (0, 0), (2, 1)),
        (".@.", (1, 0), (2, 0)), (".@.", (0, 0), (1, 0)), (".@.", (0, 0), (3, 0)), (".@.", (0, 1), (3, 0)), ("....." * 13, (3, 0), (64, 0)),
    )
    for place, (rows, start, goal) in enumerate(small):
        for ways in (8, 4) if "/" in rows else (8,):
            yield Asked(written(folder, f"floor{place}.map", text_of(rows)), start, goal, ways)
    for name, start, goal, ways in (
        ("bay", (1, 10), (58, 11), 8), ("racks", (1, 1), (1, 17), 8), ("furnace", (3, 12), (43, 12), 8), ("furnace", (10, 7), (37, 7), 4),
        ("furnace", (2, 20), (33, 18), 8), ("open", (0, 0), (63, 63), 8),
    ):
        yield Asked(HALLS / f"{name}.map", start, goal, ways)


def expect_object(what, told, asked, settled):
    """What one engine answers, as an object."""
    due = asked.due
    expect(f"{what}: kind", (told["kind"], told.get("refusal", 0)) == (KINDS[due.kind], due.refusal), told)
    expect(f"{what}: count", told.get("settled", 0) == settled and ("settled" in told) == (due.kind != 0), told)
    if due.kind == 1:
        shown = [told[name] for name in ("cost", "steps", "route", "checked", "p", "q")]
        expect(f"{what}: cost and route", shown == [due.cost, len(due.route), due.route, True, *reference.sums(asked.rows, asked.start, due.route)], told)
    else:
        expect(f"{what}: no cost and no route", not {"cost", "route", "floor"} & set(told), told)


def expect_pictures(what, asked, engine, folder):
    """The terminal and the file show the cells that A* has settled, and say that they are A*'s."""
    if asked.due.kind == 0:
        return
    out = expect_run([*asked.words, "--engine", engine, "--color", "never"], 0, [], env={"COLUMNS": "140"})
    due = asked.picture()
    expect_picture(what, out, asked.rows, due, asked.start, asked.goal, "beside", by=" by A*")
    drawn = Path(folder, "astar.svg")
    expect_run([*asked.words, "--engine", engine, "--quiet", "--svg", drawn], 0, ["the picture is in"])
    visits = route_visits(asked.rows, asked.start, asked.due.route)
    picture = expect_svg(f"{what} as SVG", drawn.read_bytes(), asked.rows, due, asked.start, asked.goal, visits)
    texts = [part.text for part in picture.of("text")]
    dearest = max(each.cost for each in due.values() if each.cost is not None)
    key = f"settled by A*, from cost 0 to cost {dearest}" if dearest else "settled by A*, at cost 0"
    expect(f"{what} as SVG: whose cells they are", key in texts and any("ways, by A*" in text for text in texts), texts)
    counted = f"{'A*: ' * (engine == 'both')}{asked.line(asked.due.astar)}".rstrip("\n")
    expect(f"{what} as SVG: the count", texts[0] == counted, texts)


def test_astar(folder):
    """Answers of A* in words, as objects, in pictures."""
    count = 0
    for asked in questions(folder):
        what = f"A* on {asked.path.name} from {asked.ends[0]} to {asked.ends[1]}, {asked.ways} ways"
        words, due = [*asked.words, "--engine", "astar"], asked.due
        holds = [f"checked as a claimed route: holds at cost {due.cost}\n"] if due.kind == 1 else []
        expect_run([*words, "--quiet"], asked.status(), [f"{asked.ways} ways, by A*\n{asked.line(due.astar)}", *holds, BY_ASTAR])
        told = json.loads(expect_run([*words, "--json"], asked.status()))
        expect_object(what, told, asked, due.astar)
        expect(f"{what}: who was asked", (told["engine"], told["answered_by"]) == ("astar", ["library"]) and "limit" not in told, told)
        if asked.ways == 8:
            expect_pictures(what, asked, "astar", folder)
        count += 1
    print(f"tools: {count} questions to A*, in words, as objects, in pictures")


def test_both(folder):
    """Both engines: each has its own count, and one line says that the rest is the same."""
    count = 0
    for asked in questions(folder):
        what = f"both on {asked.path.name} from {asked.ends[0]} to {asked.ends[1]}, {asked.ways} ways"
        words, due, beyond = [*asked.words, "--engine", "both"], asked.due, max(len(asked.rows), len(asked.rows[0])) > 64
        by = "the library; the program takes sides up to 64" if beyond else "the program and the library, alike"
        out = expect_run([*words, "--quiet"], asked.status(), [
            f"{asked.ways} ways, by A*, and by the plain search with limit {asked.size}\nA*: {asked.line(due.astar)}", SAME,
            f"\nthe plain search: {asked.line(due.plain)}", f"A* answered by the library; the plain search by {by}\n",
        ])
        expect(f"{what}: nothing differs", "DIFFERS" not in out and out.count("\nroute: ") == (len(due.route) > 0), out)
        told = json.loads(expect_run([*words, "--json"], asked.status()))
        expect_object(f"{what}: A*", told["astar"], asked, due.astar)
        expect_object(f"{what}: the plain search", told["plain"], asked, due.plain)
        expect(f"{what}: they agree", (told["engine"], told["compared"], "differ" in told) == ("both", "same", False), told)
        who = told["astar"]["answered_by"], told["plain"]["answered_by"], told["plain"]["limit"]
        expect(f"{what}: who answered", who == (["library"], ["library"] if beyond else ["planner", "library"], asked.size), told)
        if asked.ways == 8 and asked.path.parent == HALLS:
            expect_pictures(what, asked, "both", folder)
        count += 1
    print(f"tools: {count} questions to both engines")


def test_plain(folder):
    """--engine plain is what is asked without it, with a limit too."""
    path = written(folder, "plain.map", text_of(".@./..."))
    for more in ([], ["--limit", "4"], ["--json"], ["--limit", "4", "--json"]):
        words = [path, "--from", "0,0", "--to", "2,0", *more]
        expect(f"--engine plain {more}", run([*words, "--engine", "plain"]) == run(words))
    log = Path(folder, "plain.log")
    expect_run([path, "--from", "0,0", "--to", "2,0", "--engine", "plain", "--log", log], 0, [f"logged in {log} as entry 1"])
    print("tools: --engine plain, with a limit and a log")


def test_engine_usage(folder):
    """Words that do not go with A*: one line that says why, and nothing is asked or written."""
    hall, log = HALLS / "row.map", Path(folder, "no.log")
    ends, end = ["--from", "0,0", "--to", "1,0"], "'./run --help' lists all words"
    for engine in ("astar", "both"):
        for more, why in (
            (["--limit", "5"], "--limit: A* takes no limit; leave out --limit, or ask the plain search"),
            (["--limit", "0"], "--limit: A* takes no limit"), (["--limit", "4294967295"], "--limit: A* takes no limit"),
            (["--log", log], "--log: a log is read by asking again"),
        ):
            out = expect_run([hall, *ends, "--engine", engine, *more], 2, [], [f"./run: --engine {engine} does not go with {why}", end])
            expect("nothing is answered then", out == "" and not log.exists(), out)
    for engine in ("plain", "astar", "both"):
        for what, words in (
            ("--replay", ["--replay", HALLS / "row.questions"]), ("--write-questions", [*ends, "--write-questions", log]), ("--costs", ends[:2] + ["--costs"]),
            ("--write-questions", ["--write-questions", log, "--csv", log]), ("--check", [*ends, "--check", "2", "--cost", "210"]), ("--read-log", ["--read-log", log]),
        ):
            out = expect_run([hall, *words, "--engine", engine], 2, [], [f"./run: {what} does not go with --engine", end])
            expect("nothing is answered then", out == "" and not log.exists(), out)
    for engine in ("", "A*", "dijkstra"):
        expect_run([hall, *ends, "--engine", engine], 2, [], ["argument --engine: invalid choice: ", end])
    expect_run(["--help"], 0, ["--engine {plain,astar,both}", "two engines"])
    print("tools: words that do not go with A*")


# ---- an engine that is wrong, or a program that fails


def with_spoiled(folder, way, engine="astar"):
    """A kit whose calls has an engine that is wrong in one way."""
    spoiled = f"exec '{sys.executable}' '{HERE / 'spoiled.py'}' {engine} {way} $real \"$3\""
    return with_programs(folder, f"spoiled_{engine}_{way}", f'case $3 in */calls) {spoiled} ;; *) exec $real "$3" ;; esac')


def expect_different(words, env, differ, said):
    """Both engines, told as different in these things, in words and as an object."""
    loud = f"DIFFERS: A* and the plain search have not the same {' and '.join(differ)}\n"
    out = expect_run([*words, "--engine", "both", "--quiet"], 1, [loud, *said], env=env)
    expect("a difference is not told as agreement", SAME not in out, out)
    told = json.loads(expect_run([*words, "--engine", "both", "--json"], 1, env=env))
    expect(f"{differ} as an object", (told["compared"], told["differ"]) == ("differs", differ), told)


def test_engines_differ(folder):
    """An answer of A* that is not the plain search's is told, whatever it differs in but the count."""
    square = written(folder, "square.map", text_of(".../.../..."))
    words, blocked = [square, "--from", "0,0", "--to", "2,2", "--ways", "4"], [HALLS / "row.map", "--from", "41,0", "--to", "40,0"]
    plain = "the plain search: found at cost 560 in 4 steps; 9 cells settled\n"
    for way, asked, differ, said in (
        ("cost", words, ["cost"], ["A*: found at cost 561", plain, "A*: checked as a claimed route: DOES NOT HOLD at cost 561", "the plain search: route: 2 S, 2 E"]),
        ("P", words, ["P"], ["A*: true length 9 + 0√2 ", "A*: DIFFERS: the answer has P 9, Q 0, and its route P 8, Q 0", "the plain search: true length 8 + 0√2 "]),
        ("Q", words, ["Q"], ["A*: true length 8 + 1√2 ", "A*: checked as a claimed route: holds at cost 560", "the plain search: true length 8 + 0√2 "]),
        ("exchanged", words, ["P", "Q"], ["A*: true length 0 + 8√2 ", "A*: DIFFERS: the answer has P 0, Q 8, and its route P 8, Q 0"]),
        ("route", words, ["route"], ["A*: route: 2 E, 2 S\n", "the plain search: route: 2 S, 2 E\n", "A*: checked as a claimed route: holds at cost 560"]),
        ("kind", words, ["kind", "cost", "P", "route"], ["A*: none: no route leads", plain, "the plain search: route: 2 S, 2 E"]),
        ("refusal", blocked, ["refusal"], ["A*: refused 6: ", "the plain search: refused 5: "]),
    ):
        env = with_spoiled(folder, way)
        expect_different(asked, env, differ, said)
        expect_run([*asked, "--quiet"], 1 if way == "refusal" else 0, env=env)
    # alone, a wrong cost is what the check of claimed routes finds
    expect_run([*words, "--engine", "astar", "--quiet"], 1, ["checked as a claimed route: DOES NOT HOLD at cost 561"], env={"RATTLE_HOME": str(Path(folder, "spoiled_astar_cost"))})
    # the count is A*'s own, and no difference
    out = expect_run([*words, "--engine", "both", "--quiet"], 0, ["4 steps; 1009 cells settled\n", plain, SAME], env=with_spoiled(folder, "settled"))
    expect("the count is told as it is", "A*: found at cost 560 in 4 steps; 1009 cells settled\n" in out, out)
    print("tools: an A* with a wrong kind, cost, P, Q, route or refusal is told as different, and is status 1")


def expect_other_sums(words, env, sums, due):
    """An answer whose P and Q are not its route's: both are told, the true length is the answer's, and the status is 1."""
    shown = f"true length {sums[0]} + {sums[1]}√2 = {sums[0] + sums[1] * math.sqrt(2):.3f}; a straight step on level floor is 2\n"
    differs = f"DIFFERS: the answer has P {sums[0]}, Q {sums[1]}, and its route P {due[0]}, Q {due[1]}\n"
    out = expect_run([*words, "--quiet"], 1, [f"{shown}{differs}checked as a claimed route: holds at cost {70 * due[0] + 99 * due[1]}\n"], env=env)
    expect("told once", out.count("DIFFERS") == 1, out)
    told = json.loads(expect_run([*words, "--json"], 1, env=env))
    expect(f"{sums} as an object", [told[name] for name in ("p", "q", "sums", "route_p", "route_q", "checked")] == [*sums, "differs", *due, True], told)
    expect(f"the true length of {sums}, as an object", math.isclose(told["true_length"], sums[0] + sums[1] * math.sqrt(2)), told)


def test_other_sums(folder):
    """P and Q of an answer are held against those of its route, of either engine."""
    inside = Asked(written(folder, "inside.map", text_of("2.../9..7/...3")), (0, 0), (3, 2))
    beyond = Asked(written(folder, "beyond.map", text_of(["2" + "." * 64, "3" * 65])), (0, 1), (64, 0))
    for asked in (inside, beyond):
        due, words = reference.sums(asked.rows, asked.start, asked.due.route), asked.words
        expect("P and Q are two numbers above 0", due[0] != due[1] and all(due), due)
        for way, sums in (("P", [due[0] + 1, due[1]]), ("Q", [due[0], due[1] + 1]), ("exchanged", due[::-1])):
            folder_of = Path(folder, asked.path.stem)
            expect_other_sums([*words, "--engine", "astar"], with_spoiled(folder_of, way), sums, due)
            plain = with_spoiled(folder_of, way, "plain")
            if asked is inside:  # the program has not been spoiled
                expect_run(words, 2, [], ["planner and calls answer differently"], env=plain)
            else:
                expect_other_sums(words, plain, sums, due)
                # that the engines agree is no excuse
                both = with_spoiled(folder_of, way, "both")
                expect_run([*words, "--engine", "both", "--quiet"], 1, [SAME, "DIFFERS: the answer has"], env=both)
    words, lost = [*inside.words, "--engine", "astar"], with_spoiled(folder, "lost")
    out = expect_run([*words, "--quiet"], 1, ["DOES NOT HOLD"], env=lost)
    expect("a route that cannot be followed has no sums", "DIFFERS" not in out, out)
    told = json.loads(expect_run([*words, "--json"], 1, env=lost))
    expect("nor as an object", told["sums"] is None and told["checked"] is False and "route_p" not in told, told)
    print("tools: answers whose P and Q are not their route's, of both engines")


def test_program_not_asked(folder):
    """The program planner is not asked where A* alone is; with both it is, and must agree with the library."""
    killed = with_programs(folder, "killed", 'case $3 in */planner) kill -9 $$ ;; *) exec $real "$3" ;; esac')
    words = [HALLS / "row.map", "--from", "0,0", "--to", "40,0", "--quiet"]
    expect_run([*words, "--engine", "astar"], 0, ["found at cost 11130 in 40 steps; 41 cells settled", BY_ASTAR], env=killed)
    ended, out, err = run([*words, "--engine", "both"], env=killed)
    expect("both ask the program too", ended == 2 and not out and "the program planner ended with status 137" in err, out + err)
    print("tools: A* alone does not ask the program")


# ---- the pages and stored answers


def test_counts(_):
    """The table of examples/halls/README.md has the counts that its commands print; a tenth in the bay, and nearly all between the racks. The manual's
    table has no others."""
    page = (HALLS / "README.md").read_text(encoding="utf-8")
    rows = re.findall(r"^\|.*\| (\d+) \| (\d+) \| `\./run ([^`]*--engine both)` \|$", page, re.MULTILINE)
    for astar, plain, command in rows:
        words = [ROOT / word if word.startswith("examples/") else word for word in command.split()]
        told = json.loads(expect_run([*words, "--json"], 0))
        shown = told["astar"]["settled"], told["plain"]["settled"]
        expect(f"the counts of {command}", shown == (int(astar), int(plain)), told)
    counts = {command: (int(astar), int(plain)) for astar, plain, command in rows}
    bay, racks = (counts[next(command for command in counts if f"/{name}.map" in command)] for name in ("bay", "racks"))
    expect("a tenth in the bay", 9 * bay[0] <= bay[1] <= 11 * bay[0], bay)
    expect("nearly all between the racks", racks[1] - 2 <= racks[0] <= racks[1], racks)
    manual = (ROOT / "docs" / "MANUAL.md").read_text(encoding="utf-8").split("### When A* helps")[1].split("\n## ")[0]
    told = {(int(astar), int(plain)) for astar, plain in re.findall(r"^\| [^|]* \| (\d+) \| (\d+) \| ", manual, re.MULTILINE)}
    expect("the manual's counts are the halls'", len(told) >= 4 and told <= set(counts.values()), told)
    print(f"tools: {len(rows)} pairs of counts of examples/halls/README.md")


def test_stored_engines(_):
    """The bay by A* and the racks by both, as stored."""
    for name, words in (("bay_astar", ["--from", "1,10", "--to", "58,11", "--engine", "astar"]), ("racks_both", ["--from", "1,1", "--to", "1,17", "--engine", "both"])):
        stored = (HERE / f"{name}.txt").read_text(encoding="utf-8")
        _, out, _ = run([HALLS / f"{name.split('_')[0]}.map", *words, "--color", "never"])
        expect(f"{name} as stored", out == stored, out)
    print("tools: the bay by A* and the racks by both engines, as stored")
