#!/usr/bin/env python3
"""Asks the proved planner for a route on a hall's floor, in words and as a picture; replays files of questions, judges claimed routes, writes and reads
route logs.

Nothing is planned here: answers come from the proved programs `planner` and `calls`, which tools/start starts. ./run starts this.
"""
import os
import signal


def stop_at_once(*_):
    os.write(2, b"./run: stopped\n")
    os._exit(2)


# Ctrl-C ends with one line at any moment: at once while the rest is read in, and later by way of main.
signal.signal(signal.SIGINT, stop_at_once)

NO_MEMORY = "there is not enough memory: a smaller map, or a higher limit (ulimit -v), may do"
try:
    import argparse
    import re
    import sys

    from asking import comparing, earlier, questions, reading, replaying, words
    from asking.names import visible
    from asking.output import Output, complain
    from asking.programs import LARGEST, MOST_SIDE, PROGRAM_SIDE, QUESTION_ZEROS, RECORD, ROOT, Calls, Trouble, clean_up, read_text
except MemoryError:
    os.write(2, f"./run: {NO_MEMORY}\n".encode())
    os._exit(2)
except ImportError as error:  # where modules are shared objects, too little memory looks like this
    os.write(2, f"./run: a module of Python cannot be loaded, perhaps since {NO_MEMORY}; {error}\n".encode(errors="backslashreplace"))
    os._exit(2)

FAILED = 2

HELP = f"""\
MAP is map text: 'type octile', 'height H', 'width W', 'map', then H rows of W cells, each line ended by LF. A cell is
. or G (weight 1), 1 to 9 (its weight), or @, O or T (blocked). Sides go up to {MOST_SIDE:,}; the program planner takes sides up to
{PROGRAM_SIDE}, and beyond that the library answers alone. A step costs 70, diagonally 99, times its weight, which is the sum of the
weights of the cell it leaves and the cell it enters; no corner is cut. x grows east and y south, from 0.

one question
  ./run MAP --from x,y --to x,y
  The answer is one of: found, with its cost, steps, and true length P + Q*sqrt(2), where P and Q sum the steps' weights,
  over straight and over diagonal steps; none; stopped, when the limit of settled cells came before the goal, with the
  floor: no route to the goal costs less; refused, with the reason. P and Q are the answer's; if the route has others, that
  is said. The picture shows the floor, the settled cells by cost, and the route, cell by cell; where the map is wider than
  the terminal less 6 columns, or higher than both {PROGRAM_SIDE} rows and the terminal, a character stands for a block of cells. In
  the file of --svg a map of more than {PROGRAM_SIDE * PROGRAM_SIDE} cells has no digits and no hints; colours tell there. For negative numbers
  write --from=-1,5.
  --limit is at least 1: with 0 nothing can be settled, and it is refused. Without it the whole map is searched.

two engines
  ./run MAP --from x,y --to x,y --engine astar
  ./run MAP --from x,y --to x,y --engine both
  A* gives the kind, the cost, P and Q and the route that the plain search gives, and settles no cell that the plain search
  does not, often far fewer: those whose least cost plus estimate is at most the goal's least cost. It takes no --limit, and
  its answers go to no --log. The picture shows the cells that A* settled. With both, each engine's answer and count are
  told, and whether all else is the same. The program planner has the plain search alone.

a claimed route
  ./run MAP --from x,y --to x,y --check ROUTE --cost N
  ROUTE is digits 0 to 7 (0 is north, 2 east) such as 4220, or directions such as '1 S, 2 E, 1 N'. The check does not
  know the search; where the route goes wrong is marked in the picture.

all least costs
  ./run MAP --from x,y --costs
  CSV: x,y,weight,cost; the cost is empty where no route leads.

replay
  ./run MAP --replay QUESTIONS [--answers FILE]
  QUESTIONS holds records of {RECORD} bytes: start, goal and limit (4 bytes each, lowest first; cells as y * width + x, a limit of
  at least 1, 4294967295 for none), ways (1 byte), {len(QUESTION_ZEROS)} zeros; - is standard input. Each is answered as soon as it is read.
  The file of --answers holds records of {RECORD} bytes as the planner writes them; each that is not the proved answer is said,
  with its bytes. Files from before version {earlier.SINCE}, whose records have {earlier.SIZE} bytes, are no longer read; that is said too.

route log
  ./run MAP --from x,y --to x,y --log FILE
  ./run MAP --replay QUESTIONS --log FILE
  Each question is appended to FILE with its answer and, if found, its route. FILE is made if it is missing; one that does
  not end where an entry ends is left as it is, and nothing is asked. An answer with a route above 4095 steps cannot be
  logged; that is said, and the rest is.
  ./run [MAP] --read-log FILE
  Shows the entries of FILE; - is standard input. With the map each logged route is checked as a claim, its P and Q are held
  against the logged ones, and each question is asked again: an answer or a route that is not the proved one is said. Where a
  torn file breaks off is said too, and why.

questions written
  ./run MAP --write-questions FILE --from x,y --to x,y     one record
  ./run MAP --write-questions FILE --csv CSV               from_x,from_y,to_x,to_y[,ways[,limit]] on each line

examples
  ./run examples/halls/furnace.map --from 3,12 --to 43,12
  ./run examples/halls/open.map --from 0,0 --to 63,63 --limit 1000 --svg open.svg
  ./run examples/halls/maze.map --replay examples/halls/maze.questions --answers examples/halls/maze.answers
  ./run examples/halls/furnace.map --read-log examples/halls/furnace.log
  ./run examples/halls/bay.map --from 1,10 --to 58,11 --engine both

exit status
  0  answered; a claim holds; in a replay, no given answer differs or is missing; a log is whole, and nothing in it differs
  1  a given answer differs or is missing, a claim is wrong, or a question, a claim or the map is refused; a log is torn, or
     an entry is wrong or differs; an answer is not logged; the two engines differ, or an answer's P and Q and its route's
  2  wrong usage; a file or a program is missing or fails; a file is from before version {earlier.SINCE}; not all could be written, or
     a log cannot be appended to; stopped by Ctrl-C
"""


def cell_argument(text):
    """x,y as two numbers; how large they may be is for the map to say."""
    match = re.fullmatch(r"(-?[0-9]{1,40}),(-?[0-9]{1,40})", text)
    if not match:
        raise argparse.ArgumentTypeError(f"a cell is x,y such as 3,8, not {visible(text)}")
    return int(match[1]), int(match[2])


def number_argument(text, least=0):
    if not re.fullmatch(r"[0-9]{1,10}", text) or int(text) > LARGEST:
        raise argparse.ArgumentTypeError(f"that is a whole number from {least} to {LARGEST}, not {visible(text)}")
    return int(text)


def limit_argument(text):
    """A limit; 0 is for the planner to refuse."""
    if not text.strip():
        raise argparse.ArgumentTypeError(words.EMPTY_LIMIT)
    return number_argument(text, 1)


def route_argument(text):
    try:
        return questions.route_of(text)
    except ValueError as error:
        raise argparse.ArgumentTypeError(str(error)) from None


class Parser(argparse.ArgumentParser):
    """Says wrong usage in one line after the usage, and shows no word of the caller's raw."""

    def error(self, message):
        if message == "argument --limit: expected one argument":  # a script has handed on an empty limit without quotes
            message = f"argument --limit: {words.EMPTY_LIMIT}"
        shown = visible(message).replace("\\\\", "\\")
        complain(f"{shown}\n./run: './run --help' lists all words")
        sys.exit(FAILED)

    def _print_message(self, message, file=None):
        if message:
            Output(file or sys.stdout).write(message)


def version():
    """That of the calls from C, which is the libraries'."""
    header = (ROOT / "include" / "fradnumber.h").read_text(encoding="utf-8")
    number = int(re.search(r"#define FRADNUMBER_VERSION (\d+)", header)[1])
    return f"fradnumber {number // 10000}.{number // 100 % 100}.{number % 100}"


def parser():
    made = Parser(
        prog="./run", description="Asks the proved planner about a hall's floor.",
        epilog=HELP, formatter_class=argparse.RawDescriptionHelpFormatter, allow_abbrev=False,
    )
    made.add_argument("map", metavar="MAP", nargs="?", help="the hall's floor as map text; only --read-log does without")
    made.add_argument("--from", dest="start", metavar="x,y", type=cell_argument, help="where the cart stands")
    made.add_argument("--to", dest="goal", metavar="x,y", type=cell_argument, help="where it is to go")
    made.add_argument("--ways", type=int, choices=(4, 8), help="directions of a step (8)")
    made.add_argument("--limit", metavar="N", type=limit_argument, help="settle at most N cells, N at least 1 (no limit)")
    made.add_argument("--engine", choices=words.ENGINES, help="who searches (plain); both compares the two")
    made.add_argument("--check", metavar="ROUTE", type=route_argument, help="judge a claimed route, with --cost")
    made.add_argument("--cost", metavar="N", type=number_argument, help="the cost that is claimed for it")
    made.add_argument("--costs", action="store_true", help="all least costs from --from, as CSV")
    made.add_argument("--replay", metavar="QUESTIONS", help="answer the question records of a file")
    made.add_argument("--answers", metavar="FILE", help="with --replay: given answers, to be compared")
    made.add_argument("--log", metavar="FILE", help="append questions, answers and routes to a route log")
    made.add_argument("--read-log", metavar="FILE", help="show a route log; with MAP check its routes and ask again")
    made.add_argument("--write-questions", metavar="FILE", help="write question records, - for standard output")
    made.add_argument("--csv", metavar="CSV", help="with --write-questions: where the questions come from")
    made.add_argument("--svg", metavar="FILE", help="write the picture to FILE, - for standard output")
    made.add_argument("--json", action="store_true", help="one object a line in place of words")
    made.add_argument("--color", choices=("auto", "always", "never"), default="auto", help="colours in the terminal (auto)")
    made.add_argument("--quiet", action="store_true", help="no picture; in a replay or a log only what differs, is missing or wrong")
    made.add_argument("--version", action="version", version=version())
    return made


# What each thing that can be asked for needs and takes, beside MAP, --json and --quiet.
USES = {
    "--read-log": ((), ()),
    "--replay": ((), ("answers", "log")),
    "--write-questions": ((), ("start", "goal", "ways", "limit", "csv")),
    "--check": (("start", "goal", "cost"), ("ways", "svg")),
    "--costs": (("start",), ("ways",)),
    "a question": (("start", "goal"), ("ways", "limit", "engine", "svg", "log")),
}
WORDS = {
    "start": "--from x,y", "goal": "--to x,y", "ways": "--ways", "limit": "--limit", "cost": "--cost N", "svg": "--svg", "answers": "--answers",
    "csv": "--csv CSV", "log": "--log", "engine": "--engine",
}
# What does not go with a question to A*, and why.
NOT_FOR_ASTAR = {
    "limit": "A* takes no limit; leave out --limit, or ask the plain search",
    "log": "a log is read by asking again, and its records have the plain search's settled count",
}


def all_wanted(given):
    """What is asked for; more than one thing does not go together."""
    asked = {
        "--read-log": given.read_log, "--replay": given.replay, "--write-questions": given.write_questions, "--check": given.check,
        "--costs": given.costs or None,
    }
    return [word for word, value in asked.items() if value is not None]


def wanted(given):
    return (all_wanted(given) or ["a question"])[0]


def check_engine(made, given):
    """Words that go with the plain search alone."""
    for name, why in NOT_FOR_ASTAR.items():
        if given.engine in (words.ASTAR, words.BOTH) and getattr(given, name) is not None:
            made.error(f"--engine {given.engine} does not go with {WORDS[name]}: {why}")


def check_usage(made, given):
    """Words that do not go together."""
    what = wanted(given)
    if given.map is None and what != "--read-log":
        made.error("the following arguments are required: MAP")
    needed, taken = USES[what]
    if what == "--write-questions":
        needed = () if given.csv is not None else ("start", "goal")
        taken = ("csv",) if given.csv is not None else ("start", "goal", "ways", "limit")
    missing = [WORDS[name] for name in needed if getattr(given, name) is None]
    if missing:
        made.error(f"{what} needs {' and '.join(missing)}")
    others = [WORDS[name] for name in WORDS if getattr(given, name) is not None and name not in (*needed, *taken)]
    others += all_wanted(given)[1:]
    if others:
        made.error(f"{what} does not go with {' and '.join(others)}")
    check_engine(made, given)
    if given.svg == "-" and given.json:
        made.error("--svg - has standard output to itself: leave out --json")
    if given.log == "-":
        made.error("--log appends to a plain file, and - is none")


def with_defaults(given):
    given.ways = 8 if given.ways is None else given.ways
    given.limit = LARGEST if given.limit is None else given.limit
    given.engine = given.engine or words.PLAIN
    return given


def in_colour(choice, stream):
    if choice == "auto":
        return stream.isatty() and "NO_COLOR" not in os.environ and os.environ.get("TERM") != "dumb"
    return choice == "always"


def answer(given):
    """Answers what is asked, and gives the exit status."""
    # a picture, or records, that go to standard output have it to themselves
    out = Output(sys.stderr if "-" in (given.svg, given.write_questions) else sys.stdout)
    text = None if given.map is None else read_text(given.map)
    what = wanted(given)
    with Calls() as calls:
        floor = None if text is None else questions.read_floor(calls, given, text)
        if isinstance(floor, questions.Told):
            return questions.tell(given, floor, out, False)
        if what == "--read-log":
            return reading.read_log(given, calls, floor, text, out)
        if what == "--replay":
            return replaying.replay(given, calls, floor, text, out)
        if what == "--write-questions":
            return replaying.write_questions(with_defaults(given), floor, out)
        one = comparing.ask if given.engine == words.BOTH else questions.ask
        act = {"--check": questions.check, "--costs": questions.costs_table, "a question": one}[what]
        told = act(with_defaults(given), calls, floor, text)
    return questions.tell(given, told, out, in_colour(given.color, out.stream))


def act():
    """Answers the words of the command line, and gives the exit status; trouble is one line."""
    try:
        made = parser()
        given = made.parse_args()
        check_usage(made, given)
        return answer(given)
    except SystemExit as end:  # the parser's: wrong usage, --help, --version
        return end.code or 0
    except Trouble as trouble:
        complain(str(trouble))
    except MemoryError:
        complain(NO_MEMORY)
    except OSError as error:
        complain(f"the system refuses: {error.strerror or error}")
    except Exception as error:  # a person gets one line; who mends it has the kind and the words
        complain(f"an error of the front end itself, please report it: {type(error).__name__}: {visible(str(error))}")
    return FAILED


def stop(*_):
    # once is enough: nothing disturbs what is closed on the way out
    signal.signal(signal.SIGINT, signal.SIG_IGN)
    raise KeyboardInterrupt


def main():
    try:
        signal.signal(signal.SIGINT, stop)
        status = act()
        signal.signal(signal.SIGINT, signal.SIG_IGN)
    except KeyboardInterrupt:
        complain("stopped")
        status = FAILED
    clean_up()
    return status


if __name__ == "__main__":
    # All is written and closed. The interpreter's own way out would let Ctrl-C in again.
    os._exit(main())
