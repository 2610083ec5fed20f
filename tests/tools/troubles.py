"""Nothing ends in a traceback: full disks, closed outputs, odd names, little memory, Ctrl-C, programs that fail or disagree; and rt beside another rt."""
import fcntl
import os
import random
import shutil
import signal
import subprocess
import time
import xml.etree.ElementTree as tree
from pathlib import Path

from common import ASK, HALLS, LONG, ROOT, TESTED, environment, expect, expect_run, run, text_of, written

ROW = [HALLS / "row.map", "--from", "0,0", "--to", "40,0"]
REPLAY = [HALLS / "furnace.map", "--replay", HALLS / "furnace.questions"]


def closed(stream, words):
    """A run with one of its streams closed."""
    return run(["-c", f'exec "$@" {stream}&-', "bash", *ASK, *words], command=["bash"])


def test_outputs(_):
    """A full disk and a closed output: one line and status 2; what was answered before is told."""
    asked = (ROW, REPLAY, [*ROW, "--json"], [*REPLAY, "--json"], [HALLS / "row.map", "--from", "0,0", "--costs"], ["--help"], ["--version"], [*ROW, "--svg", "-"])
    for words in asked:
        with open("/dev/full", "wb") as full:
            ended, _, err = run(words, stdout=full)
            expect(f"a full disk: {words}", ended == 2 and "No space left on device" in err and "Traceback" not in err and "Exception" not in err, err)
        reading, writing = os.pipe()
        os.close(reading)
        ended, _, err = run(words, stdout=writing)
        os.close(writing)
        expect(f"an output that nobody reads: {words}", ended == 2 and "Broken pipe" in err and "Traceback" not in err and "Exception" not in err, err)
        ended, _, err = closed(">", words)
        expect(f"a closed output: {words}", ended == 2 and "Traceback" not in err and "./run: " in err, err)
    out = expect_run([*ROW, "--svg", "/dev/full"], 2, ["found at cost 11130", "│S"], ["the picture cannot be written to /dev/full: No space left on device"])
    expect("the answer comes first", "the picture is in" not in out, out)
    expect_run([*ROW, "--svg", "/no/such/place.svg"], 2, ["found at cost 11130"], ["the picture cannot be written to /no/such/place.svg: No such file or directory"])
    expect_run([HALLS / "row.map", "--write-questions", "/dev/full", "--from", "0,0", "--to", "1,0"], 2, [], ["cannot be written to /dev/full"])
    ended, out, _ = closed("2>", [HALLS / "no.map", *ROW[1:]])
    expect("no standard error to complain on", ended == 2 and not out, out)
    ended, _, err = run(["-c", 'exec "$@" <&-', "bash", *ASK, HALLS / "row.map", "--replay", "-"], command=["bash"])
    expect("a closed input", ended == 2 and "Traceback" not in err and err.count("\n") == 1, err)
    print("tools: full disks and closed outputs: one line, status 2")


def test_names(folder):
    """Names that are no UTF-8 or hold control characters are shown escaped, in words, objects and pictures."""
    for name, shown in (
        (b"\xff\xfe.map", "\\xff\\xfe.map"), (b"a\x1b[31mb.map", "a\\x1b[31mb.map"), (b"two\nlines.map", "two\\nlines.map"), (b"a&b<c>.map", "a&b<c>.map"),
        ("grün √.map".encode(), "grün √.map"), (b"tab\there\x7f.map", "tab\\there\\x7f.map"), (b"back\\slash.map", "back\\\\slash.map"),
    ):
        path = written(folder, name, text_of(".2./..."))
        words = [os.fsencode(path), "--from", "0,0", "--to", "2,0"]
        out = expect_run([*words, "--color", "never"], 0, [f"{shown}: 3 wide, 2 high"])
        expect(f"{shown}: nothing raw", all(character.isprintable() or character == "\n" for character in out), repr(out))
        drawn = Path(folder, "named.svg")
        expect_run([*words, "--quiet", "--svg", drawn], 0, [shown])
        texts = [part.text for part in tree.parse(drawn).getroot().iter() if part.text]
        expect(f"{shown}: in the picture", any(text.startswith(f"{shown}: 3 wide") for text in texts), texts)
        expect_run([*words, "--json"], 0)
        missing = os.fsencode(folder) + b"/no" + name
        expect_run([missing, *words[1:]], 2, [], [f"no{shown} cannot be opened"])
        expect_run([*words, "--quiet", "--svg", os.fsencode(folder) + b"/no/" + name], 2, [shown], [f"no/{shown}: No such file"])
    _, out, _ = run([os.fsencode(written(folder, "grün.map".encode(), text_of("."))), "--from", "0,0", "--to", "0,0"], env={"PYTHONIOENCODING": "ascii"})
    expect("a name that the output cannot carry", "gr\\xfcn.map" in out, out)
    expect_run([b"a\0b.map".replace(b"\0", b"\x01"), *ROW[1:]], 2, [], ["a\\x01b.map"])
    print("tools: names with odd bytes are shown escaped")


def test_memory(_):
    """However little memory there is: an answer, or a line and status 2. What the interpreter says before it has come to the front end does not count."""
    answered = refused = 0
    for megabytes in (*range(16, 64, 4), 96, 192, 384, 768):
        ended, out, err = run(["-c", f'ulimit -v {megabytes << 10}; exec "$@"', "bash", *ASK, *ROW], command=["bash"])
        answered += ended == 0 and "found at cost 11130" in out
        refused += ended == 2 and "./run: " in err
        good = "found at cost 11130" in out if ended == 0 else "./run: " in err if ended == 2 else "ask" not in err
        expect(f"{megabytes} MB", good and not ("Traceback" in err and "ask" in err), f"{ended}\n{out}{err}")
    expect("some is enough", answered)
    print(f"tools: little memory: {answered} answers, {refused} lines")


def test_interrupts(folder):
    """Ctrl-C at any moment: one line, status 2, nothing left behind."""
    pipe = Path(folder, "waiting")
    os.mkfifo(pipe)
    generator = random.Random(2)
    temporary = Path(folder, "temporary")
    temporary.mkdir()
    # as ./run does: until the front end looks at Ctrl-C it is ignored
    started = ["bash", "-c", 'trap "" INT; exec "$@"', "bash", *ASK]
    stopped = 0
    for turn in range(14):
        process = subprocess.Popen(
            [*started, str(HALLS / "furnace.map"), "--replay", str(pipe)], stdout=subprocess.PIPE, stderr=subprocess.PIPE,
            env=environment(TMPDIR=str(temporary)), start_new_session=True,
        )
        feed = os.open(pipe, os.O_RDWR)  # never the end of the questions
        if turn % 2:
            os.write(feed, (HALLS / "furnace.questions").read_bytes())
        time.sleep(0.02 + 0.4 * generator.random() if turn else 1.0)
        for _ in range(1 + turn % 3):
            os.killpg(process.pid, signal.SIGINT)
        try:
            _, err = process.communicate(timeout=2)
        except subprocess.TimeoutExpired:  # it came before the front end was up, and was ignored
            os.killpg(process.pid, signal.SIGINT)
            _, err = process.communicate(timeout=LONG)
        os.close(feed)
        stopped += 1
        expect(f"Ctrl-C, turn {turn}", process.returncode == 2 and err == b"./run: stopped\n", f"{process.returncode} {err}")
    expect("nothing is left behind", not list(temporary.iterdir()), list(temporary.iterdir()))
    print(f"tools: Ctrl-C at {stopped} moments")


# ---- programs


def without_rt(folder):
    """A PATH that has what tools/start needs, and no rt."""
    needed = Path(folder, "bare")
    needed.mkdir()
    for name in ("bash", "dirname", "readlink"):
        (needed / name).symlink_to(shutil.which(name))
    return {"PATH": str(needed)}


def with_programs(folder, name, script):
    """A kit whose loader is a script; in it $real starts the program as the kit would."""
    kit = Path(os.environ.get("RATTLE_HOME") or Path(shutil.which("rt")).resolve().parents[1])
    libraries = kit / "toolchain" / "lib"
    loader = Path(folder, name, "toolchain", "lib", "ld-linux-x86-64.so.2")
    loader.parent.mkdir(parents=True)
    # the words are: --library-path PATH PROGRAM
    loader.write_text(f"#!/bin/sh\nreal='{libraries}/ld-linux-x86-64.so.2 --library-path {libraries}'\n{script}\n")
    loader.chmod(0o755)
    return {"RATTLE_HOME": str(Path(folder, name))}


def test_programs(folder):
    start = [str(TESTED / "tools" / "start")]
    calls = ROOT / "crates" / "calls"
    done = subprocess.run([*start, "calls"], input=(calls / "stdin").read_bytes(), capture_output=True, cwd=folder, check=False)
    expect("tools/start calls", done.returncode == 0 and done.stdout == (calls / "stdout").read_bytes() and not done.stderr)
    expect_run([], 2, [], ["usage: tools/start PROGRAM"], command=start)
    expect_run(["../calls"], 2, [], ["usage: tools/start PROGRAM"], command=start)
    expect_run(["planer"], 2, [], ["there is no program planer"], command=start)
    bare = without_rt(folder)
    expect_run(["calls"], 2, [], ["the Rattle kit is missing"], command=start, env=bare)
    expect_run(ROW, 2, [], ["the Rattle kit is missing", "tools/program calls"], env=bare)
    expect_run([], 2, [], ["the Rattle kit is missing"], command=[shutil.which("bash"), str(ROOT / "run")], env=bare)

    failed = "echo 'planner: 2 answers and 3 bytes written, then writing answers failed: No space left on device' >&2"
    failing = with_programs(folder, "failing", f'case $3 in */planner) {failed} ;; *) exec $real "$3" ;; esac')
    expect_run(["planner"], 1, [], ["2 answers and 3 bytes written, then writing answers failed: No space"], command=start, env=failing)
    expect_run(ROW, 2, [], ["2 answers and 3 bytes written", "could not read or write all"], env=failing)
    complained = ["2 answers and 3 bytes written", "could not read or write all"]
    ended, out, err = run([HALLS / "row.map", "--replay", HALLS / "row.questions"], env=failing)
    expect("a replay whose program fails", ended == 2 and all(piece in err for piece in complained) and "answered by" in out and "questions answered" not in out, out + err)

    # the answer's cost, or its P, one more than the search's
    for name, cost, p in (("cost", "\\173", "\\237"), ("sum", "\\172", "\\240")):
        answer = "\\1\\0\\0\\0\\51\\0\\0\\0" + cost + "\\53\\0\\0\\50\\0\\0\\0" + p + "\\0" * 15
        other = f'case $3 in */planner) head -c 32 >/dev/null; printf "{answer}" ;; *) exec $real "$3" ;; esac'
        expect_run(ROW, 2, [], ["planner and calls answer differently"], env=with_programs(folder, f"other_{name}", other))
    silent = with_programs(folder, "silent", "exit 0")
    expect_run(ROW, 2, [], ["the program calls gave no whole reply"], env=silent)
    half = with_programs(folder, "half", 'case $3 in */planner) head -c 32 >/dev/null; printf "\\1\\0" ;; *) exec $real "$3" ;; esac')
    expect_run(ROW, 2, [], ["the program planner did not answer every question"], env=half)
    killed = with_programs(folder, "killed", 'case $3 in */planner) kill -9 $$ ;; *) exec $real "$3" ;; esac')
    ended, out, err = run(ROW, env=killed)
    expect("a program that is killed", ended == 2 and "the program planner ended with status 137" in err and "Traceback" not in err, out + err)
    print("tools: programs: no such program, no kit, one that fails, is killed, is silent, or disagrees")


def test_two_at_once(_):
    """rt started while another runs in this checkout: it waits, says so, and then does its work."""
    crates = os.open(ROOT / "crates", os.O_RDONLY)
    fcntl.flock(crates, fcntl.LOCK_EX)
    with subprocess.Popen([ROOT / "tools" / "prove", "version"], stdout=subprocess.PIPE, stderr=subprocess.PIPE) as second:
        said = second.stderr.readline()
        time.sleep(0.5)  # far longer than it takes alone
        expect("rt beside another", said == b"prove: waiting for another rt in this checkout\n" and second.poll() is None, said)
        os.close(crates)
        out, err = second.communicate(timeout=LONG)
    expect("rt after another", second.returncode == 0 and out.startswith(b"rattle-kit") and not err, out + err)
    print("tools: rt waits for another rt in the same checkout")
