"""What the tests of the front end share. FRONT_END names another folder whose tools/ is tested, such as a copy with a bug planted in it."""
import os
import re
import subprocess
import sys
from pathlib import Path

HERE = Path(__file__).resolve().parent
ROOT = HERE.parents[1]
HALLS = ROOT / "examples" / "halls"
TESTED = Path(os.environ.get("FRONT_END", ROOT))
ASK = [sys.executable, str(TESTED / "tools" / "ask.py")]
LONG = 60  # seconds that no run takes

# one wrong thing is enough where a bug is planted
ONE_IS_ENOUGH = "FRONT_END" in os.environ

wrong = []


def expect(what, good, saw=""):
    if not good:
        wrong.append(what)
        print(f"tools: WRONG: {what}\n{saw}", flush=True)
        if ONE_IS_ENOUGH:
            os._exit(1)


def environment(**more):
    """A terminal of 80 columns that is not there."""
    return {**{name: value for name, value in os.environ.items() if name != "NO_COLOR"}, "COLUMNS": "80", "PYTHONIOENCODING": "utf-8", **more}


def run(words, command=ASK, **more):
    """Status, standard output and standard error of a run."""
    done = subprocess.run(
        [*command, *(word if isinstance(word, bytes) else str(word) for word in words)],
        **{"stdout": subprocess.PIPE, "stderr": subprocess.PIPE, **more, "env": environment(**more.get("env", {}))}, timeout=LONG, check=False,
    )
    return done.returncode, (done.stdout or b"").decode("utf-8"), (done.stderr or b"").decode("utf-8")


def expect_run(words, status, said=(), complained=(), **more):
    """A run that ends so, with these pieces in what it says and complains of, and never with a Python traceback. Who complains does so in one line, or in
    two after wrong usage."""
    ended, out, err = run(words, **more)
    good = ended == status and all(piece in out for piece in said) and all(piece in err for piece in complained)
    good = good and "Traceback" not in err and bool(err) == bool(complained) and err.count("\n") <= 2
    asked = " ".join(map(str, [*more.get("command", ["ask.py"]), *words]))
    expect(asked, good, f"status {ended}, expected {status} with {said} and {complained}\n{out}{err}")
    return out


def text_of(rows):
    rows = rows.split("/") if isinstance(rows, str) else rows
    return f"type octile\nheight {len(rows)}\nwidth {len(rows[0])}\nmap\n" + "".join(row + "\n" for row in rows)


def written(folder, name, text):
    path = os.path.join(os.fsencode(folder), os.fsencode(name))
    with open(path, "wb") as file:
        file.write(text if isinstance(text, bytes) else text.encode())
    return Path(os.fsdecode(path))


def bare(text):
    """Without colours."""
    return re.sub(r"\033\[[0-9;]*m", "", text)
