#!/usr/bin/env python3
"""Plants each bug of bugs/ in a copy of the front end and looks whether the tests notice: those that the bug's file names, run on the copy, must fail.

A file of bugs/ says in its first lines what a person would see; then 'test:' names tests, 'file:' a file below tools/, and 'old:' and 'new:' a line of it.
"""
import os
import shutil
import signal
import subprocess
import sys
import tempfile
import time
from concurrent.futures import ThreadPoolExecutor
from contextlib import suppress
from pathlib import Path

HERE = Path(__file__).resolve().parent
ROOT = HERE.parents[1]
# what the front end needs of the repository beside its own files
LINKED = ("target", "crates", "include", "examples")
LONG = 100  # seconds


def bug_in(path):
    """The tests, and the edits as file, old line and new line."""
    tests, edits, file = [], [], None
    for line in path.read_text(encoding="utf-8").split("\n"):
        if line.startswith("test: "):
            tests += line[6:].split()
        elif line.startswith("file: "):
            file = line[6:]
        elif line.startswith("old: "):
            edits.append([file, line[5:], ""])
        elif line.startswith("new:"):
            edits[-1][2] = line[5:]
    return tests, edits


def tested(folder, tests):
    """Status and output of the tests on the copy in a folder. They end at the first thing that is wrong, so that what they started may still run and write to
    the folder: it is a group of its own, and is ended with them."""
    command = [sys.executable, str(ROOT / "tests" / "tools" / "front_end.py"), *tests]
    environment = {**os.environ, "FRONT_END": folder, "TMPDIR": folder, "PYTHONDONTWRITEBYTECODE": "1"}
    with subprocess.Popen(command, stdout=subprocess.PIPE, stderr=subprocess.STDOUT, text=True, env=environment, start_new_session=True) as process:
        try:
            out, _ = process.communicate(timeout=LONG)
        finally:
            with suppress(ProcessLookupError):
                os.killpg(process.pid, signal.SIGKILL)
    return process.returncode, out


def noticed(path):
    """Whether the tests fail on a copy with the bug in it; why not, if not."""
    tests, edits = bug_in(path)
    # what a process writes while it is being ended is no reason to fail
    with tempfile.TemporaryDirectory(ignore_cleanup_errors=True) as folder:
        shutil.copytree(ROOT / "tools", Path(folder, "tools"), ignore=shutil.ignore_patterns("__pycache__"))
        for name in LINKED:
            Path(folder, name).symlink_to(ROOT / name)
        for name, old, new in edits:
            file = Path(folder, "tools", name)
            text = file.read_text(encoding="utf-8")
            if text.count(old) != 1:
                return f"'{old}' stands {text.count(old)} times in {name}"
            file.write_text(text.replace(old, new), encoding="utf-8")
        try:
            status, out = tested(folder, tests)
        except subprocess.TimeoutExpired:
            return f"the tests {' '.join(tests)} hang on it"
    if status == 0 or "WRONG" not in out:
        return f"not noticed by {' '.join(tests)}\n{out}"
    return None


def main():
    began = time.monotonic()
    bugs = sorted((HERE / "bugs").glob("*.edit"))
    with ThreadPoolExecutor(2) as workers:
        results = list(workers.map(noticed, bugs))
    for bug, why in zip(bugs, results):
        if why:
            print(f"planted: WRONG: bug {bug.stem}: {why}")
    missed = sum(why is not None for why in results)
    print(f"planted: {len(bugs)} bugs, {missed} not noticed, in {time.monotonic() - began:.0f} seconds")
    return 1 if missed or not bugs else 0


if __name__ == "__main__":
    sys.exit(main())
