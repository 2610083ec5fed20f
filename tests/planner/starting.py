"""Starts the program in a folder of its own; the words that start it on this machine are those of the command line."""
import subprocess
import sys
import tempfile
from pathlib import Path

COMMAND = sys.argv[1:]
LONG = 60  # seconds that no run takes


def compare(name, got, due):
    if got != due:
        sys.exit(f"planner: {name}: wrote {got[:200]!r}.., due is {due[:200]!r}..")


def in_folder(text, act):
    """Acts in a folder whose floor.map has the text, or that has none."""
    with tempfile.TemporaryDirectory() as folder:
        if text is not None:
            Path(folder, "floor.map").write_bytes(text)
        return act(folder)


def run(folder, records, said=b"", status=0, **streams):
    """What the program writes, if that comes here. Its status and what standard error has are as they are due; a refused map is status 0 too."""
    streams = {"stdout": subprocess.PIPE, **streams}
    if "stdin" not in streams:
        streams["input"] = records
    ran = subprocess.run(COMMAND, cwd=folder, stderr=subprocess.PIPE, timeout=LONG, check=False, **streams)
    compare("standard error", ran.stderr, said)
    if ran.returncode != status:
        sys.exit(f"planner: ended with status {ran.returncode}, due is {status}")
    return ran.stdout
