#!/usr/bin/env python3
"""Starts the program with reads and writes that fail, that take a part, or that are put off, and looks at what it says and loses.

    failing.py COMMAND WORD ..      the words that start the program, on this machine
"""
import errno
import os
import resource
import signal
import subprocess
import sys
import tempfile
import threading
import time
from pathlib import Path

from expected import RECORD, maptexts, output, question
from starting import COMMAND, LONG, compare, in_folder, run

TEXT = maptexts.text_of([".@.", "..."])
ASKED = question(0, 2, 5, 8) + question(0, 2, 4, 8) + question(1, 2, 5, 8)
A_WHILE = 0.3  # seconds, many of the program's short sleeps


def failure(gone, what, reason):
    """The one line on standard error."""
    return b"planner: %d answers and %d bytes written, then %s failed: %s\n" % (*divmod(gone, RECORD), what, os.strerror(reason).encode())


def fails(text, said, **streams):
    in_folder(text, lambda folder: run(folder, ASKED, said, status=1, **streams))


def unfit(way):
    """A stream that cannot be used: one that is open the other way only."""
    return os.fdopen(os.open(os.devnull, way), "rb" if way == os.O_RDONLY else "wb")


# ---- calls that fail ------------------------------------------------------------------------------------------------------------------


def failing_writes():
    with open("/dev/full", "wb") as full:
        fails(TEXT, failure(0, b"writing answers", errno.ENOSPC), stdout=full)
        fails(b"", failure(0, b"writing about the map", errno.ENOSPC), stdout=full)
        fails(None, failure(0, b"writing about the map", errno.ENOSPC), stdout=full)
    with unfit(os.O_RDONLY) as output_only_read:
        fails(TEXT, failure(0, b"writing answers", errno.EBADF), stdout=output_only_read)


def full_file():
    """In the program: a file may have 100 bytes. The signal that would end the program is ignored."""
    signal.signal(signal.SIGXFSZ, signal.SIG_IGN)
    resource.setrlimit(resource.RLIMIT_FSIZE, (100, 100))


def part_written():
    """A write takes a part, and the next one fails: the line counts what the file has."""
    records = ASKED * 4
    with tempfile.TemporaryFile() as file:
        said = failure(100, b"writing answers", errno.EFBIG)
        in_folder(TEXT, lambda folder: run(folder, records, said, status=1, stdout=file, preexec_fn=full_file))
        file.seek(0)
        compare("the part that was written", file.read(), output(TEXT, records)[:100])


def failing_reads():
    with tempfile.TemporaryDirectory() as folder:
        opened = os.open(folder, os.O_RDONLY)
        fails(TEXT, failure(0, b"reading questions", errno.EISDIR), stdin=opened)
        os.close(opened)
    with unfit(os.O_WRONLY) as input_only_written:
        fails(TEXT, failure(0, b"reading questions", errno.EBADF), stdin=input_only_written)

    def no_file(folder):
        Path(folder, "floor.map").mkdir()
        compare("a folder", run(folder, ASKED, failure(0, b"reading floor.map", errno.EISDIR), status=1), b"map missing\n")

    in_folder(None, no_file)


def closed_output(folder, told):
    """The reader of the answers goes away while questions go on coming: the program ends by itself, by a signal if it is told so, else by the write that
    fails, and then it says so."""
    program = subprocess.Popen(
        COMMAND, cwd=folder, stdin=subprocess.PIPE, stdout=subprocess.PIPE, stderr=subprocess.PIPE, restore_signals=told
    )
    program.stdout.close()
    end = time.monotonic() + LONG
    try:
        while program.poll() is None and time.monotonic() < end:
            program.stdin.write(ASKED * 20)
            program.stdin.flush()
    except BrokenPipeError:
        pass
    _, said = program.communicate(timeout=LONG)
    compare("a closed output", said, b"" if told else failure(0, b"writing answers", errno.EPIPE))
    due = 128 + signal.SIGPIPE if told else 1
    if program.returncode != due:
        sys.exit(f"planner: a closed output: ended with status {program.returncode}, due is {due}")


# ---- calls that are put off -----------------------------------------------------------------------------------------------------------


def late_input(folder):
    """An input that does not wait has nothing for a while, in the middle of a record too."""
    source, feed = os.pipe()
    os.set_blocking(source, False)
    halves = [ASKED[:RECORD], ASKED[RECORD : RECORD + 5], ASKED[RECORD + 5 :]]

    def send():
        for half in halves:
            time.sleep(A_WHILE)
            os.write(feed, half)
        time.sleep(A_WHILE)
        os.close(feed)

    sending = threading.Thread(target=send)
    sending.start()
    compare("late input", run(folder, b"", stdin=source), output(TEXT, ASKED))
    sending.join()
    os.close(source)


def late_output(folder):
    """An output that does not wait is full for a while: more answers than a pipe holds, and nobody reads at first."""
    records = ASKED * 20000
    drain, sink = os.pipe()
    os.set_blocking(sink, False)
    got = []

    def take():
        time.sleep(A_WHILE)
        with os.fdopen(drain, "rb") as answers:
            got.append(answers.read())

    taking = threading.Thread(target=take)
    taking.start()
    run(folder, records, stdout=sink)
    os.close(sink)
    taking.join()
    compare("late output", got[0], output(TEXT, ASKED) * 20000)


def main():
    failing_writes()
    part_written()
    failing_reads()
    for told in (True, False):
        in_folder(TEXT, lambda folder, told=told: closed_output(folder, told))
    print("planner: a full device, a full file, a closed output, an input and a map that cannot be read: told, with what was written")
    in_folder(TEXT, late_input)
    in_folder(TEXT, late_output)
    print("planner: an input and an output that do not wait: nothing lost")


main()
