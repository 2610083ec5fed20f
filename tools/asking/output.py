"""What the front end writes: lines and objects on standard output, one line about trouble on standard error."""
import json
import os
import sys

from asking.names import visible
from asking.programs import Trouble


class Output:
    """A stream for lines. What cannot be written is trouble, and then nothing more is tried."""

    def __init__(self, stream):
        if stream is None:
            raise Trouble("standard output is closed, so there is nowhere to answer to")
        # names of files may hold what the stream cannot carry
        stream.reconfigure(errors="backslashreplace")
        self.stream = stream

    def write(self, text):
        try:
            self.stream.write(text)
            self.stream.flush()
        except OSError as error:
            give_up(self.stream)
            raise Trouble(f"not all could be written: {error.strerror}") from None

    def lines(self, lines):
        self.write("".join(line + "\n" for line in lines))

    def object(self, value):
        self.write(json.dumps(value, ensure_ascii=True) + "\n")


def give_up(stream):
    """What is left in the stream goes nowhere, so that the interpreter's end says nothing about it."""
    nowhere = os.open(os.devnull, os.O_WRONLY)
    os.dup2(nowhere, stream.fileno())
    os.close(nowhere)


def complain(words):
    """One line on standard error, if there is one."""
    try:
        if sys.stderr is not None:
            sys.stderr.write(f"./run: {words}\n")
            sys.stderr.flush()
    except OSError:
        give_up(sys.stderr)


def write_file(path, data, what):
    """Writes bytes to a file, or to standard output if the path is -."""
    try:
        if path == "-":
            sys.stdout.buffer.write(data)
            sys.stdout.flush()
            return
        with open(path, "wb") as file:
            file.write(data)
    except (OSError, ValueError) as error:
        if path == "-":
            give_up(sys.stdout)
        raise Trouble(f"{what} cannot be written to {visible(path)}: {getattr(error, 'strerror', None) or error}") from None
