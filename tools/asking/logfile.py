"""The file of a route log: its entries one after the other, as the proved reader gives them, and entries of the proved writer appended to it.

No entry is put together or taken apart here (docs/MANUAL.md, "The route log").
"""
import fcntl
import os
import sys
from contextlib import contextmanager, suppress

from asking import earlier, words
from asking.names import visible
from asking.programs import LONGEST_ENTRY, Refusal, Trouble, is_plain, open_file

WHAT = "the log"
PIECE = 16 * LONGEST_ENTRY  # so many bytes are read at a time
MOSTLY = 512  # bytes that most entries fit in
ENDS_INSIDE = 61


# ---- read


def bytes_of(file, begin, end):
    """A function that gives so many bytes more of a plain file, from one byte up to another."""
    at = begin

    def more(count):
        nonlocal at
        piece = os.pread(file.fileno(), min(count, end - at), at)
        at += len(piece)
        return piece

    return more


def all_bytes(path):
    """A function that gives so many bytes more of a log, or of standard input if the path is -. A plain file is read as far as it goes now, and that is
    looked up at no moment of another's append."""
    if path == "-":
        if sys.stdin is None:
            raise Trouble("standard input is closed, so there is no log")
        return sys.stdin.buffer.read
    file = open_file(path, WHAT)
    if not is_plain(file):
        return file.read
    with suppress(OSError):  # a file system without locks has nobody who holds one
        fcntl.flock(file, fcntl.LOCK_SH)
    size = os.fstat(file.fileno()).st_size
    with suppress(OSError):
        fcntl.flock(file, fcntl.LOCK_UN)
    return bytes_of(file, 0, size)


class Entries:
    """The entries of a log, each with the byte where it begins. Afterwards `at` is the byte where the last whole one ends, `count` how many there were, and
    `refusal` what is wrong with the rest, None if it is empty."""

    def __init__(self, calls, path, more, at=0, count=0):
        self.calls, self.path, self.more = calls, path, more
        self.at, self.count, self.refusal = at, count, None
        self.held, self.used = b"", 0

    def rest(self):
        """The rest of the log, or as much of it as the longest entry has."""
        if len(self.held) - self.used < LONGEST_ENTRY:
            try:
                self.held = self.held[self.used :] + self.more(PIECE)
            except OSError as error:
                raise Trouble(f"{WHAT} {visible(self.path)} cannot be read: {error.strerror}") from None
            self.used = 0
        return self.held[self.used : self.used + LONGEST_ENTRY]

    def read(self):
        """What the rest begins with. The reader is handed less of it first, which costs less: what it says of that it says of the whole, unless that
        ends inside an entry."""
        rest = self.rest()
        first = self.calls.read_entry(rest[:MOSTLY])
        if len(rest) > MOSTLY and isinstance(first, Refusal) and first.number == ENDS_INSIDE:
            return self.calls.read_entry(rest)
        return first

    def __iter__(self):
        while (read := self.read()) is not None:
            if isinstance(read, Refusal):
                if self.at == 0:
                    earlier.refuse_log(WHAT, self.path, self.held[self.used :])
                self.refusal = read
                return
            begin = self.at
            self.at += read.taken
            self.used += read.taken
            self.count += 1
            yield begin, read

    def breaks_off(self):
        """Where and why the log breaks off, in words."""
        inside = f", of which it has {words.count(len(self.held) - self.used, 'byte')}" if self.refusal.number == ENDS_INSIDE else ""
        return f"breaks off at byte {self.at}, where entry {self.count + 1} begins: {words.refusal(self.refusal.number)}{inside}"


# ---- appended to


class Log:
    """A log to append to, made if it is missing. All of it is read first: what does not end where an entry ends is left as it is."""

    def __init__(self, calls, path):
        self.calls, self.path = calls, path
        self.end = self.count = self.appended = 0
        self.file = open_file(path, WHAT, plain=True, how="a+b")
        with self.locked():
            self.catch_up()

    def trouble(self, what):
        return Trouble(f"{WHAT} {visible(self.path)} {what}")

    def must_not_be(self, what, path):
        """A file that is read while the log grows, or written anew, is another one; - is standard input."""
        with suppress(OSError, ValueError):  # what cannot be looked at is told when it is opened
            if path is not None and os.path.samestat(os.stat(0 if path == "-" else path), os.fstat(self.file.fileno())):
                raise self.trouble(f"is {what} too; choose another file")

    @contextmanager
    def locked(self):
        """Meanwhile no other front end appends."""
        try:
            fcntl.flock(self.file, fcntl.LOCK_EX)
        except OSError as error:
            raise self.trouble(f"cannot be locked: {error.strerror}") from None
        try:
            yield
        finally:
            fcntl.flock(self.file, fcntl.LOCK_UN)

    def size(self):
        return os.fstat(self.file.fileno()).st_size

    def catch_up(self):
        """Reads what has come since it was last looked at; at first that is all."""
        size = self.size()
        if size < self.end:
            raise self.trouble(f"has lost entries meanwhile, and has {words.count(size, 'byte')} in place of {self.end}; nothing more is appended")
        if size == self.end:
            return
        entries = Entries(self.calls, self.path, bytes_of(self.file, self.end, size), self.end, self.count)
        for _ in entries:
            pass
        if entries.refusal:
            whole = f"{words.count(entries.count, 'entry')} before it {'is' if entries.count == 1 else 'are'} whole"
            raise self.trouble(f"{entries.breaks_off()}; {whole}. Nothing is appended to it: {words.torn_log_advice(entries.refusal.number, entries.at)}")
        self.end, self.count = entries.at, entries.count

    def append(self, entries):
        """Appends entries' bytes. What is written of one that does not fit whole is taken away again."""
        with self.locked():
            self.catch_up()
            try:
                for entry in entries:
                    write_whole(self.file, entry)
                    self.end += len(entry)
                    self.count += 1
                    self.appended += 1
                os.fsync(self.file)  # some file systems say only now that there is no room
            except OSError as error:
                raise self.trouble(f"takes no more: {error.strerror}; {self.cut_back()}") from None
            except KeyboardInterrupt:
                self.cut_back()
                raise

    def cut_back(self):
        """Leaves whole entries alone; says in words what is left."""
        try:
            if self.size() > self.end:
                os.ftruncate(self.file.fileno(), self.end)
        except OSError as error:
            return f"it could not be cut back to its last whole entry, which ends at byte {self.end}: {error.strerror}"
        return f"it ends with its last whole entry, at byte {self.end}, and has {words.count(self.count, 'entry')}"


def write_whole(file, data):
    """One write, unless the system takes only a part; then what is wrong with the rest."""
    while data:
        data = data[os.write(file.fileno(), data) :]
