"""The hub's files: the journal, the file of owners beside it, and the locks of both and of the socket."""
import collections
import contextlib
import fcntl
import os
import re
import stat

HEADER = re.compile(rb"dine 2 [1-9][0-9]* [1-9][0-9]*\n")
LONGEST_HEADER = 64
OWNERS_HEADER = b"hub 1\n"
OWNERS_LINE = re.compile(
    rb"client [0-9]+ [0-9]+ [0-9a-f]{64}\n|gone [0-9]+ [0-9]+\n|take [0-9]+\.[0-9]+ [0-9]+(?: [A-Za-z0-9._-]+)+\n"
)
# The file of owners is written anew once it has so many lines that say nothing any more.
MOST_STALE = 1024


class FileFailed(Exception):
    """A file can't be used or written, for this reason. The hub ends."""


def opened(path, mode):
    """A regular file, open and locked. The lock ends with the process."""
    try:
        file = os.open(path, os.O_RDWR | os.O_CREAT | os.O_APPEND | os.O_CLOEXEC | os.O_NONBLOCK, mode)
    except OSError as why:
        raise FileFailed(f"can't open {path}: {why.strerror}") from None
    if not stat.S_ISREG(os.fstat(file).st_mode):
        raise FileFailed(f"{path} is no regular file")
    try:
        fcntl.flock(file, fcntl.LOCK_EX | fcntl.LOCK_NB)
    except OSError:
        raise FileFailed(f"another hub uses {path}") from None
    return file


def append(file, path, size, text):
    """Appends all of a text to a file of this size. If that fails, the file has nothing of it, and FileFailed is raised.

    It returns the new size. A file that was removed, or that somebody else wrote to, is used no more.
    """
    found, at = os.fstat(file), 0
    if not found.st_nlink:
        raise FileFailed(f"{path} was removed")
    if found.st_size != size:
        raise FileFailed(f"somebody else wrote to {path}")
    try:
        while at < len(text):
            written = os.write(file, text[at:] if at else text)
            if not written:
                raise OSError(0, "nothing was written")
            at += written
    except OSError as why:
        with contextlib.suppress(OSError):
            os.ftruncate(file, size)
        raise FileFailed(f"can't write {path}: {why.strerror}") from None
    return size + len(text)


class Journal:
    """The file that keeps the entries. It has whole lines, and an entry is in it before any client reads the answer."""

    def __init__(self, path, is_synced):
        self.path, self.is_synced = path, is_synced
        self.file = opened(path, 0o666)
        self.size = os.fstat(self.file).st_size

    def is_new(self, header):
        """Whether nothing is in it yet, or a part of this header, which a crash can leave. A file that is no journal is refused."""
        text = os.pread(self.file, LONGEST_HEADER, 0)
        if header.startswith(text) and text != header:
            return True
        if not HEADER.match(text):
            raise FileFailed(f"{self.path} is no journal that can be gone on with; it is left as it is")
        return False

    def begin(self, header):
        """A new journal has its header."""
        os.ftruncate(self.file, 0)
        self.size = 0
        self.write([header[:-1]])

    def header(self):
        """The header of a journal that isn't new."""
        return HEADER.match(os.pread(self.file, LONGEST_HEADER, 0))[0]

    def lines(self):
        """The entries that are whole."""
        with open(self.path, "rb") as file:
            next(file)
            for line in file:
                if line.endswith(b"\n"):
                    yield line

    def cut(self):
        """Cuts off a last line that lacks its line feed. The journal is known to be legal."""
        at = self.size
        while at:
            step = min(at, 65536)
            found = os.pread(self.file, step, at - step).rfind(b"\n")
            if found >= 0:
                at += found + 1 - step
                break
            at -= step
        if at < self.size:
            os.ftruncate(self.file, at)
            self.size = at

    def write(self, lines):
        """Keeps these lines, which come without their line feeds: all of them or none."""
        self.size = append(self.file, self.path, self.size, b"\n".join([*lines, b""]))
        if self.is_synced:
            try:
                os.fdatasync(self.file)
            except OSError as why:
                raise FileFailed(f"can't write {self.path}: {why.strerror}") from None


class Owners:
    """The file beside the journal that says which pass belongs to which client, and what was taken by name.

    Each line has its line feed, and only this user may read the file:

        client PASS PLACE DIGEST    behind this place of the journal the pass is of the client whose secret has this SHA-256
        gone PASS PLACE             behind this place it is of nobody
        take TASK PASS NAME ..      the task is a client's claim, on the client's own pass, to these resources
    """

    def __init__(self, path):
        self.path, self.file = path, opened(path, 0o600)
        os.fchmod(self.file, 0o600)
        with open(path, "rb") as file:
            lines = file.readlines()
        if lines and lines[0] != OWNERS_HEADER and not OWNERS_HEADER.startswith(lines[0]):
            raise FileFailed(f"{path} is no file of owners; it is left as it is")
        self.lines = [line for line in lines[1:] if OWNERS_LINE.fullmatch(line)]
        self.stale, self.size = 0, 0

    def changes(self):
        """The changes of passes as (place, pass, digest or None), in order, and the claims by their tasks as (own pass, names)."""
        changes, claims = [], {}
        for line in self.lines:
            words = line.split()
            if words[0] == b"take":
                claims[words[1]] = (words[2], words[3:])
            else:
                changes.append((int(words[2]), words[1], words[3] if words[0] == b"client" else None))
        return collections.deque(changes), claims

    def begin(self, lines):
        """Writes the file anew with these lines, which are all that is so now. A crash leaves the old file or the new one."""
        beside = self.path + ".new"
        with contextlib.suppress(FileNotFoundError):
            os.unlink(beside)
        file = opened(beside, 0o600)
        self.size = append(file, beside, 0, OWNERS_HEADER + b"".join(lines))
        os.fsync(file)
        os.rename(beside, self.path)
        os.close(self.file)
        self.file, self.stale, self.lines = file, 0, []

    def add(self, line, stale=0):
        """One line more, by which so many say nothing any more."""
        self.size = append(self.file, self.path, self.size, line)
        self.stale += stale

    def is_long(self):
        """Whether the file is to be written anew."""
        return self.stale > MOST_STALE
