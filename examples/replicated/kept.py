"""What a node keeps on its disk: a journal, and a checkpoint beside it. Standard library only.

A checkpoint has the state of a node behind one revision of the log, and how many bytes of the journal belong to it, with their digest.
It is written whole or not at all: into a file of its own, which is synced, and then gets the name. A checkpoint whose own digest is
wrong, or whose journal is another, isn't trusted.

What the journal has behind its checkpoint may be torn. It is compared with what the log says, line by line. Once all whole lines are
compared, the rest is cut off.
"""
import contextlib
import fcntl
import hashlib
import json
import os
import re

PIECE = 1024 * 1024
LONGEST_HEADER = 64
HEADER = re.compile(rb"dine 2 [0-9]+ [0-9]+\n")


class Stop(Exception):
    """The node can't go on, for this reason."""


@contextlib.contextmanager
def locked(path, what):
    """A lock on a file, which ends with the process."""
    with open(path, "ab") as file:
        lock(file, what)
        yield


def lock(file, what):
    """Locks an open file, or stops if another node has done so."""
    try:
        fcntl.flock(file, fcntl.LOCK_EX | fcntl.LOCK_NB)
    except BlockingIOError:
        raise Stop(f"another node has {what}") from None


def sync_folder(path):
    """The names in the folder of this file are on the disk."""
    folder = os.open(os.path.dirname(os.path.abspath(path)), os.O_RDONLY)
    try:
        os.fsync(folder)
    finally:
        os.close(folder)


class Journal:
    """A journal's file, which no other node has. It is taken up to `size`, and what is there behind is compared with what comes."""

    def __init__(self, path, header):
        self.path = path
        self.file = open(path, "a+b", buffering=0)
        lock(self.file, f"the journal {path}")
        sync_folder(path)
        self.size, self.digest, self.new, self.is_cut = 0, hashlib.sha256(), [], False
        self.length = self.whole(header)

    def pieces(self, start, end):
        """The bytes of the file between two places."""
        while start < end and (piece := os.pread(self.file.fileno(), min(PIECE, end - start), start)):
            yield piece
            start += len(piece)

    def whole(self, header):
        """Where the whole lines end: a torn line, and zeros with what is behind them, are none. Stops at a file that is no journal."""
        end = at = 0
        for piece in self.pieces(0, os.path.getsize(self.path)):
            text, *zeros = piece.split(b"\0", 1)
            if b"\n" in text:
                end = at + text.rfind(b"\n") + 1
            if zeros:
                break
            at += len(piece)
        if not (self.is_torn_header(header) if end == 0 else HEADER.match(next(self.pieces(0, LONGEST_HEADER)))):
            raise Stop(f"{self.path} is no journal; it is left as it is")
        return end

    def is_torn_header(self, header):
        """Whether the file is what a crash can leave of this header: a beginning of it, with zeros behind it."""
        text = b"".join(self.pieces(0, len(header))).split(b"\0", 1)[0]
        behind = self.pieces(len(text), os.path.getsize(self.path))
        return header.startswith(text) and not any(piece.strip(b"\0") for piece in behind)

    def take_up(self, size, digest):
        """Takes the journal up to this size, if it is there and has this digest."""
        found = hashlib.sha256()
        for piece in self.pieces(0, size):
            found.update(piece)
        if found.hexdigest() != digest:
            return False
        self.size, self.digest = size, found
        return True

    def keep(self, line):
        """A line comes behind the last one. If there was one already, it has to be the same."""
        if self.size < self.length:
            was = os.pread(self.file.fileno(), len(line), self.size)
            if was != line:
                raise Stop(
                    f"the journal {self.path} has {was!r} at byte {self.size}, and by the log it is {line!r}. It is another log's, or was "
                    "changed. Move the journal and its checkpoint away, and they are built again"
                )
        else:
            self.new.append(line)
        self.size += len(line)
        self.digest.update(line)

    def write(self):
        """All that came is in the file, whole. If the disk takes no more, a torn line may be left, which nobody has read."""
        left, self.new = b"".join(self.new), []
        try:
            if self.size >= self.length and not self.is_cut:
                self.file.truncate(self.size - len(left))
                self.is_cut = True
            while left:
                left = left[self.file.write(left) :]
        except OSError as why:
            raise Stop(f"the journal {self.path} can't be written: {why}") from None

    def sync(self):
        """All that was written is on the disk."""
        os.fsync(self.file.fileno())


def write_checkpoint(path, state):
    """A checkpoint takes the place of the last one, on the disk too."""
    text = json.dumps(state).encode()
    try:
        with open(path + ".new", "wb") as file:
            file.write(hashlib.sha256(text).hexdigest().encode() + b"\n" + text + b"\n")
            file.flush()
            os.fsync(file.fileno())
        os.replace(path + ".new", path)
        sync_folder(path)
    except OSError as why:
        raise Stop(f"the checkpoint {path} can't be written: {why}") from None


def read_checkpoint(path):
    """The state of a checkpoint, or None if there is none that can be trusted."""
    try:
        with open(path, "rb") as file:
            digest, _, text = file.read().partition(b"\n")
    except FileNotFoundError:
        return None
    text = text.rstrip(b"\n")
    return json.loads(text) if digest == hashlib.sha256(text).hexdigest().encode() else None
