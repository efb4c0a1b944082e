#!/usr/bin/env python3
"""One `hygienic serve` for many clients, at a Unix socket. Standard library only.

    hub.py [--program PATH] [--tasks N] [--conflicts N] [--journal FILE] [--sync] [--lease SECONDS] [--patience SECONDS]
           [--each N] [--open] [--keep] SOCKET

Each client writes its lines as if the program were its own. The header comes first, `PASS CALL` is answered by `PASS CALL -> REPLY`,
and faults have the numbers of the client's own lines. A client whose first line is `hello` gets more: a secret, the place of each
entry in the journal, and resources by their names. docs/GUIDE.md has all lines.

A task belongs to the client that joined it, and no other client may call on it (`--open` lets all). A client is dead if its
connection ends, or if it writes nothing for the seconds of `--lease` (30; 0 for no lease) while its task eats, or is hungry and not
awaited. What a dead client awaits is taken back, its tasks end what they do, and leave (`--keep` leaves them).

With `--journal` each entry is kept in the file before any client reads it, and on the disk with `--sync`. A journal that is there
is gone on with. FILE.owners has what else a hub needs to go on. A line `listening` is written once clients may come. SIGTERM and
SIGINT end it. It ends with a message if a file can't be written, or if the program doesn't answer for the seconds of `--patience`.
The status is the program's, or 2 if a client's line had a fault, or 3 if the hub can't go on.
"""
import argparse
import contextlib
import os
import select
import selectors
import signal
import socket
import stat
import subprocess
import sys
import time

from hub_clients import Connection
from hub_journal import FileFailed, Journal, Owners, opened
from hub_program import Program, ProgramFailed
from hub_registry import Registry
from hub_requests import Requests
from hub_table import Table

# A turn of the loop counts as no longer than this for leases and patience. So a hub that was stopped for a time ends no lease.
LONGEST_TURN = 1.0
TICK = 0.25
# How long a connection that is closed may take to read its last answers, and how long none is accepted after one failed.
PARTING = 5.0
NO_ROOM = 1.0
MOST_ACCEPTED = 64
READ, WRITE = selectors.EVENT_READ, selectors.EVENT_WRITE


class Clock:
    """The time as far as the hub was awake."""

    def __init__(self):
        self.now, self.last = 0.0, time.monotonic()

    def tick(self):
        """A turn more."""
        now = time.monotonic()
        self.now += min(now - self.last, LONGEST_TURN)
        self.last = now


class Hub:
    """The loop. In each turn it reads what came, takes lines of each client, and writes once to each file, pipe and socket."""

    def __init__(self, words, process, listener, journal):
        self.words, self.listener, self.journal = words, listener, journal
        self.clock, self.table = Clock(), Table()
        self.program = Program(process, self.table, self.clock)
        self.registry = Registry(self.program, self.table, self.clock, words, self._cut)
        self.requests, self.header, self.selector = None, b"", selectors.DefaultSelector()
        # The connections, each with what it is watched for: those that came up in this turn, those with lines to take, those that
        # ended, and those with answers to write.
        self.connections, self.touched, self.waiting, self.ended, self.dirty = {}, {}, {}, {}, []
        # Whether the pipe to the program is watched, whether no client is accepted, and until when.
        self.is_pipe_watched, self.is_crowded, self.accepts_at = False, False, None
        self.is_ending, self.is_over, self.is_busy, self.checked_at = False, False, False, 0.0

    # ---- the loop

    def begin(self, header, wakes):
        """Clients may come. A byte in the pipe `wakes` ends the hub."""
        self.header = header
        self.requests = Requests(self.program, self.table, self.registry, self.words, int(header.split()[2]))
        self.selector.register(self.program.process.stdout, READ, self._read_program)
        self.selector.register(self.listener, READ, self._accept)
        self.selector.register(wakes, READ, lambda _: self._end(wakes))

    def run(self):
        """Serves until the program ends."""
        while not self.is_over:
            for key, mask in self.selector.select(0 if self.is_busy else TICK):
                key.data(mask)
            self.clock.tick()
            if not self.is_ending:
                self._take_lines()
                self._check()
                self._close_ended()
            self._check_program()
            self.program.write()
            self._watch_program()
            if self.journal and self.program.kept:
                self.journal.write(self.program.kept)
            self.program.kept = []
            self._write_answers()

    def _end(self, wakes):
        """The hub is to end: what is under way is answered, and no more lines are taken."""
        os.read(wakes, 64)
        if not self.is_ending:
            self.is_ending = True
            if not self.accepts_at:
                self.selector.unregister(self.listener)

    def _read_program(self, mask):
        """What the program wrote, or room in its pipe."""
        if mask & READ:
            self.is_over = not self.program.read()

    def _check_program(self):
        """A program that doesn't answer ends the hub."""
        if self.program.asked and self.clock.now - self.program.progress > self.words.patience:
            raise ProgramFailed(f"the program has not answered for {self.words.patience:g} s")

    def _watch_program(self):
        """The pipe to the program is watched while it is full, and closed when the hub is to end and all is written."""
        pipe = self.program.process.stdin
        is_full = bool(self.program.unwritten)
        if is_full and not self.is_pipe_watched:
            self.selector.register(pipe, WRITE, self._read_program)
        elif self.is_pipe_watched and not is_full:
            self.selector.unregister(pipe)
        self.is_pipe_watched = is_full
        if self.is_ending and not is_full:
            pipe.close()

    # ---- what clients write

    def _accept(self, _mask):
        """Accepts clients. If there is no room for one, none is accepted for a moment."""
        for _ in range(MOST_ACCEPTED):
            try:
                line, _ = self.listener.accept()
            except (BlockingIOError, ConnectionAbortedError):
                return
            except OSError as why:
                if not self.is_crowded:
                    tell(f"more clients wait to be accepted: {why.strerror}")
                self.is_crowded, self.accepts_at = True, self.clock.now + NO_ROOM
                self.selector.unregister(self.listener)
                return
            line.setblocking(False)
            connection = Connection(line, self.registry.new(), self.dirty)
            self.connections[connection] = 0
            connection.put(self.header)
        self.is_crowded = False

    def _come(self, connection, mask):
        """A connection has something to read, or takes more answers."""
        self.touched[connection] = None
        if mask & READ and connection.is_closing:
            if not connection.discard():
                connection.answers, connection.closes_at = [], self.clock.now
        elif mask & READ and not connection.is_ended:
            connection.client.heard = self.clock.now
            if not connection.read():
                self.ended[connection] = None
            elif connection.has_lines:
                self.waiting[connection] = None
        if mask & WRITE and connection.answers:
            self.dirty.append(connection)

    def _take_lines(self):
        """Takes a share of the lines of each connection, by turns."""
        self.is_busy = self.requests.is_listed = False
        for connection in list(self.waiting):
            if self.program.is_full():
                break
            if connection not in self.waiting or connection.is_deaf():
                continue
            self.touched[connection] = None
            if self.requests.take(connection):
                self.is_busy |= connection.has_lines
                # The next turn begins with those that had to wait in this one.
                del self.waiting[connection]
                if connection.has_lines:
                    self.waiting[connection] = None
        self.is_busy |= self.requests.is_listed

    # ---- what ends

    def _check(self):
        """Now and then: ends the clients whose lease is over, and those that leave too much unread for too long."""
        now, lease = self.clock.now, self.words.lease
        if now - self.checked_at < TICK:
            return
        self.checked_at = now
        if self.accepts_at and now > self.accepts_at:
            self.accepts_at = None
            self.selector.register(self.listener, READ, self._accept)
        self.registry.tidy()
        for client in self.registry.late() if lease else ():
            if client.connection:
                self._cut(client.connection, b"lease")
            else:
                self.registry.bury(client)
        for connection in list(self.waiting):
            if not connection.is_deaf():
                connection.deaf_since = None
            elif connection.deaf_since is None:
                connection.deaf_since = now
            elif now - connection.deaf_since > (lease or self.words.patience):
                self._cut(connection, b"unread")

    def _cut(self, connection, why):
        """Ends a connection, and its client unless that came back by another. It may read its last answers."""
        self.waiting.pop(connection, None)
        connection.put_last(why)
        connection.has_lines, connection.closes_at = False, self.clock.now + PARTING
        self.ended[connection] = self.touched[connection] = None
        if connection.client.connection is connection:
            self.registry.bury(connection.client)

    def _close_ended(self):
        """The client of a connection that ended is dead once its lines are answered. The connection is closed once these are read."""
        for connection in list(self.ended):
            if connection.closes_at is None and connection.is_quiet():
                if connection.text:
                    self.program.has_fault = True
                    connection.put_fault(connection.lines + 1, b"torn")
                connection.is_closing, connection.closes_at = True, self.clock.now + PARTING
            if connection.closes_at is not None:
                if connection.client.connection is connection:
                    self.registry.bury(connection.client)
                if not connection.answers or self.clock.now > connection.closes_at:
                    self._close(connection)

    def _close(self, connection):
        """A connection is gone."""
        del self.ended[connection]
        self.touched.pop(connection, None)
        if self.connections.pop(connection):
            self.selector.unregister(connection.socket)
        connection.socket.close()

    # ---- what the hub writes to clients

    def _write_answers(self):
        """Writes the answers of this turn, and says for what the loop wakes next."""
        dirty = self.dirty[:]
        self.dirty.clear()
        for connection in dirty:
            if connection in self.connections and not connection.write():
                connection.is_ended = True
                self.ended[connection] = None
            self.touched[connection] = None
        for connection in self.touched:
            if connection in self.connections:
                self._watch(connection)
        self.touched.clear()

    def _watch(self, connection):
        """The loop wakes for lines if those that came are taken, and for room if answers are left."""
        wanted = READ if not connection.has_lines and not connection.is_ended else 0
        wanted |= WRITE if connection.answers else 0
        watched = self.connections[connection]
        if wanted != watched:
            self.connections[connection] = wanted
            if not watched:
                self.selector.register(connection.socket, wanted, lambda mask: self._come(connection, mask))
            elif wanted:
                self.selector.modify(connection.socket, wanted, lambda mask: self._come(connection, mask))
            else:
                self.selector.unregister(connection.socket)

    def close(self):
        """Ends all connections, with what they may still read."""
        for connection in self.connections:
            if not connection.is_closing:
                connection.put_last(b"end")
        end = time.monotonic() + PARTING
        for connection in self.connections:
            with contextlib.suppress(OSError):
                connection.socket.settimeout(max(0.01, end - time.monotonic()))
                connection.socket.sendall(b"".join(connection.answers))
        self.drop()

    def drop(self):
        """Closes all connections as they are."""
        for connection in self.connections:
            connection.socket.close()
        self.selector.close()


# ---- how it begins and ends


def tell(message):
    """A message for people."""
    print(f"hub.py: {message}", file=sys.stderr, flush=True)


def listening(path):
    """The socket. One that is left over is taken away; the lock says that no hub is behind it."""
    with socket.socket(socket.AF_UNIX) as line:
        try:
            if line.connect_ex(path) == 0:
                raise FileFailed(f"somebody listens at {path}")
            if os.path.exists(path) and not stat.S_ISSOCK(os.stat(path).st_mode):
                raise FileFailed(f"{path} is no socket; it is left as it is")
            with contextlib.suppress(FileNotFoundError):
                os.unlink(path)
            listener = socket.socket(socket.AF_UNIX)
            listener.bind(path)
        except OSError as why:
            raise FileFailed(f"can't listen at {path}: {why.strerror or why}") from None
    listener.setblocking(False)
    listener.listen(1024)
    return listener


class Started:
    """The program, once it has answered its first line."""

    def __init__(self, words, journal):
        self.header = b"dine 2 %d %d\n" % (words.tasks, words.conflicts)
        self.is_new = not journal or journal.is_new(self.header)
        limits = ["--tasks", str(words.tasks), "--conflicts", str(words.conflicts)]
        command = [words.program, "serve", *(limits if self.is_new else ["--resume", words.journal])]
        pipe = subprocess.PIPE
        try:
            # (Not in the hub's session, so that Ctrl-C ends the hub, and the hub the program.)
            self.process = subprocess.Popen(command, stdin=pipe, stdout=pipe, bufsize=0, start_new_session=True)
        except OSError as why:
            raise ProgramFailed(f"can't start {words.program}: {why.strerror}") from None
        if not self.is_new:
            with contextlib.suppress(OSError):
                self.process.stdin.write(b"next\n")
        self.first = b""
        while not self.first.endswith(b"\n"):
            if not select.select([self.process.stdout], [], [], words.patience)[0]:
                self.process.kill()
                raise ProgramFailed(f"the program has not answered for {words.patience:g} s")
            got = os.read(self.process.stdout.fileno(), 1)
            if not got:
                break
            self.first += got

    def is_good(self):
        """Whether it serves. If not, the first line says why."""
        return self.first == self.header if self.is_new else self.first.startswith(b"? next ")

    def end(self):
        """Ends it, whatever it does. It returns its status."""
        with contextlib.suppress(OSError):
            self.process.stdin.close()
        try:
            return self.process.wait(PARTING)
        except subprocess.TimeoutExpired:
            self.process.kill()
            return self.process.wait()


def serve(words):
    """Serves until it is told to end. It returns the status."""
    wakes, wake = os.pipe()
    for number in (signal.SIGTERM, signal.SIGINT):
        signal.signal(number, lambda *_: os.write(wake, b"x"))
    lock = opened(words.socket + ".lock", 0o600)
    journal = Journal(words.journal, words.sync) if words.journal else None
    owners = Owners(words.journal + ".owners") if journal else None
    started = Started(words, journal)
    try:
        if not started.is_good():
            tell(f"the program answered {started.first.decode(errors='replace').strip()}")
            return started.end() or 3
        hub = Hub(words, started.process, None, journal)
        header = prepared(hub, started, journal, owners)
        hub.listener = listening(words.socket)
        own = os.stat(words.socket).st_ino
        try:
            return served(hub, started, header, wakes)
        finally:
            with contextlib.suppress(FileNotFoundError):
                if os.stat(words.socket).st_ino == own:
                    os.unlink(words.socket)
            os.close(lock)
    finally:
        if started.process.poll() is None:
            started.process.kill()
            started.process.wait()


def prepared(hub, started, journal, owners):
    """The hub goes on with the journal, or begins one. It returns the header."""
    os.set_blocking(started.process.stdin.fileno(), False)
    os.set_blocking(started.process.stdout.fileno(), False)
    if started.is_new:
        if journal:
            journal.begin(started.header)
            owners.begin([])
            hub.registry.owners = owners
        return started.header
    hub.program.written = 1
    journal.cut()
    hub.registry.restore(journal, owners)
    return journal.header()


def served(hub, started, header, wakes):
    """Serves, and says when clients may come. It returns the status."""
    hub.begin(header, wakes)
    print("listening", flush=True)
    try:
        hub.run()
    except BaseException:
        hub.drop()
        raise
    status = started.end()
    hub.close()
    if not hub.is_ending:
        tell(f"the program ended with status {status}")
    return 2 if not status and hub.program.has_fault else status


def main():
    words = argparse.ArgumentParser(description=__doc__.split("\n", maxsplit=1)[0])
    words.add_argument("--program", default="hygienic", metavar="PATH", help="the program (hygienic)")
    words.add_argument("--tasks", default=64, type=int, metavar="N", help="how many tasks may be present (64)")
    words.add_argument("--conflicts", default=256, type=int, metavar="N", help="how many conflicts there may be (256)")
    words.add_argument("--journal", metavar="FILE", help="keep the entries, and go on with those that are there")
    words.add_argument("--sync", action="store_true", help="an entry is on the disk before a client reads it")
    words.add_argument("--lease", default=30.0, type=float, metavar="SECONDS", help="how long a meal may be silent (30; 0 for ever)")
    words.add_argument("--patience", default=10.0, type=float, metavar="SECONDS", help="how long an answer may take (10)")
    words.add_argument("--each", type=int, metavar="N", help="how many tasks one client may have (all)")
    words.add_argument("--open", action="store_true", help="each client may call on each task")
    words.add_argument("--keep", action="store_true", help="the tasks of dead clients stay")
    words.add_argument("socket", metavar="SOCKET")
    try:
        return serve(words.parse_args())
    except (FileFailed, ProgramFailed) as why:
        tell(why)
        return 3


if __name__ == "__main__":
    sys.exit(main())
