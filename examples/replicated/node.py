#!/usr/bin/env python3
"""One of several nodes that keep the same table, each by a `hygienic serve` of its own. Standard library only.

    node.py [--program PATH] [--tasks N] [--conflicts N] [--clients N] [--each N] [--open] [--lease SECONDS]
            [--patience SECONDS] [--log NAME] --etcd URL,.. --journal FILE SOCKET

The log of requests is etcd's. A client at the Unix socket writes `open SECRET` first, and is answered `pass PASS LAST SECONDS`: its pass,
the last number that it used, and the seconds of its lease. Then it writes `PASS NUMBER CALL`, by numbers that rise. The call may be
`await T`, `cancel T`, or `finish T PLACE`. The node puts it into the log, feeds what is committed, in the log's order, to its program,
and answers `NUMBER PLACE PASS CALL -> REPLY` once its own program has answered. PLACE is the entry's place in the journal, from 1. It
is the same on all nodes, and grows: it is the number by which a resource knows a client that comes too late. A client whose node died
comes back at another node by `open SECRET PASS`, asks the same by the same number, and gets the same answer.

A client keeps its lease by lines, which may be empty. If it says nothing for the seconds of its lease, it is dead, and its end has a
place in the log: there each node ends what the client awaits, its hunger and its meals, and its tasks leave.

The journal is kept in the file, and a checkpoint beside it. A node that comes back goes on from there by `--resume`, and feeds the
rest of the log. If the checkpoint or the journal can't be trusted, it feeds the whole log.
"""
import argparse
import contextlib
import json
import os
import re
import secrets
import signal
import sys
import time

from door import Door, say
from etcd import Full, Log, Lost, Unreachable
from kept import Journal, Stop, locked, read_checkpoint, write_checkpoint
from machine import Machine

# So many times longer than for a request may the log take at the start.
LONGER_AT_START = 6
# A checkpoint is written at most once in so many seconds.
CHECKPOINT_SECONDS = 1


def rules_of(words, log):
    """What all nodes of a log agree on, and the revision where the log begins. The first node says it, and the others have the same."""
    rules = {name: getattr(words, name) for name in ("tasks", "conflicts", "clients", "each", "open")}
    text, revision = log.agreed("rules", json.dumps({**rules, "log": secrets.token_hex(8)}))
    agreed = json.loads(text)
    for name, value in rules.items():
        if agreed.get(name) != value:
            raise Stop(f"this node has {name} {value}, and the nodes of the log {words.log} have {agreed.get(name)}")
    return agreed, revision


def state_of(words, journal, rules, revision):
    """The state to begin with: the checkpoint's, if it can be trusted, and the journal is there up to it."""
    path = words.journal + ".checkpoint"
    kept = read_checkpoint(path)
    if kept is None:
        if os.path.exists(path):
            say(f"the checkpoint {path} is damaged: the whole log is fed")
    elif kept["log"] != rules["log"]:
        raise Stop(f"the journal {words.journal} is of another log. Move it and its checkpoint away to begin with this one")
    elif journal.take_up(kept["size"], kept["digest"]):
        return kept["state"]
    else:
        say(f"the journal {words.journal} isn't the one of its checkpoint: the whole log is fed")
    return Machine.first_state(revision)


class Node:
    """The machine, and how far it is kept."""

    def __init__(self, words, journal, rules, state):
        self.path, self.journal, self.rules = words.journal + ".checkpoint", journal, rules
        self.begins_by = "--resume" if journal.size else "the whole log"
        self.machine = Machine(words.program, journal, rules, state)
        self.kept = -CHECKPOINT_SECONDS

    def follow(self, log, door):
        """Takes the log, without end. Nobody reads what the journal doesn't have."""
        for found in log.follow(self.machine.revision):
            told = self.machine.take(found)
            door.loop.call_soon_threadsafe(door.deliver, told)
            if time.monotonic() - self.kept > CHECKPOINT_SECONDS:
                self.keep()

    def keep(self):
        """Writes a checkpoint. What it says of the journal is on the disk by then."""
        self.journal.sync()
        digest = self.journal.digest.hexdigest()
        state = self.machine.state()
        write_checkpoint(self.path, {"log": self.rules["log"], "size": self.journal.size, "digest": digest, "state": state})
        self.kept = time.monotonic()


def run(words):
    """Serves until it is ended, or can't go on."""
    def log_of(seconds=words.patience):
        return Log(words.etcd, words.log, seconds)

    with locked(words.socket + ".lock", f"the socket {words.socket}"):
        journal = Journal(words.journal, f"dine 2 {words.tasks} {words.conflicts}\n".encode())
        log = log_of(LONGER_AT_START * words.patience)
        rules, revision = rules_of(words, log)
        state = state_of(words, journal, rules, revision)
        log.has(state["revision"])
        node = Node(words, journal, rules, state)
        door = Door(words.socket, log_of, words.lease, words.patience)
        print(f"begins behind entry {node.machine.place}, by {node.begins_by}", flush=True)
        try:
            door.start(node.machine)
            node.follow(log, door)
        finally:
            with contextlib.suppress(FileNotFoundError):
                os.unlink(words.socket)


def count(text):
    """A number from 1."""
    if not text.isdecimal() or int(text) < 1:
        raise argparse.ArgumentTypeError(f"{text!r} is no number from 1")
    return int(text)


def lease(text):
    """The seconds of a lease. etcd has none that are shorter."""
    if count(text) < 2:
        raise argparse.ArgumentTypeError("a lease has two seconds at least")
    return count(text)


def log_name(text):
    """A name that is no part of another log's keys."""
    if not re.fullmatch(r"[A-Za-z0-9_-]+", text):
        raise argparse.ArgumentTypeError(f"{text!r} has other characters than letters, digits, - and _")
    return text


def addresses(text):
    """The members of etcd."""
    if not all(re.fullmatch(r"http://[^/:]+:[0-9]{1,5}/?", address) for address in text.split(",")):
        raise argparse.ArgumentTypeError(f"{text!r} is not http://HOST:PORT,..")
    return text.split(",")


def words_of_the_command_line():
    """The options."""
    words = argparse.ArgumentParser(description=__doc__.split("\n", maxsplit=1)[0])
    words.add_argument("--program", default="hygienic", metavar="PATH")
    words.add_argument("--tasks", default=64, type=count, metavar="N")
    words.add_argument("--conflicts", default=256, type=count, metavar="N")
    words.add_argument("--clients", default=1024, type=count, metavar="N", help="how many clients may be alive at once")
    words.add_argument("--each", type=count, metavar="N", help="how many tasks one client may have (all)")
    words.add_argument("--open", action="store_true", help="any client may call on any task, and a dead client's tasks stay")
    words.add_argument("--lease", default=10, type=lease, metavar="SECONDS", help="how long a client may say nothing")
    words.add_argument("--patience", default=10, type=count, metavar="SECONDS", help="how long the log, or the program, may take for a request")
    words.add_argument("--log", default="dine", type=log_name, metavar="NAME", help="the log's name in etcd")
    words.add_argument("--etcd", required=True, type=addresses, metavar="URL,..", help="the members of etcd, this machine's own first")
    words.add_argument("--journal", required=True, metavar="FILE")
    words.add_argument("socket", metavar="SOCKET")
    return words.parse_args()


def main():
    words = words_of_the_command_line()
    for sent in (signal.SIGTERM, signal.SIGINT):
        signal.signal(sent, lambda *_: sys.exit(0))
    try:
        run(words)
    except SystemExit:
        return 0
    except (Stop, Lost, Full, Unreachable, OSError) as why:
        say(why)
    return 1


if __name__ == "__main__":
    # The threads that wait for etcd end with the node.
    os._exit(main())
