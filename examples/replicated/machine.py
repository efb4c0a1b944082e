"""A program that is fed what the log says, and what is known of those who asked. Standard library only.

All that is decided here follows from the log and its order, so all nodes decide alike: whose a pass is, whose a task is, which number
comes again, and at which place a client is dead.
"""
import collections
import os
import re
import subprocess
import time

from etcd import Batch, Coming
from kept import Stop

NUMBER = r"(?:0|[1-9][0-9]{0,19})"
TASK = rf"{NUMBER}\.{NUMBER}"
# A call, also one that only a node knows: a finish that names the place where its meal began.
CALL = rf"finish {TASK} {NUMBER}|(?!finish {TASK} )[a-z]{{1,20}}(?: {TASK}){{0,2}}"
# A request in the log: the key of whoever asks, a pass, a number, and a call.
ENTRY = re.compile(rf"([A-Za-z0-9_-]{{1,64}}) ({NUMBER}) ({NUMBER}) ({CALL})")
# Passes and numbers are below these.
PASSES, NUMBERS = 2**32, 2**64
# Calls of which each task has to be the client's own, or one of the two.
OWN_CALLS, HALF_OWN_CALLS = ("hungry", "begin", "await", "finish", "withdraw", "leave", "separate"), ("conflict",)
# What ends a task's hunger or meal after this call is done.
END_AFTER = {"hungry": "withdraw", "begin": "finish", "withdraw": None, "finish": None}

# Who asks for what: the client's key, the pass that it named, and the number. A client that comes names no pass, and its node has drawn
# what tells one coming from another.
Request = collections.namedtuple("Request", "key caller number")
# What a request is answered, or None if it has its place in the log, and its meal is awaited still.
Told = collections.namedtuple("Told", "request text")
# A client's lease is over.
Gone = collections.namedtuple("Gone", "key")
# A meal that is awaited: by which pass, by the request of which number, and whose.
Await = collections.namedtuple("Await", "caller number task")
# A task: by which pass it was joined, by which it is hungry or eats, the call that ends this, and the place where it last changed.
Task = collections.namedtuple("Task", "owner by end place")


class Client:
    """A client that is alive: its key, its pass, the number of its last request, and what that was answered."""

    def __init__(self, key, caller, number=-1, text=None):
        self.key, self.caller, self.number, self.text = key, caller, number, text

    def kept(self):
        """What a checkpoint has of it."""
        return [self.key, self.caller, self.number, self.text]


class Machine:
    """The program, its journal, and the state behind the part of the log that was taken."""

    def __init__(self, program, journal, rules, state):
        self.program, self.journal, self.rules = program, journal, rules
        self.revision, self.place, self.next_caller = state["revision"], state["place"], state["next_caller"]
        clients = [Client(*found) for found in state["clients"]]
        self.clients = {client.key: client for client in clients}
        self.callers = {client.caller: client for client in clients}
        self.awaits = [Await(*found) for found in state["awaits"]]
        self.tasks = {name: Task(*found) for name, found in state["tasks"].items()}
        self.told, self.busy_since = [], None
        self.process = self.start()

    @staticmethod
    def first_state(revision):
        """The state before the first entry of a log that begins behind this revision."""
        return {"revision": revision, "place": 0, "next_caller": 0, "clients": [], "awaits": [], "tasks": {}}

    def state(self):
        """The state now."""
        return {
            "revision": self.revision,
            "place": self.place,
            "next_caller": self.next_caller,
            "clients": [client.kept() for client in self.clients.values()],
            "awaits": self.awaits,
            "tasks": self.tasks,
        }

    # ---- to begin, and to come back

    def start(self):
        """The program, which goes on from what the journal has been taken up to."""
        command = [self.program, "serve", "--quiet"]
        if self.journal.size:
            self.process = self.resumed(command)
        else:
            command += ["--tasks", str(self.rules["tasks"]), "--conflicts", str(self.rules["conflicts"])]
            self.process = self.popen(command)
            header = self.process.stdout.readline()
            if not header.startswith(b"dine 2 "):
                raise Stop(f"the program began with {header!r} and not with a header")
            self.journal.keep(header)
        # A journal doesn't know what was awaited. It is awaited again, and as nothing has changed nothing begins.
        for found in self.awaits:
            if self.feed(f"{found.caller} await {found.task}"):
                raise Stop("a meal that was awaited began without a reason")
        self.journal.write()
        return self.process

    @staticmethod
    def popen(command, **more):
        """The program, which ends with its input. A key that ends the node at a terminal doesn't reach it."""
        return subprocess.Popen(command, stdin=subprocess.PIPE, stdout=subprocess.PIPE, start_new_session=True, **more)

    def resumed(self, command):
        """The program, which reads the journal as far as it was taken from a pipe."""
        get, put = os.pipe()
        command = [*command, "--resume", f"/dev/fd/{get}"]
        process = self.popen(command, pass_fds=(get,))
        os.close(get)
        try:
            with open(put, "wb") as pipe:
                for piece in self.journal.pieces(0, self.journal.size):
                    pipe.write(piece)
        except BrokenPipeError:
            raise Stop(f"the program read no journal, and ended with status {process.wait()}") from None
        return process

    # ---- the program

    def feed(self, line):
        """What the program answers to a line. The answer to a question behind it marks the end."""
        self.busy_since = time.monotonic()
        try:
            self.process.stdin.write(f"{line}\nnext\n".encode())
            self.process.stdin.flush()
        except BrokenPipeError:
            raise Stop(f"the program ended with status {self.process.wait()}") from None
        lines = []
        while not (got := self.process.stdout.readline()).startswith(b"? next "):
            if not got.endswith(b"\n"):
                raise Stop(f"the program ended with status {self.process.wait()}")
            if got[:1] not in b"?!0123456789":
                raise Stop(f"the program answered {got!r}")
            lines.append(got)
        self.busy_since = None
        return lines

    # ---- the log

    def take(self, found):
        """A part of the log, in its order. Returns the answers, and who is gone. The journal has it then."""
        for entry in found:
            if isinstance(entry, Batch):
                for line in entry.text.split("\n"):
                    self.take_request(line)
            elif isinstance(entry, Coming):
                self.come(entry)
            else:
                self.go(entry.key)
        self.revision = found[-1].revision
        self.journal.write()
        told, self.told = self.told, []
        return told

    def come(self, coming):
        """A client comes, and gets the next pass; or it comes back by the pass that it had."""
        key, passed = coming.key, coming.passed
        client, fault = self.clients.get(key), None
        if client is None and passed:
            fault = "gone"
        elif client is None and (len(self.clients) >= self.rules["clients"] or self.next_caller >= PASSES):
            fault = "full"
        elif client is None:
            client = self.clients[key] = self.callers[self.next_caller] = Client(key, self.next_caller)
            self.next_caller += 1
        elif passed and passed != str(client.caller):
            fault = "pass"
        text = f"! fault {fault}" if fault else f"pass {client.caller} {max(client.number, 0)}"
        self.told.append(Told(Request(key, None, coming.drawn), text))

    def go(self, key):
        """A client is dead. What it awaits is cancelled, its hunger and its meals end, and its tasks leave."""
        client = self.clients.pop(key, None)
        if not client:
            return
        caller = client.caller
        del self.callers[caller]
        calls = [f"cancel {found.task}" for found in self.awaits if found.caller == caller]
        calls += [f"{task.end} {name}" for name, task in self.tasks.items() if task.by == caller]
        if not self.rules["open"]:
            calls += [f"leave {name}" for name, task in self.tasks.items() if task.owner == caller]
        for call in calls:
            self.carry_out(caller, -1, call)
        self.told.append(Gone(key))

    def take_request(self, line):
        """A request at its place in the log. It is carried out once, if it is its client's own, and its number is past the last one."""
        match = ENTRY.fullmatch(line)
        if not match:
            return
        request = Request(match[1], int(match[2]), int(match[3]))
        client = self.callers.get(request.caller)
        if client is None or client.key != request.key:
            was_given = client is None and request.caller < self.next_caller
            self.told.append(Told(request, "! fault gone" if was_given else "! fault pass"))
        elif request.number < client.number:
            self.told.append(Told(request, "! fault stale"))
        elif request.number == client.number:
            self.told.append(Told(request, client.text))
        else:
            client.number, client.text = request.number, None
            self.take_call(request, match[4])

    def take_call(self, request, call):
        """A call of a client, unless a rule forbids it."""
        fault = self.fault_of(request.caller, call.split(" "))
        if fault:
            self.answer(request.caller, request.number, f"! fault {fault}")
            return
        # The program needn't know the place that a finish names.
        self.carry_out(request.caller, request.number, " ".join(call.split(" ")[:2]) if call.startswith("finish ") else call)
        client = self.callers[request.caller]
        if client.text is None and client.number == request.number:
            self.told.append(Told(request, None))

    def fault_of(self, caller, words):
        """The rule that forbids a call, or None."""
        word, names = words[0], words[1:]
        if not self.rules["open"]:
            is_own = [self.tasks[name].owner == caller for name in names if name in self.tasks]
            if (word in OWN_CALLS and not all(is_own)) or (word in HALF_OWN_CALLS and is_own and not any(is_own)):
                return "owner"
            if word == "await" and any(found.task in names for found in self.awaits):
                return "awaited"
            if word == "join" and self.rules["each"] and self.tasks_of(caller) >= self.rules["each"]:
                return "full"
        if word == "finish" and len(names) == 2:
            task = self.tasks.get(names[0])
            if task is None or task.end != "finish" or str(task.place) != names[1]:
                return "meal"
        return None

    def tasks_of(self, caller):
        """How many tasks a client has."""
        return sum(task.owner == caller for task in self.tasks.values())

    def carry_out(self, caller, number, call):
        """Feeds a call, and takes the lines that follow from it: its own answer, and the meals that were awaited and begin by it."""
        lines = self.feed(f"{caller} {call}")
        word, _, task = call.partition(" ")
        if word == "await" and not lines:
            self.awaits.append(Await(caller, number, task))
            return
        if lines[0] == f"? cancelled {task}\n".encode():
            self.awaits.remove(next(found for found in self.awaits if (found.caller, found.task) == (caller, task)))
        self.take_line(caller, number, lines[0])
        for line in lines[1:]:
            words = line.decode().split(" ")
            awaited = next(found for found in self.awaits if (found.caller, found.task) == (int(words[0]), words[2]))
            self.awaits.remove(awaited)
            self.take_line(awaited.caller, awaited.number, line)

    def take_line(self, caller, number, line):
        """A line that the program wrote. An entry is kept, and has the next place."""
        text = line.decode().rstrip("\n")
        if line[:1] in b"0123456789":
            self.journal.keep(line)
            self.place += 1
            self.note(text.split(" "))
            text = f"{self.place} {text}"
        elif line[:1] == b"!":
            # The number of the line in a fault is each node's own.
            text = "! " + " ".join(text.split(" ")[2:])
        self.answer(caller, number, text)

    def answer(self, caller, number, text):
        """The answer to a request. The last request of a pass has it once more if it comes again."""
        client = self.callers.get(caller)
        if client:
            if number == client.number:
                client.text = text
            self.told.append(Told(Request(client.key, caller, number), text))

    def note(self, words):
        """What an entry says of a task."""
        caller, word, reply = int(words[0]), words[1], words[-1]
        if words[-2] == "joined":
            self.tasks[reply] = Task(caller, None, None, 0)
        elif reply == "done" and word == "leave":
            del self.tasks[words[2]]
        elif reply == "done" and word in END_AFTER:
            end = END_AFTER[word]
            self.tasks[words[2]] = Task(self.tasks[words[2]].owner, caller if end else None, end, self.place)
