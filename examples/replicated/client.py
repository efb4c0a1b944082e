"""A client of several nodes that keep the same table. Standard library only.

    with Client(["/run/node0.socket", "/run/node1.socket"]) as client:
        task = client.join()
        with client.meal(task) as place:
            resource.write(place, data)     # a resource refuses a place below the greatest that it has seen

Each request has a number. If a node dies, the client comes back at the next node, by its secret, and asks the same by the same number:
it is carried out once. A thread of its own keeps the client's lease.
"""
import contextlib
import secrets
import socket
import threading
import time

# How long it may take to give up a wait.
GIVE_UP_SECONDS = 30
PAUSE_SECONDS = 0.05


class Refused(Exception):
    """A call was refused, for this reason. Nothing was changed."""


class Faulty(Exception):
    """A request has this fault. Nothing was changed, and it is in no journal."""


class Gone(Exception):
    """The client is dead: its lease ran out. Its meals have ended, and its tasks have left."""


class Unreachable(Exception):
    """No node answered in time. Whether the call is in the log isn't known."""


class NoLog(OSError):
    """A node can't reach the log, or this takes no more."""


class Client:
    """A client at the nodes with these sockets, of which the first is its own. For one thread at a time.

    It stays at the node that answered last. `wants_home`, which another thread may set, makes the next request its own node's. `gone`
    is set once the client knows that it is dead.
    """

    # A node that has no answer for so long may be cut off: the same is asked of the next one.
    answer_seconds = 30
    # A node that doesn't let the client in, or has no log, is passed over for so long, unless all are. (Who awaits a meal longer than
    # a node may take for an answer goes from node to node, and mustn't miss its meal at one that is cut off.)
    shunned_seconds = 30

    def __init__(self, nodes):
        self.nodes, self.secret = nodes, secrets.token_urlsafe(24)
        self.caller, self.number, self.lease = None, 0, None
        self.at, self.line, self.file = 0, None, None
        # Until when each node is passed over.
        self.shunned = [0.0] * len(nodes)
        self.wants_home, self.asks = False, False
        self.gone, self.closed = threading.Event(), threading.Event()
        # Whoever changes the connection, or writes to it, has this.
        self.lock = threading.RLock()

    def __enter__(self):
        return self

    def __exit__(self, *_):
        self.close()

    # ---- the connection

    def connect(self):
        """There is a connection to the node that is tried now, and it knows whose it is."""
        if self.gone.is_set():
            raise Gone("the client's lease ran out")
        if self.line:
            return
        try:
            self.line = socket.socket(socket.AF_UNIX)
            self.line.settimeout(self.answer_seconds)
            self.line.connect(self.nodes[self.at])
            self.file = self.line.makefile("rb")
            self.introduce()
        except BaseException as why:
            if isinstance(why, OSError):
                self.shun()
            self.hang_up()
            raise

    def introduce(self):
        """Says who the client is. It comes back by its pass, if it has one."""
        self.line.sendall(f"open {self.secret}{'' if self.caller is None else f' {self.caller}'}\n".encode())
        words = self.hear("").split(" ")
        if self.caller is None:
            self.caller, self.lease = int(words[1]), int(words[3])
            threading.Thread(target=self.renew, daemon=True).start()

    def hang_up(self):
        """The connection is given up."""
        with self.lock:
            if self.file:
                self.file.close()
            if self.line:
                self.line.close()
            self.line = self.file = None

    def shun(self):
        """The node that is tried now is passed over for a while."""
        self.shunned[self.at] = time.monotonic() + self.shunned_seconds

    def turn(self):
        """The next attempt is the next node's that isn't passed over."""
        self.hang_up()
        now, count = time.monotonic(), len(self.nodes)
        others = [(self.at + step) % count for step in range(1, count + 1)]
        self.at = next((at for at in others if self.shunned[at] < now), others[0])

    def hear(self, start):
        """The next line that begins so, without that. It raises what a fault says of the client or of the log."""
        while True:
            line = self.file.readline().decode()
            if not line.endswith("\n"):
                raise ConnectionError("the node is gone")
            line = line.rstrip("\n")
            if line.endswith("! fault gone"):
                self.gone.set()
                raise Gone("the client's lease ran out")
            if line.startswith(start):
                line = line[len(start) :]
                if line == "! fault log":
                    raise NoLog("the log takes no requests")
                if line.startswith("! "):
                    raise Faulty(line[len("! fault ") :])
                return line

    def renew(self):
        """Keeps the lease. If nothing is asked and the node is gone, it looks for another one."""
        while not self.closed.wait(self.lease / 3):
            with self.lock, contextlib.suppress(OSError, Faulty):
                try:
                    if not self.asks:
                        self.connect()
                    if self.line:
                        self.line.sendall(b"\n")
                except Gone:
                    return
                except OSError:
                    if not self.asks:
                        self.turn()

    def close(self):
        """The client goes, and its tasks leave, without waiting for the end of its lease."""
        self.closed.set()
        with self.lock, contextlib.suppress(OSError, Gone, Faulty):
            if self.caller is not None:
                self.connect()
                self.line.settimeout(self.answer_seconds)
                self.line.sendall(b"end\n")
                self.hear("ended")
        self.hang_up()

    # ---- requests

    def ask(self, call, seconds=60):
        """The place of a call's entry, and its reply, within so many seconds. A call without an entry has the place 0."""
        self.number += 1
        self.asks = True
        try:
            return self.read(self.answer_to(f"{self.number} ", call, seconds))
        finally:
            self.asks = False

    def answer_to(self, number, call, seconds):
        """What a request is answered. It is asked of one node after the other, by the same number."""
        end, why, without_log = time.monotonic() + seconds, "no time was left", 0
        while time.monotonic() < end and without_log < len(self.nodes):
            try:
                with self.lock:
                    if self.wants_home:
                        self.hang_up()
                        self.at, self.shunned[0], self.wants_home = 0, 0.0, False
                    self.connect()
                    self.line.settimeout(min(max(end - time.monotonic(), PAUSE_SECONDS), self.answer_seconds))
                    self.line.sendall(f"{self.caller} {number}{call}\n".encode())
                return self.hear(number)
            except OSError as failure:
                why, without_log = failure, without_log + 1 if isinstance(failure, NoLog) else 0
                if without_log:
                    self.shun()
            self.turn()
            time.sleep(PAUSE_SECONDS)
        raise Unreachable(f"no node carried out {call!r} within {seconds} s: {why}")

    @staticmethod
    def read(answer):
        """The place and the reply of an answer."""
        entry, _, reply = answer.partition(" -> ")
        if reply.startswith("refused "):
            raise Refused(reply[len("refused ") :])
        return (int(entry.split(" ")[0]), reply) if reply else (0, answer)

    def join(self):
        """The name of a new task, which is this client's own."""
        return self.ask("join")[1][len("joined ") :]

    def conflict(self, first, second):
        """From now on the two never eat at the same time. They may be any client's."""
        self.ask(f"conflict {first} {second}")

    @contextlib.contextmanager
    def meal(self, task, seconds=600):
        """Waits until the task may eat, or raises TimeoutError. Inside is the place of its entry, and behind the task has finished."""
        self.ask(f"hungry {task}")
        try:
            place, _ = self.ask(f"await {task}", seconds)
        except Unreachable:
            self.give_up(task)
            raise TimeoutError(f"{task} has not begun within {seconds} s") from None
        except Faulty:
            self.ask(f"withdraw {task}")
            raise
        try:
            yield place
        finally:
            self.ask(f"finish {task} {place}")

    def give_up(self, task):
        """The task isn't hungry any more. If its meal has begun meanwhile, it ends."""
        self.ask(f"cancel {task}", GIVE_UP_SECONDS)
        try:
            self.ask(f"withdraw {task}", GIVE_UP_SECONDS)
        except Refused as why:
            if str(why) == "eating":
                self.ask(f"finish {task}", GIVE_UP_SECONDS)
