"""What the tests of the nodes work with: members of etcd, nodes, and connections by lines. Standard library only.

All of it listens at this machine's loopback, at addresses of hosts.py and at Unix sockets alone, and ends with who started it.
"""
import contextlib
import json
import os
import secrets
import select
import socket
import subprocess
import sys
import time
import urllib.request

HERE = os.path.dirname(os.path.abspath(__file__))
START_SECONDS = 30
# A line that is written at once is there within these seconds.
PROMPT = 20
PAUSE_SECONDS = 0.02


class Failed(Exception):
    """It didn't hold, for this reason."""


def same(what, found, wanted):
    """What was found is what is wanted."""
    if found != wanted:
        raise Failed(f"{what}: it is\n{found!r}\nand not\n{wanted!r}")


def await_that(holds, what, seconds=START_SECONDS):
    """Waits until something holds, and returns that."""
    end = time.monotonic() + seconds
    while not (found := holds()):
        if time.monotonic() > end:
            raise Failed(f"{what}: not within {seconds} s")
        time.sleep(PAUSE_SECONDS)
    return found


def free_addresses(count):
    """So many addresses of the loopback where nobody listens."""
    with contextlib.ExitStack() as kept:
        found = []
        for _ in range(count):
            door = kept.enter_context(socket.socket())
            door.bind(("127.0.0.1", 0))
            found.append(f"127.0.0.1:{door.getsockname()[1]}")
        return found


def contents(path):
    """A file's bytes."""
    with open(path, "rb") as file:
        return file.read()


class Member:
    """A member of etcd, by its number. Each listens at two of the addresses: for clients and for the other members.

    `host` begins the commands that run at its host. There are none if this machine is its host.
    """

    def __init__(self, folder, number, addresses, *words, host=()):
        self.path, self.number, self.addresses, self.words, self.host = folder, number, addresses, words, host
        self.count, self.process = len(addresses) // 2, None

    def url(self, number, kind=0):
        """Where a member listens, for clients or for the other members."""
        return f"http://{self.addresses[2 * number + kind]}"

    def start(self, is_new=True):
        """The member runs."""
        cluster = ",".join(f"node{number}={self.url(number, 1)}" for number in range(self.count))
        own, peers = self.url(self.number), self.url(self.number, 1)
        words = ["--name", f"node{self.number}", "--data-dir", os.path.join(self.path, "etcd"), "--initial-cluster", cluster]
        words += ["--listen-client-urls", own, "--advertise-client-urls", own, "--logger", "zap", "--log-level", "error"]
        words += ["--listen-peer-urls", peers, "--initial-advertise-peer-urls", peers]
        words += ["--initial-cluster-state", "new" if is_new else "existing", "--initial-cluster-token", "dine", *self.words]
        with open(os.path.join(self.path, "etcd.log"), "ab") as log:
            self.process = subprocess.Popen([*self.host, "etcd", *words], stdout=log, stderr=log, cwd=self.path)

    def post(self, path, body):
        """What the member answers, or None."""
        try:
            request = urllib.request.Request(self.url(self.number) + path, json.dumps(body).encode())
            with urllib.request.urlopen(request, timeout=2) as answer:
                return json.load(answer)
        except (OSError, ValueError):
            return None

    def status(self):
        """What it says of itself."""
        return self.post("/v3/maintenance/status", {}) or {}

    def leads(self):
        """Whether it leads."""
        said = self.status()
        return "leader" in said and said["leader"] == said["header"]["member_id"]

    def is_healthy(self):
        """Whether it knows a leader."""
        return "leader" in self.status()

    def kill(self):
        """It is off."""
        if self.process:
            self.process.kill()
            self.process.wait()


class Node:
    """A node, and its files. `words` are of the command line, and `host` is as with members."""

    def __init__(self, program, folder, etcd, *words, python=sys.executable, host=()):
        self.command = [*host, python, os.path.join(HERE, "node.py"), "--program", program, "--etcd", etcd, *words]
        self.socket, self.journal = os.path.join(folder, "socket"), os.path.join(folder, "journal")
        self.checkpoint, self.error = self.journal + ".checkpoint", os.path.join(folder, "error")
        self.process = None

    def start(self, **more):
        """The node listens, and what it said of its beginning."""
        self.run(**more)
        if not select.select([self.process.stdout], [], [], START_SECONDS)[0]:
            raise Failed(f"the node has not begun within {START_SECONDS} s")
        said = self.process.stdout.readline().strip()
        await_that(lambda: self.is_listening() or self.process.poll() is not None, "the node listens")
        if self.process.poll() is not None:
            raise Failed(f"the node ended with status {self.process.poll()}: {self.errors()[-300:]}")
        return said

    def run(self, **more):
        """The node runs."""
        with open(self.error, "wb") as error:
            command = [*self.command, "--journal", self.journal, self.socket]
            environment = {**os.environ, "PYTHONDONTWRITEBYTECODE": "1"}
            self.process = subprocess.Popen(command, stdout=subprocess.PIPE, stderr=error, text=True, env=environment, **more)

    def is_listening(self):
        """Whether it takes connections."""
        with socket.socket(socket.AF_UNIX) as line:
            return line.connect_ex(self.socket) == 0

    def errors(self):
        """What it wrote to standard error in this run."""
        return contents(self.error).decode()

    def refuses(self):
        """It doesn't start: what it says on standard error."""
        self.run()
        same("the status of a node that can't start", self.process.wait(START_SECONDS), 1)
        return self.errors()

    def kill(self):
        """It is off."""
        if self.process:
            self.process.kill()
            self.process.wait()
            self.process.stdout.close()
            self.process = None

    def entries(self):
        """How many entries its journal has."""
        return contents(self.journal).count(b"\n") - 1


class Line:
    """A client's connection to a node, by lines."""

    def __init__(self, node, secret=None, passed=None, is_asked=True):
        self.socket = socket.socket(socket.AF_UNIX)
        self.socket.settimeout(PROMPT)
        self.socket.connect(node.socket)
        self.file = self.socket.makefile("rb")
        self.secret, self.passed, self.number = secret or secrets.token_urlsafe(24), None, 0
        self.said = self.ask(f"open {self.secret}" + (f" {passed}" if passed is not None else "")) if is_asked else ""
        if self.said.startswith("pass "):
            self.passed = int(self.said.split(" ")[1])

    def __enter__(self):
        return self

    def __exit__(self, *_):
        self.close()

    def write(self, *lines):
        """Lines of the client."""
        self.socket.sendall("".join(line + "\n" for line in lines).encode())

    def hear(self):
        """The next line."""
        try:
            return self.file.readline().decode().rstrip("\n")
        except socket.timeout:
            raise Failed(f"no line within {PROMPT} s") from None

    def ask(self, line):
        """What a line is answered."""
        self.write(line)
        return self.hear()

    def call(self, call):
        """What the next request is answered, without its number and its place."""
        self.number += 1
        return self.ask(f"{self.passed} {self.number} {call}").split(" ", 1)[1]

    def join(self):
        """The name of a new task."""
        return self.call("join").rsplit(" ", 1)[1]

    def close(self):
        """The connection is gone."""
        self.file.close()
        self.socket.close()
