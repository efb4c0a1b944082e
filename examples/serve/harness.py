"""What the tests of `hygienic serve` work with: the program, a folder, the hub, and connections by lines."""
import contextlib
import os
import resource
import shutil
import signal
import socket
import subprocess
import sys
import time

from broker import Broker

SERVE = os.path.dirname(os.path.abspath(__file__))
SECONDS = 100
PROMPT = 20
PIECE = 4096


class Failed(Exception):
    """A test failed, for this reason."""


class Lacking(Exception):
    """A program isn't here that a test needs."""


def need(*tools):
    """These programs are here."""
    for tool in tools:
        if not shutil.which(tool):
            raise Lacking(f"{tool} isn't here: .ci/tools installs it")


def same(what, found, wanted):
    """What was found is what is wanted."""
    if found != wanted:
        raise Failed(f"{what}: it is\n{found!r}\nand not\n{wanted!r}")


def top():
    """The folder of the repository."""
    at = SERVE
    while not os.path.exists(os.path.join(at, "crates.txt")):
        at = os.path.dirname(at)
        if at == os.path.dirname(at):
            raise SystemExit("examples/serve/check: it stands in no repository; say --program")
    return at


class Bench:
    """What a test works with: the program, a folder of its own, and how many meals are eaten."""

    def __init__(self, program, meals, folder):
        self.program, self.meals, self.folder, self.hubs = program, meals, folder, []

    def path(self, name):
        """A file of the test's folder."""
        return os.path.join(self.folder, name)

    def run(self, words, given=b"", seconds=SECONDS, status=0):
        """What a command prints. It has to end with this status, and in time."""
        environment = {**os.environ, "PYTHONDONTWRITEBYTECODE": "1"}
        pipe = subprocess.PIPE
        with subprocess.Popen(words, stdin=pipe, stdout=pipe, stderr=pipe, env=environment, start_new_session=True) as process:
            try:
                said, told = process.communicate(given, timeout=seconds)
            except subprocess.TimeoutExpired:
                os.killpg(process.pid, signal.SIGKILL)
                raise Failed(f"{' '.join(words)}: no end within {seconds} s") from None
        if process.returncode != status:
            raise Failed(f"{' '.join(words)}: status {process.returncode}\n{said[:PIECE]!r}\n{told[:PIECE]!r}")
        return said

    def serve(self, given, *words, status=0):
        """What the program answers to these lines, line by line."""
        return self.run([self.program, "serve", *words], given.encode(), status=status).decode().splitlines()

    def audit(self, journal):
        """How many entries a journal has. It has to be legal."""
        if isinstance(journal, bytes):
            with open(self.path("audited"), "wb") as file:
                file.write(journal)
            journal = self.path("audited")
        said = self.run([self.program, "audit", journal]).decode().split()
        if said[0] != "legal":
            raise Failed(f"the audit says {said}")
        return int(said[1])

    def start(self, broker_journal=None, **limits):
        """A client with a program of its own."""
        return Broker.start(self.program, journal=broker_journal, **limits)

    @contextlib.contextmanager
    def hub(self, *words, status=0, errors=b"", **started):
        """The hub over the program, and the path of its socket. It has to end with this status and these errors, if they are said."""
        hub = RunningHub(self, *words, **started)
        try:
            hub.listens()
            yield hub.path
            hub.ends(status, errors)
        except Exception as why:
            said = hub.errors().decode(errors="replace")[-PIECE:]
            raise Failed(f"{why if isinstance(why, Failed) else repr(why)}; the hub printed {said!r}") from why
        finally:
            hub.kill()

    def end(self):
        """Whatever a test left running is gone."""
        for hub in self.hubs:
            hub.kill()

    def program_by(self, script):
        """A program of the test's own: a shell script in which `$PROGRAM` is the program."""
        path = self.path("program")
        with open(path, "w", encoding="utf-8") as file:
            file.write(f"#!/bin/sh\nPROGRAM='{self.program}'\n{script}\n")
        os.chmod(path, 0o755)
        return path


class RunningHub:
    """A hub that runs in the test's folder."""

    def __init__(self, bench, *words, python=sys.executable, script="hub.py", program=None, socket_name="dine.socket", limits=()):
        self.path = bench.path(socket_name)
        bench.hubs.append(self)
        self.errors_path = bench.path(f"errors.{len(bench.hubs)}")
        command = [python, os.path.join(SERVE, script), "--program", program or bench.program, *words, self.path]
        environment = {**os.environ, "PYTHONDONTWRITEBYTECODE": "1"}

        def limit():
            for what, most in limits:
                resource.setrlimit(what, (most, most))

        with open(self.errors_path, "wb") as errors:
            self.process = subprocess.Popen(
                command, stdout=subprocess.PIPE, stderr=errors, env=environment, preexec_fn=limit, start_new_session=True
            )

    def listens(self):
        """It is there: its first line comes, and is `listening`."""
        line = self.process.stdout.readline()
        same("the hub's first line", line, b"listening\n")
        return self

    def ends(self, status=0, errors=b""):
        """It ends when it is told to, with this status, and has printed these errors."""
        self.process.send_signal(signal.SIGTERM)
        self.has_ended(status, errors)

    def has_ended(self, status, errors):
        """It ends by itself, with this status and these errors."""
        same("the hub's status, and what it printed", (self.process.wait(PROMPT), errors if errors is None else self.errors()), (status, errors))

    def errors(self):
        """What it printed for people."""
        with open(self.errors_path, "rb") as file:
            return file.read()

    def kill(self):
        """It is gone at once."""
        self.process.kill()
        self.process.wait()
        self.process.stdout.close()

    def memory(self):
        """The most memory that it had, in MB."""
        with open(f"/proc/{self.process.pid}/status", encoding="ascii") as file:
            return next(int(line.split()[1]) for line in file if line.startswith("VmHWM")) / 1024


class Line:
    """A connection to a socket, or to a program, by lines."""

    def __init__(self, path, hello=None):
        self.socket = socket.socket(socket.AF_UNIX)
        self.socket.settimeout(PROMPT)
        self.socket.connect(path)
        self.file = self.socket.makefile("rb")
        self.header = self.hear()
        # What `hello` is answered, and the secret in it.
        self.hello = self.ask(hello) if hello else ""
        self.secret = self.hello.split()[2] if self.hello.startswith("? hello ") else ""

    def write(self, *lines):
        """Lines go out."""
        self.socket.sendall("".join(line + "\n" for line in lines).encode())

    def hear(self):
        """The next line."""
        try:
            return self.file.readline().decode().rstrip("\n")
        except socket.timeout:
            raise Failed(f"no line within {PROMPT} s") from None

    def ask(self, line):
        """What a line is answered."""
        self.socket.sendall(line.encode() + b"\n")
        return self.hear()

    def close(self):
        """The client is gone."""
        self.file.close()
        self.socket.close()


def await_broker(path):
    """A client at the socket of a program, as soon as somebody listens there."""
    end = time.monotonic() + PROMPT
    while True:
        try:
            return Broker.connect(path, hub=False)
        except (FileNotFoundError, ConnectionRefusedError):
            if time.monotonic() > end:
                raise Failed(f"nobody listens at {path} within {PROMPT} s") from None
        time.sleep(0.01)


def await_answer(line, asked, wanted):
    """Asks until a question is answered so."""
    end = time.monotonic() + PROMPT
    while line.ask(asked) != wanted:
        if time.monotonic() > end:
            raise Failed(f"{asked} is not answered {wanted} within {PROMPT} s")
        time.sleep(0.02)
