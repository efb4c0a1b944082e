"""Tests of the hub: whatever one client does, the others are answered in time, and the hub keeps little of it."""
import contextlib
import os
import resource
import signal
import socket
import subprocess
import sys
import threading
import time

from broker import Broker, Faulty
from harness import PROMPT, SECONDS, SERVE, Failed, Line, RunningHub, await_answer, same

# How long a bystander may wait for an answer at most, and how much memory the hub may take, in MB.
WORST = 3.0
MOST_MEMORY = 90
CLIENTS = 10000


# A client that asks one thing at a time until a line comes, in a process of its own. It prints how long it waited at most.
BYSTANDER = """
import sys, threading, time
sys.path.insert(0, {serve!r})
from harness import Line, same
line, worst, ends = Line({path!r}), 0.0, threading.Event()
threading.Thread(target=lambda: (sys.stdin.readline(), ends.set()), daemon=True).start()
print(flush=True)
while not ends.wait(0.005):
    began = time.monotonic()
    same("its answer", line.ask("next"), "? next none")
    worst = max(worst, time.monotonic() - began)
print(worst)
"""


class Bystander:
    """A client that is to be answered in time, whatever others do."""

    def __init__(self, path):
        command = [sys.executable, "-c", BYSTANDER.format(serve=SERVE, path=path)]
        self.process = subprocess.Popen(command, stdin=subprocess.PIPE, stdout=subprocess.PIPE)
        self.process.stdout.readline()

    def ends(self):
        """How long it waited at most, which is to be no longer than is allowed."""
        said, _ = self.process.communicate(b"\n", PROMPT)
        same("the bystander's status", self.process.returncode, 0)
        worst = float(said)
        if worst > WORST:
            raise Failed(f"the bystander waited {worst:.2f} s")
        return f"a bystander waited {1000 * worst:.0f} ms at most"

    def kill(self):
        """It is gone."""
        self.process.kill()
        self.process.communicate()


@contextlib.contextmanager
def watched(bench, *words, status=0, **started):
    """A hub, and a bystander at it, which has to be answered in time."""
    hub, bystander = RunningHub(bench, *words, **started), None
    try:
        bystander = Bystander(hub.listens().path)
        yield hub
        hub.found = f"{bystander.ends()}, {hub.memory():.0f} MB"
        if hub.memory() > MOST_MEMORY:
            raise Failed(f"the hub took {hub.memory():.0f} MB")
        hub.ends(status)
    except Exception as why:
        raise Failed(f"{why if isinstance(why, Failed) else repr(why)}; the hub printed {hub.errors()[-2000:]!r}") from why
    finally:
        if bystander:
            bystander.kill()
        hub.kill()


def awaits_by_thousands(bench):
    """Twenty thousand awaits that are refused at once cost what other lines cost."""
    count = 20000
    with watched(bench) as hub:
        line = Line(hub.path)
        same("its task", line.ask("0 join"), "0 join -> joined 0.0")
        began = time.monotonic()
        writer = threading.Thread(target=line.write, args=["0 await 0.0"] * count, daemon=True)
        writer.start()
        for _ in range(count):
            same("an answer", line.hear(), "0 begin 0.0 -> refused thinking")
        seconds = time.monotonic() - began
        if seconds > 20:
            raise Failed(f"{count} awaits took {seconds:.1f} s")
    return f"{count} in {seconds:.1f} s, {hub.found}"


def share_of_awaits(bench):
    """A client has as many awaits as tasks, so another client's waits, too. One that has no room leaves no hunger behind."""
    with bench.hub(status=2) as path:
        greedy = Line(path)
        for asked in ("0 join", "0 join", "0 conflict 0.0 1.1", "0 hungry 0.0", "0 begin 0.0", "0 hungry 1.1"):
            greedy.ask(asked)
        greedy.write(*["0 await 1.1"] * 64)
        same("it has two", {greedy.hear()[-10:] for _ in range(62)}, {"fault full"})
        with Broker.connect(path) as first, Broker.connect(path) as second:
            task, other = first.join(), second.join()
            first.conflict(task, other)
            with first.meal(task):
                waits = threading.Thread(target=lambda: eats(second, other), daemon=True)
                waits.start()
                while second.state(other) != "hungry":
                    time.sleep(0.01)
                with contextlib.suppress(TimeoutError):
                    with second.meal(second.join(), timeout=0.01):
                        pass
                full(second, other)
            waits.join(PROMPT)
            same("the other has eaten", (waits.is_alive(), second.state(other)), (False, "thinking"))
        greedy.write("0 cancel 1.1", "0 cancel 1.1", "0 cancel 1.1")
        same("it takes back two", [greedy.hear() for _ in range(3)], ["? cancelled 1.1"] * 2 + ["? cancelled none"])


def share_of_tasks(bench):
    """With `--each` a client has so many tasks and takes, and others have room for theirs."""
    with bench.hub("--tasks", "4", "--each", "2", status=2) as path:
        greedy, other = Line(path, "hello"), Line(path)
        asked = ("0 join", "0 take a", "0 join", "1 take b", "0 give", "1 take b")
        wanted = ["0 join -> joined 0.0 @1", "+ 0 took @4", "! 4 fault full", "! 5 fault full", "+ 0 gave", "+ 1 took @9"]
        same("the first", [greedy.ask(line) for line in asked], wanted)
        other.write("0 join", "0 join", "0 join")
        found = [other.hear() for _ in range(3)]
        same("the other", ([line[:8] for line in found[:2]], found[2]), (["0 join -"] * 2, "! 3 fault full"))


def eats(broker, task):
    """A meal."""
    with broker.meal(task):
        pass


def full(broker, task):
    """One await more than the client's share is refused, and what wanted it thinks again."""
    spare = broker.join()
    broker.conflict(spare, task)
    lines = broker._lines  # pylint: disable=protected-access
    asked = [lines.ask(f"await {task}") for _ in range(3)]
    try:
        with broker.meal(spare):
            raise Failed("one task that waits is passed by")
    except Faulty as why:
        same("the fault", str(why), "fault full")
    same("its hunger", broker.state(spare), "thinking")
    for one in asked:
        if not one.answer.done():
            lines.question(f"{one.caller} cancel {task}")


def lines_without_end(bench):
    """A line of 64 MB is counted and not kept, and blank lines by millions hold up nobody."""
    with watched(bench, status=2) as hub:
        line = Line(hub.path)
        piece = b"x" * (1 << 20)
        for _ in range(64):
            line.socket.sendall(piece)
        same("a long line", line.ask(""), "! 1 fault words")
        for _ in range(4):
            line.socket.sendall(b"\n" * (1 << 20))
        line.socket.settimeout(SECONDS)
        same("blank lines are counted", line.ask("jump"), f"! {4 * (1 << 20) + 2} fault words")
    return hub.found


def lists_by_hundreds(bench):
    """Clients that ask again and again for a list of four thousand tasks hold up nobody."""
    with watched(bench, "--tasks", "4096") as hub:
        owner = Line(hub.path)
        writer = threading.Thread(target=owner.write, args=["0 join"] * 4096, daemon=True)
        writer.start()
        for _ in range(4096):
            same("a task", owner.hear()[:16], "0 join -> joined")
        lengths = []
        threads = [threading.Thread(target=lambda: lengths.append(lists(hub.path)), daemon=True) for _ in range(20)]
        for thread in threads:
            thread.start()
        for thread in threads:
            thread.join(SECONDS)
        same("the tasks in the lists", lengths, [40 * 4096] * 20)
    return hub.found


def lists(path):
    """How many tasks there are in forty lists that are asked for together."""
    line = Line(path, "hello")
    line.socket.settimeout(SECONDS)
    line.write(*["list"] * 40)
    return sum(line.hear().count(" thinking ") for _ in range(40))


def who_reads_nothing(bench):
    """Clients that ask and read nothing are read no more, cost little, and are dead at last. They read why."""
    with watched(bench, "--lease", "2") as hub:
        greeted = [Line(hub.path, "hello") for _ in range(20)]
        threads = [threading.Thread(target=floods, args=(line,), daemon=True) for line in greeted]
        for thread in threads:
            thread.start()
        threads[0].join(SECONDS)
        text = b""
        with contextlib.suppress(ConnectionResetError):
            while got := greeted[0].socket.recv(1 << 20):
                text += got
        same("the last line", text.splitlines()[-1], b"- unread")
        same("the lines before", {line.split(b" @")[0] for line in text.splitlines()[1:-1]}, {b"0 leave 0.0 -> refused unknown"})
        if len(text) < 256 * 1024:
            raise Failed(f"only {len(text)} bytes were left to read")
        for thread in threads:
            thread.join(SECONDS)
        same("threads that are held up", sum(thread.is_alive() for thread in threads), 0)
    return hub.found


def floods(line):
    """Writes 1 MB of lines without reading. The hub takes no more of them at some time, and then ends the connection."""
    line.socket.settimeout(SECONDS)
    with contextlib.suppress(BrokenPipeError, ConnectionResetError):
        for _ in range(80):
            line.socket.sendall(b"0 leave 0.0\n" * 1000)


def who_reads_late(bench):
    """A client may write twenty thousand lines and then read: no answer is missing."""
    with bench.hub() as path:
        line = Line(path)
        writer = threading.Thread(target=line.write, args=["0 leave 0.0"] * 20000, daemon=True)
        writer.start()
        time.sleep(1.5)
        for _ in range(20000):
            same("an answer", line.hear(), "0 leave 0.0 -> refused unknown")


def no_more_connections(bench):
    """Where no connection is free, those that are there are served, and others once one is free. It is told once."""
    hub = RunningHub(bench, limits=[(resource.RLIMIT_NOFILE, 64)])
    try:
        first = Line(hub.listens().path)
        more = []
        for _ in range(100):
            more.append(socket.socket(socket.AF_UNIX))
            more[-1].connect(hub.path)
        time.sleep(2.5)
        same("the first", first.ask("0 join"), "0 join -> joined 0.0")
        for line in more:
            line.close()
        same("a new one", Line(hub.path).ask("0 join"), "0 join -> joined 1.1")
        same("what is told", hub.errors(), b"hub.py: more clients wait to be accepted: Too many open files\n")
    finally:
        hub.kill()


def short_clients(bench):
    """Ten thousand clients, one after the other, leave nothing behind, and few passes are used."""
    journal = bench.path("journal")
    with bench.hub("--journal", journal, "--tasks", "64") as path:
        for number in range(CLIENTS):
            line = Line(path, "hello" if number % 2 or number % 5 == 1 else None)
            if number % 5 == 1:
                line.ask("0 take a")
            elif number % 5 == 2:
                line.write(f"0 hungry {line.ask('0 join').split()[4]}")
            elif number % 5 == 3:
                line.write("0 join", "1 join", "2 join")
            line.close()
        line = Line(path, "hello")
        await_answer(line, "list", "? list none")
        same("a task", line.ask("0 join")[:8], "0 join -")
        with open(journal, "rb") as file:
            next(file)
            passes = {int(entry.split()[0]) for entry in file}
        same("the passes", max(passes) < 400, True)
        same("the file of owners", os.path.getsize(journal + ".owners") < 150000, True)
    return f"{CLIENTS} clients, {bench.audit(journal)} entries, passes up to {max(passes)}"


def the_last_pass(bench):
    """A journal in which the last of all passes is used is gone on with."""
    journal = bench.path("journal")
    with open(journal, "wb") as file:
        file.write(b"dine 2 64 256\n4294967295 join -> joined 0.0\n")
    with bench.hub("--journal", journal, "--keep") as path:
        line = Line(path)
        same("calls", (line.ask("0 join"), line.ask("1 join")), ("0 join -> joined 1.1", "1 join -> joined 2.2"))


def program_that_stands_still(bench):
    """A program that doesn't answer any more ends the hub, which says so. One that ends, too."""
    process = bench.path("process")
    program = bench.program_by(f'echo $$ > "{process}"; exec "$PROGRAM" "$@"')
    for number, status, why in (
        (signal.SIGSTOP, 3, b"hub.py: the program has not answered for 1 s\n"),
        (signal.SIGKILL, 247, b"hub.py: the program ended with status -9\n"),
    ):
        hub = RunningHub(bench, "--patience", "1", program=program).listens()
        line = Line(hub.path)
        same("it answers", line.ask("next"), "? next none")
        time.sleep(1.5)
        with open(process, encoding="ascii") as file:
            os.kill(int(file.read()), number)
        line.write("next")
        hub.has_ended(status, why)
        same("the client", line.hear(), "")
        same("the socket", os.path.exists(hub.path), False)
    hub = RunningHub(bench, "--patience", "1", program=bench.program_by("exec sleep 100"))
    hub.has_ended(3, b"hub.py: the program has not answered for 1 s\n")


def program_that_pauses(bench):
    """If the program takes no more lines for a while, they wait, and each is answered in the end."""
    process = bench.path("process")
    program = bench.program_by(f'echo $$ > "{process}"; exec "$PROGRAM" "$@"')
    with bench.hub(program=program) as path:
        lines = [Line(path) for _ in range(64)]
        with open(process, encoding="ascii") as file:
            number = int(file.read())
        os.kill(number, signal.SIGSTOP)
        for line in lines:
            line.write(*["10 leave 123456.7"] * 1000)
        time.sleep(1.5)
        os.kill(number, signal.SIGCONT)
        for line in lines:
            same("its answers", {line.hear() for _ in range(1000)}, {"10 leave 123456.7 -> refused unknown"})


TESTS = (
    awaits_by_thousands,
    share_of_awaits,
    share_of_tasks,
    lines_without_end,
    lists_by_hundreds,
    who_reads_nothing,
    who_reads_late,
    no_more_connections,
    short_clients,
    the_last_pass,
    program_that_stands_still,
    program_that_pauses,
)
