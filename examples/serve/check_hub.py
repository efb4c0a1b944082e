"""Tests of `hub.py` with clients that write the lines of the program only."""
import contextlib
import os
import random
import signal
import sys
import time

from check_protocol import ROWS
from harness import PROMPT, SECONDS, SERVE, Failed, Line, RunningHub, await_answer, same


def twelve_clients(bench):
    """Twelve clients over one socket, each a process of its own, eat by turns, and wait by `await`."""
    journal = bench.path("journal")
    with bench.hub("--keep", "--journal", journal) as path:
        command = [sys.executable, os.path.join(SERVE, "diners.py"), "--clients", "12", "--meals", str(bench.meals), path]
        said = bench.run(command).decode().strip()
    if f"12 clients, {12 * bench.meals} meals, 0 clashes" not in said:
        raise Failed(said)
    same("the entries", bench.audit(journal), 24 + 12 * bench.meals * 3)
    with open(journal, "rb") as file:
        same("the begins that were refused", b"not-yet" in file.read(), False)
    return said


def hub_answers_as_the_program(bench):
    """Over the hub each kind of line has the same answer."""
    with bench.hub("--tasks", "2", "--conflicts", "1", status=2) as path:
        line = Line(path)
        same("the header", line.header, "dine 2 2 1")
        for asked, answer in ROWS:
            line.socket.sendall(asked.encode() + b"\n")
            for wanted in filter(None, answer.split("|")):
                same(f"the answer to {asked[:40]!r}", line.hear(), wanted)
        line.close()


def table_of_two(line):
    """Two tasks in conflict, of which the first eats."""
    for asked in ("0 join", "0 join", "0 conflict 0.0 1.1", "0 hungry 0.0", "0 begin 0.0"):
        line.ask(asked)


def dead_client(bench):
    """A client that dies in its meal blocks nobody, nor one that dies hungry, or while it waits, for another's task too."""
    journal = bench.path("journal")
    with bench.hub("--open", "--keep", "--journal", journal) as path:
        eater, waiter, third = Line(path), Line(path), Line(path)
        table_of_two(eater)
        same("the waiter is hungry", waiter.ask("0 hungry 1.1"), "0 hungry 1.1 -> done")
        waiter.socket.sendall(b"0 await 1.1\n")
        same("the waiter waits", waiter.ask("state 1.1"), "? state hungry")
        eater.close()
        same("the waiter's turn", waiter.hear(), "0 begin 1.1 -> done")
        same("a third is hungry", third.ask("0 hungry 0.0"), "0 hungry 0.0 -> done")
        third.socket.sendall(b"0 await 0.0\n")
        same("the third waits", third.ask("next"), "? next none")
        third.close()
        await_answer(waiter, "state 0.0", "? state thinking")
        # How soon the hub sees a death isn't said, so the later tries give it longer.
        same("the owner begins", any(owner_begins(path, waiter, seconds) for seconds in (0.3, 2, 10)), True)
        waiter.close()
    bench.audit(journal)


def owner_begins(path, waiter, seconds):
    """Whether a task's owner begins its meal, so many seconds after another client died that awaited the same meal."""
    owner, helper = Line(path), Line(path)
    for asked in ("0 hungry 1.1", "0 begin 1.1"):
        waiter.ask(asked)
    owner.ask("0 hungry 0.0")
    helper.socket.sendall(b"0 await 0.0\n")
    same("the waiter eats", helper.ask("state 1.1"), "? state eating")
    helper.close()
    time.sleep(seconds)
    waiter.ask("0 finish 1.1")
    reply = owner.ask("0 begin 0.0")
    owner.close()
    return reply == "0 begin 0.0 -> done"


def restless_clients(bench):
    """Whatever clients ask, and wherever their connections end, nobody is kept waiting afterwards, and the journal is legal."""
    entries = [restless(bench, state, *words) for state, *words in (("thinking", "--open", "--keep"), ("none", "--open"), ("none",))]
    return f"{', '.join(map(str, entries))} entries"


def restless(bench, state, *words):
    """How many entries restless clients make. In the end each task has this state."""
    journal, drawn = bench.path("journal" + "".join(words)), random.Random(7)
    with bench.hub("--tasks", "6", "--journal", journal, *words, status=2) as path:
        for _ in range(40):
            clients = [Line(path) for _ in range(3)]
            for _ in range(25):
                client = drawn.choice(clients)
                task = f"{drawn.randrange(6)}.{drawn.randrange(6)}"
                lines = [*(f"0 {word} {task}" for word in ("hungry", "await", "await", "begin", "finish", "cancel", "withdraw")), "1 join"]
                lines += [f"0 conflict {task} 0.0", f"state {task}", "jump", ""]
                with contextlib.suppress(BrokenPipeError, ConnectionResetError):
                    client.socket.sendall(drawn.choice(lines).encode() + drawn.choice([b"\n", b"\n", b"\n", b"\n0 hun"]))
            for client in clients:
                client.close()
        last = Line(path)
        for task in range(6):
            await_answer(last, f"state {task}.{task}", f"? state {state}")
        last.close()
    return bench.audit(journal)


def lease_that_runs_out(bench):
    """A client that is silent in its meal is dead once its lease is over, and one that says something is not."""
    with bench.hub("--open", "--lease", "3") as path:
        silent, waiter = Line(path), Line(path)
        table_of_two(silent)
        waiter.ask("0 hungry 1.1")
        waiter.socket.sendall(b"0 await 1.1\n")
        for _ in range(8):
            time.sleep(0.5)
            silent.socket.sendall(b"\n")
        same("while its lease is kept", silent.ask("state 0.0"), "? state eating")
        same("the waiter's turn", waiter.hear(), "0 begin 1.1 -> done")
        same("the silent client's connection", silent.hear(), "")
        waiter.close()
        silent.close()


def unread_answers(bench):
    """A client that reads nothing is dead once its lease is over, and the others go on."""
    with bench.hub("--keep", "--lease", "2") as path:
        deaf, other = Line(path), Line(path)
        table_of_two(deaf)
        deaf.socket.settimeout(SECONDS)
        with contextlib.suppress(BrokenPipeError, ConnectionResetError):
            for _ in range(400):
                deaf.socket.sendall(b"state 0.0\n" * 1000)
            raise Failed("it was not closed")
        await_answer(other, "state 0.0", "? state thinking")
        deaf.close()
        other.close()


def hub_goes_on(bench):
    """A hub that was killed goes on with its journal. A task that ate then has finished a lease later, one that was hungry at once."""
    journal = bench.path("journal")
    hub = RunningHub(bench, "--open", "--journal", journal).listens()
    line = Line(hub.path)
    table_of_two(line)
    same("the other is hungry", line.ask("3 hungry 1.1"), "3 hungry 1.1 -> done")
    hub.kill()
    line.close()
    with open(journal, "ab") as file:
        file.write(b"3 begin 1.")
    with bench.hub("--keep", "--lease", "1", "--journal", journal, errors=None) as path:
        line = Line(path)
        same("the states", (line.ask("state 0.0"), line.ask("state 1.1")), ("? state eating", "? state thinking"))
        await_answer(line, "state 0.0", "? state thinking")
        same("the next to join", line.ask("0 join"), "0 join -> joined 2.3")
        line.close()
    return f"{bench.audit(journal)} entries"


def in_the_order_of_lines(bench):
    """Answers of the hub's own come in the order of the lines, behind the meals that the lines before brought."""
    with bench.hub(status=2) as path:
        line = Line(path)
        for asked in ("0 join", "0 join", "0 conflict 0.0 1.1", "0 hungry 0.0", "0 begin 0.0", "0 hungry 1.1"):
            line.ask(asked)
        line.write("2 await 1.1", "jump", "1 finish 0.0", "jump", "3 await 0.0", "jump", "next", "jump", "1 finish 1.1")
        wanted = ["! 8 fault words", "1 finish 0.0 -> done", "2 begin 1.1 -> done", "! 10 fault words", "3 begin 0.0 -> refused thinking",
                  "! 12 fault words", "? next none", "! 14 fault words", "1 finish 1.1 -> done"]
        same("the answers", [line.hear() for _ in wanted], wanted)


def ends_with_its_program(bench):
    """The program ends with the hub, however that ends. Ctrl-C ends it as SIGTERM does."""
    process = bench.path("process")
    program = bench.program_by(f'echo $$ > "{process}"; exec "$PROGRAM" "$@"')
    for number, status in ((signal.SIGTERM, 0), (signal.SIGINT, 0), (signal.SIGKILL, -9)):
        hub = RunningHub(bench, program=program).listens()
        line = Line(hub.path, "hello")
        line.write("0 take a", "1 take a")
        same("it takes", line.hear()[:8], "+ 0 took")
        # (As a terminal does it, to all processes of the hub's group.)
        os.killpg(hub.process.pid, number)
        hub.has_ended(status, b"")
        same("the last line", line.hear(), "- end" if status == 0 else "")
        with open(process, encoding="ascii") as file:
            await_end(int(file.read()))


def await_end(process):
    """Waits until a process is gone."""
    end = time.monotonic() + PROMPT
    with contextlib.suppress(ProcessLookupError):
        while time.monotonic() < end:
            os.kill(process, 0)
            time.sleep(0.01)
        raise Failed(f"the program is there {PROMPT} s later")


TESTS = (
    in_the_order_of_lines,
    ends_with_its_program,
    twelve_clients,
    hub_answers_as_the_program,
    dead_client,
    restless_clients,
    lease_that_runs_out,
    unread_answers,
    hub_goes_on,
)
