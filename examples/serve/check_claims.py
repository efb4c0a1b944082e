"""Tests of the hub: resources that are taken by their names."""
import contextlib
import random
import threading
import time

from broker import Broker, Faulty, Refused
from harness import PROMPT, SECONDS, Failed, Line, RunningHub, await_answer, same

ROUNDS = 1000


def never_together(bench):
    """Two clients that name the same resource, and know nothing of each other, never have it at the same time."""
    journal, has, clashes, places = bench.path("journal"), [0], [], []
    with bench.hub("--journal", journal) as path:

        def client():
            with Broker.connect(path) as broker:
                for _ in range(ROUNDS):
                    with broker.take("printer") as place:
                        has[0] += 1
                        clashes.append(has[0] != 1)
                        places.append(place)
                        time.sleep(0)
                        clashes.append(has[0] != 1)
                        has[0] -= 1

        run_together([client, client])
    same("rounds and clashes", (len(clashes), any(clashes)), (4 * ROUNDS, False))
    same("the places grow", places == sorted(set(places)), True)
    return f"{2 * ROUNDS} rounds, {bench.audit(journal)} entries"


def run_together(jobs):
    """Runs jobs in threads. Each has to end, without an exception."""
    failed = []

    def run(job):
        try:
            job()
        except Exception as why:  # pylint: disable=broad-exception-caught
            failed.append(repr(why))

    threads = [threading.Thread(target=run, args=(job,), daemon=True) for job in jobs]
    for thread in threads:
        thread.start()
    for thread in threads:
        thread.join(SECONDS)
    same("what failed, and who is not done", (failed, [thread.name for thread in threads if thread.is_alive()]), ([], []))


def many_at_once(bench):
    """Clients that take several of a few resources, named in any order, go on for ever, and each resource has one of them."""
    journal, names = bench.path("journal"), ["a", "b", "c", "d", "e"]
    has, clashes = dict.fromkeys(names, 0), []
    with bench.hub("--journal", journal) as path:

        def client(seed):
            drawn = random.Random(seed)
            with Broker.connect(path) as broker:
                for _ in range(100):
                    taken = drawn.sample(names, drawn.randrange(1, 4))
                    with broker.take(*taken):
                        for name in taken:
                            has[name] += 1
                        time.sleep(0)
                        clashes.append(any(has[name] != 1 for name in taken))
                        for name in taken:
                            has[name] -= 1

        run_together([lambda seed=seed: client(seed) for seed in range(6)])
        line = Line(path, "hello")
        await_answer(line, "list", "? list none")
    same("takes and clashes", (len(clashes), any(clashes)), (600, False))
    return f"{bench.audit(journal)} entries"


def in_their_order(bench):
    """Who names a resource later comes later, also where the one before it waits for something else."""
    with bench.hub() as path:
        lines = [Line(path, "hello") for _ in range(4)]
        same("the first", lines[0].ask("0 take a"), "+ 0 took @3")
        for line, names, shown in ((lines[1], "b a", "1.1"), (lines[2], "b", "2.2"), (lines[3], "a", "3.3")):
            line.write(f"0 take {names}")
            await_hungry(lines[0], shown)
        same("the second is next", (lines[0].ask("0 give"), lines[1].hear()[:8]), ("+ 0 gave", "+ 0 took"))
        same("the third waits", lines[2].ask("renew"), "? renew none")
        same("the fourth waits", lines[3].ask("renew"), "? renew none")
        same("it gives", lines[1].ask("0 give"), "+ 0 gave")
        same("both others", (lines[2].hear()[:8], lines[3].hear()[:8]), ("+ 0 took", "+ 0 took"))


def await_hungry(line, task):
    """Waits until the task of a claim is hungry."""
    end = time.monotonic() + PROMPT
    while f"{task} hungry" not in line.ask("list"):
        if time.monotonic() > end:
            raise Failed(f"{task} is not hungry within {PROMPT} s")
        time.sleep(0.01)


def await_none(line, words):
    """Waits until no task of the list has these words."""
    end = time.monotonic() + PROMPT
    while words in line.ask("list"):
        if time.monotonic() > end:
            raise Failed(f"there is one that {words} after {PROMPT} s")
        time.sleep(0.01)


def takers_that_die(bench):
    """What a dead client has, or waits for, goes to whoever is next."""
    journal = bench.path("journal")
    with bench.hub("--journal", journal) as path:
        first, second, third = (Line(path, "hello") for _ in range(3))
        same("the first", first.ask("0 take a"), "+ 0 took @3")
        second.write("0 take a")
        await_hungry(first, "1.1")
        third.write("5 take a")
        await_hungry(first, "2.2")
        second.close()
        first.close()
        same("the third", third.hear()[:8], "+ 5 took")
        await_answer(third, "list", "? list 2.2 eating yours takes a")
        same("it takes more", (third.ask("6 take b")[:8], third.ask("5 give"), third.ask("6 give")), ("+ 6 took", "+ 5 gave", "+ 6 gave"))
        same("nothing is left", third.ask("list"), "? list none")
    with open(journal, "rb") as file:
        same("no call is in vain", b"refused" in file.read(), False)
    return f"{bench.audit(journal)} entries"


def taken_back(bench):
    """A claim may be given back while it waits, and then it isn't answered any more."""
    with bench.hub(status=2) as path:
        first, second = Line(path, "hello"), Line(path, "hello")
        same("the first", first.ask("0 take a"), "+ 0 took @3")
        second.write("0 take a", "0 give", "0 take a", "0 give 3", "0 give", "0 give", "0 take b")
        wanted = ["! 5 fault meal", "! 7 fault meal", "+ 0 gave", "+ 0 gave"]
        found = [second.hear() for _ in range(5)]
        same("the second", (sorted(found[:4]), found[4][:8]), (sorted(wanted), "+ 0 took"))
        with Broker.connect(path) as broker:
            began = time.monotonic()
            with contextlib.suppress(TimeoutError):
                with broker.take("b", "a", timeout=0.3):
                    raise Failed("a resource is taken twice")
            same("in time", 0.2 < time.monotonic() - began < 5, True)
            await_none(first, "takes b a")
            for names, why in ((["a:2"], "fault count"), (["a", "a"], "fault count"), (["-"], "fault words")):
                with contextlib.suppress(Faulty):
                    with broker.take(*names):
                        raise Failed(f"{names} are taken: {why}")
            for names in ([], ["a b"], ["a\n0 join"], [""]):
                with contextlib.suppress(ValueError):
                    with broker.take(*names):
                        raise Failed(f"{names} are taken")
            with broker.take("c", timeout=5):
                same("the first gives", first.ask("0 give"), "+ 0 gave")
        await_answer(first, "renew", "? renew none")
        same("what is left", first.ask("list").split()[3:], ["eating", "client", "1", "takes", "b"])


def no_room(bench):
    """Where the table has no room for a task or a conflict, nothing is taken, and the answer says so."""
    with bench.hub("--tasks", "3", "--conflicts", "1", status=2) as path:
        first, second, third = (Line(path, "hello") for _ in range(3))
        same("the first", first.ask("0 take a"), "+ 0 took @3")
        second.write("0 take a")
        await_hungry(first, "1.1")
        same("no conflict is free", third.ask("0 take a"), "+ 0 refused no-room")
        same("another resource", third.ask("0 take b")[:8], "+ 0 took")
        same("no task is free", third.ask("1 take c"), "+ 1 refused full")
        with Broker.connect(path) as broker:
            with contextlib.suppress(Refused):
                with broker.take("c"):
                    raise Failed("a fourth task is there")
            lines = broker._lines  # pylint: disable=protected-access
            asked = lines.ask("take c")
            same("it is refused", asked.answer.result(PROMPT)[0], "refused full")
            same("there is nothing to give", str(lines.give(asked.caller).exception(PROMPT)), "fault meal")
            free = sorted(lines._free)  # pylint: disable=protected-access
            same("each pass is free once", free, sorted(set(free)))
        same("it gives", (first.ask("0 give"), second.hear()[:8]), ("+ 0 gave", "+ 0 took"))


def restless_takers(bench):
    """Whatever clients ask that wrote `hello`, and wherever they or the hub end, nothing is left a lease later, and the journal is legal."""
    journal, drawn = bench.path("journal"), random.Random(11)
    words = ("--journal", journal, "--lease", "1", "--tasks", "8", "--conflicts", "9")
    secrets = ["0" * 32]
    for _ in range(6):
        hub = RunningHub(bench, *words).listens()
        for _ in range(6):
            lines = [Line(hub.path, drawn.choice(["hello", "hello", "hello " + drawn.choice(secrets)])) for _ in range(3)]
            secrets += [line.secret for line in lines if line.secret]
            for _ in range(40):
                with contextlib.suppress(BrokenPipeError, ConnectionResetError):
                    drawn.choice(lines).socket.sendall(drawn_line(drawn) + drawn.choice([b"\n", b"\n", b"\n", b"\n1 ta"]))
            for line in lines[drawn.randrange(3) :]:
                line.close()
        hub.kill()
        same("what the hub printed", hub.errors().replace(b"\n", b"")[:200], b"")
    with bench.hub(*words, errors=None) as path:
        await_answer(Line(path, "hello"), "list", "? list none")
    return f"{bench.audit(journal)} entries"


def drawn_line(drawn):
    """Any line of a client."""
    own, task = drawn.randrange(3), f"{drawn.randrange(8)}.{drawn.randrange(40)}"
    names = " ".join(drawn.sample(["a", "b", "c", "d"], drawn.randrange(1, 4)))
    lines = [f"{own} take {names}"] * 4 + [f"{own} give"] * 3 + [f"{own} give {drawn.randrange(1, 300)}", f"{own} join", "list", "renew", ""]
    lines += [f"{own} {word} {task}" for word in ("hungry", "await", "begin", "finish", "withdraw", "leave", "cancel")]
    lines += [f"{own} finish {task} {drawn.randrange(1, 300)}", f"{own} conflict {task} 0.0", f"neighbours {task}", "hello", "jump"]
    return drawn.choice(lines).encode()


TESTS = (never_together, many_at_once, in_their_order, takers_that_die, taken_back, no_room, restless_takers)
