"""Tests of the hub: leases, clients that come back, and meals that are lost."""
import os
import signal
import subprocess
import sys
import threading
import time

from broker import Broker, Faulty, Gone
from harness import PROMPT, SERVE, Failed, Line, RunningHub, await_answer, same

# A small store that takes a text with the place of its meal, and refuses one with a smaller place than it has seen.
STORE = """
import sys
sys.path.insert(0, {serve!r})
from broker import Broker, Gone
with Broker.connect({path!r}) as broker:
    try:
        with broker.take("store") as place:
            print("has", int(place), flush=True)
            sys.stdin.readline()
            print("lost", place.lost.wait(10), int(place), flush=True)
    except Gone:
        print("gone", flush=True)
"""


class Store:
    """Keeps a text. It refuses a writer whose place is smaller than one that it has seen."""

    def __init__(self):
        self.greatest, self.text = 0, ""

    def write(self, place, text):
        """Whether the text is kept."""
        if place < self.greatest:
            return False
        self.greatest, self.text = place, text
        return True


def waits_longer(bench):
    """A client that waits longer than the lease has its meal, and a whole lease from its begin."""
    with bench.hub("--lease", "1.5") as path:
        first, second = Line(path), Line(path)
        for line, task in ((first, "0.0"), (second, "1.1")):
            same("it joins", line.ask("0 join"), f"0 join -> joined {task}")
        first.ask("0 conflict 0.0 1.1")
        same("the first begins", (first.ask("0 hungry 0.0"), first.ask("0 begin 0.0")), ("0 hungry 0.0 -> done", "0 begin 0.0 -> done"))
        second.write("0 hungry 1.1", "0 await 1.1")
        same("the second is hungry", second.hear(), "0 hungry 1.1 -> done")
        for _ in range(10):
            time.sleep(0.3)
            first.write("")
        same("the first finishes", first.ask("0 finish 0.0"), "0 finish 0.0 -> done")
        same("the second begins", second.hear(), "0 begin 1.1 -> done")
        time.sleep(1)
        same("and eats still, though it wrote nothing", first.ask("state 1.1"), "? state eating")
        time.sleep(1.5)
        same("until its lease is over", first.ask("state 1.1"), "? state none")


def works_three_leases(bench):
    """A client of the library works for three leases, and is never cut off. It waits for three leases, too."""
    with bench.hub("--lease", "1") as path, Broker.connect(path) as first, Broker.connect(path) as second:
        lost = []

        def waits():
            with second.take("a", on_lost=lost.append) as place:
                lost.append(place.lost.is_set())

        thread = threading.Thread(target=waits)
        with first.take("a", on_lost=lost.append) as place:
            thread.start()
            time.sleep(3.2)
            same("nothing is lost", (place.lost.is_set(), lost), (False, []))
            task = first.join()
            with first.meal(task) as meal:
                time.sleep(1.5)
                same("a meal of a task", (meal.lost.is_set(), first.state(task), meal.place > place), (False, "eating", True))
        thread.join(PROMPT)
        same("the other", lost, [False])


def silent_in_its_meal(bench):
    """A client that is silent in its meal is cut off once its lease is over, and reads why if it wrote `hello`."""
    with bench.hub("--lease", "1") as path:
        silent, hungry, thinks = (Line(path, "hello") for _ in range(3))
        same("the meal", silent.ask("0 take a"), "+ 0 took @3")
        same("hungry, and not awaited", (hungry.ask("0 join"), hungry.ask("0 hungry 1.1")[:8]), ("0 join -> joined 1.1 @4", "0 hungry"))
        same("what thinks needs no lease", thinks.ask("0 join"), "0 join -> joined 2.2 @6")
        began = time.monotonic()
        same("the last lines", (silent.hear(), silent.hear(), hungry.hear(), hungry.hear()), ("- lease", "", "- lease", ""))
        same("in time", 0.7 < time.monotonic() - began < 4, True)
        await_answer(thinks, "list", "? list 2.2 thinking yours")


def stopped_client(bench):
    """A client that is stopped for longer than its lease finds its meal lost, and the store refuses its place."""
    store = Store()
    with bench.hub("--lease", "1") as path:
        command = [sys.executable, "-c", STORE.format(serve=SERVE, path=path)]
        with subprocess.Popen(command, stdin=subprocess.PIPE, stdout=subprocess.PIPE) as client:
            try:
                place = int(client.stdout.readline().split()[1])
                client.send_signal(signal.SIGSTOP)
                with Broker.connect(path) as broker, broker.take("store", timeout=PROMPT) as newer:
                    same("the newer writes", (newer > place, store.write(newer, "newer")), (True, True))
                    client.send_signal(signal.SIGCONT)
                    client.stdin.write(b"\n")
                    client.stdin.flush()
                    same("it is told", client.stdout.readline().split(), [b"lost", b"True", b"%d" % place])
                    same("the store refuses it", (store.write(place, "older"), store.text), (False, "newer"))
                same("its end", client.stdout.readline(), b"gone\n")
            finally:
                client.kill()


def lost_at_once(bench):
    """A block knows at once that the connection ended, by an event and by a call."""
    hub = RunningHub(bench).listens()
    lost, found = [], []
    try:
        with Broker.connect(hub.path) as broker:
            with broker.take("a", on_lost=lost.append) as place:
                hub.kill()
                found += [place.lost.wait(2), lost == [place], broker.come_back()]
        found.append("the end of the block says nothing")
    except Gone:
        pass
    finally:
        hub.kill()
    same("lost, told so, and back", found, [True, True, False])


def back_in_time(bench):
    """A hub that was killed leaves a client its meal, its resources and its tasks, if it comes back within a lease."""
    journal = bench.path("journal")
    hub = RunningHub(bench, "--journal", journal).listens()
    broker, waiter = Broker.connect(hub.path), Broker.connect(hub.path)
    task, left = broker.join(), broker.join()
    broker.conflict(task, left)
    with broker.take("a") as place, broker.meal(task) as meal:
        thread = threading.Thread(target=hunger_that_is_left, args=(broker, left), daemon=True)
        thread.start()
        while broker.state(left) != "hungry":
            time.sleep(0.01)
        hub.kill()
        thread.join(PROMPT)
        same("both are lost", (place.lost.wait(2), meal.lost.wait(2)), (True, True))
        hub = RunningHub(bench, "--journal", journal, "--lease", "3").listens()
        same("a client that has never been here", Line(hub.path, "hello " + "0" * 32).hello, "! 1 fault secret")
        same("it has all again", (broker.come_back(5), place.lost.is_set(), meal.lost.is_set()), (True, False, False))
        same("its tasks", (broker.state(task), broker.state(left)), ("eating", "thinking"))
        same("the other is back, too", waiter.come_back(5), True)
        waits_for(waiter, "a")
        time.sleep(3.5)
        same("it goes on", (place.lost.is_set(), broker.state(task)), (False, "eating"))
        waits_for(waiter, "a")
    with waiter.take("a", timeout=PROMPT) as newer, broker.meal(task):
        same("the places grow on", newer > meal > place, True)
        refused(lambda: broker.finish(task, meal.place), "fault meal")
    for client in (broker, waiter):
        client.close()
    hub.ends(2)
    return f"{bench.audit(journal)} entries"


def hunger_that_is_left(broker, task):
    """A meal that is awaited when the hub is killed."""
    try:
        with broker.meal(task):
            raise Failed("two tasks in conflict eat")
    except Gone:
        pass


def waits_for(broker, name):
    """The resource isn't given to this client."""
    try:
        with broker.take(name, timeout=0.2):
            raise Failed(f"{name} is taken twice")
    except TimeoutError:
        pass


def refused(call, why):
    """The call is a fault of the hub's."""
    try:
        call()
    except Faulty as fault:
        same("the fault", str(fault), why)
    else:
        raise Failed(f"it is not a {why}")


def back_too_late(bench):
    """A client that comes back later than a lease finds its meal ended, and its place is the smaller one."""
    journal, store = bench.path("journal"), Store()
    hub = RunningHub(bench, "--journal", journal).listens()
    early, late, never = (Line(hub.path, "hello") for _ in range(3))
    same("the meal", late.ask("0 take a"), "+ 0 took @3")
    same("its task", late.ask("1 join"), "1 join -> joined 1.1 @4")
    same("another's", early.ask("1 join"), "1 join -> joined 2.2 @5")
    same("a third's", never.ask("1 join"), "1 join -> joined 3.3 @6")
    hub.kill()
    with bench.hub("--journal", journal, "--lease", "1", status=2) as path:
        again = Line(path, "hello " + early.secret)
        same("the early one", again.hello, early.hello.replace(" 30", " 1"))
        again.write("0 take a")
        same("waits first", again.ask("renew"), "? renew none")
        same("and has its own", again.ask("1 hungry 2.2").split(" @")[0], "1 hungry 2.2 -> done")
        same("without a meal", again.ask("1 withdraw 2.2").split(" @")[0], "1 withdraw 2.2 -> done")
        found = again.hear()
        same("and then", found[:9], "+ 0 took ")
        newer = int(found[10:])
        same("the store", (store.write(newer, "newer"), store.write(3, "older")), (True, False))
        same("the late one", Line(path, "hello " + late.secret).hello, "! 1 fault secret")
        same("its task", again.ask("state 1.1"), "? state none")
        await_answer(again, "state 3.3", "? state none")
    return f"{bench.audit(journal)} entries"


def back_by_another_connection(bench):
    """A client may come back while its connection is there still. That ends, and what it awaited is taken back."""
    with bench.hub() as path:
        first = Line(path, "hello")
        same("its meal", first.ask("0 take a"), "+ 0 took @3")
        first.write("1 take a", "2 join", "2 hungry 2.2", "2 await 2.2", "3 join", "3 conflict 2.2 3.3", "3 hungry 3.3", "3 await 3.3")
        await_answer(Line(path, "hello"), "state 3.3", "? state hungry")
        second = Line(path, "hello " + first.secret)
        same("the secret", second.secret, first.secret)
        last = [line for line in iter(first.hear, "")][-1]
        same("the first", last, "- moved")
        await_answer(second, "list", "? list 0.0 eating yours takes a; 2.2 eating yours; 3.3 hungry yours")
        same("it awaits nothing", second.ask("3 cancel 3.3"), "? cancelled none")
        same("it gives", second.ask("0 give"), "+ 0 gave")
        same("it finishes", second.ask("0 finish 2.2").split(" @")[0], "0 finish 2.2 -> done")


def hub_that_is_stopped(bench):
    """A hub that was stopped for longer than a lease ends no lease."""
    with_hub = RunningHub(bench, "--lease", "1.5").listens()
    try:
        with Broker.connect(with_hub.path) as broker, broker.take("a") as place:
            with_hub.process.send_signal(signal.SIGSTOP)
            time.sleep(3)
            with_hub.process.send_signal(signal.SIGCONT)
            time.sleep(1)
            same("the client is there", broker.list().split()[1:], ["eating", "yours", "takes", "a"])
            same("its place", f"{place:d}" in broker._lines.question("renew"), True)  # pylint: disable=protected-access
        with_hub.ends()
    finally:
        with_hub.kill()


def begin_beside_an_await(bench):
    """A begin that is refused doesn't end an await on the same pass: it needs no lease, and is taken back when its client dies."""
    with bench.hub("--open", "--keep", "--lease", "1") as path:
        eater, waiter = Line(path), Line(path)
        for asked in ("0 join", "0 join", "0 conflict 0.0 1.1", "0 hungry 0.0", "0 begin 0.0", "0 hungry 1.1"):
            eater.ask(asked)
        waiter.write("0 await 1.1")
        same("it polls", waiter.ask("0 begin 1.1"), "0 begin 1.1 -> refused not-yet")
        for _ in range(8):
            time.sleep(0.3)
            eater.write("")
        same("it is there", waiter.ask("state 1.1"), "? state hungry")
        waiter.close()
        await_answer(eater, "1 cancel 1.1", "? cancelled none")
        time.sleep(0.3)
        same("the eater finishes", eater.ask("0 finish 0.0"), "0 finish 0.0 -> done")
        same("the hunger is the other's still", eater.ask("state 1.1"), "? state hungry")


def files_of_a_lease(bench):
    """The file of owners is this user's only, and has no secret."""
    journal = bench.path("journal")
    with bench.hub("--journal", journal) as path:
        line = Line(path, "hello")
        line.ask("0 take a")
        with open(journal + ".owners", "rb") as file:
            text = file.read()
        same("the secret is in it", line.secret.encode() in text, False)
        same("the claim is in it", b"take 0.0 0 a\n" in text, True)
        same("its mode", oct(os.stat(journal + ".owners").st_mode & 0o777), "0o600")


TESTS = (
    waits_longer,
    works_three_leases,
    silent_in_its_meal,
    stopped_client,
    lost_at_once,
    back_in_time,
    back_too_late,
    back_by_another_connection,
    hub_that_is_stopped,
    begin_beside_an_await,
    files_of_a_lease,
)
