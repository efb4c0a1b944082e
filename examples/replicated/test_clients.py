"""Tests of who may do what at a node: passes, numbers, tasks, meals and leases. Standard library only."""
import contextlib
import json
import os
import random
import re
import resource
import signal
import socket
import subprocess
import sys
import threading
import time

from bench import LONG_LEASE, SHORT_LEASE, SLACK, eat, two_in_conflict
from client import Client, Faulty, Gone, Unreachable
from cluster import HERE, PROMPT, Failed, await_that, contents, same

# Numbers of a request, right and wrong ones, in their order.
NUMBERS = ("0", "0", "1", "00", "01", "-1", "+2", "2.0", " 3", "", "x", "\u0664", "4", "3", "18446744073709551616", "99999999999999999999",
           "999999999999999999", "5", "18446744073709551615", "18446744073709551615", "18446744073709551614")


def a_pass_is_its_clients(bench):
    """Another client's request by a pass has a fault at all nodes, is in no journal, and changes nothing."""
    first, second = bench.node(), bench.node()
    owner, thief = bench.line(first), bench.line(second)
    task = owner.join()
    entries = bench.agree()
    for node in (first, second):
        thief = bench.line(node)
        for number, call in ((0, "join"), (1, "join"), (2, f"hungry {task}"), (2, f"begin {task}"), (5, f"cancel {task}"),
                             (999999999999999999, "join"), (18446744073709551615, "join")):
            same("the answer", thief.ask(f"{owner.passed} {number} {call}"), f"{number} ! fault pass")
        same("a pass that nobody has", thief.ask("4294967295 1 join"), "1 ! fault pass")
    same("the entries", bench.agree(), entries)
    same("the owner", owner.call(f"hungry {task}"), f"2 {owner.passed} hungry {task} -> done")
    same("its last number", bench.line(second, owner.secret, owner.passed).said, f"pass {owner.passed} 2 {LONG_LEASE}")
    return f"{bench.agree()} entries"


def a_secret_is_in_no_file(bench):
    """Neither the journal nor the checkpoint has a client's secret."""
    node = bench.node()
    line = bench.line(node)
    for _ in range(3):
        line.join()
        time.sleep(0.6)
    await_that(lambda: os.path.exists(node.checkpoint), "a checkpoint")
    for path in (node.checkpoint, node.journal):
        same("it has the secret", line.secret.encode() in contents(path), False)


def numbers_are_as_serve_has_them(bench):
    """Each number has the same outcome as with `serve --passes`."""
    lines = [f"0 {number} join" for number in NUMBERS]
    said = subprocess.run([bench.program, "serve", "-q", "--passes", "1"], input="".join(line + "\n" for line in lines), stdout=subprocess.PIPE,
                          text=True, timeout=60, check=False).stdout.splitlines()[1:]
    line = bench.line(bench.node())
    same("the client's pass", line.passed, 0)
    last = None
    for number, asked, wanted in zip(NUMBERS, lines, said):
        found = line.ask(asked)
        if wanted.startswith("! "):
            fault = wanted.split(" ", 2)[2]
            same(f"the answer to {asked!r}", found, f"! {fault}" if fault == "fault words" else f"{number} ! {fault}")
        else:
            same(f"whether {asked!r} comes again", wanted.startswith("= "), found == last)
            same(f"the answer to {asked!r}", found.split(" ", 2)[2], wanted[2:] if wanted.startswith("= ") else wanted)
            last = found
    return f"{len(said)} numbers, {bench.agree()} entries"


def each_line_has_its_answer(bench):
    """What is no request of this client is answered by its fault, and the connection goes on."""
    node = bench.node()
    line = bench.line(node)
    rows = (("0 1 jump 0.0", "1 ! fault words"), ("0 2 await 9.9", "2 1 0 begin 9.9 -> refused unknown"), ("0 join", "! fault words"),
            ("next", "! fault words"), ("4294967296 1 join", "! fault words"), ("0 3 hungry 0.00", "! fault words"),
            ("0 3 hungry 18446744073709551616.0", "3 ! fault words"), ("0  4 join", "! fault words"), ("0 4 join ", "! fault words"),
            ("0 4 finish 0.0 x", "! fault words"), ("0 4 finish 0.0 1.1", "! fault words"), ("0 4 hungry 0.0 3", "! fault words"), ("x" * 5000, "! fault words"), ("\0\udcff", "! fault words"),
            ("open short", "! fault words"), ("open " + "s" * 20, "! fault words"), ("0 4 cancel 0.0", "4 ? cancelled none"),
            ("0 5 join", "5 2 0 join -> joined 0.0"))
    for asked, wanted in rows:
        line.socket.sendall(asked.encode(errors="surrogateescape") + b"\n \t\r\n\n")
        same(f"the answer to {asked[:40]!r}", line.hear(), wanted)
    line.socket.sendall(b"0 6 join")
    line.socket.shutdown(1)
    same("a torn line", (line.hear(), line.hear()), ("! fault torn", ""))
    stranger = bench.line(node, "short")
    same("a secret that is too short", stranger.said, "! fault words")
    same("a request without a secret", stranger.ask("0 1 join"), "1 ! fault secret")
    same("an end without a secret", (stranger.ask("end"), stranger.hear()), ("! fault secret", ""))
    return f"{bench.agree()} entries"


def anothers_task_is_left_alone(bench):
    """Each call on another client's task has a fault at all nodes, in each of its states, and changes nothing."""
    first, second = bench.node(), bench.node()
    owner, other = bench.line(first), bench.line(second)
    a, b = two_in_conflict(owner)
    c = other.join()
    same("a conflict with another's task", other.call(f"conflict {c} {a}").split(" -> ")[1], "done")
    for step in (f"hungry {a}", f"begin {a}", f"hungry {b}"):
        for word in ("hungry", "begin", "await", "finish", "withdraw", "leave"):
            for task in (a, b):
                same(f"{word} of another's task", other.call(f"{word} {task}"), "! fault owner")
        for task in (b, c):
            same("separate", other.call(f"separate {a} {task}"), "! fault owner")
            same("separate", other.call(f"separate {task} {a}"), "! fault owner")
        same("a conflict of two others", other.call(f"conflict {a} {b}"), "! fault owner")
        same("finish at a place", other.call(f"finish {a} 1"), "! fault owner")
        same("the owner's step", owner.call(step).split(" -> ")[1], "done")
    same("what comes again", other.ask(f"{other.passed} {other.number} finish {a} 1"), f"{other.number} ! fault owner")
    same("separate of another's and its own", owner.call(f"separate {a} {c}"), "! fault owner")
    same("separate of its own", owner.call(f"separate {a} {b}").split(" -> ")[1], "done")
    same("the states", [owner.call(f"finish {a}").split(" -> ")[1], owner.call(f"begin {b}").split(" -> ")[1]], ["done"] * 2)
    same("the entries", bench.agree(), 11)


def open_tasks_are_anybodys(bench):
    """With --open any client calls on any task, and a dead client's tasks stay."""
    first, second = bench.node("--open"), bench.node("--open")
    owner, other = bench.line(first), bench.line(second)
    a, b = two_in_conflict(owner)
    for call in (f"hungry {a}", f"begin {a}", f"finish {a}", f"separate {a} {b}", f"hungry {b}", f"withdraw {b}", f"leave {b}"):
        same(call, other.call(call).split(" -> ")[1], "done")
    same("the end of the owner", owner.ask("end"), "ended")
    same("the task", other.call(f"hungry {a}").split(" -> ")[1], "done")
    return f"{bench.agree()} entries"


def a_finish_names_its_meal(bench):
    """The place of an entry is its line behind the header, and a finish by another meal's place is refused."""
    node = bench.node()
    line = bench.line(node)
    task = line.join()
    same("the place of an entry", contents(node.journal).decode().splitlines()[1], f"{line.passed} join -> joined {task}")
    same("the place of the second entry", line.call(f"withdraw {task}").split(" ")[0], "2")
    first = eat(line, task)
    same("the line at that place", contents(node.journal).decode().splitlines()[first], f"{line.passed} begin {task} -> done")
    same("another place", line.call(f"finish {task} {first - 1}"), "! fault meal")
    same("its own place", line.call(f"finish {task} {first}"), f"{first + 1} {line.passed} finish {task} -> done")
    same("a meal that is over", line.call(f"finish {task} {first}"), "! fault meal")
    second = eat(line, task)
    same("a late finish", line.call(f"finish {task} {first}"), "! fault meal")
    line.call("join")
    same("the meal goes on", line.call(f"finish {task} {second}").split(" -> ")[1], "done")
    same("a task that is not there", line.call("finish 9.9 1"), "! fault meal")
    same("without a place", line.call(f"finish {task}").split(" -> ")[1], "refused thinking")
    return f"{bench.agree()} entries"


def an_answer_comes_again(bench):
    """A client that comes back at another node asks the same by the same number, and gets the same answer, also if it waits."""
    first, second = bench.node(), bench.node()
    line = bench.line(first)
    a, b = two_in_conflict(line)
    place = eat(line, a)
    line.call(f"hungry {b}")
    line.number += 1
    waits = f"{line.passed} {line.number} await {b}"
    line.write(waits)
    same("the first node goes on", line.ask(f"{line.passed} {line.number - 1} hungry {b}"), f"{line.number - 1} ! fault stale")
    line.close()
    back = bench.line(second, line.secret, line.passed)
    same("the last number", back.said, f"pass {line.passed} {line.number} {LONG_LEASE}")
    back.write(waits, waits)
    same("a finish", back.ask(f"{line.passed} {line.number + 1} finish {a} {place}").split(" -> ")[1], "done")
    begun = back.hear()
    same("the meal", begun.split(" ", 2)[2], f"{line.passed} begin {b} -> done")
    again = bench.line(first, line.secret, line.passed)
    finish = f"{line.passed} {line.number + 1} finish {a} {place}"
    same("what comes again", again.ask(finish), f"{line.number + 1} {int(begun.split(' ')[1]) - 1} {line.passed} finish {a} -> done")
    same("an older one", again.ask(waits), f"{line.number} ! fault stale")
    return f"{bench.agree()} entries"


def a_wait_is_cancelled(bench):
    """A client that waits may go on asking, and cancel. Its wait uses up nobody's."""
    node = bench.node("--tasks", "2")
    line = bench.line(node)
    a, b = two_in_conflict(line)
    place = eat(line, a)
    line.call(f"hungry {b}")
    for _ in range(5):
        line.number += 1
        line.write(f"{line.passed} {line.number} await {b}")
        same("a second wait for it", line.call(f"await {b}"), "! fault awaited")
        same("the wait is taken back", line.call(f"cancel {b}"), f"? cancelled {b}")
    same("the hunger is there", line.call(f"withdraw {b}").split(" -> ")[1], "done")
    with Client([node.socket]) as client:
        try:
            client.join()
            raise Failed("a third task joined")
        except Exception as why:  # pylint: disable=broad-exception-caught
            same("the reason", str(why), "full")
    same("the meal", line.call(f"finish {a} {place}").split(" -> ")[1], "done")
    return f"{bench.agree()} entries"


def the_library_gives_up(bench):
    """A meal that waits too long is given up, and raises TimeoutError. A fault raises."""
    node = bench.node()
    with Client([node.socket]) as eater, Client([node.socket]) as waiter:
        a, b = eater.join(), waiter.join()
        waiter.conflict(a, b)
        with eater.meal(a):
            try:
                with waiter.meal(b, seconds=0.5):
                    raise Failed("two tasks in conflict eat")
            except TimeoutError:
                pass
            try:
                waiter.ask(f"finish {a}")
                raise Failed("another's meal ended")
            except Faulty as why:
                same("the fault", str(why), "owner")
        with waiter.meal(b, seconds=5) as place:
            same("a place", place > 0, True)
    return f"{bench.agree()} entries"


def a_silent_client_is_dead(bench):
    """A client that says nothing in its meal is dead once its lease is over, and one that writes empty lines is not, nor who waits."""
    first, second = bench.node(lease=SHORT_LEASE), bench.node(lease=SHORT_LEASE)
    silent, waiter = bench.line(first), Client([second.socket])
    a, b = silent.join(), waiter.join()
    waiter.conflict(a, b)
    place = eat(silent, a)
    end = time.monotonic() + 3 * SHORT_LEASE
    while time.monotonic() < end:
        silent.write("")
        time.sleep(SHORT_LEASE / 4)
    same("its meal while it renews", silent.call(f"begin {a}").split(" -> ")[1], "refused eating")
    with waiter.meal(b, 3 * SHORT_LEASE + SLACK) as later:
        same("the later meal has the greater place", later > place, True)
        same("what the silent one reads", (silent.hear(), silent.hear()), ("! fault gone", ""))
        back = bench.line(second, silent.secret, silent.passed)
        same("it comes back late", back.said, "! fault gone")
        other = bench.line(second)
        same("its pass is nobody's", other.ask(f"{silent.passed} 9 finish {a} {place}"), "9 ! fault gone")
    waiter.close()
    return f"{bench.agree()} entries"


def a_waiter_that_dies_is_told(bench):
    """A client that waits when it dies has its answer, and no meal begins for it."""
    node = bench.node(lease=SHORT_LEASE)
    eater, waiter = bench.line(node), bench.line(node)
    a, b = eater.join(), waiter.join()
    waiter.call(f"conflict {a} {b}")
    place = eat(eater, a)
    waiter.call(f"hungry {b}")
    waiter.write(f"{waiter.passed} 9 await {b}")
    gone = []
    while not gone:
        eater.write("")
        waiter.socket.settimeout(0.3)
        try:
            gone = [waiter.socket.recv(4096)]
        except OSError:
            pass
    same("the answer", gone[0].startswith(b"9 ! fault gone\n"), True)
    same("the eater's meal", eater.call(f"finish {a} {place}").split(" -> ")[1], "done")
    same("a meal for nobody", f"begin {b}".encode() in contents(node.journal), False)


def a_stopped_client_is_dead(bench):
    """The library renews while its client sleeps. If it can't renew, the client's next call raises Gone."""
    node = bench.node(lease=SHORT_LEASE)
    sleeper = Client([node.socket])
    task = sleeper.join()
    with sleeper.meal(task):
        time.sleep(3 * SHORT_LEASE)
    sleeper.closed.set()
    await_that(lambda: contents(node.journal).endswith(b" -> done\n") and b" leave " in contents(node.journal), "its task leaves")
    try:
        sleeper.ask(f"hungry {task}")
        raise Failed("a dead client's call was carried out")
    except Gone:
        same("it knows", sleeper.gone.is_set(), True)


def the_library_changes_its_node(bench):
    """A client whose node dies in its meal keeps its lease at the next node, though it asks nothing."""
    first, second = bench.node(lease=SHORT_LEASE), bench.node(lease=SHORT_LEASE)
    client = Client([first.socket, second.socket])
    task = client.join()
    with client.meal(task):
        first.kill()
        time.sleep(3 * SHORT_LEASE)
    client.close()
    first.start()
    return f"{bench.agree()} entries"


class Hurried(Client):
    """A client that soon asks the next node, and notes where it was let in or wasn't."""

    answer_seconds = 0.5

    def __init__(self, nodes):
        super().__init__(nodes)
        self.visits = []

    def introduce(self):
        self.visits.append(self.at)
        super().introduce()


def who_waits_passes_over_a_silent_node(bench):
    """A client that waits long for its meal goes from node to node, and once only to one that doesn't let it in."""
    nodes = [bench.node() for _ in range(3)]
    eater, waiter = bench.line(nodes[0]), Hurried([node.socket for node in nodes])
    a, b = eater.join(), waiter.join()
    waiter.conflict(a, b)
    place = eat(eater, a)
    nodes[1].process.send_signal(signal.SIGSTOP)
    threading.Timer(10 * waiter.answer_seconds, eater.call, [f"finish {a} {place}"]).start()
    with waiter.meal(b):
        nodes[1].process.send_signal(signal.SIGCONT)
    same("how often it was at the silent node", waiter.visits.count(1), 1)
    same("whether it was at the others again and again", min(waiter.visits.count(0), waiter.visits.count(2)) > 2, True)
    waiter.close()
    return f"{bench.agree()} entries"


def short_clients_leave_nothing(bench):
    """Many short clients leave no task, no pass, and nothing in the checkpoint."""
    node = bench.node("--tasks", "2", "--clients", "3")
    for at in range(300):
        line = bench.line(node)
        same("its pass", line.said, f"pass {at} 0 {LONG_LEASE}")
        task = line.join()
        eat(line, task)
        same("its end", (line.ask("end"), line.hear()), ("ended", ""))
        line.close()
    last = bench.line(node)
    task = last.join()

    def is_kept():
        last.call(f"hungry {task}")
        state = json.loads(contents(node.checkpoint).split(b"\n", 1)[1])["state"]
        return [found[1] for found in state["clients"]] == [last.passed] and set(state["tasks"]) == {task}

    await_that(is_kept, "the checkpoint has the last client and its task, and nothing else", 5)
    return f"{bench.agree()} entries"


def clients_have_a_limit(bench):
    """As many clients are alive as the nodes agreed on."""
    first, second = bench.node("--clients", "2"), bench.node("--clients", "2")
    lines = [bench.line(first), bench.line(second)]
    same("a third", bench.line(second).said, "! fault full")
    late = Client([second.socket])
    for _ in range(2):
        try:
            late.ask("join", PROMPT)
            raise Failed("a third client has joined a task")
        except Faulty as why:
            same("the fault", str(why), "full")
        except Unreachable as why:
            raise Failed(f"a third client has no answer: {why}") from None
    same("an end", lines[0].ask("end"), "ended")
    same("a later one", late.join(), "0.0")
    same("its pass", late.caller, 2)
    late.close()


def a_client_has_its_share(bench):
    """With --each a client has so many tasks at once, and leaves room for others."""
    node = bench.node("--tasks", "4", "--each", "2")
    greedy, other = bench.line(node), bench.line(node)
    task = greedy.join()
    greedy.join()
    same("a third", greedy.call("join"), "! fault full")
    same("the other's two", [other.join(), other.join()], ["2.2", "3.3"])
    greedy.call(f"leave {task}")
    same("one after it left", greedy.join()[:2], "0.")
    return f"{bench.agree()} entries"


def a_flood_holds_up_nobody(bench):
    """A client that writes and never reads, and one with a line without end, hold up nobody, and the node doesn't grow by them."""
    node = bench.node()
    quiet, deaf, long = bench.line(node), bench.line(node), bench.line(node)
    deaf.socket.settimeout(0.5)
    with contextlib.suppress(OSError):
        for first in range(1, 1000001, 1000):
            deaf.socket.sendall("".join(f"{deaf.passed} {number} cancel 0.0\n" for number in range(first, first + 1000)).encode())
        raise Failed("the node took a million requests at once")
    for _ in range(1000):
        long.socket.sendall(b"x" * 100000)
    began = time.monotonic()
    quiet.join()
    seconds = time.monotonic() - began
    same(f"a quiet client is answered within three seconds, and not after {seconds:.2f} s", seconds < 3, True)
    with open(f"/proc/{node.process.pid}/status", encoding="ascii") as file:
        peak = next(int(found.split()[1]) for found in file if found.startswith("VmHWM"))
    same(f"the node has less than 60 MB, and not {peak} KB", peak < 60000, True)
    same("the long line", long.ask(""), "! fault words")
    return f"{seconds * 1000:.0f} ms, {peak >> 10} MB"


def comes(bench, node):
    """Whether another client gets a pass."""
    with contextlib.suppress(OSError):
        return bench.line(node).said.startswith("pass ")
    return False


def idle_connections_end(bench):
    """Connections that never say whose they are take no place for long, and who is there already is answered."""
    node = bench.node(lease=SHORT_LEASE, is_started=False)
    node.start(preexec_fn=lambda: resource.setrlimit(resource.RLIMIT_NOFILE, (64, 64)))
    first = Client([node.socket])
    first.join()
    with contextlib.ExitStack() as kept:
        idle = [kept.enter_context(socket.socket(socket.AF_UNIX)) for _ in range(100)]
        for line in idle:
            line.settimeout(PROMPT)
            line.connect(node.socket)
        same("one too many", idle[-1].recv(100), b"! fault full\n")
        same("who was there", first.join(), "1.1")
        same("an idle one", idle[0].recv(100), b"! fault secret\n")
        await_that(lambda: comes(bench, node), "a later one has a place")
        same("who was there", first.join(), "2.2")
    first.close()
    same("how much it said", len(node.errors()) < 2000 and "Traceback" not in node.errors(), True)


def restless_clients(bench):
    """Whatever clients ask at two nodes, and wherever they or a node die, the journals are equal and legal, and nobody waits."""
    nodes, drawn = [bench.node("--tasks", "6", lease=SHORT_LEASE), bench.node("--tasks", "6", lease=SHORT_LEASE)], random.Random(11)
    for turn in range(12):
        clients = [bench.line(drawn.choice(nodes)) for _ in range(4)]
        for client in clients:
            client.join()
        for number in range(2, 40):
            client = drawn.choice(clients)
            task, other = (f"{drawn.randrange(6)}.{drawn.randrange(4 * turn + 4)}" for _ in range(2))
            calls = [f"{word} {task}" for word in ("hungry", "hungry", "begin", "await", "await", "finish", "cancel", "withdraw")]
            calls += ["join", f"conflict {task} {other}", f"separate {task} {other}", f"leave {task}", f"finish {task} {drawn.randrange(200)}"]
            client.write(f"{drawn.choice(clients).passed if drawn.random() < 0.2 else client.passed} {number} {drawn.choice(calls)}")
        if turn % 4 == 3:
            nodes[0].kill()
            nodes[0].start()
        for client in clients:
            client.close()
    last = Client([nodes[0].socket, nodes[1].socket])

    def joins():
        try:
            return last.join()
        except Exception:  # pylint: disable=broad-exception-caught
            return None

    for _ in range(6):
        await_that(joins, "all tasks of the dead have left", 4 * SHORT_LEASE + SLACK)
    last.close()
    return f"{bench.agree()} entries"


GUIDE = os.path.join(os.path.dirname(os.path.dirname(HERE)), "docs", "GUIDE.md")
OWN = os.path.join(HERE, "README.md")


def shown(first, page):
    """The block of a page that begins so."""
    blocks = re.findall(r"(?:^    .*\n|^\n(?=    ))+", contents(page).decode(), re.MULTILINE)
    found = [block for block in blocks if block.lstrip("\n").startswith("    " + first)]
    same(f"how many blocks of {page} begin with {first!r}", len(found), 1)
    return [line[4:] for line in found[0].strip("\n").split("\n")]


def the_pages_show_what_is(bench):
    """The guide's lines in Python print what they say, and the nodes' page has the answers to a client's lines."""
    nodes = [bench.node("--log", "lines", lease=10) for _ in range(3)]
    for number, node in enumerate(nodes):
        os.symlink(node.socket, os.path.join(bench.folder, f"node{number}.socket"))
    environment = {**os.environ, "PYTHONPATH": HERE, "PYTHONDONTWRITEBYTECODE": "1"}
    said = subprocess.run([sys.executable, "-c", "\n".join(shown("from client import Client", GUIDE))], cwd=bench.folder, env=environment,
                          stdout=subprocess.PIPE, text=True, timeout=60, check=False).stdout
    same("what the lines in Python print", said, "works at place 3\n")
    node = bench.node(lease=10)
    with socket.socket(socket.AF_UNIX) as line:
        line.settimeout(PROMPT)
        line.connect(node.socket)
        with line.makefile("rb") as file:
            for row in shown("open correct-horse-battery", OWN):
                asked, answer = re.split(r" {2,}", row)
                line.sendall(asked.encode() + b"\n")
                same(f"the answer to {asked!r}", file.readline().decode(), answer + "\n")
    return f"{bench.agree(node)} entries"


TESTS = (
    a_pass_is_its_clients,
    a_secret_is_in_no_file,
    numbers_are_as_serve_has_them,
    each_line_has_its_answer,
    anothers_task_is_left_alone,
    open_tasks_are_anybodys,
    a_finish_names_its_meal,
    an_answer_comes_again,
    a_wait_is_cancelled,
    the_library_gives_up,
    a_silent_client_is_dead,
    a_waiter_that_dies_is_told,
    a_stopped_client_is_dead,
    the_library_changes_its_node,
    who_waits_passes_over_a_silent_node,
    short_clients_leave_nothing,
    clients_have_a_limit,
    a_client_has_its_share,
    a_flood_holds_up_nobody,
    idle_connections_end,
    restless_clients,
    the_pages_show_what_is,
)
