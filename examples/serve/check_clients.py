"""Tests of the clients in Python and bash, of the guide's examples, and of several machines."""
import contextlib
import io
import os
import re
import subprocess
import sys
import threading
import time

from broker import Gone, Refused
from harness import PROMPT, SECONDS, SERVE, Failed, Line, await_broker, need, same, top

# ---- Python


def python_example(bench):
    """The example in Python: the program as a coprocess."""
    printed = bench.run([sys.executable, os.path.join(SERVE, "example.py"), bench.program])
    same("what it prints", printed, b"a job works alone\n" * 2)


def python_threads(bench):
    """Threads share one client, and take turns."""
    journal, eats, clashes = io.BytesIO(), [0], []
    with bench.start(journal) as broker:
        tasks = [broker.join() for _ in range(4)]
        for at, task in enumerate(tasks):
            for other in tasks[:at]:
                broker.conflict(other, task)

        def job(task):
            for _ in range(50):
                with broker.meal(task):
                    eats[0] += 1
                    clashes.append(eats[0] != 1)
                    eats[0] -= 1

        threads = [threading.Thread(target=job, args=(task,)) for task in tasks]
        for thread in threads:
            thread.start()
        for thread in threads:
            thread.join(SECONDS)
        same("the states", [broker.state(task) for task in tasks], ["thinking"] * 4)
        same("the neighbours", broker.neighbours(tasks[1]), [tasks[0], tasks[2], tasks[3]])
    same("meals and clashes", (len(clashes), any(clashes)), (200, False))
    same("the entries", bench.audit(journal.getvalue()), 4 + 6 + 200 * 3)
    return "200 meals, no clash"


def python_gives_up(bench):
    """A wait that is too long withdraws; a block that raises finishes; a refused call raises; an end is told."""
    with bench.start() as broker:
        first, second = broker.join(), broker.join()
        broker.conflict(first, second)
        with broker.meal(first):
            try:
                with broker.meal(second, timeout=0.1):
                    raise Failed("two tasks in conflict eat")
            except TimeoutError:
                same("the state", broker.state(second), "thinking")
            try:
                with broker.meal(first):
                    raise Failed("a task eats twice")
            except Refused as why:
                same("the reason", str(why), "eating")
        with contextlib.suppress(ZeroDivisionError):
            with broker.meal(second):
                raise ZeroDivisionError
        same("the states", (broker.state(first), broker.state(second), broker.next_ready()), ("thinking", "thinking", None))
        broker.hungry(first)
        same("it begins", (broker.next_ready(), broker.begin(first)), (first, True))
        broker.hungry(second)
        same("it does not begin", broker.begin(second), False)
        gone = []

        def waits():
            try:
                with broker.meal(broker.join()):
                    broker.conflict(first, broker.join())
                broker.withdraw(second)
                with broker.meal(second):
                    raise Failed("two tasks in conflict eat")
            except Gone:
                gone.append(True)

        thread = threading.Thread(target=waits)
        thread.start()
        while broker.state(second) != "hungry" or len(broker.neighbours(first)) < 2:
            time.sleep(0.01)
        time.sleep(0.1)
    thread.join(PROMPT)
    same("whoever waits at the end is told", gone, [True])


def python_over_socat(bench):
    """The Python client over a Unix socket, at which socat has the program."""
    need("socat")
    path = bench.path("one.socket")
    with subprocess.Popen(["socat", f"UNIX-LISTEN:{path}", f"EXEC:{bench.program} serve --tasks 2"]) as listening:
        try:
            with await_broker(path) as broker:
                tasks = [broker.join(), broker.join()]
                broker.conflict(*tasks)
                for task in tasks:
                    with broker.meal(task):
                        same("the state", broker.state(task), "eating")
            same("the status of socat", listening.wait(PROMPT), 0)
        finally:
            listening.kill()


# ---- bash


def bash_coprocess(bench):
    """The bash coprocess."""
    need("bash")
    printed = bench.run(["bash", os.path.join(SERVE, "coproc.sh"), bench.program]).decode().splitlines()
    wanted = ["dine 2 2 1", "print: done", "scan: refused not-yet", "scan: done", "print works in its meal", "? state thinking"]
    same("what it prints", printed, wanted)


def bash_over_socat(bench):
    """Two bash clients that take the same resource: each makes a folder while it has that, which fails if another is there."""
    need("bash", "socat")
    with bench.hub("--journal", bench.path("journal")) as path:
        makes = 'mkdir "$0" && rmdir "$0"'
        clients = [
            subprocess.Popen(["bash", os.path.join(SERVE, "socket.sh"), path, names, "20", "bash", "-c", makes, bench.path("table")])
            for names in ("table", "chair table")
        ]
        try:
            same("the statuses", [client.wait(SECONDS) for client in clients], [0, 0])
        finally:
            for client in clients:
                client.kill()
                client.wait()
    bench.audit(bench.path("journal"))
    with open(bench.path("journal"), "rb") as file:
        text = file.read()
    same("the begins, and those that are refused", (text.count(b" begin "), text.count(b"refused")), (40, 0))
    return "40 meals, no clash"


def bash_keeps_its_lease(bench):
    """A meal of the bash client that takes longer than the lease keeps it, and nothing of it is left behind."""
    need("bash", "socat")
    with bench.hub("--lease", "1.5") as path:
        script = f"""
            source '{SERVE}/dine.sh'
            dine_open socat - 'UNIX-CONNECT:{path}'
            dine_call join && a=${{reply#joined }}
            DINE_RENEW=0.4 dine_meal "$a" sleep 3; echo "status $? $reply"
            dine_meal "$a" false; echo "status $? $reply"
            dine_close
        """
        same("what it prints", bench.run(["bash", "-c", script], seconds=PROMPT), b"status 0 done\nstatus 1 done\n")


# ---- the guide's examples


def shown(line):
    """The block of the guide that has this line."""
    with open(os.path.join(top(), "docs", "GUIDE.md"), encoding="utf-8") as page:
        blocks = re.findall(r"(?m)(?:^    .*\n(?:^\n(?=    ))?)+", page.read())
    found = [block for block in blocks if f"    {line}\n" in block]
    if len(found) != 1:
        raise Failed(f"the guide has not one block with {line!r}")
    return "".join(row[4:] or "\n" for row in found[0].splitlines(keepends=True))


def guide_python(bench):
    """The guide's lines in Python."""
    printed = run_shown(bench, sys.executable, shown('with Broker.start("hygienic", tasks=64, conflicts=256) as broker:'))
    same("what they print", printed, b"a works, and b waits\nb works\n")


def guide_bash(bench):
    """The guide's lines in bash."""
    need("bash")
    same("what they print", run_shown(bench, "bash", shown("source dine.sh")), b"a works\n")


def guide_take(bench):
    """The guide's first example at the hub."""
    with bench.hub():
        printed = run_shown(bench, sys.executable, shown('with Broker.connect("dine.socket") as broker:'))
    same("what it prints", printed, b"nobody else has the printer or the scanner\n")


def guide_lines(bench):
    """The guide's lines at the hub have the answers that are beside them."""
    rows = [re.split(r" {2,}", row) for row in shown("renew                      ? renew 3 6").splitlines()]
    with bench.hub(status=2) as path:
        line = Line(path)
        for asked, wanted in rows:
            answer = line.ask(asked)
            same(asked, re.sub(r"[0-9a-f]{32}", "SECRET", answer), re.sub(r"[0-9a-f]{32}", "SECRET", wanted))
    return f"{len(rows)} lines"


def guide_commands(bench):
    """The guide's commands start, stop and restart the hub, which goes on with its journal; the block with `lost` works in it."""
    need("bash")
    start = shown('export PATH="$(dirname "$(./hygienic --where)"):$PATH"').splitlines()[1]
    stop, again = shown("kill %1").splitlines()
    same("the same command", start, again)
    work = "import sys\nfrom broker import Broker\nclass printer:\n    write = print\nwith Broker.connect('dine.socket') as broker:\n"
    block = shown('with broker.take("printer") as place:').replace("for page in pages:", "for page in ('one', 'two'):")
    with open(bench.path("work.py"), "w", encoding="utf-8") as file:
        file.write(work + "".join(f"    {row}\n" for row in block.splitlines()))
    script = f"""
        mkfifo said; exec 3<>said
        {start.replace("&", ">&3 &")}
        read -u 3 -r line; echo "$line"; PYTHONPATH=examples/serve '{sys.executable}' work.py
        {stop}; wait %1; echo "status $?"
        {again.replace("&", ">&3 &")}
        read -u 3 -r line; echo "$line"; PYTHONPATH=examples/serve '{sys.executable}' work.py
        {stop}; wait %1; echo "status $?"
    """
    os.mkdir(bench.path("examples"))
    os.symlink(SERVE, bench.path("examples/serve"))
    printed = run_shown(bench, "bash", script)
    wanted = ["listening", "one 3", "two 3", "status 0", "listening", "one 8", "two 8", "status 0"]
    same("what they print", printed.decode().splitlines(), wanted)
    same("the entries", bench.audit(bench.path("dine.journal")), 10)


def guide_store(bench):
    """The guide's store refuses the place of an earlier client."""
    text = shown("class Store:") + "store = Store()\nstore.write(7, 'newer')\ntry:\n    store.write(3, 'older')\nexcept ValueError as why:\n"
    same("what it prints", run_shown(bench, sys.executable, text + "    print(why, store.text)\n"), b"a later client has written newer\n")


def run_shown(bench, language, text):
    """What lines print that find the program as `hygienic`, and the clients in their folder."""
    os.symlink(bench.program, bench.path("hygienic"))
    for name in os.listdir(SERVE):
        if name.endswith((".py", ".sh")):
            os.symlink(os.path.join(SERVE, name), bench.path(name))
    with open(bench.path("shown"), "w", encoding="utf-8") as file:
        file.write(text)
    return bench.run(["env", "-C", bench.folder, f"PATH={bench.folder}:{os.environ['PATH']}", language, "shown"])


# ---- more than one machine


def three_nodes(bench):
    """Three nodes over three members of etcd, one of which is killed and comes back."""
    need("etcd")
    script = os.path.join(os.path.dirname(SERVE), "replicated", "run")
    said = bench.run([sys.executable, script, "--program", bench.program, "--meals", "20", "--seconds", "60"]).decode().strip()
    if "by --resume" not in said:
        raise Failed(said)
    return said.splitlines()[-1]


TESTS = (
    python_example,
    python_threads,
    python_gives_up,
    python_over_socat,
    bash_coprocess,
    bash_over_socat,
    bash_keeps_its_lease,
    guide_python,
    guide_bash,
    guide_take,
    guide_lines,
    guide_commands,
    guide_store,
    three_nodes,
)
