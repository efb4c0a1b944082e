#!/usr/bin/env python3
"""Times the built program on inputs made by a seed, beside `cat` of the same input.

    python3 bench/bench.py [--program PATH] [--only TEXT] [--bytes N] [--repeats K] [--instructions]

One line for each workload: lines and bytes of the input, the least seconds of K runs, lines a second, peak memory, and the
seconds of `cat` of that input; for a race its calls, the least seconds, calls a second and peak memory. With --instructions
one run is counted by valgrind in place of them, which a busy machine doesn't disturb; races are left out then. Inputs stand
in a temporary folder that is removed in the end. Standard library only.
"""
import argparse
import os
import random
import re
import subprocess
import sys
import tempfile
import time

TOP = os.path.dirname(os.path.dirname(os.path.abspath(__file__)))


def ring(n):
    return [(i, (i + 1) % n) for i in range(n)]


def star(n):
    return [(0, i) for i in range(1, n)]


def clique(n):
    return [(i, j) for i in range(n) for j in range(i)]


def setup(n, edges):
    return [f"join t{i}\n" for i in range(n)] + [f"conflict t{a} t{b}\n" for a, b in edges]


def comments(size):
    """Lines that are passed over: the floor of reading."""
    line = "# nothing is asked for in this line\n"
    return line * (size // len(line))


def joins_and_conflicts(size):
    """A whole graph of 23 tasks is set up, and taken down again, over and over."""
    once = [f"conflict t{a} t{b}\n" for a, b in clique(23)] + [f"separate t{a} t{b}\n" for a, b in clique(23)]
    text = "".join(once)
    return "".join(setup(23, [])) + text * (size // len(text))


def dinners(n, edges, size, seed=1, hub=0.0):
    """Tasks drawn at random go on to their next call: hungry, begin until it is granted, finish."""
    draw = random.Random(seed)
    near = [set() for _ in range(n)]
    for a, b in edges:
        near[a].add(b)
        near[b].add(a)
    state, meal, clock = ["thinking"] * n, list(range(n)), n
    out = setup(n, edges)
    length = sum(map(len, out))
    while length < size - 40:
        u = 0 if draw.random() < hub else draw.randrange(n)
        if state[u] == "thinking":
            call, state[u] = "hungry", "hungry"
        elif state[u] == "hungry":
            call = "begin"
            if all(state[v] != "eating" and not (state[v] == "hungry" and meal[v] < meal[u]) for v in near[u]):
                state[u] = "eating"
        else:
            call, state[u], meal[u], clock = "finish", "thinking", clock, clock + 1
        line = f"{call} t{u}\n"
        out.append(line)
        length += len(line)
    return "".join(out)


def turns(n, edges, size):
    """All grow hungry, and then eat in the order of their last meals: no call is refused."""
    out = setup(n, edges)
    once = [f"hungry t{i}\n" for i in range(n)] + [f"{call} t{i}\n" for i in range(n) for call in ("begin", "finish")]
    text = "".join(once)
    return "".join(out) + text * max(1, (size - sum(map(len, out))) // len(text))


def withdrawals(n, edges, size):
    """All grow hungry, and then all give their hunger up, over and over: no call is refused."""
    once = "".join(f"{call} t{i}\n" for call in ("hungry", "withdraw") for i in range(n))
    begin = "".join(setup(n, edges))
    return begin + once * max(1, (size - len(begin)) // len(once))


def crowd(size):
    """As many tasks and conflicts as there may be: each of 4,096 tasks is in conflict with the 16 that come next, but for one."""
    near = [(i, (i + k) % 4096) for k in range(1, 17) for i in range(4096)]
    return dinners(4096, near[:65535], size)


def churn(n, size, seed=3):
    """Half of the tasks dine, and the other half come, are put in conflict and separated, and go; slots are used again."""
    draw = random.Random(seed)
    diners = [f"d{k}" for k in range(n // 2)]
    out = [f"join {name}\n" for name in diners]
    length, born, guests = sum(map(len, out)), 0, []
    while length < size - 80:
        chance = draw.random()
        if len(guests) < 2 or (chance < 0.15 and len(guests) < n - n // 2):
            guests.append(f"n{born:x}")
            line = f"join n{born:x}\n"
            born += 1
        elif chance < 0.25 and len(guests) > n // 4:
            line = f"leave {guests.pop(draw.randrange(len(guests)))}\n"
        elif chance < 0.5:
            line = f"{draw.choice(['conflict', 'separate'])} {draw.choice(guests)} {draw.choice(diners)}\n"
        else:
            line = f"{draw.choice(['hungry', 'begin', 'finish'])} {draw.choice(diners)}\n"
        out.append(line)
        length += len(line)
    return "".join(out)


def ring_of_64(size):
    return dinners(64, ring(64), size)


def turns_of_23(size):
    return turns(23, clique(23), size)


def churn_on_64(size):
    return churn(64, size)


def race(n, edges, meals):
    """A scenario: each task eats so often, in a thread of its own."""
    lines = ", ".join(f'"{line.strip()}"' for line in setup(n, edges))
    workers = "".join(f'[[worker]]\nrepeat = {meals}\nsteps = ["eat t{i}"]\n' for i in range(n))
    return f"setup = [{lines}]\n{workers}"


RACES = [
    ("race of 16 on a ring", ["race"], race(16, ring(16), 100_000), 32 + 16 * 100_000 * 3),
]


LARGE = ["--tasks", "4096", "--conflicts", "65535"]

# The name, the words of the command line, and what makes the script. An audit is given the script's journal.
WORKLOADS = [
    ("comments only", ["run"], comments),
    ("joins and conflicts", ["run"], joins_and_conflicts),
    ("dinners on a ring of 64", ["run"], ring_of_64),
    ("dinners on a star of 64", ["run"], lambda size: dinners(64, star(64), size, hub=0.25)),
    ("dinners on a clique of 23", ["run"], lambda size: dinners(23, clique(23), size)),
    ("turns on a clique of 23", ["run"], turns_of_23),
    ("withdrawals on a clique of 23", ["run"], lambda size: withdrawals(23, clique(23), size)),
    ("churn on 64 slots", ["run"], churn_on_64),
    ("crowd of 4096", ["run"] + LARGE, crowd),
    ("journal of the ring", ["run", "--journal"], ring_of_64),
    ("journal of the turns", ["run", "--journal"], turns_of_23),
    ("journal of the churn", ["run", "--journal"], churn_on_64),
    ("journal of the crowd", ["run", "--journal"] + LARGE, crowd),
    ("audit of the ring", ["audit"], ring_of_64),
    ("audit of the turns", ["audit"], turns_of_23),
    ("audit of the churn", ["audit"], churn_on_64),
    ("audit of the crowd", ["audit"], crowd),
]


def journal_of(program, script, size):
    """The journal of a script, cut after the last line within the size."""
    run = subprocess.run([program, "run", "--journal"] + LARGE, input=script, stdout=subprocess.PIPE, text=True, check=False)
    if run.returncode not in (0, 2):
        sys.exit(f"{program} run --journal ended with status {run.returncode}")
    return run.stdout if len(run.stdout) <= size else run.stdout[: run.stdout.rindex("\n", 0, size) + 1]


def timed(command, source):
    """Seconds, and whether the command came to its end."""
    with open(source, "rb") as given, open(os.devnull, "wb") as sink:
        begin = time.perf_counter()
        process = subprocess.Popen(command, stdin=given, stdout=sink)
        status = process.wait()
        return time.perf_counter() - begin, status in (0, 2)


def peak(command, source):
    """Peak memory in MiB, looked at over and over in a run of its own: what the system says of a child that has ended
    contains the memory of this script, from which it was forked. A run of a few milliseconds can end unseen."""
    most = 0
    with open(source, "rb") as given, open(os.devnull, "wb") as sink:
        process = subprocess.Popen(command, stdin=given, stdout=sink)
        while process.poll() is None:
            with open(f"/proc/{process.pid}/status", encoding="ascii") as status:
                for line in status:
                    if line.startswith("VmHWM:"):
                        most = max(most, int(line.split()[1]))
    return most / 1024


def instructions(command, source):
    """How many instructions the command takes."""
    count = ["valgrind", "--tool=callgrind", "--callgrind-out-file=/dev/null"]
    with open(source, "rb") as given:
        run = subprocess.run(count + command, stdin=given, stdout=subprocess.DEVNULL, stderr=subprocess.PIPE, check=False)
    found = re.search(rb"Collected : (\d+)", run.stderr)
    return int(found[1]) if found else sys.exit("valgrind counted nothing")


def figures(command, source, lines, size, repeats):
    """The seconds and the memory of a workload, as one line has them."""
    runs = [timed(command, source) for _ in range(repeats)]
    plain = min(timed(["cat"], source)[0] for _ in range(repeats))
    seconds = min(run[0] for run in runs)
    most = max(peak(command, source) for _ in range(repeats))
    mark = "" if all(run[1] for run in runs) else "  FAILED"
    return f"{lines:9} {size:10} {seconds:8.3f} {lines / seconds:12.0f} {most:7.1f} {plain:7.3f}{mark}"


def main():
    words = argparse.ArgumentParser()
    words.add_argument("--program", default=os.path.join(TOP, "crates", "hygienic", "out", "hygienic"))
    words.add_argument("--only", default="")
    words.add_argument("--bytes", type=int, default=8_000_000)
    words.add_argument("--repeats", type=int, default=5)
    words.add_argument("--instructions", action="store_true")
    given = words.parse_args()
    if not os.access(given.program, os.X_OK):
        sys.exit(f"{given.program} isn't built: run ./hygienic help once")
    if given.instructions:
        print(f"{'workload':28} {'lines':>9} {'bytes':>10} {'instructions':>13} {'a line':>8}")
    else:
        print(f"{'workload':28} {'lines':>9} {'bytes':>10} {'seconds':>8} {'lines/s':>12} {'MiB':>7} {'cat':>7}")
    with tempfile.TemporaryDirectory() as folder:
        for name, command, make in WORKLOADS:
            if given.only not in name:
                continue
            text = make(given.bytes)
            if command == ["audit"]:
                text = journal_of(given.program, text, given.bytes)
            source = os.path.join(folder, "input.txt")
            with open(source, "w", encoding="ascii") as file:
                file.write(text)
            lines = text.count("\n")
            if given.instructions:
                count = instructions([given.program] + command, source)
                print(f"{name:28} {lines:9} {len(text):10} {count:13} {count / lines:8.0f}")
            else:
                print(f"{name:28} " + figures([given.program] + command, source, lines, len(text), given.repeats))
        if given.instructions:
            return
        print(f"{'race':28} {'calls':>9} {'':10} {'seconds':>8} {'calls/s':>12} {'MiB':>7}")
        for name, command, text, calls in RACES:
            if given.only not in name:
                continue
            source = os.path.join(folder, "scenario.toml")
            with open(source, "w", encoding="ascii") as file:
                file.write(text)
            runs = [timed([given.program] + command, source) for _ in range(given.repeats)]
            most = peak([given.program] + command, source)
            seconds = min(run[0] for run in runs)
            mark = "" if all(run[1] for run in runs) else "  FAILED"
            print(f"{name:28} {calls:9} {'':10} {seconds:8.3f} {calls / seconds:12.0f} {most:7.1f}{mark}")


if __name__ == "__main__":
    main()
