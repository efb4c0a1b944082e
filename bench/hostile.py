#!/usr/bin/env python3
"""Runs the built program on texts that are made to do harm, and tells time and memory in the size of the input.

    python3 bench/hostile.py [--program PATH] [--only TEXT] [--bytes N]

One line for each text, at N bytes and at four times as many: the seconds, and peak memory as a multiple of the input, both
the least of three runs; then what the program wrote first. Where the time is linear, the second number of seconds is about
four times the first. Then the names that are chosen to collide, beside plain ones, which a program in C finds: the machine's
`cc` builds it, or what CC names. Inputs stand in a temporary folder. Standard library only.
"""
import argparse
import os
import shlex
import shutil
import subprocess
import sys
import tempfile
import time

TOP = os.path.dirname(os.path.dirname(os.path.abspath(__file__)))


def filled(front, part, end, size):
    """A text of this size or a little less: its front, many equal parts, and its end."""
    return front + part * max(0, (size - len(front) - len(end)) // len(part)) + end


def numbered(size):
    """Many keys, each another one."""
    lines, length = [], 0
    while length < size:
        lines.append(f"k{len(lines):x}=1\n")
        length += len(lines[-1])
    return "".join(lines)


def joins(size):
    """A setup that joins as many names as there is room for."""
    lines, length = [], 0
    while length < size:
        lines.append(f'"join {len(lines):x}",')
        length += len(lines[-1])
    return "setup=[" + "".join(lines) + "]\n[[worker]]\nsteps=[]\n"


TEXTS = [
    ("race: workers with no steps", "race", lambda size: filled("", "[[worker]]\nsteps=[]\n", "", size)),
    ("race: workers", "race", lambda size: filled("", "[[worker]]\n", "", size)),
    ("race: keys", "race", numbered),
    ("race: a long key", "race", lambda size: filled("", "k", "=1\n", size)),
    ("race: a dotted key", "race", lambda size: filled("", "a.", "a=1\n", size)),
    ("race: an array of numbers", "race", lambda size: filled("setup=[", "1,", "]\n", size)),
    ("race: an array of arrays", "race", lambda size: filled("setup=[", "[],", "]\n", size)),
    ("race: an array of tables", "race", lambda size: filled("setup=[", "{},", "]\n", size)),
    ("race: an array of texts", "race", lambda size: filled("setup=[", "'',", "]\n", size)),
    ("race: arrays in arrays", "race", lambda size: filled("setup=", "[", "", size)),
    ("race: tables in tables", "race", lambda size: filled("setup=", "{a=", "", size)),
    ("race: a long number", "race", lambda size: filled("tasks=", "9", "\n", size)),
    ("race: a long text", "race", lambda size: filled('setup=["', "join a ", '"]\n', size)),
    ("race: comments", "race", lambda size: filled("", "#\n", "", size)),
    ("race: joins", "race", joins),
    ("race: steps", "race", lambda size: filled("setup=['join a']\n[[worker]]\nrepeat=0\nsteps=[", "'eat a',", "]\n", size)),
    ("run: line feeds", "run", lambda size: filled("", "\n", "", size)),
    ("run: one long line", "run", lambda size: filled("", "x", "", size)),
    ("run: faults", "run", lambda size: filled("", "x\n", "", size)),
    ("audit: one long line", "audit", lambda size: filled("", "0", "", size)),
    ("audit: joins that are refused", "audit", lambda size: filled("dine 1 1 1\n0 join -> joined 0.0\n", "0 join -> refused full\n", "", size)),
]


# The runs over names, each with the mask under which the hashes of its names have zeros.
NAMES = [("run: plain names", 0), ("run: chosen names", 0x3FFF)]


def finder(folder):
    """The program that finds names, built of colliding-names.c."""
    compiler = shlex.split(os.environ.get("CC", "")) or ["cc"]
    if not shutil.which(compiler[0]):
        sys.exit(f"bench/hostile.py: there is no C compiler: {compiler[0]} isn't here (CC names another one)")
    program = os.path.join(folder, "colliding-names")
    source = os.path.join(TOP, "bench", "colliding-names.c")
    if subprocess.run([*compiler, "-O2", "-o", program, source], check=False).returncode != 0:
        sys.exit(f"bench/hostile.py: {compiler[0]} doesn't build {source}")
    return program


def names(finding, count, mask):
    """So many names of seven letters: with a mask those that collide under the fixed seed, with the mask 0 plain ones."""
    made = subprocess.run([finding, str(count), str(mask)], stdout=subprocess.PIPE, text=True, check=True)
    return made.stdout.split()


def script(named, size):
    """All names join and leave, and then each is asked for over and over."""
    out = [f"join {name}\nleave {name}\n" for name in named]
    length, place = sum(map(len, out)), 0
    while length < size - 20:
        out.append(f"hungry {named[place * 7919 % len(named)]}\n")
        length += len(out[-1])
        place += 1
    return "".join(out)


def measured(program, word, source):
    """The seconds of a run, its peak memory in bytes, and the first line of what it wrote."""
    with open(source, "rb") as given, tempfile.TemporaryFile() as sink:
        begin = time.perf_counter()
        process = subprocess.Popen([program, word], stdin=given, stdout=sink)
        most = 0
        while process.poll() is None:
            try:
                with open(f"/proc/{process.pid}/status", encoding="ascii") as status:
                    found = [int(line.split()[1]) for line in status if line.startswith("VmHWM:")]
                most = max([most, *found])
            except OSError:
                pass
            time.sleep(0.0002)
        seconds = time.perf_counter() - begin
        sink.seek(0)
        return seconds, most * 1024, sink.readline(60).decode(errors="replace").strip()


def best(program, word, text, folder):
    """The least seconds and the least peak memory of three runs, the latter in multiples of the input."""
    source = os.path.join(folder, "input")
    with open(source, "w", encoding="ascii") as file:
        file.write(text)
    runs = [measured(program, word, source) for _ in range(3)]
    return min(run[0] for run in runs), min(run[1] for run in runs) / max(1, len(text)), runs[0][2]


def main():
    words = argparse.ArgumentParser()
    words.add_argument("--program", default=os.path.join(TOP, "crates", "hygienic", "out", "hygienic"))
    words.add_argument("--only", default="")
    words.add_argument("--bytes", type=int, default=4_000_000)
    given = words.parse_args()
    if not os.access(given.program, os.X_OK):
        sys.exit(f"{given.program} isn't built: run ./hygienic help once")
    with tempfile.TemporaryDirectory() as folder:
        # (before the texts, which take minutes)
        chosen = [(name, mask) for name, mask in NAMES if given.only in name]
        finding = finder(folder) if chosen else None
        print(f"{'text':32} {'seconds':>8} {'x4':>8} {'memory':>8} {'x4':>8}  first line")
        for name, word, make in TEXTS:
            if given.only not in name:
                continue
            small = best(given.program, word, make(given.bytes), folder)
            large = best(given.program, word, make(4 * given.bytes), folder)
            print(f"{name:32} {small[0]:8.3f} {large[0]:8.3f} {small[1]:8.1f} {large[1]:8.1f}  {large[2]}", flush=True)
        for name, mask in chosen:
            text = script(names(finding, 40_000, mask), 4 * given.bytes)
            seconds, memory, first = best(given.program, "run", text, folder)
            print(f"{name:32} {'':8} {seconds:8.3f} {'':8} {memory:8.1f}  {first}", flush=True)


if __name__ == "__main__":
    main()
