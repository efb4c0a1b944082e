#!/usr/bin/env python3
"""Compares what two built programs answer to the same journals, of usual, nearly usual and hostile lines.

    python3 bench/alike.py OLD NEW [--seconds N] [--seed S]

OLD and NEW are built programs, as `./hygienic --where` tells them. Journals are drawn by the seed: requests on passes 0, 7 and
4,294,967,295 are served by OLD, so that what is written is a legal journal, and then some are changed: a byte, a word, a number, a
line feed, the version, the order of lines. Each goes to `audit`, `audit --long`, `serve --resume`, `chart --trace` and
`chart --dot` of both. Where an output, a remark or a status differs, the journal is kept and its path told, and the script ends
with status 1. Else it tells how many journals it has compared, how many of them were legal, and which statuses came. Standard
library only.
"""
import argparse
import collections
import os
import random
import subprocess
import sys
import tempfile
import time

PASSES = (0, 0, 7, 4_294_967_295)
NUMBERS = (0, 1, 9, 10, 99, 9_999, 10_000, 4_294_967_295, 4_294_967_296, 18_446_744_073_709_551_615, 18_446_744_073_709_551_616)
REPLIES = ("done", "joined 0.0", "joined 1.12345", "refused full", "refused unknown", "refused same", "refused already", "refused apart",
           "refused both-eating", "refused no-room", "refused thinking", "refused hungry", "refused eating", "refused not-yet",
           "refused not-yes", "refused", "don", "donee", "Done")
CALLS = ("join", "leave", "conflict", "separate", "hungry", "begin", "finish", "withdraw", "await", "begi", "hungryy", "")
REQUESTS = b"0 join\n7 join\n0 hungry 0.0\n0 begin 0.0\n? nothing\n4294967295 finish 0.0\nnext\nstate 0.0\n"


def answer(program, words, given):
    """What a program writes to standard output and to standard error, and its status."""
    done = subprocess.run(["hygienic", *words], executable=program, input=given, capture_output=True, check=False)
    return done.stdout, done.stderr, done.returncode


def requests(draw, program, count):
    """So many requests of tasks that have joined, of which some leave and others come, behind their joins."""
    joins = "".join(f"{draw.choice(PASSES)} join\n" for _ in range(draw.choice((2, 3, 8, 40))))
    said = answer(program, ["serve"], joins.encode())[0].decode()
    tasks = [line.split(" ")[-1] for line in said.splitlines() if " -> joined " in line]
    lines = []
    for _ in range(count):
        number, one, two = draw.choice(PASSES), draw.choice(tasks), draw.choice(tasks)
        kind = draw.random()
        if kind < 0.02:
            lines.append(f"{number} join")
        elif kind < 0.14:
            lines.append(f"{number} conflict {one} {two}")
        elif kind < 0.17:
            lines.append(f"{number} separate {one} {two}")
        elif kind < 0.18:
            lines.append(f"{number} leave {one}")
        elif kind < 0.24:
            lines.append(f"{number} withdraw {one}")
        else:
            lines.append(f"{number} {draw.choice(('hungry', 'begin', 'begin', 'finish'))} {one}")
    return (joins + "\n".join(lines) + "\n").encode()


def changed_line(draw, line):
    """A journal's line, changed a little, or another in its place."""
    words = line.split(" ")
    kind = draw.randrange(12)
    if kind == 0:
        words[0] = str(draw.choice(NUMBERS))
    elif kind == 1 and "->" in words:
        words[words.index("->") + 1:] = draw.choice(REPLIES).split(" ")
    elif kind == 2 and len(words) > 1:
        words[1] = draw.choice(CALLS)
    elif kind == 3 and len(words) > 2:
        words[2] = f"{draw.choice(NUMBERS)}.{draw.choice(NUMBERS)}"
    elif kind == 4:
        at = draw.randrange(len(line) + 1)
        return line[:at] + chr(draw.choice((0, 9, 13, 32, 46, 48, 57, 97, 127, 200, 255))) + line[at:]
    elif kind == 5 and line:
        at = draw.randrange(len(line))
        return line[:at] + line[at + 1:]
    elif kind == 6 and line:
        at = draw.randrange(len(line))
        return line[:at] + chr(ord(line[at]) ^ (1 << draw.randrange(8))) + line[at + 1:]
    elif kind == 7:
        words[0] = "0" + words[0]
    elif kind == 8:
        return line + "\r"
    elif kind == 9:
        return line + " " * draw.choice((1, 4_000, 5_000))
    elif kind == 10:
        return ""
    else:
        return line + "\n" + line
    return " ".join(words)


def changed(draw, journal):
    """A journal as it is, or changed here and there."""
    kind = draw.randrange(8)
    if kind < 2:
        return journal
    lines = journal.decode("latin-1").split("\n")[:-1]
    for _ in range(draw.choice((1, 1, 1, 3))):
        at = draw.randrange(len(lines)) if kind < 7 else 0
        lines[at] = changed_line(draw, lines[at])
    if draw.randrange(8) == 0:
        lines[0] = draw.choice(("dine 1 64 256", "dine 2 64 256", "dine 1 257 4", "dine 2 1 1", "dine 3 4 4", "dine 2 04 4"))
    text = "\n".join(lines) + "\n"
    if draw.randrange(8) == 0:
        text = text[: -draw.randrange(1, 12)]
    return text.encode("latin-1")


def compare(old, new, path, journal):
    """The statuses of the program that is old, or what differs."""
    statuses = []
    entries = journal.count(b"\n")
    for words, given in (
        (["audit"], journal),
        (["audit", "--long"], journal),
        (["serve", "--resume", path], REQUESTS),
        (["chart", "--trace"], journal),
        (["chart", "--dot", "--to", str(entries // 2 + 1)], journal),
    ):
        before, after = answer(old, words, given), answer(new, words, given)
        if before != after:
            sys.exit(f"alike: {' '.join(words)} differs on {path}:\n{before}\n{after}")
        statuses.append(before[2])
    return statuses


def main():
    words = argparse.ArgumentParser(description="compares what two programs answer to the same journals")
    words.add_argument("old")
    words.add_argument("new")
    words.add_argument("--seconds", type=float, default=60)
    words.add_argument("--seed", type=int, default=1)
    given = words.parse_args()
    draw = random.Random(given.seed)
    folder = tempfile.mkdtemp(prefix="alike-")
    path = os.path.join(folder, "journal")
    found = collections.Counter()
    end = time.monotonic() + given.seconds
    count = legal = 0
    while time.monotonic() < end:
        written = answer(given.old, ["serve"], requests(draw, given.old, draw.choice((3, 40, 400))))[0]
        served = b"".join(line for line in written.splitlines(keepends=True) if line[:1] not in (b"?", b"!", b"="))
        journal = changed(draw, served)
        with open(path, "wb") as file:
            file.write(journal)
        statuses = compare(given.old, given.new, path, journal)
        found.update([tuple(statuses)])
        legal += statuses[0] == 0
        count += 1
    os.remove(path)
    os.rmdir(folder)
    print(f"{count} journals, {legal} of them legal, seed {given.seed}: all is alike")
    for statuses, times in found.most_common():
        print(f"  statuses {' '.join(map(str, statuses))}: {times}")


if __name__ == "__main__":
    main()
