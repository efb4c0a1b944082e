#!/usr/bin/env python3
"""A scheduler's tick over a pipe: of some jobs that must not run together, which start now, at most two at once?

    tick.py [PROGRAM]

It writes a line and reads its answer, as a program in any language can.
"""
import subprocess
import sys

NAMES = ("scan", "fax", "copy", "print")


def tick(ask, running, most):
    """Starts each job that may run now, as long as fewer than `most` run."""
    while len(running) < most and (job := ask("next").removeprefix("? next ")) != "none":
        ask(f"0 begin {job}")
        running.append(job)


def run(ask):
    """Four jobs, of which the first two are in conflict, run twice each."""
    jobs = [ask("0 join").rpartition(" joined ")[2] for _ in NAMES]
    ask(f"0 conflict {jobs[0]} {jobs[1]}")
    for job in jobs:
        ask(f"0 hungry {job}")
    left, running, number = dict.fromkeys(jobs, 2), [], 0
    while any(left.values()):
        tick(ask, running, most=2)
        number += 1
        print(f"tick {number}:", *(NAMES[jobs.index(job)] for job in running))
        # Here each job ends before the next tick.
        while running:
            job = running.pop(0)
            ask(f"0 finish {job}")
            left[job] -= 1
            if left[job]:
                ask(f"0 hungry {job}")


def main():
    program = sys.argv[1] if len(sys.argv) > 1 else "hygienic"
    command = [program, "serve", "--tasks", "4", "--conflicts", "1"]
    with subprocess.Popen(command, stdin=subprocess.PIPE, stdout=subprocess.PIPE, text=True, bufsize=1) as serving:
        serving.stdout.readline()  # the header

        def ask(line):
            """What a line is answered."""
            serving.stdin.write(line + "\n")
            return serving.stdout.readline().rstrip("\n")

        run(ask)


if __name__ == "__main__":
    main()
