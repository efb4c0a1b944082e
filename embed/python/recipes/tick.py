"""A scheduler's tick: of some jobs that must not run together, which start now, at most two at once?"""
from typing import List

import dine

NAMES = ("scan", "fax", "copy", "print")
RUNS = 2


def tick(arbiter: dine.Arbiter, running: List[dine.Task], most: int) -> None:
    """Starts each job that may run now, as long as fewer than `most` run."""
    while len(running) < most and (job := arbiter.next_ready()):
        arbiter.begin(job)
        running.append(job)


def main() -> None:
    arbiter = dine.Arbiter(tasks=4, conflicts=1)
    jobs = [arbiter.join() for _ in NAMES]
    arbiter.conflict(jobs[0], jobs[1])
    left = {job: RUNS for job in jobs}
    for job in jobs:
        arbiter.hungry(job)

    running: List[dine.Task] = []
    number = 0
    while any(left.values()):
        tick(arbiter, running, most=2)
        number += 1
        print(f"tick {number}:", *(NAMES[jobs.index(job)] for job in running))
        # Here each job ends before the next tick.
        while running:
            job = running.pop(0)
            arbiter.finish(job)
            left[job] -= 1
            if left[job]:
                arbiter.hungry(job)


if __name__ == "__main__":
    main()
