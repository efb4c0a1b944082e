"""What fairness costs: the ticks that twenty jobs on eight resources take, by three ways to start them.

    fairness.py

Each job needs two of the resources, and wants to run again at once until it has run twelve times. A run takes one to five ticks.
Jobs that share a resource are in conflict. Each way is measured over the same ten draws of how long the runs take.
"""
import itertools
import random
from typing import Callable, Dict, FrozenSet, Iterator, List, Sequence, Tuple

import dine

JOBS, RESOURCES, RUNS, LONGEST, DRAWS = 20, 8, 12, 5, 10
# By which the needs of the jobs are drawn.
JOBS_SEED = 8
# After how many ticks a job waits for its turn, by the third way.
PATIENCE = 25

Waits = Dict[dine.Task, int]


def table(needs: Sequence[FrozenSet[int]]) -> Tuple[dine.Arbiter, List[dine.Task]]:
    """An arbiter with a job for each set of resources. Jobs that share a resource are in conflict."""
    arbiter = dine.Arbiter(tasks=len(needs), conflicts=65535)
    jobs = [arbiter.join() for _ in needs]
    for (one, its), (other, others) in itertools.combinations(zip(jobs, needs), 2):
        if its & others:
            arbiter.conflict(one, other)
    return arbiter, jobs


def in_turn(arbiter: dine.Arbiter, waits: Waits) -> Iterator[dine.Task]:
    """Each job stays hungry until its turn comes."""
    for job in waits:
        if arbiter.state(job) is dine.State.THINKING:
            arbiter.hungry(job)
    while job := arbiter.next_ready():
        arbiter.begin(job)
        yield job


def by_tries(arbiter: dine.Arbiter, waits: Waits, patience: float = float("inf")) -> Iterator[dine.Task]:
    """A job is hungry only to try. One that waits for `patience` ticks stays hungry, and its neighbours wait for it then."""
    for job in sorted(waits, key=waits.__getitem__, reverse=True):
        if arbiter.state(job) is dine.State.THINKING:
            arbiter.hungry(job)
        if arbiter.begin(job):
            yield job
        elif waits[job] < patience:
            arbiter.withdraw(job)


def by_patient_tries(arbiter: dine.Arbiter, waits: Waits) -> Iterator[dine.Task]:
    """Tries at first, and turns after PATIENCE ticks."""
    return by_tries(arbiter, waits, PATIENCE)


def measured(way: Callable[[dine.Arbiter, Waits], Iterator[dine.Task]], seed: int) -> Tuple[int, int]:
    """How many ticks the jobs take, and the longest wait of one."""
    needed, drawn = random.Random(JOBS_SEED), random.Random(seed)
    arbiter, jobs = table([frozenset(needed.sample(range(RESOURCES), 2)) for _ in range(JOBS)])
    runs = {job: [drawn.randint(1, LONGEST) for _ in range(RUNS)] for job in jobs}
    waits, running = {job: 0 for job in jobs}, {}
    ticks = longest = 0
    while waits or running:
        for job in list(way(arbiter, waits)):
            longest = max(longest, waits.pop(job))
            running[job] = runs[job].pop()
        ticks += 1
        waits = {job: wait + 1 for job, wait in waits.items()}
        running = {job: left - 1 for job, left in running.items()}
        for job in [job for job, left in running.items() if not left]:
            del running[job]
            arbiter.finish(job)
            if runs[job]:
                waits[job] = 0
    return ticks, longest


def main() -> None:
    for name, way in (("in turn", in_turn), ("by tries", by_tries), ("by patient tries", by_patient_tries)):
        ticks, waits = zip(*(measured(way, seed) for seed in range(DRAWS)))
        print(f"{name}: {min(ticks)} to {max(ticks)} ticks, the longest wait {max(waits)}")


if __name__ == "__main__":
    main()
