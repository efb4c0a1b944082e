"""The dining arbiter: which of some tasks may run now, where those in conflict must not run at the same time.

    import dine

    arbiter = dine.Broker(tasks=64, conflicts=256)
    a, b = arbiter.join(), arbiter.join()
    arbiter.conflict(a, b)
    with arbiter.meal(a):
        print("a works, and b waits")

`Broker` is for threads, and waits. `Arbiter` answers at once, and is for one thread at a time. `run` and `audit` are for test
benches: what a script's calls are answered, and whether a journal is legal.
"""
from ._arbiter import Answer, Arbiter, Broker, Call, Refused, State, Task
from ._oracle import Ended, audit, run

__all__ = ["Answer", "Arbiter", "Broker", "Call", "Ended", "Refused", "State", "Task", "audit", "run"]
