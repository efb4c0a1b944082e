#!/usr/bin/env python3
"""Clients round a table at the Unix socket of hub.py, each a process of its own and in conflict with its two neighbours.

    diners.py [--clients N] [--meals N] SOCKET

Each looks, while it eats, whether a neighbour eats: that would be a clash. The last line says how many meals and clashes there
were; the status is 0 where each client had all its meals, and there was no clash. Standard library only.
"""
import argparse
import multiprocessing
import os
import sys
import time

from broker import Broker, Task

# One diner's part of the memory that all share: the name of its task, whether it eats, its meals, and the clashes that it saw.
SLOT, BORN, EATS, MEALS, CLASHES, WIDTH = 0, 1, 2, 3, 4, 5


def dine(socket, seat, clients, meals, table, meeting):
    """All meals of one client, at a task of its own. No other writes to its part of the table."""
    own = seat * WIDTH
    beside = [(seat + step) % clients * WIDTH for step in (1, clients - 1)]
    with Broker.connect(socket) as broker:
        task = broker.join()
        table[own + SLOT], table[own + BORN] = task
        meeting.wait()
        broker.conflict(task, Task(*table[beside[0] + SLOT : beside[0] + BORN + 1]))
        meeting.wait()
        for meal in range(meals):
            with broker.meal(task):
                table[own + EATS] = 1
                table[own + CLASHES] += any(table[other + EATS] for other in beside)
                if meal % 16 == 0:
                    os.sched_yield()
                table[own + CLASHES] += any(table[other + EATS] for other in beside)
                table[own + EATS] = 0
            table[own + MEALS] += 1
        meeting.wait()


def main():
    words = argparse.ArgumentParser(description=__doc__.split("\n", maxsplit=1)[0])
    words.add_argument("--clients", default=12, type=int, metavar="N", help="3 or more")
    words.add_argument("--meals", default=1000, type=int, metavar="N")
    words.add_argument("socket", metavar="SOCKET")
    words = words.parse_args()
    table = multiprocessing.RawArray("q", words.clients * WIDTH)
    meeting = multiprocessing.Barrier(words.clients + 1)
    diners = [
        multiprocessing.Process(target=dine, args=(words.socket, seat, words.clients, words.meals, table, meeting), daemon=True)
        for seat in range(words.clients)
    ]
    for diner in diners:
        diner.start()
    for _ in range(2):
        meeting.wait()
    began = time.monotonic()
    meeting.wait()
    seconds = time.monotonic() - began
    for diner in diners:
        diner.join()
    meals, clashes = sum(table[MEALS::WIDTH]), sum(table[CLASHES::WIDTH])
    print(f"{len(diners)} clients, {meals} meals, {clashes} clashes, {3 * meals / seconds:.0f} requests a second")
    return 1 if clashes or meals != len(diners) * words.meals else 0


if __name__ == "__main__":
    sys.exit(main())
