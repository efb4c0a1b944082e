"""Clients at nodes round a table, and what they know of each other's meals. Standard library only."""
import threading
import time

from client import Client
from cluster import Failed, await_that


class Table:
    """What all clients know of the meals: who eats, how many meals there were, and when each client began its own.

    Between each two neighbours is a resource, which knows the greatest place that it has seen.
    """

    def __init__(self, clients):
        self.lock = threading.Lock()
        self.eats, self.resources, self.began = [False] * clients, [0] * clients, [[] for _ in range(clients)]
        self.meals, self.clashes, self.late, self.faults = 0, 0, 0, []

    def begin(self, seat, place):
        """A client begins to eat, and uses the resources at both sides."""
        with self.lock:
            for beside in (seat - 1, (seat + 1) % len(self.eats)):
                self.clashes += self.eats[beside]
            for resource in (seat - 1, seat):
                self.late += place <= self.resources[resource]
                self.resources[resource] = place
            self.eats[seat] = True
            self.began[seat].append(time.monotonic())

    def end(self, seat):
        """A client's meal is over."""
        with self.lock:
            self.eats[seat] = False
            self.meals += 1

    def first_after(self, moment, seats):
        """When the last of these clients began its first meal after a moment, or None if one didn't."""
        with self.lock:
            firsts = [next((began for began in self.began[seat] if began > moment), None) for seat in seats]
        return None if None in firsts else max(firsts)

    def is_kept(self):
        """No two neighbours ate at once, and each place was later than the one before."""
        if self.clashes or self.late:
            raise Failed(f"{self.clashes} clashes, and {self.late} places that are no later than one before")


class Diners:
    """Clients, each with a task of its own and in conflict with its neighbours. The first one's node is the first."""

    def __init__(self, nodes, count, kind=Client):
        self.table, self.threads, self.clients, self.ends = Table(count), [], [], threading.Event()
        for seat in range(count):
            self.clients.append(kind([nodes[(seat + step) % len(nodes)].socket for step in range(len(nodes))]))
        self.tasks = [client.join() for client in self.clients]
        for seat, client in enumerate(self.clients):
            client.conflict(self.tasks[seat], self.tasks[(seat + 1) % count])

    def start(self, meals):
        """Each eats so many meals, unless `ends` is set before."""
        self.ends.clear()
        self.threads = [threading.Thread(target=self.dine, args=(seat, meals), daemon=True) for seat in range(len(self.clients))]
        for thread in self.threads:
            thread.start()

    def dine(self, seat, meals):
        """The meals of one client."""
        try:
            for _ in range(meals):
                if self.ends.is_set():
                    return
                with self.clients[seat].meal(self.tasks[seat]) as place:
                    self.table.begin(seat, place)
                    time.sleep(0)
                    self.table.end(seat)
        except Exception as why:  # pylint: disable=broad-exception-caught
            self.table.faults.append(f"client {seat}: {why!r}")

    def await_meals(self, wanted, seconds):
        """Waits until so many meals of all are eaten."""
        await_that(lambda: self.table.meals >= wanted or self.table.faults, f"{wanted} meals", seconds)
        if self.table.faults:
            raise Failed(self.table.faults[0])

    def come_home(self):
        """Each asks its own node again."""
        for client in self.clients:
            client.wants_home = True
