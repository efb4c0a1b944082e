"""A client of `hygienic serve`: over a pipe, or at the Unix socket of `hub.py`. Standard library only; threads may share it.

    from broker import Broker

    with Broker.connect("dine.socket") as broker:
        with broker.take("printer", "scanner", timeout=10) as place:
            print("nobody else has the printer or the scanner")

`Broker.start` has a program of its own. A request is one line, `PASS CALL`, and its answer is the line of the journal,
`PASS CALL -> REPLY`. Each request that is under way has a pass of its own, so an answer finds its request by its pass, also if a
meal that was awaited begins long after.

At a hub a thread renews the client's lease. `meal.lost` is set as soon as the connection ends, or the lease is over.
"""
import contextlib
import subprocess
import threading
import time
from concurrent.futures import TimeoutError as FutureTimeout
from typing import IO, Callable, Dict, Iterable, Iterator, List, NamedTuple, Optional, Set

from broker_lines import Asked, Faulty, Gone, Lines, Refused, Streams, accepted, connected

__all__ = ["Broker", "Faulty", "Gone", "Meal", "Refused", "Streams", "Task"]
RETRY = 0.02


class Task(NamedTuple):
    """The name of a task. It is never given again."""

    slot: int
    born: int

    def __str__(self) -> str:
        return f"{self.slot}.{self.born}"

    @classmethod
    def read(cls, text: str) -> "Task":
        """The task of a text such as `1.7`."""
        slot, born = text.split(".")
        return cls(int(slot), int(born))


class Meal(int):
    """A meal of a task, or resources that are taken. As a number it is its place in the journal, which is a fencing token.

    `lost` is set as soon as it may have ended without this client: the connection ended, or the lease is over.
    """

    lost: threading.Event
    on_lost: Optional[Callable[["Meal"], object]]

    @property
    def place(self) -> int:
        """The number of the entry by which it began, from 1. A later meal has a greater one."""
        return int(self)


OnLost = Optional[Callable[[Meal], object]]


class Broker:
    """Speaks with one `hygienic serve` or one hub. It is closed by `close`, or at the end of its `with`."""

    def __init__(self, streams: Streams, journal: Optional[IO[bytes]] = None, entries: int = 0, path: Optional[str] = None) -> None:
        """Over these streams. Each line of the journal, which has so many entries already, is written to `journal`."""
        self._journal, self._path = journal, path
        # The secret that a hub gave, and the seconds of its lease.
        self.secret, self.lease = "", 0.0
        self._lock, self._coming, self._is_closed, self._renewed = threading.Lock(), threading.Lock(), threading.Event(), 0.0
        # The meals, the passes of what is taken, and the tasks whose awaits the connection's end left without an answer.
        self._meals: Set[Meal] = set()
        self._claims: Dict[Meal, int] = {}
        self._left: Set[Task] = set()
        self._lines = Lines(streams, journal, entries, self._lose_all)

    @classmethod
    def start(cls, program: str = "hygienic", *words: str, tasks: int = 64, conflicts: int = 256, journal: Optional[IO[bytes]] = None) -> "Broker":
        """The program as a coprocess of its own. `words` are further ones of its command line."""
        limits, entries = ["--tasks", str(tasks), "--conflicts", str(conflicts)], 0
        if "--resume" in words:
            limits = []
            with open(words[words.index("--resume") + 1], "rb") as file:
                entries = sum(line.endswith(b"\n") for line in file) - 1
        process = subprocess.Popen([program, "serve", *limits, *words], stdin=subprocess.PIPE, stdout=subprocess.PIPE)
        assert process.stdin and process.stdout
        return cls(Streams(process.stdout, process.stdin, process.stdin.close, process.wait), journal, entries)

    @classmethod
    def connect(cls, path: str, journal: Optional[IO[bytes]] = None, hub: bool = True) -> "Broker":
        """A hub that listens at a Unix socket; without `hub` a program that listens there, which has neither secrets nor leases."""
        broker = cls(connected(path), journal, path=path)
        if hub:
            began = time.monotonic()
            _, broker.secret, lease = broker._lines.question("hello").split()
            broker._have_lease(float(lease), began)
        return broker

    def __enter__(self) -> "Broker":
        return self

    def __exit__(self, *_: object) -> None:
        self.close()

    def close(self) -> None:
        """No more is asked. What is under way is answered still, but for a meal that waits for its turn: that is gone."""
        self._is_closed.set()
        self._lines.close()

    # ---- the calls

    def join(self) -> Task:
        """A new task, thinking. At a hub it belongs to this client."""
        return Task.read(self._call("join").removeprefix("joined "))

    def leave(self, task: Task) -> None:
        """A thinking task leaves, and its conflicts go with it."""
        self._call(f"leave {task}")

    def conflict(self, first: Task, second: Task) -> None:
        """From now on the two never eat at the same time. At a hub one of them belongs to this client."""
        self._call(f"conflict {first} {second}")

    def separate(self, first: Task, second: Task) -> None:
        """The two may eat at the same time again. At a hub both belong to this client."""
        self._call(f"separate {first} {second}")

    def hungry(self, task: Task) -> None:
        """A thinking task wants to eat."""
        self._call(f"hungry {task}")

    def begin(self, task: Task) -> bool:
        """Whether the hungry task begins to eat; False if it has to wait."""
        try:
            self._call(f"begin {task}")
        except Refused as why:
            if str(why) == "not-yet":
                return False
            raise
        return True

    def finish(self, task: Task, place: Optional[int] = None) -> None:
        """An eating task thinks again. At a hub `place` says which meal ends; another is left as it is, and Faulty is raised."""
        self._call(f"finish {task}" if place is None else f"finish {task} {place:d}")

    def withdraw(self, task: Task) -> None:
        """A hungry task thinks again, without a meal."""
        self._call(f"withdraw {task}")

    def state(self, task: Task) -> Optional[str]:
        """`thinking`, `hungry` or `eating`; None after it left."""
        found = self._lines.question(f"state {task}").removeprefix("state ")
        return None if found == "none" else found

    def neighbours(self, task: Task) -> List[Task]:
        """The tasks that it is in conflict with, in the order in which the conflicts were declared."""
        words = self._lines.question(f"neighbours {task}").split()[1:]
        return [] if words == ["none"] else [Task.read(word) for word in words]

    def next_ready(self) -> Optional[Task]:
        """The ready task whose last meal is the earliest."""
        found = self._lines.question("next").removeprefix("next ")
        return None if found == "none" else Task.read(found)

    def list(self) -> str:
        """All tasks of a hub with their states and owners, for people."""
        return self._lines.question("list").removeprefix("list ").replace("; ", "\n")

    def _call(self, call: str) -> str:
        """The reply to a call."""
        return accepted(self._lines.ask(call).answer.result())[0]

    # ---- meals

    @contextlib.contextmanager
    def meal(self, task: Task, timeout: Optional[float] = None, on_lost: OnLost = None) -> Iterator[Meal]:
        """Waits until the task may eat, for so many seconds at most. It has finished behind the block, also if that raises.

        A wait that takes too long raises TimeoutError, and the task's hunger is withdrawn. A thread calls `on_lost` with the meal
        as soon as that may have ended without this client.
        """
        self.hungry(task)
        meal = self._begin_in_turn(task, timeout)
        self._enter(meal, on_lost)
        try:
            yield meal
        finally:
            self._leave(meal)
            self.finish(task, meal.place if self.secret else None)

    @contextlib.contextmanager
    def take(self, *names: str, timeout: Optional[float] = None, on_lost: OnLost = None) -> Iterator[Meal]:
        """Waits until this client has all these resources, for so many seconds at most. Behind the block they are given back.

        Name all that is needed in one `take`: a thread that waits for more while it has some may wait for ever.
        """
        if not names or any(name.split() != [name] for name in names):
            raise ValueError(f"no names of resources: {names}")
        asked = self._lines.ask("take " + " ".join(names))
        assert asked.caller is not None
        try:
            meal = Meal(accepted(asked.answer.result(timeout))[1])
        except (Faulty, Gone, Refused):
            raise
        except BaseException as why:
            self._lines.give(asked.caller)
            if isinstance(why, FutureTimeout):
                raise TimeoutError(f"{', '.join(names)} did not come within {timeout} s") from None
            raise
        self._claims[meal] = asked.caller
        self._enter(meal, on_lost)
        try:
            yield meal
        finally:
            self._leave(meal)
            self._lines.give(self._claims.pop(meal)).result()

    def _enter(self, meal: Meal, on_lost: OnLost) -> None:
        """The meal has begun."""
        meal.lost, meal.on_lost = threading.Event(), on_lost
        with self._lock:
            self._meals.add(meal)
        if self._lines.is_gone:
            lose([meal])

    def _leave(self, meal: Meal) -> None:
        """The meal is about to end."""
        with self._lock:
            self._meals.discard(meal)

    def _begin_in_turn(self, task: Task, timeout: Optional[float]) -> Meal:
        """The hungry task begins once its turn has come. If that isn't awaited to its end, it thinks again."""
        asked = self._lines.ask(f"await {task}")
        try:
            return Meal(accepted(asked.answer.result(timeout))[1])
        except Refused:
            raise
        except Gone:
            self._left.add(task)
            raise
        except Faulty:
            self.withdraw(task)
            raise
        except BaseException as why:
            self._give_up(asked, task)
            if isinstance(why, FutureTimeout):
                raise TimeoutError(f"the turn of {task} did not come within {timeout} s") from None
            raise

    def _give_up(self, asked: Asked, task: Task) -> None:
        """A meal that is awaited is awaited no more. If its turn came meanwhile, the task has finished."""
        if self._lines.question(f"{asked.caller} cancel {task}") != "cancelled none":
            self._lines.forget(asked)
            self.withdraw(task)
        elif isinstance(asked.answer.exception(), Faulty):
            self.withdraw(task)
        elif asked.answer.result()[0] == "done":
            self.finish(task)

    # ---- leases

    def _have_lease(self, lease: float, began: float) -> None:
        """The lease that began then is renewed by a thread."""
        self.lease, self._renewed = lease, began
        if lease:
            threading.Thread(target=self._renew, args=(self._lines,), daemon=True).start()

    def _renew(self, lines: Lines) -> None:
        """Renews the lease each third of it. A meal that the hub doesn't have is lost, and each is once the lease is over."""
        while not self._is_closed.wait(self.lease / 3) and self._lines is lines:
            with self._lock:
                meals, now = list(self._meals), time.monotonic()
            if now > self._renewed + self.lease:
                lose(meals)
            try:
                places = lines.question("renew", max(0.0, self._renewed + self.lease - now)).split()[1:]
            except FutureTimeout:
                lose(meals)
            except Gone:
                return
            else:
                self._renewed = now
                lose(meal for meal in meals if str(meal.place) not in places and meal in self._meals)

    def _lose_all(self) -> None:
        """The connection ended, and so each meal may have ended."""
        with self._lock:
            meals = list(self._meals)
        lose(meals)

    def come_back(self, timeout: float = 0.0) -> bool:
        """Connects again after the connection ended, for so many seconds at most. It returns whether this client has all it had.

        A hub that was killed and started again leaves each client the seconds of a lease to come back for its meals and resources.
        """
        end = time.monotonic() + timeout
        with self._coming:
            while self._lines.is_gone and self._path and self.secret:
                try:
                    self._connect_again(self._path)
                except Faulty:
                    return False
                except (OSError, Gone):
                    if time.monotonic() > end:
                        return False
                    time.sleep(RETRY)
            return not self._lines.is_gone and self._has_meals()

    def _connect_again(self, path: str) -> None:
        """A connection by the secret takes the place of the one that ended."""
        began = time.monotonic()
        lines = Lines(connected(path), self._journal, 0, self._lose_all, self._claims.values())
        try:
            lease = float(lines.question(f"hello {self.secret}").split()[2])
        except (Faulty, Gone):
            lines.close()
            raise
        self._lines.drop()
        self._lines = lines
        self._have_lease(lease, began)
        self._end_left()

    def _end_left(self) -> None:
        """Tasks that awaited a meal when the connection ended think again: nothing waits for that answer any more."""
        while self._left:
            task = self._left.pop()
            state = self.state(task)
            if state in ("hungry", "eating"):
                self._call(f"{'withdraw' if state == 'hungry' else 'finish'} {task}")

    def _has_meals(self) -> bool:
        """Whether the hub has each meal of this client. A meal that it has isn't lost."""
        places = self._lines.question("renew").split()[1:]
        with self._lock:
            meals = list(self._meals)
        for meal in meals:
            if str(meal.place) in places:
                meal.lost.clear()
        return all(str(meal.place) in places for meal in meals)


def lose(meals: Iterable[Meal]) -> None:
    """These meals may have ended."""
    lost = [meal for meal in meals if not meal.lost.is_set()]
    for meal in lost:
        meal.lost.set()
    for meal in lost:
        if meal.on_lost:
            meal.on_lost(meal)
