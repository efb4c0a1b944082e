"""The library's calls, and the broker over them."""
import contextlib
import enum
import threading
from typing import Iterator, List, NamedTuple, Optional, Tuple

from . import _library as library


class Task(NamedTuple):
    """The name of a task. It is never given again."""

    slot: int
    born: int


class Call(enum.IntEnum):
    """What can be asked, by the numbers of dine.h."""

    JOIN = 1
    LEAVE = 2
    CONFLICT = 3
    SEPARATE = 4
    HUNGRY = 5
    BEGIN = 6
    FINISH = 7
    WITHDRAW = 8


class Answer(enum.IntEnum):
    """What is answered, by the numbers of dine.h."""

    DONE = 0
    FULL = 1
    UNKNOWN = 2
    SAME = 3
    ALREADY = 4
    APART = 5
    BOTH_EATING = 6
    NO_ROOM = 7
    WRONG_STATE = 8
    NOT_YET = 9
    NO_SUCH_CALL = 100
    CLOCK_ENDED = 101
    OUT_OF_RANGE = 102
    NO_MEMORY = 103
    BAD_HANDLE = 104
    NO_SPACE = 105


class State(enum.IntEnum):
    """The state of a task, by the numbers of dine.h."""

    ABSENT = 0
    THINKING = 1
    HUNGRY = 2
    EATING = 3


class Refused(Exception):
    """A call was not carried out, and `answer` says why. Nothing was changed."""

    def __init__(self, answer: Answer) -> None:
        super().__init__(f"refused: {answer.name.lower()}")
        self.answer = answer


class Arbiter:
    """An arbiter for up to `tasks` tasks and `conflicts` conflicts at once. One thread at a time may call it.

    It is closed by `close`, at the end of its `with`, or when it is collected. A closed one refuses with BAD_HANDLE.
    """

    def __init__(self, tasks: int = 64, conflicts: int = 256) -> None:
        self._handle = library.Handle()
        in_range = 0 <= tasks < 1 << 32 and 0 <= conflicts < 1 << 32
        answer = library.open_at(self._handle, tasks, conflicts) if in_range else Answer.OUT_OF_RANGE
        _accepted(Answer(answer))

    def __enter__(self) -> "Arbiter":
        return self

    def __exit__(self, *_: object) -> None:
        self.close()

    def __del__(self) -> None:
        self.close()

    def close(self) -> None:
        """Gives the memory back. A second close does nothing."""
        if self._handle.address:
            library.close(self._handle)

    def call(self, call: int, first: Task = Task(0, 0), second: Task = Task(0, 0)) -> Tuple[Answer, Task]:
        """Makes a call: its answer, and the task that joined where the call is a JOIN that is DONE."""
        self._open()
        answer, slot, born = library.act(self._handle, call, first, second)
        return Answer(answer), Task(slot, born)

    def ask(self, call: int, first: Task = Task(0, 0), second: Task = Task(0, 0)) -> Answer:
        """What `call` would answer now. Nothing is changed."""
        self._open()
        return Answer(library.ask(self._handle, call, first, second))

    def join(self) -> Task:
        """A new task, thinking."""
        answer, newcomer = self.call(Call.JOIN)
        _accepted(answer)
        return newcomer

    def leave(self, task: Task) -> None:
        """A thinking task leaves, and its conflicts go with it."""
        _accepted(self.call(Call.LEAVE, task)[0])

    def conflict(self, first: Task, second: Task) -> None:
        """From now on the two never eat at the same time."""
        _accepted(self.call(Call.CONFLICT, first, second)[0])

    def separate(self, first: Task, second: Task) -> None:
        """The two may eat at the same time again."""
        _accepted(self.call(Call.SEPARATE, first, second)[0])

    def hungry(self, task: Task) -> None:
        """A thinking task wants to eat."""
        _accepted(self.call(Call.HUNGRY, task)[0])

    def begin(self, task: Task) -> bool:
        """Whether the hungry task begins to eat; False where it has to wait."""
        answer, _ = self.call(Call.BEGIN, task)
        return answer is not Answer.NOT_YET and _accepted(answer)

    def finish(self, task: Task) -> None:
        """An eating task thinks again."""
        _accepted(self.call(Call.FINISH, task)[0])

    def withdraw(self, task: Task) -> None:
        """A hungry task thinks again, without a meal."""
        _accepted(self.call(Call.WITHDRAW, task)[0])

    def state(self, task: Task) -> State:
        """The state of a task."""
        self._open()
        return State(library.state(self._handle, task))

    def is_ready(self, task: Task) -> bool:
        """Whether the task is hungry and may begin."""
        self._open()
        return library.is_ready(self._handle, task)

    def next_ready(self) -> Optional[Task]:
        """The ready task whose last meal is the earliest."""
        self._open()
        found = library.next_ready(self._handle)
        return None if found is None else Task(*found)

    def neighbours(self, task: Task) -> List[Task]:
        """The tasks that a task is in conflict with, in the order in which the conflicts were declared."""
        self._open()
        return _listed(library.neighbours(self._handle, task, self.limits()[0]))

    def blockers(self, task: Task) -> List[Task]:
        """Those of its neighbours for which a hungry task waits: who eats, and who is hungry with an earlier last meal.

        There are none for a task that isn't hungry, or that may begin.
        """
        self._open()
        return _listed(library.blockers(self._handle, task, self.limits()[0]))

    def ready(self) -> List[Task]:
        """All ready tasks, the one with the earliest last meal first."""
        self._open()
        return _listed(library.ready(self._handle, self.limits()[0]))

    def has_room(self) -> bool:
        """Whether one more conflict has room."""
        self._open()
        return library.has_room(self._handle)

    def clock(self) -> int:
        """How many joins and finishes were accepted."""
        self._open()
        return library.clock(self._handle)

    def messages(self) -> int:
        """How many messages between neighbours the last call took."""
        self._open()
        return library.messages(self._handle)

    def limits(self) -> Tuple[int, int]:
        """The most tasks and the most conflicts at once."""
        self._open()
        return library.limits(self._handle)

    def _open(self) -> None:
        if not self._handle.address:
            raise Refused(Answer.BAD_HANDLE)


class Broker:
    """An arbiter that threads share: `with broker.meal(task):` waits for the task's turn, and it eats inside."""

    def __init__(self, tasks: int = 64, conflicts: int = 256) -> None:
        self._arbiter = Arbiter(tasks, conflicts)
        self._turned = threading.Condition()

    @contextlib.contextmanager
    def meal(self, task: Task, timeout: Optional[float] = None) -> Iterator[Task]:
        """Waits until the task may eat, for so many seconds at most. It has finished behind the block, also if the block raises.

        A wait that takes too long raises TimeoutError, and the task's hunger is withdrawn.
        """
        with self._turned:
            self._arbiter.hungry(task)
            try:
                if not self._turned.wait_for(lambda: self._arbiter.begin(task), timeout):
                    raise TimeoutError(f"the turn of {task} did not come within {timeout} s")
            except BaseException:
                self._arbiter.withdraw(task)
                self._turned.notify_all()
                raise
        try:
            yield task
        finally:
            with self.changed() as arbiter:
                arbiter.finish(task)

    @contextlib.contextmanager
    def changed(self) -> Iterator[Arbiter]:
        """The arbiter under the lock. Whoever waits tries again afterwards."""
        with self._turned:
            yield self._arbiter
            self._turned.notify_all()

    def join(self) -> Task:
        """A new task, thinking."""
        with self.changed() as arbiter:
            return arbiter.join()

    def leave(self, task: Task) -> None:
        """A thinking task leaves."""
        with self.changed() as arbiter:
            arbiter.leave(task)

    def conflict(self, first: Task, second: Task) -> None:
        """From now on the two never eat at the same time."""
        with self.changed() as arbiter:
            arbiter.conflict(first, second)

    def separate(self, first: Task, second: Task) -> None:
        """The two may eat at the same time again."""
        with self.changed() as arbiter:
            arbiter.separate(first, second)


def _listed(told: Tuple[int, List[library.Name]]) -> List[Task]:
    answer, found = told
    _accepted(Answer(answer))
    return [Task(*name) for name in found]


def _accepted(answer: Answer) -> bool:
    if answer is not Answer.DONE:
        raise Refused(answer)
    return True
