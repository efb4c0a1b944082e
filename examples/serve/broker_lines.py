"""The lines of a client of `hygienic serve`: each request has a pass of its own, by which its answer finds it."""
import collections
import contextlib
import heapq
import socket
import threading
from concurrent.futures import Future
from typing import IO, Callable, Collection, Deque, Dict, List, NamedTuple, Optional, Tuple


class Refused(Exception):
    """A call was refused, for this reason. Nothing was changed."""


class Faulty(Exception):
    """A line was no request, or asked for what the client may not. Nothing was changed."""


class Gone(Exception):
    """The program, or the connection to it, is gone. Whether the last calls were made isn't known."""


class Asked(NamedTuple):
    """A line that waits for its answer: its number, its pass if it has one, and what gets the reply and its place."""

    number: int
    caller: Optional[int]
    answer: "Future[Tuple[str, int]]"


class Streams(NamedTuple):
    """The two streams to a program. `hang_up` says that no more is asked, and `end` ends what is left."""

    source: IO[bytes]
    sink: IO[bytes]
    hang_up: Callable[[], object]
    end: Callable[[], object]


def connected(path: str) -> Streams:
    """The streams of a Unix socket."""
    line = socket.socket(socket.AF_UNIX)
    try:
        line.connect(path)
    except OSError:
        line.close()
        raise
    return Streams(line.makefile("rb"), line.makefile("wb"), lambda: line.shutdown(socket.SHUT_WR), line.close)


class Lines:
    """One connection. Threads may share it."""

    def __init__(
        self, streams: Streams, journal: Optional[IO[bytes]], entries: int, on_end: Callable[[], object], held: Collection[int] = ()
    ) -> None:
        """Each line of the journal, which has so many entries already, is written to `journal`. `on_end` is called when no more
        lines come. The passes that are held have resources from an earlier connection."""
        self._streams, self._journal, self._entries, self._on_end = streams, journal, entries, on_end
        # Lines go out under the first lock, and what waits for an answer changes under the second. So the reader goes on while a
        # line waits until the program reads it.
        self._writing, self._lock = threading.Lock(), threading.Lock()
        self._written, self._passes = 0, max(held, default=-1) + 1
        self._free: List[int] = [caller for caller in range(self._passes) if caller not in held]
        self._calls: Dict[int, Asked] = {}
        self._gives: Dict[int, Asked] = {}
        self._questions: Deque[Asked] = collections.deque()
        self.is_gone = False
        self._reader = threading.Thread(target=self._read, daemon=True)
        self._reader.start()

    def close(self) -> None:
        """No more is asked. What is under way is answered still, but for a meal that waits for its turn: that is gone."""
        with self._writing, contextlib.suppress(OSError):
            self._streams.hang_up()
        self._reader.join()
        self.drop()

    def drop(self) -> None:
        """Ends the streams."""
        with contextlib.suppress(OSError):
            self._streams.sink.close()
        self._streams.source.close()
        self._streams.end()

    # ---- what goes out

    def ask(self, call: str) -> Asked:
        """A call goes out, on the least pass that no other is under way on."""
        with self._writing:
            with self._lock:
                if self._free:
                    caller = heapq.heappop(self._free)
                else:
                    caller, self._passes = self._passes, self._passes + 1
                asked = self._calls[caller] = Asked(self._written + 1, caller, Future())
            self._write(f"{caller} {call}", asked)
        return asked

    def question(self, question: str, timeout: Optional[float] = None) -> str:
        """What a question is answered, without the sign before it."""
        with self._writing:
            asked = Asked(self._written + 1, None, Future())
            with self._lock:
                self._questions.append(asked)
            self._write(question, asked)
        return asked.answer.result(timeout)[0]

    def give(self, caller: int) -> "Future[Tuple[str, int]]":
        """What was taken on this pass is given back, or waited for no more. The pass is free when that is answered."""
        with self._writing:
            asked = Asked(self._written + 1, None, Future())
            with self._lock:
                self._gives[caller] = asked
            self._write(f"{caller} give", asked)
        return asked.answer

    def forget(self, asked: Asked) -> None:
        """A request that will not be answered any more gives its pass back."""
        with self._lock:
            if asked.caller is not None and self._calls.pop(asked.caller, None):
                heapq.heappush(self._free, asked.caller)

    def _write(self, line: str, asked: Asked) -> None:
        """A line goes out."""
        if self.is_gone:
            _fail(asked)
            return
        self._written += 1
        try:
            self._streams.sink.write(line.encode() + b"\n")
            self._streams.sink.flush()
        except (OSError, ValueError):
            _fail(asked)

    # ---- what comes in

    def _read(self) -> None:
        """Takes each line to what asked for it, until no more come."""
        with contextlib.suppress(OSError, ValueError, LookupError):
            for line in self._streams.source:
                if not line.endswith(b"\n"):
                    break
                with self._lock:
                    self._take(line.decode().rstrip("\n"))
        with self._lock:
            self.is_gone = True
            for asked in [*self._calls.values(), *self._gives.values(), *self._questions]:
                _fail(asked)
        self._on_end()

    def _take(self, line: str) -> None:
        """One line that came."""
        first, _, rest = line.partition(" ")
        if first == "?":
            self._questions.popleft().answer.set_result((rest, 0))
        elif first == "!":
            number, _, fault = rest.partition(" ")
            self._take_fault(int(number), fault)
        elif first == "+":
            caller, _, words = rest.partition(" ")
            self._take_claim(int(caller), words)
        elif first == "dine":
            self._note(line)
        elif first != "-":
            entry, _, place = line.partition(" @")
            self._entries += 1
            self._note(entry)
            self._end(int(first), entry.partition(" -> ")[2], int(place or self._entries))

    def _note(self, line: str) -> None:
        """A line of the journal."""
        if self._journal:
            self._journal.write(line.encode() + b"\n")

    def _end(self, caller: int, reply: str, place: int) -> None:
        """The request on this pass is answered, and the pass is free."""
        asked = self._calls.pop(caller, None)
        if asked:
            heapq.heappush(self._free, caller)
            asked.answer.set_result((reply, place))

    def _take_claim(self, caller: int, words: str) -> None:
        """What is taken on this pass came, was refused, or was given back. The pass is free unless it came."""
        if words.startswith("took @"):
            asked = self._calls.pop(caller, None)
            if asked:
                asked.answer.set_result(("done", int(words[6:])))
        elif words == "gave" and caller in self._gives:
            self._calls.pop(caller, None)
            heapq.heappush(self._free, caller)
            self._gives.pop(caller).answer.set_result((words, 0))
        else:
            self._end(caller, words, 0)

    def _take_fault(self, number: int, fault: str) -> None:
        """The line of this number had a fault. The pass of a call is free then. (That of a give is so already: nothing is taken on it.)"""
        for waiting in (self._calls, self._gives):
            for caller, asked in list(waiting.items()):
                if asked.number == number:
                    del waiting[caller]
                    if waiting is self._calls:
                        heapq.heappush(self._free, caller)
                    asked.answer.set_exception(Faulty(fault))
        for asked in list(self._questions):
            if asked.number == number:
                self._questions.remove(asked)
                asked.answer.set_exception(Faulty(fault))


def _fail(asked: Asked) -> None:
    """A request has no answer any more."""
    if not asked.answer.done():
        asked.answer.set_exception(Gone())


def accepted(answer: Tuple[str, int]) -> Tuple[str, int]:
    """A reply that is no refusal, with its place."""
    if answer[0].startswith("refused "):
        raise Refused(answer[0].removeprefix("refused "))
    return answer
