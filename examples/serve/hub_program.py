"""The program as the hub has it: what is asked of it, and how each answer finds its way."""
import collections
import heapq
import os

LARGEST_READ = 64 * 1024
# The hub takes no more lines of its clients while so many bytes wait for the program.
MOST_UNWRITTEN = 64 * 1024


class ProgramFailed(Exception):
    """The program ended, stands still, or answers what nobody asked. The hub ends."""


class Asked:
    """A line that is answered in turn: its number for the program, the client, and the connection and the line that it came by.

    An answer of the hub's own has the number 0: it goes nowhere, and waits for its turn.
    """

    __slots__ = ("number", "client", "connection", "own", "line")
    is_await = False

    def __init__(self, client, connection=None, own=b"", line=0):
        self.number, self.client, self.connection, self.own, self.line = 0, client, connection, own, line

    def fault(self, fault):
        """It has this fault."""
        self.connection.put_fault(self.line, fault)


class Call(Asked):
    """A call of a client."""

    __slots__ = ()

    def entry(self, rest, _reply, place):
        """It is answered by this entry, which comes without its pass."""
        self.connection.put_entry(self.own, rest, place)


class Question(Asked):
    """A question of a client."""

    __slots__ = ()

    def answer(self, line):
        """It is answered so."""
        self.connection.put(line)


class Answer(Asked):
    """An answer of the hub's own: `text` returns it when its turn has come."""

    __slots__ = ("text",)

    def __init__(self, client, connection, text):
        super().__init__(client, connection)
        self.text = text

    def put(self):
        """Its turn has come."""
        self.connection.put(self.text())


class Marker(Asked):
    """A question of the hub's own. Once it is answered, all lines before it are."""

    __slots__ = ()

    def answer(self, _line):
        """It is answered, and nobody reads it."""


class Step(Asked):
    """A call of the hub's own on a client's pass. `then` gets the reply and the place."""

    __slots__ = ("then",)

    def __init__(self, client, then=None):
        super().__init__(client)
        self.then = then

    def entry(self, _rest, reply, place):
        """It is answered."""
        if self.then:
            self.then(reply, place)


class Awaits:
    """What a client awaits on one of its passes. It has a pass of its own in the journal, on which nothing else is asked."""

    __slots__ = ("number", "client", "own", "waiting", "under_way")

    def __init__(self, number, client, own):
        self.number, self.client, self.own = number, client, own
        # The awaits of each task that have no answer, in order, and how many lines on this pass have none.
        self.waiting, self.under_way = {}, 0


class Await(Asked):
    """A meal that is awaited. It is settled once it is answered, or known to wait."""

    __slots__ = ("awaits", "task", "is_settled", "then")
    is_await = True

    def __init__(self, awaits, task, connection=None, line=0, then=None):
        super().__init__(awaits.client, connection, awaits.own, line)
        self.awaits, self.task, self.is_settled, self.then = awaits, task, False, then

    def entry(self, rest, reply, place):
        """The meal begins, or is refused."""
        if self.then:
            self.then(reply, place)
        else:
            self.connection.put_entry(self.own, rest, place)

    def fault(self, fault):
        """As many meals are awaited as may be."""
        if self.then:
            self.then(b"fault " + fault, 0)
        else:
            super().fault(fault)


class Cancel(Asked):
    """An await is taken back."""

    __slots__ = ("awaits", "task", "then")

    def __init__(self, awaits, task, connection=None, line=0, then=None):
        super().__init__(awaits.client, connection, awaits.own, line)
        self.awaits, self.task, self.then = awaits, task, then

    def answer(self, line):
        """It is taken back, or there is none."""
        if self.then:
            self.then(line)
        elif self.connection:
            self.connection.put(line)


class Numbers:
    """The passes in the journal. The least that is free is given, and given again once it is free."""

    def __init__(self):
        self.next, self.free, self.held = 0, [], set()

    def take(self):
        """A pass."""
        while self.free:
            number = heapq.heappop(self.free)
            if number not in self.held:
                self.held.add(number)
                return b"%d" % number
        while self.next in self.held:
            self.next += 1
        self.held.add(self.next)
        self.next += 1
        return b"%d" % (self.next - 1)

    def hold(self, number):
        """This pass is taken already."""
        self.held.add(int(number))

    def give(self, number):
        """The pass is free again."""
        self.held.discard(int(number))
        heapq.heappush(self.free, int(number))


class Program:
    """The program, the lines that go to it, and those that wait for an answer."""

    def __init__(self, process, table, clock):
        self.process, self.table, self.clock = process, table, clock
        self.numbers = Numbers()
        # What goes out at the end of the turn, what the pipe hasn't taken, and how many lines went out.
        self.lines, self.unwritten, self.written = [], b"", 0
        self.asked, self.awaits = collections.deque(), {}
        # The entries so far, those that this turn brought, and what is left of a line that isn't whole.
        self.entries, self.kept, self.torn = 0, [], b""
        self.joins, self.is_settled, self.has_fault, self.progress = 0, True, False, 0.0

    # ---- to the program

    def ask(self, asked, line):
        """A line goes out at the end of the turn."""
        if not self.asked:
            self.progress = self.clock.now
        self.written += 1
        asked.number = self.written
        self.asked.append(asked)
        self.lines.append(line)
        self.is_settled = not asked.is_await
        if asked.client:
            asked.client.under_way += 1

    def call(self, asked, call):
        """A call goes out, on the pass of its client."""
        if call == b"join":
            self.joins += 1
            asked.client.joins += 1
        self.ask(asked, b"%s %s" % (asked.client.number, call))

    def awaits_of(self, client, own):
        """What the client awaits on its pass."""
        awaits = client.awaits.get(own)
        if not awaits:
            awaits = client.awaits[own] = Awaits(self.numbers.take(), client, own)
            self.awaits[awaits.number] = awaits
        return awaits

    def await_meal(self, asked):
        """A meal is awaited."""
        awaits = asked.awaits
        awaits.waiting.setdefault(asked.task, collections.deque()).append(asked)
        awaits.under_way += 1
        awaits.client.awaited[asked.task] += 1
        awaits.client.waits += 1
        self.ask(asked, b"%s await %s" % (awaits.number, asked.task))

    def cancel(self, asked):
        """An await is taken back."""
        asked.awaits.under_way += 1
        self.ask(asked, b"%s cancel %s" % (asked.awaits.number, asked.task))

    def answer(self, asked):
        """An answer of the hub's own comes behind the answers to all lines of the client before, and behind the meals that these brought.

        So it waits for the answer to a line that comes later, if the client waits for anything.
        """
        if asked.client.under_way or asked.client.waits:
            self.asked.append(asked)
            asked.client.under_way += 1
            self.is_settled = False
        else:
            asked.put()

    def write(self):
        """What goes out in this turn, as far as the pipe takes it. A question behind awaits says which of them wait."""
        if not self.is_settled:
            self.ask(Marker(None), b"next")
        if self.process.stdin.closed:
            self.lines = []
        if self.lines:
            self.lines.append(b"")
            self.unwritten += b"\n".join(self.lines)
            self.lines = []
        if self.unwritten:
            try:
                self.unwritten = self.unwritten[os.write(self.process.stdin.fileno(), self.unwritten) :]
            except BlockingIOError:
                pass
            except OSError:
                # Its end is seen where it is read.
                self.unwritten = b""

    def is_full(self):
        """Whether no more is to be asked in this turn."""
        return len(self.unwritten) > MOST_UNWRITTEN

    # ---- from the program

    def read(self):
        """Takes what the program wrote. It returns False at its end."""
        try:
            got = os.read(self.process.stdout.fileno(), LARGEST_READ)
        except BlockingIOError:
            return True
        lines = (self.torn + got).split(b"\n")
        self.torn = lines.pop()
        if lines:
            self.progress = self.clock.now
        for line in lines:
            self._take(line)
        return bool(got)

    def _take(self, line):
        """A line of the program, without its line feed."""
        if line[:1].isdigit():
            self._take_entry(line)
        elif line.startswith(b"? "):
            self._take_answer(line + b"\n")
        elif line.startswith(b"! ") and line.count(b" ") == 3:
            self._take_fault(*line[2:].split(b" fault "))
        else:
            raise ProgramFailed(f"the program answered {line.decode(errors='replace')[:80]}")

    def _take_entry(self, line):
        """An entry: it answers a call, or begins a meal that was awaited."""
        self.entries += 1
        self.kept.append(line)
        number, _, rest = line.partition(b" ")
        call, _, reply = rest.partition(b" -> ")
        awaits = self.awaits.get(number)
        asked = self._await_of(awaits, call[6:]) if awaits else self._next()
        client = asked.client
        if call == b"join":
            self.joins -= 1
            client.joins -= 1
        leaves = self.table.note(client, call, reply, self.entries, self.clock.now)
        asked.entry(rest, reply, self.entries)
        if leaves:
            self.call(Step(client), b"leave " + leaves.name)
        if not awaits:
            self._less_under_way(client)
            return
        self._await_less(asked)
        if not asked.is_settled:
            self._settle(asked)

    def _take_answer(self, line):
        """The answer to the first question or cancel."""
        asked = self._next()
        if isinstance(asked, Cancel):
            if line != b"? cancelled none\n":
                self._await_less(asked.awaits.waiting[asked.task].popleft())
            self._less_on(asked.awaits)
        asked.answer(line)
        self._less_under_way(asked.client)

    def _take_fault(self, number, fault):
        """The fault of a line."""
        self.has_fault = True
        asked = self._next(int(number))
        if asked.is_await:
            asked.awaits.waiting[asked.task].remove(asked)
            self._await_less(asked)
        elif isinstance(asked, Cancel):
            self._less_on(asked.awaits)
        asked.fault(fault)
        self._less_under_way(asked.client)

    def _next(self, number=0):
        """The line that is answered in its turn: that of this number, or the first that is no await."""
        while self.asked:
            asked = self.asked.popleft()
            if asked.number and (asked.number == number or not number and not asked.is_await):
                return asked
            self._pass_over(asked)
        raise ProgramFailed("the program answered what nobody asked")

    def _await_of(self, awaits, task):
        """The await that an entry answers. If it isn't settled, the lines before it are."""
        if task not in awaits.waiting:
            raise ProgramFailed("the program began a meal that nobody awaits")
        asked = awaits.waiting[task].popleft()
        while not asked.is_settled:
            before = self.asked.popleft()
            if before is asked:
                break
            self._pass_over(before)
        return asked

    def _pass_over(self, asked):
        """A line before the one that is answered: an await that waits, or an answer of the hub's own, whose turn has come."""
        if asked.number:
            self._settle(asked)
        else:
            self._put_own(asked)

    def _put_own(self, answer):
        """The turn of an answer of the hub's own has come."""
        answer.put()
        self._less_under_way(answer.client)

    def _settle(self, asked):
        """Of an await it is known whether it waits."""
        asked.is_settled = True
        self._less_under_way(asked.client)

    def _await_less(self, asked):
        """A task is awaited once less."""
        awaits, awaited = asked.awaits, asked.client.awaited
        awaited[asked.task] -= 1
        asked.client.waits -= 1
        if not awaited[asked.task]:
            del awaited[asked.task]
        if not awaits.waiting[asked.task]:
            del awaits.waiting[asked.task]
        self._less_on(awaits)

    def _less_on(self, awaits):
        """One line less is under way on a pass of awaits. When there is none, the pass is free."""
        awaits.under_way -= 1
        if not awaits.under_way:
            del awaits.client.awaits[awaits.own]
            del self.awaits[awaits.number]
            self.numbers.give(awaits.number)

    @staticmethod
    def _less_under_way(client):
        """One line less of a client is under way. Something may wait until there is none."""
        if client:
            client.under_way -= 1
            if not client.under_way and client.when_quiet:
                client.when_quiet()
