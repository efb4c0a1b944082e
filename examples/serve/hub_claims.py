"""Resources by their names: a client takes some of them at once, and gives them back.

A claim is a task that the hub joins for the client. It is in conflict with each claim that names one of the same resources, and all
these conflicts are declared before it grows hungry. A new task is behind all others in the order of last meals, so a claim waits
only for those that came before it. The table has the claim's task until its resources are given back.
"""
import functools

from hub_program import Await, Cancel, Step
from hub_table import EATING, END_OF, THINKING

# How far a claim has come: its task joins, its conflicts are declared, it waits, it has the resources, it is given back.
JOINS, DECLARES, WAITS, HAS, ENDS = range(5)


class Claim:
    """What a client takes on one of its passes."""

    __slots__ = ("client", "own", "names", "task", "stage", "left", "is_given", "is_silent", "refusal")

    def __init__(self, client, own, names):
        self.client, self.own, self.names, self.task = client, own, names, None
        self.stage, self.left, self.refusal = JOINS, 0, None
        # Whether it is given back, and whether nobody waits for an answer.
        self.is_given, self.is_silent = False, False

    def put(self, words):
        """An answer on the claim's pass."""
        if self.client.connection and not self.is_silent:
            self.client.connection.put(b"+ %s %s\n" % (self.own, words))


class Claims:
    """The claims that there are, by the resources that they name."""

    def __init__(self, program, table, keep):
        self.program, self.table, self.named = program, table, {}
        # Keeps a claim in the file of owners, if there is one.
        self.keep = keep

    def take(self, client, own, names):
        """A client takes resources."""
        claim = client.claims[own] = Claim(client, own, names)
        self.program.call(Step(client, functools.partial(self._joined, claim)), b"join")

    def give(self, claim):
        """A claim is given back, or taken back where it waits."""
        claim.is_given = True
        if claim.stage == WAITS:
            claim.stage = ENDS
            awaits = claim.client.awaits[b"+" + claim.own]
            self.program.cancel(Cancel(awaits, claim.task.name, then=lambda _: self._end(claim)))
        elif claim.stage == HAS:
            self._end(claim)

    def drop(self, claim):
        """A claim that waits is given back, and nobody waits for an answer."""
        claim.is_silent = True
        if not claim.is_given:
            self.give(claim)

    def enter(self, claim, task):
        """The claim has this task, and is one of those that name its resources."""
        claim.task, task.claim = task, claim
        for name in claim.names:
            self.named.setdefault(name, {})[claim] = None

    def forget(self, claim):
        """The claim keeps nobody waiting any more, once what is asked already is done."""
        for name in claim.names:
            claims = self.named.get(name, {})
            claims.pop(claim, None)
            if not claims:
                self.named.pop(name, None)

    def _joined(self, claim, reply, _place):
        """The claim has its task: now its conflicts are declared. Those of later claims are declared by these."""
        if not reply.startswith(b"joined "):
            self._close(claim, reply)
            return
        others = {other: None for name in claim.names for other in self.named.get(name, ())}
        self.enter(claim, self.table.tasks[reply[7:]])
        if claim.client.is_dead:
            return
        self.keep(claim)
        claim.stage, claim.left = DECLARES, len(others)
        declared = functools.partial(self._declared, claim)
        for other in others:
            self.program.call(Step(claim.client, declared), b"conflict %s %s" % (claim.task.name, other.task.name))
        if not others:
            self._await(claim)

    def _declared(self, claim, reply, _place):
        """One conflict of the claim is declared, or there was no room for it."""
        claim.left -= 1
        if reply == b"refused no-room":
            claim.refusal = reply
        if not claim.left and not claim.client.is_dead:
            self._await(claim)

    def _await(self, claim):
        """All conflicts are declared: the claim's task grows hungry and awaits its turn."""
        if claim.is_given or claim.refusal:
            self._end(claim)
            return
        claim.stage = WAITS
        self.program.call(Step(claim.client), b"hungry " + claim.task.name)
        awaits = self.program.awaits_of(claim.client, b"+" + claim.own)
        self.program.await_meal(Await(awaits, claim.task.name, then=functools.partial(self._begun, claim)))

    def _begun(self, claim, reply, place):
        """The claim's turn has come."""
        if reply == b"done":
            if not claim.is_given and not claim.client.is_dead:
                claim.stage = HAS
                claim.put(b"took @%d" % place)
        elif reply == b"fault full" and not claim.is_given and not claim.client.is_dead:
            claim.refusal = b"refused full"
            self._end(claim)

    def _end(self, claim):
        """Whatever its task does, it does no more, and leaves."""
        claim.stage = ENDS
        name, state = claim.task.name, claim.task.state
        if state != THINKING:
            claim.task.is_finishing = state == EATING
            self.program.call(Step(claim.client), b"%s %s" % (END_OF[state], name))
        self.forget(claim)
        self.program.call(Step(claim.client, lambda *_: self._close(claim, claim.refusal)), b"leave " + name)

    def _close(self, claim, refusal):
        """The claim is gone."""
        if claim.client.claims.get(claim.own) is claim:
            del claim.client.claims[claim.own]
        claim.put(b"gave" if claim.is_given else refusal or b"gave")
