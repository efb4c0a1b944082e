"""The clients of the hub: who comes, who comes back, whose lease is over, and what is left of who is dead."""
import functools

from hub_claims import HAS, Claim, Claims
from hub_clients import Client
from hub_program import Cancel, Step
from hub_table import EATING, END_OF, HUNGRY, STATE_AFTER


class Registry:
    """All clients, also those that a journal leaves and that may come back."""

    def __init__(self, program, table, clock, words, cut):
        # `cut` ends a connection.
        self.program, self.table, self.clock, self.cut = program, table, clock, cut
        self.lease, self.is_kept, self.is_open = words.lease, words.keep, words.open
        self.claims = Claims(program, table, self._keep_claim)
        # The clients that may come back by their secrets, those that are absent, and the file that says so.
        self.known, self.absent, self.owners = {}, set(), None

    # ---- who comes

    def new(self):
        """A client that nothing is known of."""
        return Client(self.program.numbers.take(), self.clock.now)

    def new_secret(self, client):
        """The client gets a secret, which the file of owners has before the client has it."""
        secret = client.new_secret()
        client.place = self.program.entries
        self.known[client.digest] = client
        if self.owners:
            self.owners.add(line_of_client(client))
        return secret

    def come_back(self, connection, client):
        """A client is here again, by another connection. What it awaited is taken back, since nobody reads that answer any more."""
        self.program.numbers.give(connection.client.number)
        before = client.connection
        connection.client, client.connection = client, connection
        if before:
            self.cut(before, b"moved")
        client.heard = self.clock.now
        self.absent.discard(client)
        self._take_back(client)
        for claim in list(client.claims.values()):
            if claim.stage != HAS:
                self.claims.drop(claim)

    # ---- who is dead

    def late(self):
        """The clients whose lease is over: they write nothing, while a task of theirs eats, or is hungry and not awaited."""
        over = self.clock.now - self.lease
        late = {client for client in self.absent if client.heard < over}
        for task in self.table.busy.values():
            client = task.user
            if client and not client.is_dead and max(client.heard, task.since) < over:
                if task.state == EATING or task.name not in client.awaited:
                    late.add(client)
        return late

    def bury(self, client):
        """A client is dead. Its burial begins when none of its lines is under way."""
        client.is_dead, client.connection = True, None
        self.known.pop(client.digest, None)
        self.absent.discard(client)
        client.when_quiet = functools.partial(self._bury_on, client)
        if not client.under_way:
            self._bury_on(client)

    def _bury_on(self, client):
        """First its awaits are taken back. Then its tasks end what they do, and leave. Then its pass is free."""
        if client.awaits:
            self._take_back(client)
        elif client.busy or client.tasks:
            self._end_tasks(client)
        if not client.under_way:
            client.when_quiet = None
            self.program.numbers.give(client.number)
            if client.digest and self.owners:
                self.owners.add(b"gone %s %d\n" % (client.number, self.program.entries), 2)

    def _take_back(self, client):
        """All that the client awaits for itself is taken back, and all if it is dead."""
        for awaits in list(client.awaits.values()):
            if client.is_dead or not awaits.own.startswith(b"+"):
                for name, waiting in awaits.waiting.items():
                    for _ in waiting:
                        self.program.cancel(Cancel(awaits, name))

    def _end_tasks(self, client):
        """What the client's tasks do is ended, and they leave. A task that another client uses leaves when it thinks."""
        for name, task in list(client.busy.items()):
            self.program.call(Step(client), b"%s %s" % (END_OF[task.state], name))
        for name, task in list(client.tasks.items()):
            if task.claim:
                self.claims.forget(task.claim)
            if task.user not in (None, client) or (self.is_kept and not task.claim):
                task.is_leaving = not self.is_kept
                task.owner = None
                del client.tasks[name]
            else:
                self.program.call(Step(client), b"leave " + name)

    # ---- what a journal leaves

    def restore(self, journal, owners):
        """The tasks that the journal leaves, and whose they are. A client has a lease to come back."""
        self.owners = owners
        changes, claims = owners.changes()
        clients, place, lost = {}, 0, Client(b"", self.clock.now)
        # The tasks that are present: the owner, the last call by which the state changed, and its place.
        present = {}
        for place, line in enumerate(journal.lines(), 1):
            while changes and changes[0][0] < place:
                self._change(clients, *changes.popleft())
            asked, _, reply = line.partition(b" -> ")
            if reply == b"done\n":
                _, word, name = asked.split(b" ", 2)
                if word in STATE_AFTER:
                    present[name][1:] = word, place
                elif word == b"leave":
                    del present[name]
            elif reply.startswith(b"joined "):
                present[reply[7:-1]] = [clients.get(asked[:-5], lost), b"", 0]
        while changes and changes[0][0] <= place:
            self._change(clients, *changes.popleft())
        self.program.entries = place
        for name, (owner, word, place) in present.items():
            self.table.note(owner, b"join", b"joined " + name, 0, self.clock.now)
            self.table.note(owner, b"%s %s" % (word, name), b"done", place, self.clock.now)
        self._leave_absent(clients.values(), lost, claims)

    def _change(self, clients, place, number, digest):
        """From this place on the pass belongs to another client, or to nobody."""
        clients.pop(number, None)
        if digest:
            client = clients[number] = Client(number, self.clock.now)
            client.digest, client.place = digest, place

    def _leave_absent(self, clients, lost, claims):
        """These clients are absent, and what is nobody's belongs to one that can't come back, whose hunger ends at once."""
        for client in clients:
            self.program.numbers.hold(client.number)
            self.known[client.digest] = client
            self.absent.add(client)
        lost.number = self.program.numbers.take()
        self.absent.add(lost)
        for name, task in self.table.tasks.items():
            if task.owner not in self.absent:
                task.owner.tasks.pop(name)
                task.owner.busy.pop(name, None)
                task.owner = lost
                lost.tasks[name] = task
                if name in self.table.busy:
                    task.user = lost
                    lost.busy[name] = task
        for name, (own, names) in claims.items():
            if name in self.table.tasks:
                self._restore_claim(self.table.tasks[name], own, names)
        for name, task in lost.busy.items():
            if task.state == HUNGRY and not task.claim:
                self.program.call(Step(lost), b"withdraw " + name)
        self.keep()
        if not self.lease:
            for client in list(self.absent):
                self.bury(client)

    def _restore_claim(self, task, own, names):
        """A claim that the journal leaves. One that has its resources goes on having them; another is given back."""
        claim = Claim(task.owner, own, names)
        task.owner.claims[own] = claim
        self.claims.enter(claim, task)
        claim.stage = HAS
        if task.state != EATING:
            self.claims.drop(claim)

    # ---- the file of owners

    def tidy(self):
        """Writes the file of owners anew once most of it says nothing any more."""
        if self.owners and self.owners.is_long():
            self.keep()

    def keep(self):
        """Writes the file of owners anew."""
        clients = sorted(self.known.values(), key=lambda client: client.place)
        lines = [line_of_client(client) for client in clients]
        lines += [line_of_claim(task.claim) for task in self.table.tasks.values() if task.claim]
        self.owners.begin(lines)

    def _keep_claim(self, claim):
        """The file of owners has a claim before its task grows hungry."""
        if self.owners:
            self.owners.add(line_of_claim(claim), 1)


def line_of_client(client):
    """The line of a client in the file of owners."""
    return b"client %s %d %s\n" % (client.number, client.place, client.digest)


def line_of_claim(claim):
    """The line of a claim in the file of owners."""
    return b"take %s %s %s\n" % (claim.task.name, claim.own, b" ".join(claim.names))
