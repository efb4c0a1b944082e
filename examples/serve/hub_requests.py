"""What the lines of clients come to: who may ask for what, and how much at once."""
from hub_claims import HAS
from hub_lines import (
    FINISH, FULL, GIVE, HELLO, LONGEST_LINE, MEAL, NAMES, OWNER, QUESTION, REQUEST, SECRET, TAKE, TAKEN, WORDS,
    fault_of_resources, is_blank, is_pass,
)
from hub_clients import MOST_UNDER_WAY, digest_of
from hub_program import Answer, Await, Call, Cancel, Question
from hub_table import EATING

# What a line comes to: it is taken, or it is taken later, once more is answered.
DONE, LATER = True, False


class Requests:
    """Takes the lines of clients."""

    def __init__(self, program, table, registry, words, most_tasks):
        self.program, self.table, self.registry, self.claims = program, table, registry, registry.claims
        self.is_open, self.lease, self.each = words.open, words.lease, words.each
        self.open_share = max(1, most_tasks // 4)
        # The connection whose line waits until no join is under way. Meanwhile no other joins.
        self.gate = None
        # Whether a list was given in this turn.
        self.is_listed = False

    def take(self, connection):
        """Takes lines of a connection in this turn: a share of them, and no more than may be under way."""
        lines = connection.take_lines()
        for at, line in enumerate(lines):
            if not self._take_line(connection, line):
                connection.put_back(lines[at:])
                return DONE if at else LATER
        return DONE

    def _take_line(self, connection, line):
        """Takes a line, unless it has to wait until more is answered."""
        if connection.client.under_way >= MOST_UNDER_WAY:
            return LATER
        connection.lines += 1
        request = REQUEST.fullmatch(line)
        if len(line) > LONGEST_LINE:
            is_taken = self._fault(connection, WORDS)
        elif request:
            is_taken = self._take_call(connection, request[1], request[2], request[3])
        elif QUESTION.fullmatch(line):
            is_taken = self._ask(connection, line)
        elif is_blank(line):
            return DONE
        else:
            is_taken = self._take_more(connection, line)
        if not is_taken:
            connection.lines -= 1
        connection.may_greet &= not is_taken
        return is_taken

    def _fault(self, connection, fault):
        """A fault of the line, in the hub's own words."""
        self.program.has_fault = True
        line = connection.lines
        self._answer(connection, lambda: b"! %d fault %s\n" % (line, fault))
        return DONE

    def _answer(self, connection, text):
        """An answer of the hub's own, in its turn."""
        self.program.answer(Answer(connection.client, connection, text))
        return DONE

    def _ask(self, connection, line):
        """A question. The answer to one for neighbours may be long, so it is asked when nothing else is under way."""
        if line.startswith(b"neighbours") and connection.client.under_way:
            return LATER
        self.program.ask(Question(connection.client, connection, b"", connection.lines), line)
        return DONE

    # ---- calls

    def _take_call(self, connection, own, word, names):
        """A call, an await or a cancel."""
        if NAMES.get(word) != names.count(b" ") or not is_pass(own):
            return self._take_more(connection, b"%s %s%s" % (own, word, names))
        if word == b"join":
            if self._is_gated(connection):
                return LATER
            if self._has_its_share(connection.client):
                return self._fault(connection, FULL)
        if names and word != b"cancel":
            fault = self._fault_of(connection, word, names[1:])
            if fault is LATER:
                return LATER
            if fault:
                return self._fault(connection, fault)
        if word == b"await":
            return self._await(connection, own, names[1:])
        if word == b"cancel":
            return self._cancel(connection, own, names[1:])
        if word == b"finish":
            self._note_finish(names[1:])
        self.program.call(Call(connection.client, connection, own, connection.lines), word + names)
        return DONE

    def _has_its_share(self, client):
        """Whether the client has as many tasks as one may have."""
        return self.each is not None and len(client.tasks) + client.joins >= self.each

    def _is_gated(self, connection):
        """Whether a join of this connection waits, since the line of another waits until none is under way."""
        return self.gate not in (None, connection) and not self.gate.is_closing

    def _fault_of(self, connection, word, names):
        """Why the client may not call this on these tasks: a fault, or None. LATER while another client's join is under way."""
        tasks = [self.table.tasks.get(name) for name in names.split(b" ")]
        if None in tasks:
            # The program refuses a name that it doesn't know, but the name may be that of a task that joins at this moment.
            if self.program.joins > connection.client.joins:
                self.gate = self.gate if self._is_gated(connection) else connection
                return LATER
            self.gate = None if self.gate is connection else self.gate
            return None
        is_own = [self._is_own(connection.client, task) for task in tasks]
        return None if all(is_own) or (word == b"conflict" and any(is_own)) else OWNER

    def _is_own(self, client, task):
        """Whether the client may call on this task. One that is nobody's becomes its own. A claim's task is the hub's."""
        if task.claim:
            return False
        if task.owner is None and not self.is_open:
            task.owner = client
            client.tasks[task.name] = task
        return self.is_open or task.owner is client

    def _note_finish(self, name):
        """The meal of this task is about to end."""
        task = self.table.tasks.get(name)
        if task:
            task.is_finishing = task.state == EATING

    def _await(self, connection, own, name):
        """An await. A client has a share of those that wait: as many as it has tasks, so there is room for each task."""
        client = connection.client
        share = self.open_share if self.is_open else max(1, len(client.tasks))
        if client.waits >= share:
            # Some of them may be answered at once, and which is known when nothing is under way.
            return LATER if client.under_way else self._fault(connection, FULL)
        self.program.await_meal(Await(self.program.awaits_of(client, own), name, connection, connection.lines))
        return DONE

    def _cancel(self, connection, own, name):
        """An await is taken back. On a pass that awaits nothing there is none."""
        awaits = connection.client.awaits.get(own)
        if awaits:
            self.program.cancel(Cancel(awaits, name, connection, connection.lines))
        else:
            asked = Question(connection.client, connection, b"", connection.lines)
            self.program.ask(asked, b"%s cancel %s" % (connection.client.number, name))
        return DONE

    # ---- what a client may ask for that wrote `hello`

    def _take_more(self, connection, line):
        """A line of those that the program doesn't know."""
        hello = HELLO.fullmatch(line)
        if hello and connection.may_greet:
            return self._greet(connection, hello[1])
        if connection.is_greeted:
            for form, take in ((FINISH, self._finish), (TAKE, self._take), (GIVE, self._give)):
                found = form.fullmatch(line)
                if found and is_pass(found[1]):
                    return take(connection, found)
            if line == b"renew":
                return self._renew(connection)
            if line == b"list":
                return self._list(connection)
        return self._fault(connection, WORDS)

    def _greet(self, connection, secret):
        """The client asks for places and more, and gets a secret; or it comes back by the secret that it has."""
        if secret:
            client = self.registry.known.get(digest_of(secret))
            if not client:
                return self._fault(connection, SECRET)
            self.registry.come_back(connection, client)
        else:
            secret = self.registry.new_secret(connection.client)
        connection.is_greeted = True
        return self._answer(connection, lambda: b"? hello %s %g\n" % (secret, self.lease))

    def _finish(self, connection, found):
        """A meal is ended that began at this place, and no other."""
        own, name, place = found.groups()
        fault = self._fault_of(connection, b"finish", name)
        if fault is LATER:
            return LATER
        task = self.table.tasks.get(name)
        if not fault and (not task or task.state != EATING or task.place != int(place) or task.is_finishing):
            fault = MEAL
        if fault:
            return self._fault(connection, fault)
        task.is_finishing = True
        self.program.call(Call(connection.client, connection, own, connection.lines), b"finish " + name)
        return DONE

    def _take(self, connection, found):
        """Resources are taken by their names."""
        names = found[2].split()
        fault = fault_of_resources(names)
        claim = connection.client.claims.get(found[1])
        if not fault and claim and claim.is_given:
            return LATER
        if not fault and self._has_its_share(connection.client):
            fault = FULL
        if fault or claim:
            return self._fault(connection, fault or TAKEN)
        if self._is_gated(connection):
            return LATER
        self.claims.take(connection.client, found[1], names)
        return DONE

    def _give(self, connection, found):
        """What was taken on this pass is given back; or taken back, if it is waited for."""
        claim = connection.client.claims.get(found[1])
        if not claim or claim.is_given or (found[2] and (claim.stage != HAS or claim.task.place != int(found[2]))):
            return self._fault(connection, MEAL)
        self.claims.give(claim)
        return DONE

    def _renew(self, connection):
        """The lease goes on, and the client gets the places of its meals."""
        client = connection.client
        return self._answer(connection, lambda: b"? renew %s\n" % (client.places_of_meals() or b"none"))

    def _list(self, connection):
        """All tasks, for people. The answer is long, so there is one in a turn, when nothing else is under way."""
        client = connection.client
        if client.under_way or self.is_listed:
            return LATER
        self.is_listed = True

        def text():
            return b"? list %s\n" % (b"; ".join([words_of(task, client) for task in self.table.tasks.values()]) or b"none")

        return self._answer(connection, text)


def words_of(task, client):
    """What a list has of a task."""
    owner = task.owner
    whose = b"yours" if owner is client else b"client " + owner.number if owner else b"nobody"
    takes = b" takes " + b" ".join(task.claim.names) if task.claim else b""
    return b"%s %s %s%s" % (task.name, task.state, whose, takes)
