"""What the hub knows of the tasks, from the entries of the journal."""

THINKING, HUNGRY, EATING = b"thinking", b"hungry", b"eating"
# The state of the task after a call on it is done, and the call that ends this state.
STATE_AFTER = {b"hungry": HUNGRY, b"begin": EATING, b"finish": THINKING, b"withdraw": THINKING}
END_OF = {HUNGRY: b"withdraw", EATING: b"finish"}


class Task:
    """A task that is present.

    Its owner is the client that joined it, or None. Its user is the client by whose call it is hungry or eats. `place` is that of
    the entry by which it is in its state, and `since` the time.
    """

    __slots__ = ("name", "owner", "user", "state", "place", "since", "claim", "is_finishing", "is_leaving")

    def __init__(self, name, owner):
        self.name, self.owner, self.user = name, owner, None
        self.state, self.place, self.since = THINKING, 0, 0.0
        # The claim that the task is made for; whether a finish of its meal is under way; whether it leaves when it thinks.
        self.claim, self.is_finishing, self.is_leaving = None, False, False


class Table:
    """The tasks that are present, by their names, and which of them are hungry or eat."""

    def __init__(self):
        self.tasks, self.busy = {}, {}

    def note(self, client, call, reply, place, now):
        """Notes an entry that this client caused. It returns a task that is to leave and thinks now, or None."""
        word, _, name = call.partition(b" ")
        if reply == b"done":
            if word in STATE_AFTER:
                return self._move(client, self.tasks[name], STATE_AFTER[word], place, now)
            if word == b"leave":
                self._leave(self.tasks.pop(name))
        elif word == b"join" and reply.startswith(b"joined "):
            task = self.tasks[reply[7:]] = Task(reply[7:], client)
            if client:
                client.tasks[task.name] = task
        return None

    def _move(self, client, task, state, place, now):
        """The task comes into another state."""
        if task.user and task.user is not client:
            task.user.busy.pop(task.name, None)
        task.state, task.place, task.since, task.is_finishing = state, place, now, False
        if state == THINKING:
            task.user = None
            self.busy.pop(task.name, None)
            if client:
                client.busy.pop(task.name, None)
            return task if task.is_leaving else None
        task.user = client
        self.busy[task.name] = task
        if client:
            client.busy[task.name] = task
        return None

    @staticmethod
    def _leave(task):
        """The task is gone."""
        if task.owner:
            task.owner.tasks.pop(task.name, None)
