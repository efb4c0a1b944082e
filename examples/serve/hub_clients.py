"""Who is connected: clients, and the connections by which they speak."""
import collections
import hashlib
import secrets

from hub_lines import LONGEST_LINE

LARGEST_READ = 16 * 1024
# How many lines of a connection are taken in one turn of the loop, and how many of a client may be under way.
MOST_LINES = 64
MOST_UNDER_WAY = 128
# While so many bytes of answers lie unread, no more lines of the connection are taken.
MOST_UNREAD = 256 * 1024
# A connection that is closed may write so many bytes more before it comes to read its last answers.
MOST_DISCARDED = 1024 * 1024


def digest_of(secret):
    """What the hub keeps of a secret."""
    return hashlib.sha256(secret).hexdigest().encode()


class Client:
    """Whoever joins tasks and calls on them. Its connection may be gone, and come back by its secret."""

    def __init__(self, number, now):
        # Its pass in the journal, the digest of its secret if it has one, from which place on it has both, and when it last wrote.
        self.number, self.digest, self.place, self.heard = number, None, 0, now
        self.connection = None
        # Its tasks, those that are hungry or eat by its calls, what it awaits by its passes, by tasks and in all, and its claims.
        self.tasks, self.busy, self.awaits = {}, {}, {}
        self.awaited, self.waits, self.claims = collections.Counter(), 0, {}
        # How many of its lines, and of its joins, have no answer, and what is called when it has no more such lines.
        self.under_way, self.joins, self.when_quiet = 0, 0, None
        self.is_dead = False

    def new_secret(self):
        """A secret, by which the client may come back."""
        secret = secrets.token_hex(16).encode()
        self.digest = digest_of(secret)
        return secret

    def places_of_meals(self):
        """The places of the meals that it has, as a text."""
        return b" ".join(b"%d" % place for place in sorted(task.place for task in self.busy.values() if task.state == b"eating"))


class Connection:
    """A socket, the lines that came by it, and the answers that go."""

    def __init__(self, line, client, dirty):
        self.socket, self.client = line, client
        client.connection = self
        # The hub's list of connections that have answers to write.
        self.dirty = dirty
        # How many lines were taken, what came and wasn't taken, whether this has a whole line, and whether more may come.
        self.lines, self.text, self.has_lines, self.is_ended = 0, b"", False, False
        # Whether it may write `hello` still, and whether it did.
        self.may_greet, self.is_greeted = True, False
        self.answers, self.unread, self.is_blocked = [], 0, False
        # Since when too much lies unread, whether the last answer was put, when it's closed whatever lies unread, and how much was
        # read of it meanwhile.
        self.deaf_since, self.is_closing, self.closes_at, self.discarded = None, False, None, 0

    # ---- what comes

    def read(self):
        """Reads what came. It returns False at the end."""
        try:
            got = self.socket.recv(LARGEST_READ)
        except BlockingIOError:
            return True
        except OSError:
            got = b""
        if not got:
            self.is_ended = True
            return False
        self.text += got
        self.has_lines = b"\n" in got
        if not self.has_lines:
            # A line that is too long is counted, and no more of it is kept.
            self.text = self.text[: LONGEST_LINE + 1]
        return True

    def discard(self):
        """Reads what comes once nothing is taken any more, so that a client that writes before it reads comes to its last answers.

        It returns False if that is the end, or too much.
        """
        try:
            got = len(self.socket.recv(LARGEST_READ))
        except BlockingIOError:
            return True
        except OSError:
            got = 0
        self.discarded += got
        self.is_ended = not got
        return got and self.discarded < MOST_DISCARDED

    def take_lines(self):
        """The lines of this turn, without their line feeds."""
        *lines, self.text = self.text.split(b"\n", MOST_LINES)
        self.has_lines = len(lines) == MOST_LINES and b"\n" in self.text
        if not self.has_lines:
            self.text = self.text[: LONGEST_LINE + 1]
        return lines

    def put_back(self, lines):
        """These lines are taken later."""
        self.text = b"\n".join([*lines, self.text])
        self.has_lines = b"\n" in self.text

    # ---- what goes

    def put(self, line):
        """An answer, with its line feed, goes out at the end of the turn."""
        if not self.is_closing:
            if not self.answers:
                self.dirty.append(self)
            self.answers.append(line)
            self.unread += len(line)

    def put_entry(self, own, rest, place):
        """An entry, with the client's own pass, and with its place if the client wrote `hello`."""
        if self.is_greeted:
            self.put(b"%s %s @%d\n" % (own, rest, place))
        else:
            self.put(b"%s %s\n" % (own, rest))

    def put_fault(self, line, fault):
        """The fault of a line of the client's."""
        self.put(b"! %d fault %s\n" % (line, fault))

    def put_last(self, why):
        """The last line, for a client that wrote `hello`: why no more come."""
        if self.is_greeted:
            self.put(b"- %s\n" % why)
        self.is_closing = True

    def write(self):
        """Writes what the socket takes. It returns False if the client is gone."""
        text = b"".join(self.answers)
        try:
            sent = self.socket.send(text) if text else 0
        except BlockingIOError:
            sent = 0
        except OSError:
            self.answers, self.unread, self.is_closing = [], 0, True
            return False
        self.unread = len(text) - sent
        self.answers = [text[sent:]] if self.unread else []
        return True

    def is_deaf(self):
        """Whether too much lies unread."""
        return self.unread > MOST_UNREAD

    def is_quiet(self):
        """Whether all that it asked is answered."""
        return not self.has_lines and not self.client.under_way
