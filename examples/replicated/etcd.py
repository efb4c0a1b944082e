"""A log in etcd, by its HTTP gateway: requests, and the coming and going of clients. Standard library only.

All keys of a log begin with its name and a slash. The key `log` has the requests: each batch of them is put there, one over the other,
and etcd keeps each as a revision. Each client has a key of its own by a lease, and etcd deletes it once nobody keeps the lease alive.
The order of the log is the order of etcd's revisions, on which all members agree. A batch that is put again is in the log twice: who
reads the log has to leave out what comes again.
"""
import base64
import collections
import contextlib
import http.client
import json
import time
import urllib.parse

ATTEMPT_SECONDS = 2
# A watch that is silent for so long is begun again, at another member: this one may be cut off.
SILENT_SECONDS = 10
# Between two attempts, so that a cluster without a leader isn't asked without a pause.
PAUSE_SECONDS = 0.02
FAILURES = (OSError, http.client.HTTPException, ValueError)
# What etcd writes if its room is full, or a revision isn't there.
NO_ROOM, COMPACTED, FUTURE = "database space exceeded", "has been compacted", "is a future revision"
NO_LEASE = "requested lease not found"

# Some requests, a line each.
Batch = collections.namedtuple("Batch", "revision text")
# A client, by its key, comes, or comes back by the pass that it has. Which coming this is, its node has drawn.
Coming = collections.namedtuple("Coming", "revision key passed drawn")
# A client's lease is over.
Going = collections.namedtuple("Going", "revision key")


class Unreachable(Exception):
    """No member took it in time. Whether it is in the log isn't known."""


class NoLease(Unreachable):
    """The lease is over."""


class Full(Exception):
    """The log takes no more. It isn't in the log."""


class Lost(Exception):
    """The log doesn't have this revision: it was compacted away, or this is another log."""


def in_base64(text):
    """A key or a value, as the gateway wants it."""
    return base64.b64encode(text.encode()).decode()


def from_base64(text):
    """A key or a value, as the gateway gives it."""
    return base64.b64decode(text).decode(errors="replace")


class Members:
    """The members of etcd at these addresses, of which the first is asked first. For one thread at a time."""

    def __init__(self, addresses):
        self.addresses, self.at, self.line = list(addresses), 0, None

    def post(self, path, body, seconds):
        """A member's answer. If it has none, the next attempt goes to the next member."""
        try:
            if not self.line:
                place = urllib.parse.urlsplit(self.addresses[self.at])
                self.line = http.client.HTTPConnection(place.hostname, place.port, timeout=seconds)
            self.line.request("POST", path, json.dumps(body), {"Content-Type": "application/json"})
            answer = self.line.getresponse()
            if answer.status != 200:
                self.refuse(path, answer.read().decode(errors="replace"))
            return answer
        except FAILURES:
            self.turn()
            raise

    @staticmethod
    def refuse(path, why):
        """Raises why a member refused."""
        if NO_ROOM in why:
            raise Full(f"etcd: {NO_ROOM}")
        if COMPACTED in why or FUTURE in why:
            raise Lost(f"etcd: the revision {COMPACTED if COMPACTED in why else FUTURE}")
        if NO_LEASE in why:
            raise NoLease(f"etcd: {NO_LEASE}")
        raise OSError(f"{path}: {why[:200]}")

    def turn(self):
        """The next attempt goes to the next member."""
        if self.line:
            self.line.close()
        self.line, self.at = None, (self.at + 1) % len(self.addresses)

    def insist(self, path, body, seconds):
        """A member's answer, from whichever has one first. It is asked again and again, so it has to be the same to ask twice."""
        end = time.monotonic() + seconds
        why = None
        while time.monotonic() < end:
            try:
                return json.loads(self.post(path, body, min(seconds, ATTEMPT_SECONDS)).read())
            except FAILURES as failure:
                why = failure
            time.sleep(PAUSE_SECONDS)
        raise Unreachable(f"etcd: no member answered {path} within {seconds} s: {why!r}")


class Log:
    """A log of this name, at these members. For one thread at a time."""

    def __init__(self, addresses, name, seconds):
        self.members, self.name, self.seconds = Members(addresses), name, seconds

    def key(self, rest):
        """A key of this log, as the gateway wants it."""
        return in_base64(f"{self.name}/{rest}")

    def put(self, rest, value, **more):
        """A key gets this value."""
        self.members.insist("/v3/kv/put", {"key": self.key(rest), "value": in_base64(value), **more}, self.seconds)

    def append(self, text):
        """Puts a batch of requests behind all others. If a member's answer is lost, it may be there twice."""
        self.put("log", text)

    def found(self, rest, **more):
        """A key's value and the revision that made it, or None."""
        answer = self.members.insist("/v3/kv/range", {"key": self.key(rest), **more}, self.seconds)
        return next(((from_base64(pair.get("value", "")), int(pair["create_revision"])) for pair in answer.get("kvs", [])), None)

    def agreed(self, rest, value):
        """The value that all who ask for this key agree on: the first one's. And the revision that made it."""
        key = self.key(rest)
        body = {
            "compare": [{"key": key, "target": "CREATE", "create_revision": "0"}],
            "success": [{"request_put": {"key": key, "value": in_base64(value)}}],
        }
        found = self.found(rest)
        while not found:
            self.members.insist("/v3/kv/txn", body, self.seconds)
            found = self.found(rest)
        return found

    def has(self, revision):
        """Raises Lost if the log isn't there from this revision on."""
        self.found("rules", revision=str(revision))

    def come(self, key, passed, drawn, seconds):
        """A client is there by a lease of so many seconds, which is returned. It is gone once nobody keeps the lease alive."""
        lease = self.members.insist("/v3/lease/grant", {"TTL": str(seconds)}, self.seconds)["ID"]
        self.put(f"client/{key}", f"{passed} {drawn}", lease=lease)
        return lease

    def keep_alive(self, lease):
        """The lease lasts for its seconds from now."""
        self.members.insist("/v3/lease/keepalive", {"ID": lease}, 2 * ATTEMPT_SECONDS)

    def go(self, lease):
        """The lease is over now."""
        with contextlib.suppress(NoLease):
            self.members.insist("/v3/lease/revoke", {"ID": lease}, self.seconds)

    def follow(self, revision):
        """What is behind this revision, in order and without end, in lists of `Batch`, `Coming` and `Going`."""
        while True:
            with contextlib.suppress(*FAILURES):
                for found in self.watch(revision + 1):
                    yield found
                    revision = found[-1].revision
            time.sleep(PAUSE_SECONDS)

    def watch(self, revision):
        """What is there from this revision on, as long as one member writes."""
        end = in_base64(self.name + "0")
        body = {"create_request": {"key": self.key(""), "range_end": end, "start_revision": str(revision)}}
        answer = self.members.post("/v3/watch", body, SILENT_SECONDS)
        try:
            while line := answer.readline():
                result = json.loads(line).get("result")
                if result is None:
                    raise OSError(f"/v3/watch: {line[:200]!r}")
                if result.get("canceled"):
                    raise Lost(f"etcd: the log from revision {revision} on {COMPACTED}")
                found = [entry for event in result.get("events", []) if (entry := self.entry_of(event))]
                if found:
                    yield found
        finally:
            self.members.turn()

    def entry_of(self, event):
        """What an event adds to the log, or None."""
        pair = event["kv"]
        key, revision, is_put = from_base64(pair["key"])[len(self.name) + 1 :], int(pair["mod_revision"]), event.get("type") != "DELETE"
        if key == "log" and is_put:
            return Batch(revision, from_base64(pair.get("value", "")))
        if key.startswith("client/"):
            key = key[len("client/") :]
            passed, _, drawn = from_base64(pair.get("value", "")).partition(" ")
            return Coming(revision, key, passed, drawn) if is_put else Going(revision, key)
        return None
