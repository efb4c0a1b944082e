"""Where a node's clients come in: connections at a Unix socket, the requests that wait, and the leases. Standard library only.

One thread has all connections. Others put requests into the log, ask etcd for leases, and keep these alive.
"""
import asyncio
import base64
import collections
import concurrent.futures
import contextlib
import hashlib
import os
import queue
import re
import resource
import secrets
import sys
import threading
import time

from etcd import Full, Unreachable
from machine import CALL, NUMBER, NUMBERS, PASSES, Gone, Request

OPEN = re.compile(rf"open ([A-Za-z0-9_-]{{16,64}})(?: ({NUMBER}))?")
REQUEST = re.compile(rf"({NUMBER}) ({NUMBER}) ({CALL})")
LONGEST_LINE = 4096
PIECE = 65536
# How many threads of a kind wait for etcd at once.
AT_ONCE = 8
# How many bytes of requests go into the log at once.
LARGEST_BATCH = 64 * 1024
# How long the last line of a connection may lie unread.
UNREAD_SECONDS = 10
SAID_SECONDS = 10
# So many files that may be open are the node's own, and the others are connections.
OWN_FILES = 48
# How often it is looked for requests that the log didn't take.
LOOK_SECONDS = 1

# A request that waits: at which connection, what becomes ready at its place in the log, and when it was asked.
Waiter = collections.namedtuple("Waiter", "line placed moment")


def key_of(secret):
    """What the log knows a client by. It doesn't say the secret."""
    return base64.urlsafe_b64encode(hashlib.sha256(secret.encode()).digest()[:16]).decode().rstrip("=")


def say(text):
    """Tells people."""
    print(f"node.py: {text}", file=sys.stderr, flush=True)


class Line:
    """A connection: whose it is, by which lease, and the requests that wait there."""

    def __init__(self, writer):
        self.writer, self.key, self.lease = writer, None, None
        self.was_heard, self.is_busy = True, False
        self.is_ending, self.is_over = False, False
        self.waits = set()

    def tell(self, text):
        """A line for the client."""
        if not self.writer.is_closing():
            self.writer.write(text.encode() + b"\n")

    def end(self, text):
        """The last line for the client. Who doesn't read it loses it."""
        if not self.is_over:
            self.tell(text)
        self.is_over = True
        self.writer.close()
        asyncio.get_running_loop().call_later(UNREAD_SECONDS, self.writer.transport.abort)


async def lines_of(reader):
    """The lines of a connection, in pieces of bytes. Of a line that is too long only the beginning is kept. A torn one is the last."""
    rest = b""
    while got := await reader.read(PIECE):
        *ended, last = got.split(b"\n")
        for text in ended:
            yield rest + text + b"\n"
            rest = b""
        rest = (rest + last)[: LONGEST_LINE + 1]
    if rest:
        yield rest


class Appender:
    """Puts requests into the log: all that wait go together."""

    def __init__(self, log, fail):
        self.log, self.fail, self.waiting = log, fail, queue.SimpleQueue()
        self.is_taken = True

    def put(self, text, request):
        """A request is to go into the log."""
        self.waiting.put((text, request))

    def batch(self):
        """The next requests, at least one."""
        found = [self.waiting.get()]
        size = len(found[0][0])
        with contextlib.suppress(queue.Empty):
            while size < LARGEST_BATCH:
                found.append(self.waiting.get_nowait())
                size += len(found[-1][0])
        return found

    def run(self):
        """Appends without end. What the log doesn't take is answered, and people read it once."""
        while True:
            found = self.batch()
            try:
                self.log.append("\n".join(text for text, _ in found))
                if not self.is_taken:
                    say("the log takes requests again")
                self.is_taken = True
            except (Full, Unreachable) as why:
                if self.is_taken:
                    say(f"the log takes no requests: {why}")
                self.is_taken = False
                self.fail([request for _, request in found])


class Door:
    """The socket, its connections, and the requests that wait."""

    def __init__(self, path, log_of, lease_seconds, patience):
        self.path, self.log_of = path, log_of
        self.lease_seconds, self.patience = lease_seconds, patience
        self.loop, self.own = asyncio.new_event_loop(), threading.local()
        # Threads that wait for etcd: for those that come and go, and for the leases of those that are there.
        self.threads, self.renewers = (concurrent.futures.ThreadPoolExecutor(AT_ONCE) for _ in range(2))
        self.waiters, self.lines, self.said = {}, {}, {}
        self.connections, self.most = 0, resource.getrlimit(resource.RLIMIT_NOFILE)[0] - OWN_FILES
        self.appender = Appender(log_of(), lambda requests: self.loop.call_soon_threadsafe(self.fail, requests))
        self.is_open = threading.Event()

    # ---- threads

    def start(self, machine):
        """The socket listens."""
        for work in (lambda: self.listen(machine), self.appender.run, self.keep):
            threading.Thread(target=self.guarded, args=(work,), daemon=True).start()
        self.is_open.wait()

    @staticmethod
    def guarded(work):
        """If one of its threads ends, the node ends."""
        try:
            work()
        except BaseException as why:  # pylint: disable=broad-exception-caught
            say(f"it ends by {why!r}")
            os._exit(1)

    def listen(self, machine):
        """Runs all connections."""
        asyncio.set_event_loop(self.loop)
        self.loop.run_until_complete(asyncio.start_unix_server(self.serve, self.path, backlog=1024))
        self.loop.set_exception_handler(self.fell)
        self.loop.create_task(self.look(machine))
        self.is_open.set()
        self.loop.run_forever()

    def fell(self, _, found):
        """Says what the connections ran into, such as that too many files are open. The same is said once in a while."""
        text = f"{found['message']}: {found.get('exception')!r}"
        if time.monotonic() > self.said.get(text, 0):
            say(text)
        self.said = {text: time.monotonic() + SAID_SECONDS}

    def keep(self):
        """Keeps the leases of all who said something alive."""
        while True:
            time.sleep(self.lease_seconds / 4)
            lines = [line for line in list(self.lines.values()) if line.was_heard or line.is_busy]
            list(self.renewers.map(self.renew, lines))

    def renew(self, line):
        """A client's lease lasts from now. If no member answers, it is tried once more."""
        line.was_heard = False
        try:
            self.log().keep_alive(line.lease)
        except Unreachable:
            line.was_heard = True

    def log(self):
        """The log, for this thread of those that wait for etcd."""
        if not hasattr(self.own, "log"):
            self.own.log = self.log_of()
        return self.own.log

    async def in_thread(self, work):
        """What some work at the log returns. It waits in a thread of its own, and no longer than anybody is to wait."""
        try:
            return await asyncio.wait_for(self.loop.run_in_executor(self.threads, lambda: work(self.log())), self.patience)
        except asyncio.TimeoutError:
            raise Unreachable(f"etcd: no member answered within {self.patience} s") from None

    # ---- requests that wait

    def wait(self, line, request):
        """A request waits from now on. What comes back is ready once the request has its place in the log."""
        placed = self.loop.create_future()
        self.forget(request)
        self.waiters[request] = Waiter(line, placed, time.monotonic())
        line.waits.add(request)
        return placed

    def forget(self, request, text=None):
        """Nobody waits for this request any more. Its place becomes ready with this text."""
        waiter = self.waiters.pop(request, None)
        if waiter:
            waiter.line.waits.discard(request)
            if not waiter.placed.done():
                waiter.placed.set_result(text)
        return waiter

    def deliver(self, told):
        """What the log brought, to whoever waits for it here."""
        for one in told:
            if isinstance(one, Gone):
                self.bury(one.key)
            elif one.text is not None:
                self.answer(one.request, one.text)
            elif one.request in self.waiters and not self.waiters[one.request].placed.done():
                self.waiters[one.request].placed.set_result(None)

    def answer(self, request, text):
        """A request is answered, if somebody waits for it here."""
        waiter = self.forget(request, text)
        if waiter and request.caller is not None:
            waiter.line.tell(f"{request.number} {text}")

    def fail(self, requests):
        """The log didn't take these. Whether they are in it nobody knows: they may be asked again, by the same numbers."""
        for request in requests:
            self.answer(request, "! fault log")

    async def look(self, machine):
        """Answers those that have waited too long for their place in the log, and ends the node if its program has come to a standstill."""
        while True:
            await asyncio.sleep(LOOK_SECONDS)
            end = time.monotonic() - self.patience
            self.fail([request for request, waiter in self.waiters.items() if waiter.moment < end and not waiter.placed.done()])
            since = machine.busy_since
            if since and since < end:
                say(f"the program gave no answer for {self.patience} s")
                machine.process.kill()
                os._exit(1)

    def bury(self, key):
        """A client is dead: what it waits for is answered, and its connection ends."""
        line = self.lines.pop(key, None)
        if line:
            for request in list(line.waits):
                self.answer(request, "! fault gone")
            line.end("ended" if line.is_ending else "! fault gone")

    # ---- connections

    async def serve(self, reader, writer):
        """A connection, from its beginning to its end."""
        line = Line(writer)
        self.connections += 1
        self.loop.call_later(self.lease_seconds, self.end_unopened, line)
        try:
            if self.connections > self.most:
                line.end("! fault full")
                return
            async for text in lines_of(reader):
                line.was_heard = line.is_busy = True
                await self.take(line, text)
                line.is_busy = False
                if line.is_over:
                    break
                await writer.drain()
        except OSError:
            pass
        finally:
            for request in list(line.waits):
                self.forget(request)
            if self.lines.get(line.key) is line:
                del self.lines[line.key]
            self.connections -= 1
            writer.close()

    def end_unopened(self, line):
        """A connection that has not said whose it is in time ends."""
        if line.is_busy:
            self.loop.call_later(self.lease_seconds, self.end_unopened, line)
        elif not line.key:
            line.end("! fault secret")

    async def take(self, line, text):
        """A line of a client."""
        words = text.decode(errors="replace").rstrip("\n")
        if not text.endswith(b"\n") or len(words) > LONGEST_LINE:
            line.tell("! fault words" if text.endswith(b"\n") else "! fault torn")
        elif match := OPEN.fullmatch(words):
            await self.open(line, match[1], match[2] or "")
        elif words == "end":
            await self.end(line)
        elif (match := REQUEST.fullmatch(words)) and int(match[1]) < PASSES and int(match[2]) < NUMBERS:
            await self.ask(line, Request(line.key, int(match[1]), int(match[2])), match[3])
        elif words.strip(" \t\r"):
            line.tell("! fault words")

    async def open(self, line, secret, passed):
        """A client says who it is. It reads its pass, the last number that it used, and how many seconds its lease has."""
        if line.key:
            line.tell("! fault words")
            return
        key = key_of(secret)
        request = Request(key, None, secrets.token_hex(4))
        placed = self.wait(line, request)
        try:
            lease = await self.in_thread(lambda log: log.come(key, passed, request.number, self.lease_seconds))
        except (Full, Unreachable):
            self.forget(request)
            line.tell("! fault log")
            return
        text = await placed or "! fault log"
        if text.startswith("pass "):
            if key in self.lines:
                self.lines[key].end("! fault elsewhere")
            line.key, line.lease, self.lines[key] = key, lease, line
            text += f" {self.lease_seconds}"
        line.tell(text)
        if text in ("! fault full", "! fault gone"):
            with contextlib.suppress(Full, Unreachable):
                await self.in_thread(lambda log: log.go(lease))

    async def end(self, line):
        """A client goes, though its lease lasts. `ended` is written once its tasks have left."""
        if not line.key:
            line.end("! fault secret")
            return
        line.is_ending = True
        try:
            await self.in_thread(lambda log: log.go(line.lease))
        except (Full, Unreachable):
            line.tell("! fault log")

    async def ask(self, line, request, call):
        """A request goes into the log. The next line is taken once it has its place there."""
        if not line.key:
            line.tell(f"{request.number} ! fault secret")
            return
        placed = self.wait(line, request)
        self.appender.put(f"{request.key} {request.caller} {request.number} {call}", request)
        await placed
