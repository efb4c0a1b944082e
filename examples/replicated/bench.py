"""What a test of the nodes works with: the program, a member of etcd, a log of its own, and a folder. Standard library only."""
import contextlib
import os
import signal
import subprocess

from cluster import Failed, Line, Member, Node, await_that, contents, free_addresses, same

# The lease of a test's clients: of a test that doesn't wait for its end, and of one that does.
LONG_LEASE, SHORT_LEASE = 60, 3
# How long etcd may take beyond a lease to end it.
SLACK = 5


# The ports at a host where its member listens, for clients and for the other members.
PORTS = (2379, 2380)


@contextlib.contextmanager
def members_of(folder, count, *words, hosts=()):
    """So many members of etcd, which have a leader. If there are hosts, each has one member."""
    addresses = [f"{host.address}:{port}" for host in hosts for port in PORTS] or free_addresses(2 * count)
    at_hosts = [host.words for host in hosts] or [()] * count
    members = [Member(os.path.join(folder, f"member{number}"), number, addresses, *words, host=at_hosts[number]) for number in range(count)]
    try:
        for member in members:
            os.mkdir(member.path)
            member.start()
        await_that(lambda: all(member.is_healthy() for member in members), "members of etcd with a leader")
        yield members
    finally:
        for member in members:
            member.kill()


@contextlib.contextmanager
def own_etcd(bench, count=1, *words):
    """A test's own members of etcd, and what else it works with there."""
    with members_of(bench.folder, count, *words) as members, Bench(bench.program, members, bench.folder, bench.log) as own:
        yield own


class Bench:
    """A test's own. What it starts ends with it."""

    def __init__(self, program, members, folder, log):
        self.program, self.members, self.folder, self.log = program, members, folder, log
        self.member = members[0]
        self.nodes, self.lines = [], []

    def __enter__(self):
        return self

    def __exit__(self, *_):
        for line in self.lines:
            line.close()
        for node in self.nodes:
            node.kill()

    def node(self, *words, lease=LONG_LEASE, is_started=True, beside=0, **more):
        """Another node of the test's log, beside this member of etcd and at its host."""
        folder = os.path.join(self.folder, f"node{len(self.nodes)}")
        os.mkdir(folder)
        members = self.members[beside:] + self.members[:beside]
        etcd = ",".join(member.url(member.number) for member in members)
        node = Node(self.program, folder, etcd, "--log", self.log, "--lease", str(lease), *words, host=members[0].host, **more)
        self.nodes.append(node)
        if is_started:
            node.start()
        return node

    def line(self, node, *words):
        """Another client's connection to a node."""
        line = Line(node, *words)
        self.lines.append(line)
        return line

    def agree(self, *nodes):
        """How many entries the journals of some nodes have. They have to be equal and legal."""
        nodes = nodes or self.nodes
        # A node answers a client that comes once it has all that was in the log then.
        for node in nodes:
            last = Line(node)
            same("a client that comes and goes", last.ask("end"), "ended")
            last.close()
        entries = max(node.entries() for node in nodes)
        await_that(lambda: {node.entries() for node in nodes} == {entries}, "journals of one length")
        same("how many journals there are", len({contents(node.journal) for node in nodes}), 1)
        said = subprocess.run([self.program, "audit", "-q", nodes[0].journal], stdout=subprocess.PIPE, text=True, timeout=60, check=False)
        same("the audit", said.stdout.split("\n")[0], f"legal {entries}")
        return entries


def program_of(node):
    """The process of a node's program."""
    with open(f"/proc/{node.process.pid}/task/{node.process.pid}/children", encoding="ascii") as file:
        return int(file.read().split()[0])


def two_in_conflict(line):
    """Two tasks of a client, in conflict."""
    tasks = line.join(), line.join()
    same("the conflict", line.call(f"conflict {tasks[0]} {tasks[1]}").split(" -> ")[1], "done")
    return tasks


def await_taken(line, request):
    """What a request is answered once the log takes it, without its number and place and reply."""
    return await_that(lambda: None if "fault log" in (found := line.ask(request)) else found, request).split(" ", 2)[2].split(" -> ")[0]


def eat(line, task):
    """A task eats. The place where its meal began."""
    line.call(f"hungry {task}")
    place, _, reply = line.call(f"begin {task}").partition(" ")
    if not reply.endswith("-> done"):
        raise Failed(f"{task} does not begin: {reply}")
    return int(place)


def ends_in_words(node, text, what="the node"):
    """A node ends by itself, and standard error says why."""
    await_that(lambda: node.process.poll() is not None, f"{what}: it ends")
    same(f"{what}: the status", node.process.poll(), 1)
    if text not in node.errors() or "Traceback" in node.errors():
        raise Failed(f"{what}: it said {node.errors()[-400:]!r}, and not {text!r}")


def terminate(node):
    """A node gets SIGTERM, and ends without a word."""
    node.process.send_signal(signal.SIGTERM)
    same("the status", node.process.wait(20), 0)
    same("what it said", node.errors(), "")
