"""Tests of three hosts, each with a member of etcd, a node and clients: a link is cut, a member killed, a disk copied back.

Behind each of these the journals are equal and legal, and each client's answers are its entries in them, each once and in
order. Standard library only.
"""
import contextlib
import json
import os
import shutil

from bench import Bench, await_taken, members_of
from client import Client
from cluster import Line, await_that, contents, same
from diners import Diners
from hosts import hosts_of

# So many meals are eaten before and behind each act, and so many by one client at most.
HOSTS, CLIENTS, MEALS, MOST = 3, 6, 60, 100_000
# How long so many meals take at most.
SECONDS = 60


class Noting(Client):
    """A client that keeps what it was answered. It soon asks the next node where one has no answer."""

    answer_seconds = 3

    def __init__(self, nodes):
        super().__init__(nodes)
        self.answers = []

    def answer_to(self, number, call, seconds):
        answer = super().answer_to(number, call, seconds)
        self.answers.append((number, call, answer))
        return answer


class Stand:
    """Three hosts with their members and nodes, and clients that eat."""

    def __init__(self, bench, hosts):
        self.bench, self.hosts, self.members = bench, hosts, bench.members
        self.nodes = [bench.node(beside=at) for at in range(HOSTS)]
        self.diners = Diners(self.nodes, CLIENTS, Noting)

    def leader(self):
        """The number of the host whose member leads."""
        return await_that(lambda: [at for at, member in enumerate(self.members) if member.leads()], "a member leads")[0]

    def eat(self, *acts):
        """The acts are done one after the other, while all clients eat."""
        diners = self.diners
        diners.start(MOST)
        try:
            for act in (*acts, None):
                diners.await_meals(diners.table.meals + MEALS, SECONDS)
                if act:
                    act()
        finally:
            diners.ends.set()
        for thread in diners.threads:
            thread.join(SECONDS)
            same("a client eats still", thread.is_alive(), False)
        diners.come_home()

    def holds(self):
        """The journals are equal and legal, and say what the clients were answered, and nothing else of them."""
        entries = self.bench.agree()
        lines = contents(self.nodes[0].journal).decode().splitlines()
        for client in self.diners.clients:
            answers = [answer.split(" ", 1) for _, _, answer in client.answers]
            places = [int(place) for place, _ in answers]
            same("whether each answer's place is behind the one before", places == sorted(set(places)), True)
            for place, (_, entry) in zip(places, answers):
                same("the entry at an answer's place", lines[place : place + 1], [entry])
            same("how many entries a client has", sum(line.startswith(f"{client.caller} ") for line in lines), len(places))
        self.ask_again()
        self.diners.table.is_kept()
        return entries

    def ask_again(self):
        """Each client's last request comes again at each node, and has the same answer. (The client waits meanwhile.)"""
        for client in self.diners.clients:
            number, call, answer = client.answers[-1]
            with client.lock:
                for node in self.nodes:
                    line = Line(node, client.secret, client.caller)
                    same("what comes again", line.ask(f"{client.caller} {number}{call}"), number + answer)
                    line.close()


@contextlib.contextmanager
def stand_of(bench):
    """Three hosts, and clients round a table."""
    with hosts_of(HOSTS) as hosts, members_of(bench.folder, HOSTS, hosts=hosts) as members:
        with Bench(bench.program, members, bench.folder, bench.log) as own:
            stand = Stand(own, hosts)
            try:
                yield stand
            finally:
                for client in stand.diners.clients:
                    client.closed.set()
                    client.hang_up()


def a_link_is_cut_and_mended(bench):
    """While a host is cut off, whose member leads or follows, its node answers nothing, and the others go on."""
    with stand_of(bench) as stand:
        for step in (0, 1):
            at = (stand.leader() + step) % HOSTS
            line = stand.bench.line(stand.nodes[at])
            line.join()

            def cut(line=line, at=at):
                stand.hosts[at].cut()
                same("a request at the node that is cut off", line.ask(f"{line.passed} 2 join"), "2 ! fault log")

            stand.eat(cut, stand.hosts[at].mend)
            same("the same request", await_taken(line, f"{line.passed} 2 join"), f"{line.passed} join")
            entries = stand.holds()
            journal = contents(stand.nodes[at].journal).decode()
            same("how often it was carried out, with the one before", journal.count(f"\n{line.passed} join "), 2)
        return f"{stand.diners.table.meals} meals, {entries} entries"


def a_member_is_killed_and_comes_back(bench):
    """A member that leads or follows is killed, with the node beside it or without, which goes on then, and comes back."""
    with stand_of(bench) as stand:
        for step, has_node in ((0, False), (1, False), (0, True), (1, True)):
            at = (stand.leader() + step) % HOSTS
            member, node = stand.members[at], stand.nodes[at]
            line = stand.bench.line(node)

            def kill(member=member, node=node, line=line, has_node=has_node):
                member.kill()
                if has_node:
                    node.kill()
                else:
                    same("a request at the node", await_taken(line, f"{line.passed} 1 join"), f"{line.passed} join")

            def come_back(member=member, node=node, has_node=has_node):
                member.start(is_new=False)
                if has_node:
                    same("the node begins by", node.start().rsplit("by ", 1)[1], "--resume")

            stand.eat(kill, come_back)
            entries = stand.holds()
        return f"{stand.diners.table.meals} meals, {entries} entries"


def copied(node, name):
    """A copy of one of the node's files, while the node runs."""
    shutil.copyfile(getattr(node, name), getattr(node, name) + ".copy")


def copied_back(node, begins_by):
    """The node is off, and comes back with the copies."""
    node.kill()
    for name in ("journal", "checkpoint"):
        os.replace(getattr(node, name) + ".copy", getattr(node, name))
    same("the node begins by", node.start().rsplit("by ", 1)[1], begins_by)


def is_past(node):
    """Whether the node has a checkpoint of more than the copy of its journal has."""
    return json.loads(contents(node.checkpoint).split(b"\n", 1)[1])["size"] > os.path.getsize(node.journal + ".copy")


def a_disk_is_copied_back(bench):
    """A node whose files are copied back, the journal to a later state than the checkpoint or an earlier one, goes on."""
    with stand_of(bench) as stand:
        first, second, _ = stand.nodes
        await_that(lambda: all(os.path.exists(node.checkpoint) for node in stand.nodes), "the nodes have checkpoints")
        stand.eat(lambda: copied(first, "checkpoint"), lambda: copied(first, "journal"))
        stand.eat(lambda: copied_back(first, "--resume"))
        stand.holds()
        stand.eat(lambda: copied(second, "journal"), lambda: await_that(lambda: is_past(second), "a later checkpoint"))
        copied(second, "checkpoint")
        stand.eat(lambda: copied_back(second, "the whole log"))
        return f"{stand.diners.table.meals} meals, {stand.holds()} entries"


TESTS = (
    a_link_is_cut_and_mended,
    a_member_is_killed_and_comes_back,
    a_disk_is_copied_back,
)
