"""Tests of a log that takes no more, has lost its beginning, or has what no node put there. Standard library only."""
import contextlib
import json
import os
import random
import shutil
import signal
import subprocess
import sys
import time

from bench import SHORT_LEASE, SLACK, await_taken, eat, ends_in_words, own_etcd, terminate
from cluster import Failed, Line, await_that, contents, same
from etcd import Full, Log

PATIENCE = 4
# Other versions of Python than the test's own.
PYTHONS = ("python3.9", "python3.10", "python3.11", "python3.12", "python3.13", "python3.14")
# A node looks once in so many seconds for requests that the log didn't take.
LOOK = 1.5


def log_of(bench):
    """The test's log."""
    return Log([bench.member.url(0)], bench.log, 10)


def within(began, seconds, what):
    """It took no longer."""
    if time.monotonic() - began > seconds:
        raise Failed(f"{what} took {time.monotonic() - began:.1f} s, and not {seconds} s")


def fill(log):
    """The room of etcd is full."""
    for size in (200000, 20000, 2000, 200):
        try:
            while True:
                log.put("filling", "x" * size)
        except Full:
            pass


def make_room(member, revision):
    """The operator compacts etcd, gives its free pages back, and ends the alarm."""
    for path, body in (("/v3/kv/compaction", {"revision": str(revision), "physical": True}), ("/v3/maintenance/defragment", {}),
                       ("/v3/maintenance/alarm", {"action": "DEACTIVATE", "memberID": member.status()["header"]["member_id"], "alarm": "NOSPACE"})):
        if member.post(path, body) is None:
            raise Failed(f"etcd refuses {path}")


def kept_state(node):
    """The state in a node's checkpoint."""
    return json.loads(contents(node.checkpoint).split(b"\n", 1)[1])["state"]


def a_full_log_is_told(bench):
    """If etcd has no room, whoever asks is answered at once, people read it once, clients die, and all goes on once there is room."""
    with own_etcd(bench, 1, "--quota-backend-bytes", str(2**21)) as own:
        node, other = own.node("--patience", str(PATIENCE)), own.node(lease=SHORT_LEASE)
        line, silent = own.line(node), own.line(other)
        task = line.join()
        eat(silent, silent.join())
        fill(log_of(own))
        for _ in range(3):
            began = time.monotonic()
            same("the answer", line.ask(f"{line.passed} 2 hungry {task}"), "2 ! fault log")
            within(began, PATIENCE / 2, "the answer")
        same("a new client", own.line(node).said, "! fault log")
        same("what people read", node.errors().count("the log takes no requests"), 1)
        await_that(lambda: b" finish " in contents(node.journal), "the meal of a silent client ends", SHORT_LEASE + SLACK)
        make_room(own.member, int(own.member.status()["header"]["revision"]))
        line.number = 1
        same("the same request", line.call(f"hungry {task}").split(" ", 1)[1], f"{line.passed} hungry {task} -> done")
        # (the answer comes by the thread that reads the log, and may be there before the line for people is)
        await_that(lambda: "the log takes requests again" in node.errors(), "people read that the log takes requests", SLACK)
        entries = own.agree()
        same("what people read", node.errors().count("the log takes requests again"), 1)
        return f"{entries} entries"


def a_log_out_of_reach_is_told(bench):
    """If no member answers, whoever asks is answered in time, and the same request is carried out once later."""
    with own_etcd(bench) as own:
        node = own.node("--patience", str(PATIENCE))
        line, other = own.line(node), own.line(node)
        line.join()
        own.member.process.send_signal(signal.SIGSTOP)
        began = time.monotonic()
        line.write(f"{line.passed} 2 join")
        time.sleep(0.5)
        other.write(f"{other.passed} 1 join")
        same("the answers", (line.hear(), other.hear()), ("2 ! fault log", "1 ! fault log"))
        within(began, PATIENCE + LOOK + 1, "the answers")
        with contextlib.ExitStack() as kept:
            opening = [kept.enter_context(Line(node, is_asked=False)) for _ in range(20)]
            began = time.monotonic()
            for late in opening:
                late.write(f"open {late.secret}")
            same("the answers of those that come", {late.hear() for late in opening}, {"! fault log"})
            within(began, PATIENCE + LOOK + 1, "the answers of those that come")
        own.member.process.send_signal(signal.SIGCONT)
        same("the same request", await_taken(line, f"{line.passed} 2 join"), f"{line.passed} join")
        same("the other's", await_taken(other, f"{other.passed} 1 join"), f"{other.passed} join")
        same("how many tasks joined", contents(node.journal).count(b"joined"), 3)
        entries = own.agree()
        node.kill()
        own.member.kill()
        said = own.node("--patience", "1", is_started=False).refuses()
        same("what a node says that finds no etcd", "no member answered" in said and "Traceback" not in said, True)
        return f"{entries} entries"


def a_member_that_dies_is_replaced(bench):
    """A node whose own member of etcd ends, by itself or killed, goes on by the other members."""
    with own_etcd(bench, 3) as own:
        node = own.node()
        line = own.line(node)
        for number, sent in enumerate((signal.SIGTERM, signal.SIGKILL)):
            same("a task joins", line.ask(f"{line.passed} {2 * number} join").split(" ", 2)[2].split(" -> ")[0], f"{line.passed} join")
            own.member.process.send_signal(sent)
            own.member.process.wait()
            same("another joins", await_taken(line, f"{line.passed} {2 * number + 1} join"), f"{line.passed} join")
            own.member.start(is_new=False)
            await_that(own.member.is_healthy, "the member is back")
        same("what it said", "Traceback" in node.errors(), False)
        return f"{own.agree()} entries"


def a_compacted_log_starts_who_is_behind(bench):
    """What the oldest checkpoint has may be compacted: each node starts. Past that a node says so, and starts by another's files."""
    with own_etcd(bench) as own:
        behind, ahead = own.node(), own.node()
        line = own.line(ahead)

        def joins():
            line.join()
            return os.path.exists(behind.checkpoint) and kept_state(behind)["place"] > 1

        await_that(joins, "the node that will be behind has a checkpoint")
        behind.kill()
        for is_past in (False, True):
            before = kept_state(ahead)["revision"]
            await_that(lambda: line.join() and kept_state(ahead)["revision"] > before, "the node that is ahead has a later checkpoint")
            make_room(own.member, kept_state(ahead if is_past else behind)["revision"])
            if not is_past:
                same("it begins by", behind.start().rsplit("by ", 1)[1], "--resume")
                own.agree()
                behind.kill()
        journal = contents(behind.journal)
        same("what it says", "has been compacted" in behind.refuses(), True)
        same("its journal", contents(behind.journal), journal)
        os.unlink(behind.checkpoint)
        same("what it says without a checkpoint", "has been compacted" in behind.refuses(), True)
        same("its journal", contents(behind.journal), journal)
        for name in ("checkpoint", "journal"):
            shutil.copyfile(getattr(ahead, name), getattr(behind, name))
        same("by another's files it begins by", behind.start().rsplit("by ", 1)[1], "--resume")
        line.join()
        return f"{own.agree()} entries"


def a_compaction_past_a_running_node_is_told(bench):
    """A node that stood still while the log was compacted past it ends in words."""
    with own_etcd(bench) as own:
        still, other = own.node(), own.node()
        line = own.line(other)
        still.process.send_signal(signal.SIGSTOP)
        own.member.kill()
        own.member.start(is_new=False)
        await_that(own.member.is_healthy, "the member is back")
        for number in (1, 2, 3):
            same("a task joins", await_taken(line, f"{line.passed} {number} join"), f"{line.passed} join")
        make_room(own.member, int(own.member.status()["header"]["revision"]))
        still.process.send_signal(signal.SIGCONT)
        ends_in_words(still, "has been compacted")
        return f"{own.agree(other)} entries"


def a_batch_may_come_twice(bench):
    """A batch that is in the log twice is carried out once, and what no node put there is left out."""
    first, second = bench.node(), bench.node()
    line, log = bench.line(first), log_of(bench)
    task = line.join()
    key = key_of(first)
    batch = f"{key} {line.passed} 2 join\n{key} {line.passed} 3 hungry {task}"
    for text in (batch, batch, "", "\n\n", "nothing", "\0\ufffd", f"{key} 0 4", f"{key} {line.passed} 1 join", batch):
        log.append(text)
    log.put("client/stranger", "")
    log.put("client/another", "77 x")
    log.put("other", "x")
    same("its next call", line.ask(f"{line.passed} 4 begin {task}").split(" -> ")[1], "done")
    same("how many joined", contents(first.journal).count(b"joined"), 2)
    second.kill()
    second.start()
    same("the entries", bench.agree(), 4)


def no_entry_ends_a_node(bench):
    """Whatever words the log has, the nodes live and agree."""
    first, second, drawn = bench.node("--tasks", "4"), bench.node("--tasks", "4"), random.Random(3)
    line, other, log = bench.line(first), bench.line(second), log_of(bench)
    tasks = [line.join(), line.join(), other.join()]
    eat(line, tasks[0])
    keys = [found[0] for found in kept_clients(first)[:2]]
    words = ["join", "leave", "conflict", "separate", "hungry", "begin", "finish", "withdraw", "await", "cancel", "next", "state", "#", "? next", ""]
    names = [*tasks, *tasks, "0", "1.1.1", "00.0", "18446744073709551616.0", "99999999999999999999.1", "-1", "5", "18446744073709551615", "x"]
    number = 10
    for _ in range(60):
        batch = []
        for _ in range(30):
            number += drawn.randrange(3)
            call = " ".join([drawn.choice(words), *drawn.choices(names, k=drawn.choice((0, 1, 1, 1, 2, 2, 3)))])
            batch.append(f"{drawn.choice([*keys, *keys, 'x', ''])} {drawn.choice([0, 0, 1, 1, 2, 2**32, 2**64])} {number} {call}")
        log.append("\n".join(batch))
    entries = bench.agree()
    same("how many entries there are", entries > 20, True)
    same("a client", " -> " in line.ask(f"{line.passed} {number + 1} join"), True)
    second.kill()
    os.unlink(second.checkpoint)
    second.start()
    bench.agree()
    return f"{entries} entries"


def kept_clients(node):
    """The clients in a node's checkpoint, which has all of them in a moment."""
    key_of(node)
    await_that(lambda: key_of(node) and len(kept_state(node)["clients"]) > 1, "a checkpoint with two clients")
    return kept_state(node)["clients"]


def key_of(node):
    """The key of the first client in a node's checkpoint."""
    def is_kept():
        Line(node).close()
        return os.path.exists(node.checkpoint)

    await_that(is_kept, "a checkpoint")
    return kept_state(node)["clients"][0][0]


def a_log_that_was_reset_is_told(bench):
    """A node whose etcd lost all that it had says so, and its journal stays."""
    with own_etcd(bench) as own:
        node = own.node()
        key_of(node)
        own.line(node).join()
        node.kill()
        journal = contents(node.journal)
        own.member.kill()
        shutil.rmtree(os.path.join(own.member.path, "etcd", "member"))
        own.member.start()
        await_that(own.member.is_healthy, "the member is back")
        same("what it says", "is of another log" in node.refuses(), True)
        same("its journal", contents(node.journal), journal)


def a_log_from_a_backup_is_told(bench):
    """A node whose etcd has an older state than its checkpoint says so, and its journal stays."""
    with own_etcd(bench) as own:
        node = own.node()
        line = own.line(node)
        line.join()
        data, backup = os.path.join(own.member.path, "etcd"), os.path.join(bench.folder, "backup")
        own.member.kill()
        shutil.copytree(data, backup)
        own.member.start(is_new=False)
        await_taken(line, f"{line.passed} 2 join")
        key_of(node)
        before = kept_state(node)["revision"]
        await_that(lambda: key_of(node) and kept_state(node)["revision"] > before, "a later checkpoint")
        node.kill()
        own.member.kill()
        journal = contents(node.journal)
        shutil.rmtree(data)
        os.rename(backup, data)
        own.member.start(is_new=False)
        await_that(own.member.is_healthy, "the member is back")
        same("what it says", "is a future revision" in node.refuses(), True)
        same("its journal", contents(node.journal), journal)


def wrong_options_are_told(bench):
    """An option that a node can't take, and what it needs and isn't there, is answered in words, and no journal is made."""
    for words, text in ((("--tasks", "0"), "no number from 1"), (("--lease", "1"), "two seconds"), (("--log", "a/b"), "other characters"),
                        (("--clients", "\u0661x"), "no number from 1"), (("--etcd", "localhost"), "is not http://HOST:PORT"),
                        (("--patience", "-1"), "no number from 1")):
        node = bench.node(*words, is_started=False)
        node.run()
        same(f"the status with {words}", node.process.wait(20), 2)
        same(f"what it says with {words}", text in node.errors() and "Traceback" not in node.errors(), True)
        same("a journal", os.path.exists(node.journal), False)
    for words, text in ((("--program", "/nowhere"), "No such file"), (("--program", "/bin/cat"), "not with a header")):
        said = bench.node(*words, is_started=False).refuses()
        same(f"what it says with {words}: {said}", text in said and "Traceback" not in said, True)


def starts(python):
    """Whether this Python is here and starts."""
    return shutil.which(python) and subprocess.run([python, "--version"], capture_output=True, check=False).returncode == 0


def each_python(bench):
    """A node runs by the Python of this test and by each other version that is here, and ends without a word."""
    pythons = [sys.executable, *filter(starts, PYTHONS)]
    for python in pythons:
        node = bench.node(python=python)
        line = bench.line(node)
        task = line.join()
        line.call(f"hungry {task}")
        same("an await", line.call(f"await {task}").split(" -> ")[1], "done")
        same("an end", line.ask("end"), "ended")
        terminate(node)
        node.start()
    return f"{', '.join(map(os.path.basename, pythons))}, {bench.agree()} entries"


TESTS = (
    a_full_log_is_told,
    a_log_out_of_reach_is_told,
    a_member_that_dies_is_replaced,
    a_compacted_log_starts_who_is_behind,
    a_compaction_past_a_running_node_is_told,
    a_batch_may_come_twice,
    no_entry_ends_a_node,
    a_log_that_was_reset_is_told,
    a_log_from_a_backup_is_told,
    wrong_options_are_told,
    each_python,
)
