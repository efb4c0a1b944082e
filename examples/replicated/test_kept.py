"""Tests of what a node keeps on its disk, and of how it comes back from it. Standard library only."""
import contextlib
import hashlib
import json
import os
import resource
import shutil
import signal
import threading
import time

from bench import eat, ends_in_words, program_of, terminate, two_in_conflict
from client import Client
from cluster import Failed, await_that, contents, same

ZEROS = b"\0" * 5000


def write(path, data):
    """The file has these bytes, or isn't there."""
    if data is None:
        if os.path.exists(path):
            os.unlink(path)
        return
    with open(path, "wb") as file:
        file.write(data)


def played(bench, node):
    """A node that was killed in the middle, with entries behind its checkpoint, and a meal that is awaited there. Its client."""
    line = bench.line(node)
    a, b = two_in_conflict(line)
    eat(line, a)
    line.call(f"hungry {b}")
    line.number += 1
    line.write(f"{line.passed} {line.number} await {b}")
    time.sleep(1.1)
    line.call(f"hungry {a}")
    await_that(lambda: os.path.exists(node.checkpoint), "a checkpoint")
    for _ in range(5):
        line.call(f"hungry {a}")
    node.kill()
    line.meal = (a, b)
    return line


def states(journal, checkpoint):
    """What a crash can leave: its name, the journal, the checkpoint, and whether the node begins by its checkpoint."""
    kept = json.loads(checkpoint.split(b"\n", 1)[1])
    size = kept["size"]
    older = json.dumps({**kept["state"], "size": size}).encode()
    last = journal[: journal.rstrip(b"\n").rfind(b"\n") + 1]
    yield from (
        ("as it was left", journal, checkpoint, True),
        ("the journal ends with the checkpoint", journal[:size], checkpoint, True),
        ("a torn last line", journal + b"7 hung", checkpoint, True),
        ("a torn entry behind the checkpoint", journal[: size + 5], checkpoint, True),
        ("a last line without its line feed", journal[:-1], checkpoint, True),
        ("zeros behind the journal", journal + ZEROS, checkpoint, True),
        ("zeros in the place of the last line", last + ZEROS, checkpoint, True),
        ("zeros within the last line", journal[:-6] + ZEROS, checkpoint, True),
        ("zeros and a line behind them", journal[: size + 9] + ZEROS + journal[size + 9 :], checkpoint, True),
        ("zeros behind the checkpoint", journal[:size] + ZEROS, checkpoint, True),
        ("a journal behind its checkpoint", journal[: size - 30], checkpoint, False),
        ("a journal of one entry", b"".join(journal.splitlines(True)[:2]), checkpoint, False),
        ("a torn header", journal[:7], checkpoint, False),
        ("a torn header with zeros", journal[:7] + ZEROS, checkpoint, False),
        ("zeros in the place of the journal", b"\0" * len(journal), checkpoint, False),
        ("zeros within the journal", journal[: size // 2] + ZEROS + journal[size // 2 :], checkpoint, False),
        ("an empty journal", b"", checkpoint, False),
        ("no journal", None, checkpoint, False),
        ("an empty checkpoint", journal, b"", False),
        ("half a checkpoint", journal, checkpoint[: len(checkpoint) // 2], False),
        ("a checkpoint without its end", journal, checkpoint[:-3], False),
        ("zeros in the place of the checkpoint", journal, b"\0" * len(checkpoint), False),
        ("zeros at the checkpoint's end", journal, checkpoint[:80] + b"\0" * (len(checkpoint) - 80), False),
        ("a checkpoint with another byte", journal, checkpoint.replace(b'"place": ', b'"place": 1'), False),
        ("a checkpoint without a digest", journal, older, False),
        ("no checkpoint", journal, None, False),
        ("no checkpoint and a torn line", journal[:-4], None, False),
        ("an empty checkpoint and zeros behind the journal", journal + ZEROS, b"", False),
        ("neither", None, None, False),
    )


def starts_from_each_state(bench):
    """From each state that a crash can leave a node writes the same journal, knows what was awaited, and goes on."""
    node, other = bench.node(), bench.node()
    line = played(bench, node)
    journal, checkpoint = contents(node.journal), contents(node.checkpoint)
    if not 0 < json.loads(checkpoint.split(b"\n", 1)[1])["size"] < len(journal):
        raise Failed("the checkpoint is not within the journal")
    count = 0
    for name, left, kept, is_resumed in states(journal, checkpoint):
        write(node.journal, left)
        write(node.checkpoint, kept)
        write(node.checkpoint + ".new", (kept or checkpoint)[:50])
        said = node.start()
        same(f"{name}: it begins by", said.rsplit("by ", 1)[1], "--resume" if is_resumed else "the whole log")
        await_that(lambda: contents(node.journal) == journal, f"{name}: the journal is as it was")
        back = bench.line(node, line.secret, line.passed)
        same(f"{name}: the client", back.said, f"pass {line.passed} {line.number} 60")
        back.number = line.number
        same(f"{name}: what comes again", back.ask(f"{line.passed} {line.number} hungry {line.meal[0]}").split(" -> ")[1], "refused eating")
        back.close()
        node.kill()
        count += 1
    write(node.journal, journal)
    write(node.checkpoint, checkpoint)
    node.start()
    back = bench.line(node, line.secret, line.passed)
    back.write(f"{line.passed} {line.number + 1} finish {line.meal[0]}")
    same("the finish", back.hear().split(" -> ")[1], "done")
    await_that(lambda: contents(other.journal).endswith(f"{line.passed} begin {line.meal[1]} -> done\n".encode()), "who waited begins")
    return f"{count} states, {bench.agree()} entries"


def an_older_checkpoint_is_as_good(bench):
    """A node comes back by a checkpoint with most of the journal behind it, and by one that has an await which is over by then."""
    node = bench.node()
    line = played(bench, node)
    checkpoint = contents(node.checkpoint)
    node.start()
    back = bench.line(node, line.secret, line.passed)
    back.number = line.number
    same("the finish", back.call(f"finish {line.meal[0]}").split(" -> ")[1], "done")
    for _ in range(30):
        back.join()
    back.close()
    node.kill()
    journal = contents(node.journal)
    write(node.checkpoint, checkpoint)
    same("it begins by", node.start().rsplit("by ", 1)[1], "--resume")
    again = bench.line(node, line.secret, line.passed)
    again.number = back.number
    same("its next call", again.call(f"finish {line.meal[1]}").split(" -> ")[1], "done")
    same("the journal begins as it was", contents(node.journal)[: len(journal)], journal)
    return f"{bench.agree()} entries"


def a_changed_journal_is_refused(bench):
    """A node whose journal says something else than the log says so, and changes nothing in it."""
    node = bench.node()
    played(bench, node)
    journal, checkpoint = contents(node.journal), contents(node.checkpoint)
    lines = journal.splitlines(True)
    lines[-1] = lines[-1].replace(b"eating", b"hungry")
    changes = (("the last reply", b"".join(lines), checkpoint), ("a line more", journal + b"0 join -> joined 9.9\n", None),
               ("another header", journal.replace(b"dine 2 64 256", b"dine 2 64 255"), None),
               ("a line within the checkpoint", journal.replace(b"joined 0.0", b"joined 1.0"), checkpoint))
    for name, changed, kept in changes:
        write(node.journal, changed)
        write(node.checkpoint, kept)
        node.run()
        if name == "a line more":
            line = bench.line(await_listening(node))
            line.write(f"{line.passed} 1 join")
        ends_in_words(node, "It is another log's, or was changed", name)
        same(f"{name}: the journal", contents(node.journal), changed)
    write(node.journal, journal)
    node.start()
    bench.agree(node)


def await_listening(node):
    """The node, once it takes connections."""
    await_that(node.is_listening, "the node listens")
    return node


def what_is_no_journal_is_left_alone(bench):
    """A file that is no journal is refused and isn't touched, whatever it ends with."""
    node = bench.node(is_started=False)
    for data in (b"a secret without a line feed", b"line one\nline two", b"\x7fELF\0\0\0\1\n\0", ZEROS + b"text", b"dine", b"dine 2 64\n",
                 b"dine 2 4096 25", b"dine 1 64 256\n", b"dine 2 64 25\0x"):
        write(node.journal, data)
        if data == b"dine":
            # This is what a crash can leave of a header.
            node.start()
            node.kill()
            continue
        said = node.refuses()
        same(f"what it says of {data!r}", f"node.py: {node.journal} is no journal; it is left as it is\n", said)
        same("the file", contents(node.journal), data)


def two_nodes_have_nothing_in_common(bench):
    """A second node on one journal, or at one socket, is refused in words, and the first goes on."""
    node = bench.node()
    line = bench.line(node)
    line.join()
    thief, other = bench.node(is_started=False), bench.node(is_started=False)
    thief.journal = node.journal
    same("one journal", thief.refuses(), f"node.py: another node has the journal {node.journal}\n")
    other.socket = node.socket
    same("one socket", other.refuses(), f"node.py: another node has the socket {node.socket}\n")
    line.join()
    same("a later client", bench.line(node).said.split(" ")[:2], ["pass", "1"])
    node.kill()
    thief.start()
    return f"{bench.agree(thief)} entries"


def a_journal_is_of_one_log(bench):
    """A node with the journal of another log, or with other limits than its log's nodes, is refused in words."""
    node = bench.node()
    played(bench, node)
    journal = contents(node.journal)
    node.command[node.command.index("--log") + 1] = "another"
    same("another log", "is of another log" in node.refuses(), True)
    same("the journal", contents(node.journal), journal)
    node.command[node.command.index("--log") + 1] = bench.log
    for words, text in ((["--open"], "this node has open True"), (["--clients", "9"], "this node has clients 9"),
                        (["--tasks", "9"], "this node has tasks 9")):
        other = bench.node(*words, is_started=False)
        same(" ".join(words), text in other.refuses(), True)
        same("its journal", contents(other.journal), b"")
    node.start()
    bench.agree(node)


def killed_at_any_time(bench):
    """A node that is killed again and again while clients ask comes back each time, and has the other's journal."""
    node, other = bench.node(), bench.node()
    clients, ends = [Client([node.socket, other.socket]) for _ in range(4)], threading.Event()
    counts = [0] * 4

    def asks(at):
        task = clients[at].join()
        while not ends.is_set():
            with clients[at].meal(task):
                counts[at] += 1

    threads = [threading.Thread(target=asks, args=(at,), daemon=True) for at in range(4)]
    for thread in threads:
        thread.start()
    resumed = 0
    for at in range(8):
        time.sleep(0.3 if at % 3 else 1.6)
        node.kill()
        for client in clients:
            client.wants_home = at % 2 == 0
        resumed += "--resume" in node.start()
    ends.set()
    for thread in threads:
        thread.join(60)
        same("a client's thread is alive", thread.is_alive(), False)
    for client in clients:
        client.close()
    same("it came back by --resume", resumed > 0, True)
    entries = bench.agree()
    same("the entries: each task joins and leaves, and each meal has three", entries, 2 * len(counts) + 3 * sum(counts))
    return f"{sum(counts)} meals, {resumed} times by --resume, {entries} entries"


def a_full_disk_ends_the_node(bench):
    """A node whose disk takes no more says so and ends. Nobody has read what its journal doesn't have, and it comes back."""
    node = bench.node(is_started=False)
    node.start(preexec_fn=lambda: resource.setrlimit(resource.RLIMIT_FSIZE, (4096, 4096)))
    line = bench.line(node)
    task = line.join()
    told = 1
    while told < 1000:
        line.number += 1
        line.write(f"{line.passed} {line.number} leave 9.{told}")
        answer = line.hear()
        if not answer:
            break
        told += 1
    ends_in_words(node, f"the journal {node.journal} can't be written")
    text = contents(node.journal)
    same("what is kept", text.count(b"\n") - 1 >= told, True)
    same("a line is torn", text.endswith(b"\n"), False)
    node.start()
    back = bench.line(node, line.secret, line.passed)
    again = back.ask(f"{line.passed} {line.number} leave 9.{told}")
    same("what nobody has read", again.split(" ", 2)[2], f"{line.passed} leave 9.{told} -> refused unknown")
    back.number = line.number
    same("it goes on", back.call(f"hungry {task}").split(" -> ")[1], "done")
    return f"{bench.agree()} entries"


def a_checkpoint_is_written_whole(bench):
    """The checkpoint has its digest, and the journal's. A disk that takes none ends the node in words."""
    node = bench.node()
    played(bench, node)
    digest, text = contents(node.checkpoint).split(b"\n", 1)
    same("its digest", digest.decode(), hashlib.sha256(text.rstrip(b"\n")).hexdigest())
    kept = json.loads(text)
    same("the journal's digest", kept["digest"], hashlib.sha256(contents(node.journal)[: kept["size"]]).hexdigest())
    os.mkdir(node.checkpoint + ".new")
    # (it may end before it listens, since it writes a checkpoint when it begins)
    with contextlib.suppress(OSError, Failed):
        node.start()
        bench.line(node)
    ends_in_words(node, f"the checkpoint {node.checkpoint} can't be written")
    shutil.rmtree(node.checkpoint + ".new")
    node.start()
    return f"{bench.agree()} entries"


def a_program_that_ends_is_told(bench):
    """A node whose program ends, or comes to a standstill, ends in words."""
    node = bench.node("--patience", "2", lease=4)
    line = bench.line(node)
    line.join()
    os.kill(program_of(node), signal.SIGKILL)
    line.write(f"{line.passed} 2 join")
    ends_in_words(node, "the program ended with status -9")
    node.start()
    back = bench.line(node, line.secret, line.passed)
    os.kill(program_of(node), signal.SIGSTOP)
    back.write(f"{line.passed} 3 join")
    ends_in_words(node, "the program gave no answer for 2 s")
    node.start()
    terminate(node)
    same("the socket", os.path.exists(node.socket), False)
    node.start()
    return f"{bench.agree()} entries"


TESTS = (
    starts_from_each_state,
    an_older_checkpoint_is_as_good,
    a_changed_journal_is_refused,
    what_is_no_journal_is_left_alone,
    two_nodes_have_nothing_in_common,
    a_journal_is_of_one_log,
    killed_at_any_time,
    a_full_disk_ends_the_node,
    a_checkpoint_is_written_whole,
    a_program_that_ends_is_told,
)
