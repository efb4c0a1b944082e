"""Tests of the hub: its journal, and the locks of journal and socket."""
import os
import resource
import subprocess
import threading
import time

from harness import PROMPT, SERVE, Line, RunningHub, same

LEGAL = b"dine 2 2 1\n0 join -> joined 0.0\n"
# What is no journal that may be gone on with, and why it isn't.
NO_JOURNALS = {
    "one line": b"a key without a line feed",
    "two lines": b"line one\nline two without a line feed",
    "a line feed": b"\n",
    "an older version": b"dine 1 2 1\n",
    "another header": b"dine 2 64 255",
    "no numbers": b"dine 2 0 0\n0 join -> refused full\n",
    "zeros": b"\0" * 100,
    "no header": b"0 join -> joined 0.0\n",
}
# What begins as a journal, and isn't legal; the status is the program's.
NOT_LEGAL = {
    "a wrong reply": (LEGAL + b"0 hungry 0.0 -> refused eating\n0 begin 0.", 1),
    "a line written onto a torn one": (LEGAL + b"0 withdr0 hungry 0.0 -> done\n", 2),
    "zeros behind it": (LEGAL + b"\0" * 100 + b"\n", 2),
}


def no_journal(bench):
    """A file that is no journal is left as it is, and the hub doesn't listen."""
    for name, text in NO_JOURNALS.items():
        refused(bench, name, text, 3, "is no journal that can be gone on with; it is left as it is\n")
    for path in (bench.folder, "/dev/null"):
        hub = RunningHub(bench, "--journal", path)
        same(path, (hub.process.wait(PROMPT), hub.process.stdout.read()), (3, b""))


def not_legal(bench):
    """Nor does it listen behind a journal that isn't legal, however often it is tried."""
    for name, (text, status) in NOT_LEGAL.items():
        for _ in range(4):
            refused(bench, name, text, status, "")


def refused(bench, name, text, status, ending):
    """A hub that is to go on with this text ends with this status, says why, and leaves the file as it is."""
    journal = bench.path("refused")
    with open(journal, "wb") as file:
        file.write(text)
    hub = RunningHub(bench, "--journal", journal)
    same(f"{name}: the status, and what is said", (hub.process.wait(PROMPT), hub.process.stdout.read()), (status, b""))
    said = hub.errors().decode()
    same(f"{name}: why", said.endswith(ending) and "hub.py: " in said and "Traceback" not in said, True)
    with open(journal, "rb") as file:
        same(f"{name}: the file", file.read(), text)
    same(f"{name}: the socket", os.path.exists(hub.path), False)


def torn(bench):
    """A journal whose last line is torn goes on behind the line before, and one whose header is torn begins anew."""
    for text, state in ((LEGAL + b"0 hungry 0.0 -> do", "thinking"), (LEGAL, "thinking"), (b"dine 2 64 2", "none"), (b"", "none")):
        journal = bench.path("torn")
        with open(journal, "wb") as file:
            file.write(text)
        hub = RunningHub(bench, "--journal", journal, "--keep").listens()
        line = Line(hub.path)
        same("the state", line.ask("state 0.0"), f"? state {state}")
        same("the next entry", line.ask("0 join")[:16], "0 join -> joined")
        line.close()
        hub.kill()
        os.unlink(journal + ".owners")
        same("the entries", bench.audit(journal), 2 if state == "thinking" else 1)


def two_hubs(bench):
    """One hub has a journal, and one a socket. The second ends at once, and the first goes on."""
    journal = bench.path("journal")
    with bench.hub("--journal", journal) as path:
        line = Line(path)
        same("a task", line.ask("0 join"), "0 join -> joined 0.0")
        second = RunningHub(bench, "--journal", journal, socket_name="second.socket")
        second.has_ended(3, f"hub.py: another hub uses {journal}\n".encode())
        third = RunningHub(bench)
        third.has_ended(3, f"hub.py: another hub uses {path}.lock\n".encode())
        same("the first goes on", line.ask("0 hungry 0.0"), "0 hungry 0.0 -> done")
        same("so do new clients", Line(path).ask("state 0.0"), "? state hungry")
    same("the entries", bench.audit(journal), 2)


def sockets_of_others(bench):
    """A socket that is left over is taken away, and what is no hub's isn't."""
    path = bench.path("dine.socket")
    hub = RunningHub(bench).listens()
    hub.kill()
    same("one is left over", os.path.exists(path), True)
    with bench.hub() as found:
        same("it listens", Line(found).ask("next"), "? next none")
    same("it is gone", os.path.exists(path), False)
    with open(path, "w", encoding="ascii") as file:
        file.write("precious")
    RunningHub(bench).has_ended(3, f"hub.py: {path} is no socket; it is left as it is\n".encode())
    with open(path, encoding="ascii") as file:
        same("a file", file.read(), "precious")
    os.unlink(path)
    with subprocess.Popen([os.environ.get("PYTHON", "python3"), "-c", LISTENS.format(path)], stdout=subprocess.PIPE) as other:
        other.stdout.readline()
        RunningHub(bench).has_ended(3, f"hub.py: somebody listens at {path}\n".encode())
        other.kill()
    os.unlink(path)
    with bench.hub() as found:
        line = Line(found)
        os.unlink(found)
        same("it goes on", line.ask("next"), "? next none")


LISTENS = """
import socket, time
line = socket.socket(socket.AF_UNIX)
line.bind({!r})
line.listen()
print(flush=True)
time.sleep(100)
"""


def no_room_on_the_disk(bench):
    """If an entry can't be written whole, nobody reads it, the journal is cut back, and the hub says so and ends."""
    journal, most = bench.path("journal"), 4096
    hub = RunningHub(bench, "--journal", journal, limits=[(resource.RLIMIT_FSIZE, most)]).listens()
    line, told = Line(hub.path), 0
    line.write(*["0 join"] * 400)
    while line.hear():
        told += 1
    hub.has_ended(3, f"hub.py: can't write {journal}: File too large\n".encode())
    with open(journal, "rb") as file:
        text = file.read()
    same("the last byte", text[-1:], b"\n")
    same("more is told than kept", told <= 1 + text.count(b"\n"), True)
    told = answers_until_the_end(bench, most)
    with open(bench.path("one.journal"), "rb") as file:
        text = file.read()
    same("told, with the header, and kept", told, text.count(b"\n"))
    same("the socket is gone", os.path.exists(hub.path), False)
    with bench.hub("--journal", journal) as path:
        same("it goes on", Line(path).ask("0 join")[:8], "0 join -")
    bench.audit(journal)
    return f"{told} lines are told and kept"


def answers_until_the_end(bench, most):
    """How many lines one client reads that asks one at a time, until the journal has no room."""
    journal = bench.path("one.journal")
    hub = RunningHub(bench, "--journal", journal, socket_name="one.socket", limits=[(resource.RLIMIT_FSIZE, most)]).listens()
    line, told = Line(hub.path), 1
    try:
        while line.ask("0 join"):
            told += 1
    except (BrokenPipeError, ConnectionResetError):
        pass
    hub.has_ended(3, f"hub.py: can't write {journal}: File too large\n".encode())
    return told


def told_is_kept(bench):
    """Whatever a client has read when the hub is killed, the journal has it."""
    journal = bench.path("journal")
    for _ in range(5):
        hub = RunningHub(bench, "--journal", journal, "--keep", "--tasks", "4096").listens()
        told = []

        def client(path=hub.path, told=told):
            line = Line(path)
            try:
                while True:
                    line.write(*["0 join", "1 leave 9.9", "2 join", "3 withdraw 9.9"] * 8)
                    for _ in range(32):
                        answer = line.hear()
                        if not answer:
                            return
                        told.append(answer)
            except OSError:
                return

        thread = threading.Thread(target=client)
        thread.start()
        time.sleep(0.3)
        hub.kill()
        thread.join(PROMPT)
        os.unlink(journal + ".owners")
        entries = bench.audit(journal)
        with open(journal, "rb") as file:
            kept = [line.split(b" ", 1)[1].decode().rstrip("\n") for line in file][1:]
        same("something was told", len(told) > 32, True)
        at = iter(kept)
        missing = [line for line in (line.split(" ", 1)[1] for line in told) if line not in at]
        same("what isn't kept", missing[:3], [])
    return f"{entries} entries"


# Runs the hub with a disk that takes its time, or that fails.
DISK = """
import os, runpy, sys, time
def fdatasync(file):
    time.sleep(0.7)
    if os.path.exists({broken!r}):
        raise OSError(5, "Input/output error")
os.fdatasync = fdatasync
sys.path.insert(0, {serve!r})
sys.argv[0] = {hub!r}
runpy.run_path({hub!r}, run_name="__main__")
"""


def on_the_disk(bench):
    """With `--sync` an entry is on the disk before a client reads it. If the disk fails, nobody reads it, and the hub ends."""
    journal, broken, script = bench.path("journal"), bench.path("broken"), bench.path("disk.py")
    with open(script, "w", encoding="utf-8") as file:
        file.write(DISK.format(broken=broken, serve=SERVE, hub=os.path.join(SERVE, "hub.py")))
    for words, is_slow in (((), False), (("--sync",), True)):
        hub = RunningHub(bench, "--journal", journal, *words, script=script).listens()
        line = Line(hub.path)
        began = time.monotonic()
        line.write("0 join", "0 join", "0 join")
        same("three answers", [line.hear()[:8] for _ in range(3)], ["0 join -"] * 3)
        same("as long as one turn takes", time.monotonic() - began >= 0.7, is_slow)
        if not is_slow:
            hub.ends()
    with open(broken, "wb"):
        line.write("0 join")
        same("nothing is told", line.hear(), "")
    hub.has_ended(3, f"hub.py: can't write {journal}: Input/output error\n".encode())


def journal_that_is_touched(bench):
    """A journal that is removed, or written by somebody else, while the hub has it ends the hub before more is told."""
    journal = bench.path("journal")
    for touch, why in (
        (os.unlink, f"hub.py: {journal} was removed\n"),
        (lambda path: os.truncate(path, 10), f"hub.py: somebody else wrote to {journal}\n"),
    ):
        hub = RunningHub(bench, "--journal", journal).listens()
        line = Line(hub.path)
        same("a task", line.ask("0 join")[:8], "0 join -")
        touch(journal)
        line.write("0 join")
        same("nothing is told", line.hear(), "")
        hub.has_ended(3, why.encode())


def owners_of_another(bench):
    """A file beside the journal that isn't the hub's is left as it is, and one that is torn is gone on with."""
    journal = bench.path("journal")
    with open(journal, "wb") as file:
        file.write(LEGAL)
    with open(journal + ".owners", "wb") as file:
        file.write(b"my notes\n")
    RunningHub(bench, "--journal", journal).has_ended(3, f"hub.py: {journal}.owners is no file of owners; it is left as it is\n".encode())
    with open(journal + ".owners", "rb") as file:
        same("the notes", file.read(), b"my notes\n")
    nonsense = b"hub 1\nnonsense\ntake 0.0 0 a\ngone 7 7\nclient 5 900 " + b"0" * 64 + b"\n"
    for text in (b"", b"hu", b"hub 1\nclient 0 0 " + b"0" * 63, nonsense):
        with open(journal + ".owners", "wb") as file:
            file.write(text)
        with bench.hub("--journal", journal, "--keep") as path:
            same("it goes on", Line(path).ask("state 0.0")[:8], "? state ")


TESTS = (no_journal, not_legal, torn, two_hubs, sockets_of_others, no_room_on_the_disk, told_is_kept, on_the_disk,
         journal_that_is_touched, owners_of_another)
