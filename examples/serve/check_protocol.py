"""Tests of `hygienic serve` by itself: what each line is answered, and how it goes on with a journal."""
import io
import random
import subprocess
import threading

from harness import PROMPT, same

# What is asked, and the lines that answer it.
ROWS = (
    ("0 join", "0 join -> joined 0.0"),
    ("0 join", "0 join -> joined 1.1"),
    ("0 join", "0 join -> refused full"),
    ("0 conflict 0.0 1.1", "0 conflict 0.0 1.1 -> done"),
    ("4294967295 conflict 0.0 1.1", "4294967295 conflict 0.0 1.1 -> refused already"),
    ("4294967296 join", "! 6 fault words"),
    ("", ""),
    ("# a remark", ""),
    ("neighbours 0.0", "? neighbours 1.1"),
    ("neighbours 7.7", "? neighbours none"),
    ("next", "? next none"),
    ("1 hungry 0.0", "1 hungry 0.0 -> done"),
    ("next", "? next 0.0"),
    ("1 begin 0.0", "1 begin 0.0 -> done"),
    ("2 hungry 1.1", "2 hungry 1.1 -> done"),
    ("2 begin 1.1", "2 begin 1.1 -> refused not-yet"),
    ("state 0.0", "? state eating"),
    ("state 1.1", "? state hungry"),
    ("state 9.9", "? state none"),
    ("2 await 1.1", ""),
    ("3 await 0.0", "3 begin 0.0 -> refused eating"),
    ("3 await 9.9", "3 begin 9.9 -> refused unknown"),
    ("1 finish 0.0", "1 finish 0.0 -> done|2 begin 1.1 -> done"),
    ("2 finish 1.1", "2 finish 1.1 -> done"),
    ("1 hungry 0.0", "1 hungry 0.0 -> done"),
    ("1 await 0.0", "1 begin 0.0 -> done"),
    ("2 hungry 1.1", "2 hungry 1.1 -> done"),
    ("2 await 1.1", ""),
    ("2 cancel 1.1", "? cancelled 1.1"),
    ("2 cancel 1.1", "? cancelled none"),
    ("1 finish 0.0", "1 finish 0.0 -> done"),
    ("2 withdraw 1.1", "2 withdraw 1.1 -> done"),
    ("2 leave 1.1", "2 leave 1.1 -> done"),
    ("state 1.1", "? state none"),
    ("0 jump 0.0", "! 35 fault words"),
    ("0 hungry 0.00", "! 36 fault words"),
    ("0 hungry", "! 37 fault words"),
    ("x" * 5000, "! 38 fault words"),
    ("#" * 5000, "! 39 fault words"),
    ("0 join", "0 join -> joined 1.5"),
)


def rows_of_the_protocol(bench):
    """Each kind of line has its answer, and what is written is a journal once the lines of ? and ! are left out."""
    wanted = ["dine 2 2 1", *(line for _, answer in ROWS for line in answer.split("|") if line)]
    found = bench.serve("".join(asked + "\n" for asked, _ in ROWS), "--tasks", "2", "--conflicts", "1", status=2)
    for asked, said in zip(wanted, found):
        same("a line", said, asked)
    same("the lines", len(found), len(wanted))
    return f"{bench.audit(entries_of(found))} entries"


def entries_of(lines):
    """The journal in the lines that the program wrote."""
    return "".join(line + "\n" for line in lines if line[0] not in "?!=").encode()


def answered_at_once(bench):
    """Each line is answered before the next is written."""
    command = [bench.program, "serve", "--tasks", "2", "--conflicts", "1"]
    with subprocess.Popen(command, stdin=subprocess.PIPE, stdout=subprocess.PIPE, bufsize=0) as process:
        watch = threading.Timer(PROMPT, process.kill)
        watch.start()
        reader = io.BufferedReader(process.stdout)
        same("the header", reader.readline(), b"dine 2 2 1\n")
        for asked, answer in ROWS:
            process.stdin.write(asked.encode() + b"\n")
            for line in filter(None, answer.split("|")):
                same(f"the answer to {asked[:40]!r}", reader.readline().decode(), line + "\n")
        process.stdin.close()
        same("what is left", reader.read(), b"")
        watch.cancel()
        same("the status", process.wait(PROMPT), 2)


def torn_line(bench):
    """A last line without its line feed is not carried out."""
    same("the answers", bench.serve("0 join\n0 hungry 0.0", status=2), ["dine 2 64 256", "0 join -> joined 0.0", "! 2 fault torn"])
    same("the answers", bench.serve("0 join\n"), ["dine 2 64 256", "0 join -> joined 0.0"])


def full_awaits(bench):
    """As many awaits stand as tasks are allowed."""
    table = "0 join\n0 join\n0 conflict 0.0 1.1\n0 hungry 0.0\n0 begin 0.0\n0 hungry 1.1\n"
    found = bench.serve(table + "1 await 1.1\n2 await 1.1\n3 await 1.1\n0 finish 0.0\n", "--tasks", "2", status=2)
    same("the answers", found[7:], ["! 9 fault full", "0 finish 0.0 -> done", "1 begin 1.1 -> done", "2 begin 1.1 -> refused eating"])


def calls_that_come_again(bench):
    """With --passes a number that comes again is answered again, and nothing is done twice."""
    asked = "0 1 join\n0 1 join\n1 7 join\n0 2 hungry 0.0\n0 1 join\n2 1 join\n0 2 hungry 0.0\nstate 0.0\n"
    found = bench.serve(asked, "--passes", "2", status=2)
    wanted = ["0 join -> joined 0.0", "= 0 join -> joined 0.0", "1 join -> joined 1.1", "0 hungry 0.0 -> done", "! 5 fault stale",
              "! 6 fault words", "= 0 hungry 0.0 -> done", "? state hungry"]
    same("the answers", found[1:], wanted)
    return f"{bench.audit(entries_of(found))} entries"


def goes_on(bench):
    """A journal is gone on with from any of its bytes, and the whole is as if it had never stopped."""
    drawn = random.Random(5)
    lines = drawn_calls(drawn, 300)
    whole = b"".join(line.encode() + b"\n" for line in bench.serve("".join(line + "\n" for line in lines), "--tasks", "6"))
    for cut in sorted(drawn.sample(range(len(b"dine 2 6 256\n"), len(whole)), 12)):
        kept = whole[:cut]
        with open(bench.path("journal"), "wb") as file:
            file.write(kept)
        before = kept.count(b"\n")
        rest = "".join(line + "\n" for line in lines[before - 1 :])
        after = bench.run([bench.program, "serve", "--resume", bench.path("journal")], rest.encode())
        same(f"the journal cut at byte {cut}", kept[: kept.rfind(b"\n") + 1] + after, whole)
    return f"{bench.audit(whole)} entries"


def drawn_calls(drawn, count):
    """So many calls on up to six tasks, of which many are refused."""
    lines = ["0 join"] * 6
    names = [f"{slot}.{slot}" for slot in range(6)]
    words = ("hungry", "begin", "begin", "finish", "finish", "withdraw", "leave")
    while len(lines) < count:
        first, second = drawn.sample(names, 2)
        call = drawn.choice([f"{drawn.choice(words)} {first}"] * 5 + [f"conflict {first} {second}"] * 3 + [f"separate {first} {second}", "join"])
        lines.append(f"{drawn.randrange(4)} {call}")
    return lines


def trusts_no_reply(bench):
    """A journal with a wrong reply isn't gone on with."""
    with open(bench.path("journal"), "wb") as file:
        file.write(b"dine 2 2 1\n0 join -> joined 0.0\n0 hungry 0.0 -> refused eating\n")
    said = bench.run([bench.program, "serve", "--resume", bench.path("journal")], b"0 join\n", status=1)
    same("the answer", said, b"wrong 2 want done\n")


TESTS = (rows_of_the_protocol, answered_at_once, torn_line, full_awaits, calls_that_come_again, goes_on, trusts_no_reply)
