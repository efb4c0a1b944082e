"""Tests of the hub: whose a task is, what a client may ask for that wrote `hello`, and what a bad line is answered."""
import os
import signal

from harness import Line, RunningHub, await_answer, same

# The calls on a task of another client, in the order in which each would be done.
CALLS = ("hungry 0.0", "begin 0.0", "finish 0.0", "hungry 0.0", "withdraw 0.0", "separate 0.0 1.1", "conflict 0.0 1.1", "leave 0.0")


def calls_of_others(bench):
    """A call on another client's task is a fault, is in no journal, and changes nothing. With `--open` it is made."""
    journal = bench.path("journal")
    with bench.hub("--journal", journal, status=2) as path:
        owner, other = Line(path), Line(path)
        table_of_two(owner)
        for number, call in enumerate((*CALLS, "await 0.0"), 1):
            same(call, other.ask(f"0 {call}"), f"! {number} fault owner")
        same("it joins", other.ask("0 join"), "0 join -> joined 2.2")
        same("its own end is enough for a conflict", other.ask("0 conflict 2.2 0.0"), "0 conflict 2.2 0.0 -> done")
        same("both are to be own to separate", other.ask("0 separate 2.2 0.0"), "! 12 fault owner")
        same("in its meal", (owner.ask("0 hungry 0.0"), owner.ask("0 begin 0.0")), ("0 hungry 0.0 -> done", "0 begin 0.0 -> done"))
        same("another's finish", other.ask("0 finish 0.0"), "! 13 fault owner")
        same("the state", other.ask("state 0.0"), "? state eating")
    same("the entries", bench.audit(journal), 7)
    with bench.hub("--open", socket_name="open.socket") as path:
        owner, other = Line(path), Line(path)
        table_of_two(owner)
        for call in CALLS:
            same(call, other.ask(f"0 {call}"), f"0 {call} -> done")


def table_of_two(line):
    """Two tasks in conflict."""
    for asked in ("0 join", "0 join", "0 conflict 0.0 1.1"):
        line.ask(asked)


def a_name_that_is_guessed(bench):
    """Nor may a client call on a task whose name it guesses while that joins."""
    process = bench.path("process")
    program = bench.program_by(f'echo $$ > "{process}"; exec "$PROGRAM" "$@"')
    with bench.hub(program=program, status=2) as path:
        with open(process, encoding="ascii") as file:
            number = int(file.read())
        owner, other = Line(path), Line(path)
        same("both are here", (owner.ask("state 0.0"), other.ask("state 0.0")), ("? state none",) * 2)
        os.kill(number, signal.SIGSTOP)
        owner.write("0 join")
        await_answer(Line(path, "hello"), "renew", "? renew none")
        other.write("0 hungry 0.0")
        await_answer(Line(path, "hello"), "renew", "? renew none")
        os.kill(number, signal.SIGCONT)
        same("the owner", owner.hear(), "0 join -> joined 0.0")
        same("the other", other.hear(), "! 2 fault owner")
        same("its own lines may come together", pipelined(other), ["0 join -> joined 1.1", "0 hungry 1.1 -> done"])


def pipelined(line):
    """The answers to lines that are written together."""
    line.write("0 join", "0 hungry 1.1")
    return [line.hear(), line.hear()]


def late_finish(bench):
    """A finish that names the place of its begin ends that meal, and no newer one."""
    journal = bench.path("journal")
    with bench.hub("--journal", journal, status=2) as path:
        line = Line(path, "hello")
        asked = ("0 join", "0 hungry 0.0", "0 begin 0.0", "0 finish 0.0 3", "0 hungry 0.0", "0 begin 0.0")
        wanted = ["0 join -> joined 0.0 @1", "0 hungry 0.0 -> done @2", "0 begin 0.0 -> done @3", "0 finish 0.0 -> done @4"]
        same("the answers", [line.ask(asked) for asked in asked], [*wanted, "0 hungry 0.0 -> done @5", "0 begin 0.0 -> done @6"])
        same("a late finish", line.ask("0 finish 0.0 3"), "! 8 fault meal")
        same("the state", line.ask("state 0.0"), "? state eating")
        line.write("0 finish 0.0 6", "0 hungry 0.0", "0 begin 0.0", "0 finish 0.0 6")
        wanted = ["0 finish 0.0 -> done @7", "0 hungry 0.0 -> done @8", "0 begin 0.0 -> done @9", "! 13 fault meal"]
        same("lines that come together", [line.hear() for _ in wanted], wanted)
        same("no such task", line.ask("0 finish 7.7 3"), "! 14 fault meal")
    same("the entries", bench.audit(journal), 9)


def tasks_that_are_kept(bench):
    """With `--keep` a dead client's tasks stay, and belong to the first client that calls on them."""
    with bench.hub("--keep", status=2) as path:
        dead, first, second = Line(path), Line(path), Line(path)
        table_of_two(dead)
        dead.close()
        await_answer(Line(path, "hello"), "list", "? list 0.0 thinking nobody; 1.1 thinking nobody")
        same("the first", first.ask("0 hungry 0.0"), "0 hungry 0.0 -> done")
        same("the second", (second.ask("0 begin 0.0"), second.ask("0 hungry 1.1")), ("! 1 fault owner", "0 hungry 1.1 -> done"))


def a_list(bench):
    """Each client may list all tasks, with their states and owners."""
    with bench.hub() as path:
        line, other = Line(path, "hello"), Line(path, "hello")
        same("nobody", line.ask("list"), "? list none")
        table_of_two(line)
        line.ask("0 hungry 0.0")
        other.ask("3 take printer scanner")
        wanted = "0.0 hungry {}; 1.1 thinking {}; 2.2 eating {} takes printer scanner"
        same("one", line.ask("list"), "? list " + wanted.format("yours", "yours", "client 1"))
        same("the other", other.ask("list"), "? list " + wanted.format("client 0", "client 0", "yours"))


# Lines in the order in which they are asked, and their answers, of a client that wrote `hello` and of one that did not.
GREETED = (
    ("hello", "! 2 fault words"),
    ("0 finish 0.0 0", "! 3 fault words"),
    ("0 finish 0.0 x", "! 4 fault words"),
    ("0 finish 0.0 1 2", "! 5 fault words"),
    ("4294967296 finish 0.0 1", "! 6 fault words"),
    ("0 take", "! 7 fault words"),
    ("0 take ", "! 8 fault words"),
    ("0 take  printer", "! 9 fault words"),
    ("0 take -printer", "! 10 fault words"),
    ("0 take " + "p" * 65, "! 11 fault words"),
    ("take printer", "! 12 fault words"),
    ("4294967296 take printer", "! 13 fault words"),
    ("0 take 2", "! 14 fault count"),
    ("0 take 2 printer", "! 15 fault count"),
    ("0 take printer:2", "! 16 fault count"),
    ("0 take printer=2 scanner", "! 17 fault count"),
    ("0 take printer scanner printer", "! 18 fault count"),
    ("0 give", "! 19 fault meal"),
    ("0 take printer", "+ 0 took @3"),
    ("0 take scanner", "! 21 fault taken"),
    ("0 give 2", "! 22 fault meal"),
    ("0 give x", "! 23 fault words"),
    ("0 give 0", "! 24 fault words"),
    ("0 finish 0.0 3", "! 25 fault owner"),
    ("0 hungry 0.0", "! 26 fault owner"),
    ("0 leave 0.0", "! 27 fault owner"),
    ("renew", "? renew 3"),
    ("renew 3", "! 29 fault words"),
    ("list 0.0", "! 30 fault words"),
    ("0 give 3", "+ 0 gave"),
    ("renew", "? renew none"),
    ("list", "? list none"),
    ("0 jump 0.0", "! 34 fault words"),
    ("0 join 0.0", "! 35 fault words"),
    ("0 conflict 0.0", "! 36 fault words"),
    ("state", "! 37 fault words"),
    ("x" * 5000, "! 38 fault words"),
)
NOT_GREETED = (
    ("", ""),
    ("# a remark", ""),
    ("list", "! 3 fault words"),
    ("hello", "! 4 fault words"),
    ("renew", "! 5 fault words"),
    ("0 take printer", "! 6 fault words"),
    ("0 give", "! 7 fault words"),
    ("0 join", "0 join -> joined 0.2"),
    ("0 hungry 0.2", "0 hungry 0.2 -> done"),
    ("0 begin 0.2", "0 begin 0.2 -> done"),
    ("0 finish 0.2 3", "! 11 fault words"),
    ("0 finish 0.2", "0 finish 0.2 -> done"),
)
# What a first line is answered that is no `hello` with a secret.
FIRST = ("hello ", "hello there", "hello " + "0" * 31, "hello " + "A" * 32, "HELLO", "hello hello")


def rows_of_the_hub(bench):
    """Each line of the hub's own has its answer, and without `hello` the lines are the program's."""
    with bench.hub(status=2) as path:
        for hello, rows in (("hello", GREETED), (None, NOT_GREETED)):
            line = Line(path, hello)
            for asked, answer in rows:
                line.write(asked)
                if answer:
                    same(f"the answer to {asked[:40]!r}", line.hear(), answer)
            line.close()
        for first in FIRST:
            same(first, Line(path).ask(first), "! 1 fault words")
        line = Line(path)
        same("an unknown secret", line.ask("hello " + "0" * 32), "! 1 fault secret")
        same("and then", line.ask("state 7.7"), "? state none")
        line = Line(path)
        line.write("", "# a remark", "hello")
        same("behind blank lines", line.hear()[:8], "? hello ")
        same("no lease", lease_of(bench, "--lease", "0"), "0")
        same("the lease", lease_of(bench, "--lease", "2.5"), "2.5")
        same("the lease by default", lease_of(bench), "30")


def lease_of(bench, *words):
    """The lease that a client is told."""
    hub = RunningHub(bench, *words, socket_name="another.socket").listens()
    seconds = Line(hub.path, "hello").hello.split()[3]
    hub.ends()
    return seconds


TESTS = (calls_of_others, a_name_that_is_guessed, late_finish, tasks_that_are_kept, a_list, rows_of_the_hub)
