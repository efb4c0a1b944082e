"""Tests that the journal of a hub has calls in the order in which clients made them, by the clock that all of them share."""
import bisect
import collections
import concurrent.futures
import itertools
import random
import threading
import time

from harness import SECONDS, Failed, Line, same

CLIENTS, ROUNDS = 12, 200
# Tasks that all clients call on, of which each two beside each other are in conflict.
TASKS = ("0.0", "1.1", "2.2", "3.3")
CALLS = ("hungry", "hungry", "begin", "begin", "finish", "finish", "withdraw")
# The state that a call leaves its task in, if it is carried out.
LEAVES = {"join": "thinking", "hungry": "hungry", "begin": "eating", "finish": "thinking", "withdraw": "thinking"}
DAY = 86_400 * 10**9

# A call of a client: its place, the entry without its pass, and the clock before and after. A look, and the state it told.
Call = collections.namedtuple("Call", "place entry before after")
Look = collections.namedtuple("Look", "task state before after")


def called(line, call):
    """A call of a client, beside the clock."""
    before = time.monotonic_ns()
    answer = line.ask(f"0 {call}")
    after = time.monotonic_ns()
    entry, place = answer.split(" ", 1)[1].split(" @")
    return Call(int(place), entry, before, after)


def looked(line, task):
    """A look of a client, beside the clock."""
    before = time.monotonic_ns()
    answer = line.ask(f"state {task}")
    return Look(task, answer.split(" ")[2], before, time.monotonic_ns())


def call_and_look(line, seat, meeting):
    """The calls of a client and its looks, by turns, drawn. They begin when all clients are there."""
    drawn, calls, looks = random.Random(seat), [], []
    meeting.wait(SECONDS)
    for _ in range(ROUNDS):
        calls.append(called(line, f"{drawn.choice(CALLS)} {drawn.choice(TASKS)}"))
        looks.append(looked(line, drawn.choice(TASKS)))
    return calls, looks


def played(path):
    """All calls and all looks. The first client lays the table and clears it, so the hub ends nothing when clients go."""
    lines, meeting = [Line(path, "hello") for _ in range(CLIENTS)], threading.Barrier(CLIENTS)
    calls = [called(lines[0], "join") for _ in TASKS]
    calls += [called(lines[0], f"conflict {task} {other}") for task, other in zip(TASKS, TASKS[1:])]
    with concurrent.futures.ThreadPoolExecutor(CLIENTS) as threads:
        found = list(threads.map(lambda seat: call_and_look(lines[seat], seat, meeting), range(CLIENTS)))
    calls += [called(lines[0], f"{word} {task}") for task in TASKS for word in ("withdraw", "finish")]
    for line in lines:
        line.close()
    return [*calls, *(call for of_client, _ in found for call in of_client)], [look for _, looks in found for look in looks]


def in_journal(entries, calls):
    """The calls in the order of the journal. Each has one entry, at its place, and there are no others."""
    calls = sorted(calls)
    for place, (entry, call) in enumerate(zip(entries, calls), 1):
        same("an entry, beside what its client was answered", (place, entry.split(" ", 1)[1]), (call.place, call.entry))
    same("the entries", len(entries), len(calls))
    return calls


def check_order(calls):
    """No call stands in the journal before one that had ended when it began."""
    ended = calls[-1].after
    for place in reversed(range(len(calls))):
        if calls[place].before > ended:
            raise Failed(f"entry {place + 1}, {calls[place].entry!r}, is before one that had ended when it was asked for")
        ended = min(ended, calls[place].after)


def changes_of(calls):
    """For each task the places of the entries that changed its state, and the states."""
    places, states = {task: [0] for task in TASKS}, {task: ["none"] for task in TASKS}
    for place, call in enumerate(calls, 1):
        words, reply = (part.split(" ") for part in call.entry.split(" -> "))
        if words[0] in LEAVES and reply[0] != "refused":
            task = reply[1] if words[0] == "join" else words[1]
            places[task].append(place)
            states[task].append(LEAVES[words[0]])
    return places, states


def check_looks(calls, looks):
    """Each look tells a state that its task had behind all calls that ended before it, before any that began behind it."""
    ends = sorted((call.after, place) for place, call in enumerate(calls, 1))
    latest = list(itertools.accumulate((place for _, place in ends), max, initial=0))
    begins = sorted((-call.before, place) for place, call in enumerate(calls, 1))
    earliest = list(itertools.accumulate((place for _, place in begins), min, initial=len(calls) + 1))
    places, states = changes_of(calls)
    for look in looks:
        least = latest[bisect.bisect_left(ends, (look.before,))]
        most = earliest[bisect.bisect_left(begins, (-look.after,))] - 1
        first, last = (bisect.bisect_right(places[look.task], place) for place in (least, most))
        if look.state not in states[look.task][first - 1 : last]:
            raise Failed(f"{look.task} is said to be {look.state}, and was {', '.join(states[look.task][first - 1:last])}")


def refuses(check, *what):
    """Whether a check fails."""
    try:
        check(*what)
    except Failed:
        return True
    return False


def swapped(calls, place):
    """The calls, of which one has changed places with the first that began once it had ended."""
    other = next(at for at in range(place + 1, len(calls)) if calls[at].before > calls[place].after)
    changed = list(calls)
    changed[place], changed[other] = calls[other], calls[place]
    return changed


def refuses_what_is_out_of_order(calls, looks):
    """An entry that changes places with a later one is refused, and a look that tells a day later what is over by then."""
    for place in range(0, len(calls) // 2, len(calls) // 40):
        same(f"entry {place + 1} may change places with a later one", refuses(check_order, swapped(calls, place)), True)
    last = {task: states[-1] for task, states in changes_of(calls)[1].items()}
    late = [look._replace(before=look.before + DAY, after=look.after + DAY) for look in looks[:: len(looks) // 40]]
    is_over = [look.state != last[look.task] for look in late]
    same("the looks that are refused a day later", [refuses(check_looks, calls, [look]) for look in late], is_over)
    same("a look is over by then", any(is_over), True)


def calls_have_their_order(bench):
    """Whatever twelve clients call, no entry is before one that had ended when it was asked for, and no look is late."""
    journal = bench.path("journal")
    with bench.hub("--open", "--keep", "--journal", journal) as path:
        calls, looks = played(path)
    entries = bench.audit(journal)
    with open(journal, encoding="ascii") as file:
        calls = in_journal(file.read().splitlines()[1:], calls)
    check_order(calls)
    check_looks(calls, looks)
    refuses_what_is_out_of_order(calls, looks)
    return f"{entries} entries, {len(looks)} looks"


TESTS = (calls_have_their_order,)
