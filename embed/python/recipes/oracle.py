"""The library as an oracle: a test bench that holds another program against it, and shortens a script that fails.

    oracle.py [--mistake]

The program under test decides who may begin among four jobs in a ring. With `--mistake` it forgets whose last meal was earlier.
"""
import random
import sys
from typing import Callable, List

import dine

JOBS = "abcd"
RING = ["ab", "bc", "cd", "da"]
SETUP = [f"join {job}" for job in JOBS] + [f"conflict {one} {other}" for one, other in RING]
# The state that a call needs, and the one that it leads to.
NEEDS = {"hungry": "thinking", "begin": "hungry", "finish": "eating", "withdraw": "hungry"}
LEADS = {"hungry": "hungry", "begin": "eating", "finish": "thinking", "withdraw": "thinking"}

Script = List[str]


def under_test(script: Script, mistake: bool = False) -> List[str]:
    """What the program under test answers to each line."""
    state, order, answers = dict.fromkeys(JOBS, "thinking"), list(JOBS), []
    for line in script:
        call, job = line.split()
        rivals = [other for pair in RING if job in pair for other in pair if other != job]
        before = [other for other in rivals if mistake or order.index(other) < order.index(job)]
        if state[job] != NEEDS[call]:
            answers.append(f"refused {state[job]}")
        elif call == "begin" and ("eating" in map(state.get, rivals) or "hungry" in map(state.get, before)):
            answers.append("refused not-yet")
        else:
            answers.append("done")
            state[job] = LEADS[call]
            if call == "finish":
                order.remove(job)
                order.append(job)
    return answers


def oracle(script: Script) -> List[str]:
    """What the library answers to each line."""
    _, text = dine.run("".join(line + "\n" for line in SETUP + script).encode())
    return text.decode().splitlines()[len(SETUP) :]


def shortened(script: Script, fails: Callable[[Script], bool]) -> Script:
    """A script that still fails, and doesn't without any one of its lines."""
    at = 0
    while at < len(script):
        fewer = script[:at] + script[at + 1 :]
        if fails(fewer):
            script, at = fewer, 0
        else:
            at += 1
    return script


def main() -> None:
    mistake = "--mistake" in sys.argv

    def fails(script: Script) -> bool:
        return under_test(script, mistake) != oracle(script)

    drawn = random.Random(1)
    for _ in range(200):
        script = [f"{drawn.choice(list(NEEDS))} {drawn.choice(JOBS)}" for _ in range(60)]
        if fails(script):
            print("a script that fails:", *shortened(script, fails), sep="\n")
            sys.exit(1)
    print("200 scripts are answered alike")


if __name__ == "__main__":
    main()
