"""Tests of the hub and the library under each Python of the machine."""
import os
import shutil
import subprocess
import sys
import threading

from harness import SECONDS, SERVE, Line, RunningHub, same

VERSIONS = ("python3.9", "python3.10", "python3.11", "python3.12", "python3.13", "python3.14")
# A client of the library, under the same Python as the hub.
CLIENT = """
import sys
sys.path.insert(0, {serve!r})
from broker import Broker
with Broker.connect({path!r}) as broker:
    task = broker.join()
    with broker.take("printer", "scanner", timeout=10) as place, broker.meal(task) as meal:
        print(int(place) < meal.place, place.lost.is_set())
    try:
        with broker.take("a"), broker.take("a", timeout=0.1):
            pass
    except TimeoutError:
        print("late")
"""


def starts(python):
    """Whether this Python is here and starts."""
    return shutil.which(python) and subprocess.run([python, "-c", ""], stderr=subprocess.DEVNULL, check=False).returncode == 0


def each_python(bench):
    """The hub and the library work, under load too, and end alike under the Python of this test and each version that is here."""
    found = [sys.executable, *filter(starts, VERSIONS)]
    for python in found:
        hub = RunningHub(bench, python=python).listens()
        try:
            printed = bench.run([python, "-W", "error", "-c", CLIENT.format(serve=SERVE, path=hub.path)])
            same(f"{python}: what the client prints", printed, b"True False\nlate\n")
            counts = []
            threads = [threading.Thread(target=lambda path=hub.path: counts.append(burst(path)), daemon=True) for _ in range(4)]
            for thread in threads:
                thread.start()
            for thread in threads:
                thread.join(SECONDS)
            same(f"{python}: the answers", counts, [9000] * 4)
            waiting = Line(hub.path, "hello")
            hub.ends()
            same(f"{python}: the last line", (waiting.hear(), waiting.hear()), ("- end", ""))
        finally:
            hub.kill()
    return ", ".join(map(os.path.basename, found))


def burst(path):
    """How many answers come to a burst of lines whose connection is closed for writing behind them."""
    line = Line(path)
    writer = threading.Thread(target=line.write, args=["0 leave 0.0"] * 9000, daemon=True)
    writer.start()
    answers = sum(line.hear() == "0 leave 0.0 -> refused unknown" for _ in range(9000))
    line.close()
    return answers


TESTS = (each_python,)
