#!/usr/bin/env python3
"""What a call costs over a pipe, and what memory the built program takes for it.

    python3 bench/serve.py [--program PATH] [--trips N] [--calls N]

First round trips, one call at a time, beside those of `cat` in the same run, in turns: of each the median and the 99th percentile in
microseconds. Then calls in batches, a second, over so many calls. Then the program's resident memory at the beginning, after these
calls, and after as many bytes of one line that never ends. Standard library only.
"""
import argparse
import os
import subprocess
import sys
import time

TOP = os.path.dirname(os.path.dirname(os.path.abspath(__file__)))
CALLS = (b"0 hungry 0.0\n", b"0 begin 0.0\n", b"0 finish 0.0\n")
ROUNDS = 5
MEALS_IN_A_BATCH = 400
LONG_PIECE = b"x" * 65536


class Talk:
    """A program over two pipes."""

    def __init__(self, *words):
        self.process = subprocess.Popen(words, stdin=subprocess.PIPE, stdout=subprocess.PIPE, bufsize=0)
        self.sink, self.source = self.process.stdin.fileno(), self.process.stdout.fileno()

    def line(self):
        """The next line."""
        got = b""
        while not got.endswith(b"\n"):
            got += os.read(self.source, 65536)
        return got

    def ask(self, line):
        """What a line is answered."""
        os.write(self.sink, line)
        return self.line()

    def trips(self, count):
        """So many round trips, but for those of a meal that isn't whole, each in nanoseconds."""
        times = []
        for at in range(count - count % len(CALLS)):
            line = CALLS[at % len(CALLS)]
            began = time.perf_counter_ns()
            self.ask(line)
            times.append(time.perf_counter_ns() - began)
        return times

    def memory(self):
        """The most of resident memory so far, in KiB."""
        with open(f"/proc/{self.process.pid}/status", encoding="utf-8") as status:
            return next(int(line.split()[1]) for line in status if line.startswith("VmHWM"))

    def end(self):
        """The status, once it is told that no more comes."""
        self.process.stdin.close()
        while os.read(self.source, 65536):
            pass
        self.process.stdout.close()
        return self.process.wait()


def told(name, times):
    """The median and the 99th percentile of round trips."""
    times = sorted(times)
    print(f"{name:24} median {times[len(times) // 2] / 1000:.1f} us, 99 in 100 within {times[len(times) * 99 // 100] / 1000:.1f} us")


def main():
    words = argparse.ArgumentParser(description=__doc__.split("\n", maxsplit=1)[0])
    words.add_argument("--program", default=os.path.join(TOP, "crates", "hygienic", "out", "hygienic"))
    words.add_argument("--trips", type=int, default=30000)
    words.add_argument("--calls", type=int, default=4_000_000)
    words = words.parse_args()
    serve, cat = Talk(words.program, "serve"), Talk("cat")
    header = serve.line()
    serve.ask(b"0 join\n")
    first = serve.memory()
    own, plain = [], []
    for _ in range(ROUNDS):
        own += serve.trips(words.trips // ROUNDS)
        plain += cat.trips(words.trips // ROUNDS)
    told("a call over a pipe", own)
    told("a line to cat", plain)
    batch = b"".join(CALLS) * MEALS_IN_A_BATCH
    owed = len(b"".join(call[:-1] + b" -> done\n" for call in CALLS)) * MEALS_IN_A_BATCH
    rounds = max(1, words.calls // (len(CALLS) * MEALS_IN_A_BATCH))
    began = time.perf_counter()
    for _ in range(rounds):
        os.write(serve.sink, batch)
        left = owed
        while left:
            left -= len(os.read(serve.source, 65536))
    seconds = time.perf_counter() - began
    calls = rounds * len(CALLS) * MEALS_IN_A_BATCH
    print(f"calls in batches         {calls / seconds / 1e6:.2f} million a second, over {calls} calls")
    after = serve.memory()
    for _ in range(max(1, calls // len(LONG_PIECE))):
        os.write(serve.sink, LONG_PIECE)
    serve.ask(b"\n")
    print(f"resident memory          {first} KiB at first, {after} KiB after these, {serve.memory()} KiB after a line of so many bytes")
    status = (header[:6], serve.end(), cat.end())
    if status != (b"dine 2", 2, 0):
        print(f"it ended with {status}", file=sys.stderr)
        return 1
    return 0


if __name__ == "__main__":
    sys.exit(main())
