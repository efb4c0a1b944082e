#!/usr/bin/env python3
"""Two jobs that must not work at the same time, each in a thread that waits for its turn.

    example.py [PROGRAM]
"""
import sys
import threading

from broker import Broker


def main() -> None:
    with Broker.start(*sys.argv[1:], tasks=64, conflicts=256) as broker:
        printing, scanning = broker.join(), broker.join()
        broker.conflict(printing, scanning)

        def job(task):
            with broker.meal(task):
                print("a job works alone")

        threads = [threading.Thread(target=job, args=(task,)) for task in (printing, scanning)]
        for thread in threads:
            thread.start()
        for thread in threads:
            thread.join()


if __name__ == "__main__":
    main()
