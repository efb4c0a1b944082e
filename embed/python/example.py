"""Two jobs that must not run at the same time, each in a thread that waits for its turn."""
import threading

import dine


def main() -> None:
    arbiter = dine.Broker(tasks=64, conflicts=256)
    printing, scanning = arbiter.join(), arbiter.join()
    arbiter.conflict(printing, scanning)

    def job(task: dine.Task) -> None:
        with arbiter.meal(task):
            print("a job runs alone")

    threads = [threading.Thread(target=job, args=(task,)) for task in (printing, scanning)]
    for thread in threads:
        thread.start()
    for thread in threads:
        thread.join()


if __name__ == "__main__":
    main()
