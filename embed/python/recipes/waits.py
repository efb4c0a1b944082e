"""Why does my task wait? An arbiter tells for whom."""
import dine


def main() -> None:
    arbiter = dine.Arbiter()
    scan, fax, copy = (arbiter.join() for _ in range(3))
    names = {scan: "scan", fax: "fax", copy: "copy"}
    arbiter.conflict(scan, fax)
    arbiter.conflict(fax, copy)
    for task in (scan, fax, copy):
        arbiter.hungry(task)
    arbiter.begin(scan)
    for task in (fax, copy):
        print(names[task], "waits for", *(names[other] for other in arbiter.blockers(task)))


if __name__ == "__main__":
    main()
