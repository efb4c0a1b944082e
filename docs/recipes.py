"""The recipes of the guide that need only the program: tests for docs/check.

A block of the guide that begins with `#!/bin/sh` is a script, whose second line has its name. Each is run as it is, with the program
as `hygienic` on the path. Standard library only.
"""
import contextlib
import os
import re
import shutil
import subprocess
import sys
import tempfile

TOP = os.path.dirname(os.path.dirname(os.path.abspath(__file__)))
SECONDS = 60
SCRIPT = "#!/bin/sh"
# An answer to this is as long as one of a call can be.
LONGEST = "4294967295 conflict 4095.18446744073709551615 4094.18446744073709551615\n"


class Wrong(Exception):
    """A recipe doesn't do what the guide says, for this reason."""


def same(what, found, wanted):
    """Two things are the same."""
    if found != wanted:
        raise Wrong(f"{what}: {found!r} where {wanted!r} is wanted")


def text_of(*path):
    """The text of a file of the repository."""
    with open(os.path.join(TOP, *path), encoding="utf-8") as text:
        return text.read()


class Bench:
    """A folder with the program as `hygienic`, the examples and the guide's scripts, and what runs there."""

    def __init__(self, program, blocks, folder):
        self.guide, self.folder = text_of("docs", "GUIDE.md"), folder
        os.symlink(program, self.path("hygienic"))
        shutil.copytree(os.path.join(TOP, "examples"), self.path("examples"))
        self.scripts = {block[1].split()[1]: block for block in blocks if block[0] == SCRIPT}
        for name, block in self.scripts.items():
            with open(self.path(name), "w", encoding="utf-8") as file:
                file.write("\n".join(block) + "\n")

    def path(self, name):
        """A file of the folder."""
        return os.path.join(self.folder, name)

    def run(self, *words, given="", status=0):
        """What a command prints. It ends with this status."""
        places = {**os.environ, "PATH": self.folder + os.pathsep + os.environ["PATH"]}
        done = subprocess.run(
            words, cwd=self.folder, input=given, capture_output=True, text=True, timeout=SECONDS, check=False, env=places
        )
        if done.returncode != status:
            raise Wrong(f"{' '.join(words)}: status {done.returncode} where {status} is wanted\n{done.stdout}{done.stderr}")
        return done.stdout

    def shown(self, lead):
        """The block of the guide behind the one line that ends so."""
        parts = self.guide.split(f"{lead}\n\n")
        same(f"how often the guide has {lead!r}", len(parts) - 1, 1)
        return "".join(line[4:] + "\n" for line in re.match(r"(?:    .*\n)*", parts[1])[0].splitlines())


def scripts_are_tested(bench):
    """Each script of the guide has a test below."""
    same("the guide's scripts", sorted(bench.scripts), ["anew.sh", "audit.sh", "resume.sh"])


def audit_ends_with_the_status(bench):
    """An audit in CI ends with the audit's status, and keeps a wrong journal's beginning, which has the same verdict."""
    same("a legal journal", bench.run("sh", "audit.sh", "examples/journal.txt"), "legal 9\novertakes 0\n")
    verdict = bench.run("sh", "audit.sh", "examples/wrong_journal.txt", status=1)
    same("what is kept", bench.run("hygienic", "audit", "examples/wrong_journal.txt.wrong", status=1), verdict)
    same("the kept journal's beginning", bench.run("sh", "-c", "head -n -1 examples/wrong_journal.txt.wrong | hygienic audit"),
         f"legal {int(verdict.split()[1]) - 1}\novertakes 0\n")
    bench.run("sh", "audit.sh", "examples/torn_journal.txt", status=2)
    bench.run("sh", "audit.sh", "examples/nobody.txt", status=3)


def edges(graph):
    """The conflicts of a graph, with its tasks numbered in their order."""
    number = {name: at for at, name in enumerate(re.findall(r'^  "(\S+)" \[label', graph, re.MULTILINE))}
    return len(number), [(number[one], number[other]) for one, other in re.findall(r'"(\S+)" -> "(\S+)"', graph)]


def anew_sets_the_same_table(bench):
    """The requests for a new journal make a table with the same order of last meals and the same conflicts."""
    for example in ("changing_graph", "turns", "newcomer", "guests"):
        words = ("race", "--journal") if example == "guests" else ("run", "--journal")
        with open(bench.path("old.journal"), "w", encoding="utf-8") as file:
            file.write(bench.run("hygienic", *words, f"examples/{example}.txt"))
        asked = bench.run("sh", "anew.sh", "old.journal")
        journal = bench.run("hygienic", "serve", given=asked)
        same(f"{example}: the calls that are refused", "refused" in journal, False)
        bench.run("hygienic", "audit", given=journal)
        old = edges(bench.run("hygienic", "chart", "--dot", "old.journal"))
        same(f"{example}: the table", edges(bench.run("hygienic", "chart", "--dot", given=journal)), old)


def resume_appends_and_answers(bench):
    """Who goes on with a journal gets each answer, and the journal gets each entry, also behind a torn line."""
    whole, more = text_of("examples", "journal.txt"), text_of("examples", "serve", "more.txt")
    with open(bench.path("dine.journal"), "w", encoding="utf-8") as file:
        file.write(whole + "0 finish 1.")
    answers = bench.shown("./hygienic serve --resume examples/journal.txt < examples/serve/more.txt")
    same("the answers", bench.run("sh", "resume.sh", "dine.journal", given=more), answers)
    with open(bench.path("dine.journal"), encoding="utf-8") as file:
        kept = file.read()
    same("the journal", kept, whole + "".join(line for line in answers.splitlines(True) if line[0] not in "?!="))
    bench.run("hygienic", "audit", "dine.journal")
    for journal, status, answers in (("wrong_journal", 1, ""), ("old_journal", 0, "fault version\n")):
        shutil.copy(os.path.join(TOP, "examples", f"{journal}.txt"), bench.path("dine.journal"))
        same(f"the answers behind {journal}", bench.run("sh", "resume.sh", "dine.journal", given=more, status=status), answers)
        with open(bench.path("dine.journal"), encoding="utf-8") as file:
            same(journal, file.read(), text_of("examples", f"{journal}.txt"))


def served_unread(bench, count, seconds):
    """The answers to so many requests whose client reads only at the end, or None if the program waits for it so long."""
    with open(bench.path("asked"), "w+", encoding="utf-8") as asked:
        asked.write(LONGEST * count)
        asked.seek(0)
        with subprocess.Popen([bench.path("hygienic"), "serve"], stdin=asked, stdout=subprocess.PIPE, text=True) as serving:
            with contextlib.suppress(subprocess.TimeoutExpired):
                serving.wait(seconds)
                return serving.stdout.read().splitlines()
            serving.kill()
    return None


def requests_under_way_fit(bench):
    """As many requests as the guide says may be under way, however long; far more make the program wait."""
    number = int(re.search(r"at most (\d+) requests under way", bench.guide)[1])
    same("the answers", len(served_unread(bench, number, SECONDS) or []), 1 + number)
    same("the answers to more than a pipe holds", served_unread(bench, 800, 2), None)


def tick_over_a_pipe(bench):
    """A scheduler's tick over a pipe prints what the guide says."""
    script = os.path.join(TOP, "examples", "serve", "tick.py")
    same("what it prints", bench.run(sys.executable, script), bench.shown("Each of the five prints:"))


TESTS = (
    scripts_are_tested,
    audit_ends_with_the_status,
    anew_sets_the_same_table,
    resume_appends_and_answers,
    requests_under_way_fit,
    tick_over_a_pipe,
)


def check_recipes(program, blocks):
    """How many of the recipes do what the guide says, whose blocks these are, and what is wrong with the others."""
    wrong = []
    for test in TESTS:
        with tempfile.TemporaryDirectory() as folder:
            try:
                test(Bench(program, blocks, folder))
            except (Wrong, OSError, subprocess.SubprocessError) as why:
                wrong.append(f"{test.__name__}: {why}")
    return len(TESTS) - len(wrong), wrong
