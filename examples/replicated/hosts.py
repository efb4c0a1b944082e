"""Hosts of their own at one bridge, each a network namespace with a link that can be cut. Standard library only.

It takes Linux, with `ip` of iproute2 and with `unshare` and `nsenter` of util-linux. Who makes hosts is in a network namespace
itself, from which no link leads outside. Root may make one, and anybody as the root of a user namespace, if the kernel lets.
Nothing of it is seen from outside or has a name there, and all of it is gone once its processes are.
"""
import contextlib
import itertools
import subprocess

SECONDS = 20
# As the caller is, and as the root of a user namespace.
WAYS = ((), ("--user", "--map-root-user"))
NUMBERS = itertools.count(1)


class Lacking(Exception):
    """Something isn't here that a test needs."""


class Apart:
    """Whether the process is in a network namespace of its own, and why not."""

    refusal = "this is the machine's own network"

    @classmethod
    def words(cls, *command):
        """The words that run a command in a network namespace of its own with a loopback, or None if there can be none."""
        reasons = []
        for way in WAYS:
            words = ["unshare", *way, "--net", "--", "sh", "-c", 'ip link set lo up && exec "$@"', "sh"]
            try:
                done = subprocess.run([*words, "true"], capture_output=True, text=True, timeout=SECONDS, check=False)
            except OSError as why:
                reasons.append(str(why))
                continue
            if done.returncode == 0:
                return [*words, *command]
            reasons.append(done.stderr.strip())
        cls.refusal = f"there is no network namespace for the hosts: {'; '.join(reasons)}"
        return None


def ip(*lines, host=()):
    """Does what these lines of `ip` say, at a host."""
    text = "".join(line + "\n" for line in lines)
    done = subprocess.run([*host, "ip", "-batch", "-"], input=text, capture_output=True, text=True, timeout=SECONDS, check=False)
    if done.returncode:
        raise Lacking(f"{'; '.join(lines)}: {done.stderr.strip()}")


class Host:
    """A host at a bridge, which is there as long as its process. `words` begin the commands that run there."""

    def __init__(self, bridge, address):
        self.address, self.link = address, f"link{address.rsplit('.', 1)[1]}.{bridge}"
        self.process = subprocess.Popen(["unshare", "--net", "--", "cat"], stdin=subprocess.PIPE, stdout=subprocess.PIPE)
        try:
            # It has its namespace by the time that it answers. Its input ends with whoever has started it.
            self.process.stdin.write(b"\n")
            self.process.stdin.flush()
            self.process.stdout.readline()
            self.words = ["nsenter", f"--net=/proc/{self.process.pid}/ns/net", "--"]
            ip(f"link add {self.link} type veth peer name eth0 netns {self.process.pid}", f"link set {self.link} master {bridge} up")
            ip("link set lo up", f"address add {address}/24 dev eth0", "link set eth0 up", host=self.words)
        except BaseException:
            self.close()
            raise

    def cut(self):
        """Nothing reaches it, and it reaches nobody."""
        ip(f"link set {self.link} down")

    def mend(self):
        """It is reached again."""
        ip(f"link set {self.link} up")

    def close(self):
        """It is gone, and its link."""
        self.process.stdin.close()
        self.process.wait(SECONDS)
        self.process.stdout.close()


@contextlib.contextmanager
def hosts_of(count):
    """So many hosts at a bridge, which is in the namespace of this process."""
    if Apart.refusal:
        raise Lacking(Apart.refusal)
    number = next(NUMBERS)
    bridge, net = f"bridge{number}", f"10.83.{number}"
    ip(f"link add {bridge} type bridge", f"address add {net}.254/24 dev {bridge}", f"link set {bridge} up")
    with contextlib.ExitStack() as kept:
        kept.callback(ip, f"link delete {bridge}")
        hosts = []
        for at in range(count):
            hosts.append(Host(bridge, f"{net}.{at + 1}"))
            kept.callback(hosts[-1].close)
        yield hosts
