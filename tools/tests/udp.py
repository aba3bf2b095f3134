"""What the tests of nodes over UDP share: namespaces, or else the host's own addresses, and runs of four nodes."""

import atexit
import os
import re
import shutil
import subprocess
import sys
import tempfile
import time

from tests.common import HERE, WITHIN, Wrong
from tests.nodes import NodesInC, compilers, folder, scenario_lines

UDP = ["udp/node.c", "udp/options.c", "udp/outgoing.c", "udp/peers.c", "pals_message.c"]


def run_ip(*words):
    """Runs `ip`, and gives whether it succeeded."""
    return subprocess.run(["ip", *words], stdout=subprocess.DEVNULL, stderr=subprocess.DEVNULL, timeout=WITHIN,
                          check=False).returncode == 0


class Network:
    """A namespace for each node and one for the proxy, joined by a bridge; one host, if namespaces are not allowed."""

    def __init__(self, count):
        self.names = [f"pals{os.getpid()}n{number}" for number in range(count)]
        self.switch = f"pals{os.getpid()}sw"
        self.apart = bool(shutil.which("ip")) and os.geteuid() == 0 and self.add()
        self.host = "10.77.0.254" if self.apart else "127.0.0.1"

    def add(self):
        """Makes the namespaces; False if one of them cannot be made."""
        good = run_ip("netns", "add", self.switch) and \
            run_ip("-n", self.switch, "link", "add", "br0", "type", "bridge") and \
            run_ip("-n", self.switch, "link", "set", "br0", "up") and \
            run_ip("-n", self.switch, "addr", "add", "10.77.0.254/24", "dev", "br0")
        for number, name in enumerate(self.names, 1):
            good = good and run_ip("netns", "add", name) and \
                run_ip("-n", self.switch, "link", "add", f"v{number}", "type", "veth", "peer", "name", "e0", "netns",
                       name) and \
                run_ip("-n", self.switch, "link", "set", f"v{number}", "master", "br0", "up") and \
                run_ip("-n", name, "addr", "add", f"10.77.0.{number}/24", "dev", "e0") and \
                run_ip("-n", name, "link", "set", "e0", "up") and run_ip("-n", name, "link", "set", "lo", "up")
        if not good:
            self.remove()
        return good

    def remove(self):
        """Removes the namespaces."""
        for name in (*self.names, self.switch):
            run_ip("netns", "del", name)

    def inside(self, number):
        """The words before a command in the namespace of a node, or of the proxy (None)."""
        name = self.switch if number is None else self.names[number]
        return ["ip", "netns", "exec", name] if self.apart else []

    def address(self, number, run):
        """The address and the port of a node in a run."""
        return (f"10.77.0.{number + 1}", 5000 + run) if self.apart else ("127.0.0.1", 25000 + 16 * run + number)


def memory_folder():
    """A folder in memory if the system has one: a disk may block a node that writes its record for milliseconds."""
    memory = "/dev/shm"
    if not os.access(memory, os.W_OK):
        return folder()
    path = tempfile.mkdtemp(dir=memory)
    atexit.register(shutil.rmtree, path, True)
    return path


def udp_program(listing):
    """The program of the nodes of a listing over UDP."""
    return NodesInC(listing, compilers()[0], ["-O2"]).program(UDP[0], *UDP[1:]).path


class Run:
    """A run of the nodes, begun at once. The proxy passes their messages on, with `faults`, or if `direct` they send
    to each other. `words` and `programs` are of nodes by number, and `kill` and `delay` give when a node is killed,
    or started, in seconds after the start."""

    def __init__(self, network, number, program, paths, given, **more):
        self.network, self.number, self.paths, self.given, self.more = network, number, paths, given, more
        self.where = os.path.join(memory_folder(), f"udp{number}")
        os.makedirs(os.path.join(self.where, "records"))
        places = [network.address(at, number) for at in range(len(paths))]
        base = 30000 + 100 * number
        self.proxy = None if more.get("direct") else self.begin_proxy(places, base)
        for one in range(len(paths)):
            with open(os.path.join(self.where, f"peers{one}"), "w", encoding="ascii") as file:
                for other, path in enumerate(paths):
                    passed_on = self.proxy and one != other
                    address, port = (network.host, base + 16 * one + other) if passed_on else places[other]
                    file.write(f"{path} {address} {port}\n")
        self.start = time.clock_gettime_ns(time.CLOCK_MONOTONIC) + 500_000_000
        delays = more.get("delay", {})
        self.nodes = {at: self.begin(at, program) for at in range(len(paths)) if at not in delays}
        self.later = {at: (self.start + int(seconds * 1e9), program) for at, seconds in delays.items()}
        self.kills = {at: self.start + int(seconds * 1e9) for at, seconds in more.get("kill", {}).items()}

    def begin_proxy(self, places, base):
        """Begins the proxy, whose first port is given."""
        proxy = subprocess.Popen(
            [*self.network.inside(None), sys.executable, os.path.join(HERE, "tests", "udp_proxy.py"), self.network.host,
             str(base), ",".join(f"{address}:{port}" for address, port in places), *self.more.get("faults", [])],
            stdin=subprocess.PIPE, stdout=subprocess.PIPE)
        proxy.stdout.readline()
        return proxy

    def begin(self, at, program):
        """Begins one node."""
        path = self.paths[at]
        words = [self.more.get("programs", {}).get(at, program), path, os.path.join(self.where, f"peers{at}"),
                 str(self.start), os.path.join(self.where, "records", path), *self.more.get("words", {}).get(at, [])]
        before = ["chrt", "-f", "20"] if shutil.which("chrt") and os.geteuid() == 0 else []
        ran = subprocess.Popen([*self.network.inside(at), *before, *words], stdin=subprocess.PIPE,
                               stderr=subprocess.PIPE)
        ran.stdin.write(scenario_lines(self.given).encode())
        ran.stdin.close()
        return ran

    def turn(self):
        """Kills and starts the nodes that are due."""
        now = time.clock_gettime_ns(time.CLOCK_MONOTONIC)
        for at in [at for at, due in self.kills.items() if due <= now]:
            self.nodes[at].kill()
            del self.kills[at]
        for at in [at for at, (due, _) in self.later.items() if due <= now]:
            self.nodes[at] = self.begin(at, self.later.pop(at)[1])

    def waits(self):
        """Whether a node is still to be killed or started."""
        return bool(self.kills or self.later)

    def end(self):
        """The statuses and the texts on standard error of the nodes, by number."""
        ends = {}
        for at, ran in self.nodes.items():
            said = ran.stderr.read().decode()
            ends[at] = ran.wait(WITHIN), said
        if self.proxy:
            self.proxy.stdin.close()
            if self.proxy.wait(WITHIN):
                raise Wrong("the proxy failed")
            self.proxy.stdout.close()
        return ends


def changed_listing(listing):
    """A listing of another design: a limit of its code is another one."""
    return re.sub(r"(?m)^(  \d+ Push) 1$", r"\1 2", listing, count=1)
