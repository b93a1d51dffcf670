"""The networks: loopback, two hosts with a cable, with a lossy wire, with NATs, or with NATs and a distance between them.

A network has for each side a namespace, or None for the machine's own, and the options that its programs need there.
"""
import os
import random
import subprocess
import sys
import tempfile
from pathlib import Path

import servers
from namespaces import Namespaces, run

here = Path(__file__).resolve().parent
LOOPBACK_ADDRESSES = ("10.9.0.1/32", "10.9.0.2/32", "10.9.0.3/32", "fd00::1/128", "fd00::2/128")
HOST_ADDRESSES = (("10.7.0.1", "fd07::1"), ("10.7.0.2", "fd07::2"))
KINDS = ("none", "cone", "port", "symmetric")


class Network:
    """Exists within a `with` statement. `namespaces` and `options` have an entry for each side."""

    same_path = True  # whether the path of each side is that of the other, reversed

    def __init__(self):
        self.spaces, self.namespaces, self.options = Namespaces(), [], []

    def __enter__(self):
        try:
            self.build()
        except BaseException:
            self.close()
            raise
        return self

    def __exit__(self, *_):
        self.close()

    def close(self):
        self.spaces.close()


class Loopback(Network):
    """A namespace whose loopback interface has several addresses, or without root the machine's own loopback interface."""

    def __init__(self, with_namespace=True):
        super().__init__()
        self.with_namespace = with_namespace

    def build(self):
        namespace = self.spaces.add() if self.with_namespace else None
        for address in LOOPBACK_ADDRESSES if self.with_namespace else ():
            self.spaces.address(namespace, address, "lo")
        self.namespaces, self.options = [namespace, namespace], [[], []]


class Hosts(Network):
    """Two hosts with a cable between them, and with an IPv4 and an IPv6 address each."""

    def build(self):
        self.namespaces, self.options = [self.spaces.add(), self.spaces.add()], [[], []]
        (a, b), (own, other) = self.namespaces, HOST_ADDRESSES
        self.spaces.cable(a, "e0", f"{own[0]}/24", b, "e0", f"{other[0]}/24")
        for namespace, addresses in zip(self.namespaces, HOST_ADDRESSES):
            self.spaces.address(namespace, f"{addresses[1]}/64", "e0")


class Carried(Network):
    """Two hosts, and a program of this folder that passes on what they send."""

    process = None

    def start(self, program, *words):
        """Starts it, and waits until it is ready."""
        self.process = subprocess.Popen([sys.executable, here / program, *words], stdin=subprocess.PIPE, stdout=subprocess.PIPE, text=True)
        if self.process.stdout.readline().strip() != "ready":
            raise RuntimeError(f"{program} did not start")

    def tell(self, line):
        """Passes a line to it."""
        self.process.stdin.write(line + "\n")
        self.process.stdin.flush()

    def ask(self, line):
        """Returns its answer to a line."""
        self.tell(line)
        return self.process.stdout.readline().strip()

    def close(self):
        if self.process:
            self.process.stdin.close()
            self.process.wait()
            self.process.stdout.close()
        super().close()


class Wire(Carried):
    """Two hosts with a wire between them that loses, delays, reorders and duplicates packets: wire.py passes them on. `tell` changes it:
    'loss 0.05', 'delay 0', 'dup 0', 'cut' or 'mend'."""

    addresses = ("10.8.0.1", "10.8.0.2")

    def __init__(self, loss, delay, duplicates, least=0.0):
        super().__init__()
        self.settings = f"loss={loss}", f"delay={delay}", f"dup={duplicates}", f"least={least}"

    def build(self):
        self.namespaces = [self.spaces.add(), self.spaces.add()]
        self.options = [["-a", address] for address in self.addresses]
        words = [word for pair in zip(self.namespaces, self.addresses) for word in pair]
        self.start("wire.py", *words, *self.settings)

    def counts(self):
        """What passed so far."""
        return self.ask("counts")


class Far(Carried):
    """Two hosts with NATs, delay, jitter and loss between them, all in distance.py. Each has so many addresses, of which one leads to the
    other host.

    The jitter is a fifth of the delay.
    """

    same_path = False

    def __init__(self, a, b, hosts, delay, loss):
        super().__init__()
        self.kinds, self.hosts = (a, b), hosts
        trace = os.environ.get("IS_ICE_TRACE")  # a file for a line about each packet
        self.settings = (f"delay={delay}", f"jitter={delay / 5}", f"loss={loss}", *([f"trace={trace}"] if trace else []))

    def build(self):
        self.namespaces = [self.spaces.add(), self.spaces.add()]
        self.addresses = [[f"198.51.100.{4 * side + 2}" if kind == "none" else f"10.0.{side + 1}.2",
                           *(f"172.{16 + side}.{number}.1" for number in range(1, self.hosts))] for side, kind in enumerate(self.kinds)]
        sides = ["/".join((*each, ",".join(addresses))) for *each, addresses in zip(self.namespaces, self.kinds, self.addresses)]
        self.start("distance.py", *sides, *self.settings)
        self.options = _InAnyOrder(self.addresses, self.kinds)

    def valid_at(self, username):
        """When the sender of checks with this USERNAME got a response to one, as time.monotonic(), or None."""
        said = self.ask(f"valid {username}")
        return None if said == "never" else float(said)


class _InAnyOrder:
    """The options of both sides, with the addresses in another order each time: the one that leads to the other side has any priority."""

    def __init__(self, addresses, kinds):
        self.sides = list(zip(addresses, kinds))

    def __iter__(self):
        for addresses, kind in self.sides:
            words = [word for address in random.sample(addresses, len(addresses)) for word in ("-a", address)]
            yield words if kind == "none" else [*words, "-s", f"{servers.ADDRESS}:{servers.PORT}"]


class Nats(Network):
    """Two hosts, each with its own NAT to a public network that has a STUN server, by default coturn, which is a TURN server too.

    none        the host has a public address
    cone        full cone: the source port is kept, and packets from anywhere to it are let in
    port        port-preserving: the source port is kept, and only responses are let in
    symmetric   another source port for each destination, and only responses are let in
    """

    same_path = False  # each side sees its own addresses, and the other's NAT

    def __init__(self, a, b, server="coturn"):
        super().__init__()
        self.kinds, self.server_name, self.server = (a, b), server, None

    def build(self):
        self.public = self.spaces.add()
        for address in (servers.ADDRESS, servers.SECOND_ADDRESS):
            self.spaces.address(self.public, address + "/32", "lo")
        self.spaces.on(self.public, "sysctl -qw net.ipv4.ip_forward=1")
        self.add_sink()
        for index, kind in enumerate(self.kinds):
            namespace, address = self.add_host(index, kind)
            self.namespaces.append(namespace)
            self.options.append(["-a", address, "-s", f"{servers.ADDRESS}:{servers.PORT}"])
        self.start_server()

    def add_sink(self):
        """Lets packets to private addresses vanish: coturn ends an allocation if sending fails with an error."""
        sink = self.spaces.add()
        self.spaces.cable(self.public, "sink", "192.0.2.1/30", sink, "e0", "192.0.2.2/30")
        self.spaces.on(self.public, "ip route add default via 192.0.2.2")

    def add_host(self, index, kind):
        """Adds a host with its NAT. Returns its namespace and its address."""
        outside, gateway = f"198.51.100.{4 * index + 2}", f"198.51.100.{4 * index + 1}"
        host = self.spaces.add()
        if kind == "none":
            self.spaces.cable(host, "e0", outside + "/30", self.public, f"w{index}", gateway + "/30")
            self.spaces.on(host, f"ip route add default via {gateway}")
            return host, outside
        nat = self.spaces.add()
        inner, own = f"10.0.{index + 1}.1", f"10.0.{index + 1}.2"
        self.spaces.cable(nat, "wan", outside + "/30", self.public, f"w{index}", gateway + "/30")
        self.spaces.cable(host, "e0", own + "/24", nat, "lan", inner + "/24")
        self.spaces.on(host, f"ip route add default via {inner}")
        self.spaces.on(nat, f"ip route add default via {gateway}")
        self.spaces.on(nat, "sysctl -qw net.ipv4.ip_forward=1")
        self.spaces.rules(nat, rules(kind, own))
        return host, own

    def start_server(self):
        """Starts the STUN server in a process namespace, so that nothing outlives it, and waits until it responds."""
        self.folder = tempfile.TemporaryDirectory(prefix="interwork")
        command, environment = servers.command(self.server_name, Path(self.folder.name))
        apart, quiet = ["unshare", "--pid", "--fork", "--kill-child"], subprocess.DEVNULL
        self.server = subprocess.Popen(["ip", "netns", "exec", self.public, *apart, *command], stdin=quiet, stdout=quiet, stderr=quiet,
                                       env={**os.environ, **environment})
        run("ip", "netns", "exec", self.public, sys.executable, str(here / "servers.py"))

    def close(self):
        if self.server:
            self.server.kill()
            self.server.wait()
            self.folder.cleanup()
        super().close()


def rules(kind, host):
    """The rules of nftables for a NAT of this kind, whose interface to the public network is wan."""
    forward = f"chain pre {{ type nat hook prerouting priority -100; iifname wan udp dport 1024-65535 dnat to {host}; }}"
    accept = "iifname wan ct status dnat accept;"
    filtered = "iifname wan ct state != { established, related } drop;"
    random = " fully-random" if kind == "symmetric" else ""
    is_cone = kind == "cone"
    return f"""
        table ip nat {{
          {forward if is_cone else ""}
          chain post {{ type nat hook postrouting priority 100; oifname wan masquerade{random}; }}
        }}
        table ip filter {{
          chain input {{ type filter hook input priority 0; {filtered} }}
          chain forward {{ type filter hook forward priority 0; {accept if is_cone else ""} {filtered} }}
        }}"""
