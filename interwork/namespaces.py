"""Network namespaces, which are removed at the end. They need root, iproute2 and nftables."""
import ctypes
import itertools
import os
import re
import shutil
import subprocess

CLONE_NEWNET = 0x40000000
PREFIX = f"iw{os.getpid()}n"
_numbers = itertools.count()


def run(*words, **options):
    """Runs a command, and returns its standard output. RuntimeError if it fails."""
    ran = subprocess.run(words, capture_output=True, text=True, **options)
    if ran.returncode != 0:
        raise RuntimeError(f"{' '.join(words)}: {ran.stderr.strip()}")
    return ran.stdout


def why_not():
    """Why there can be no namespaces, or None."""
    if os.geteuid() != 0:
        return "needs root"
    if shutil.which("ip") is None:
        return "needs iproute2"
    spaces = Namespaces()
    try:
        spaces.add()
    except RuntimeError as error:
        return f"no network namespaces: {error}"
    finally:
        spaces.close()
    return None


def existing(pattern):
    """The names of namespaces that match."""
    if shutil.which("ip") is None:
        return []
    names = [line.split()[0] for line in run("ip", "netns", "list").splitlines() if line]
    return [name for name in names if re.fullmatch(pattern, name)]


def left_over():
    """The namespaces of this process that still exist."""
    return existing(PREFIX + r"\d+")


def remove_old():
    """Removes namespaces of an earlier run that was killed."""
    for name in existing(r"iw\d+n\d+"):
        if not os.path.exists("/proc/" + re.match(r"iw(\d+)", name)[1]):
            run("ip", "netns", "del", name)


def enter_own():
    """Takes this process into a network namespace of its own, with a loopback interface, if it is root's. It ends with the process and its
    children."""
    if os.geteuid() == 0 and ctypes.CDLL(None).unshare(CLONE_NEWNET) == 0:
        run("ip", "link", "set", "lo", "up")


class Namespaces:
    """The namespaces of a network."""

    def __init__(self):
        self.names = []

    def add(self):
        """Creates a namespace whose loopback interface is up, and returns its name."""
        name = f"{PREFIX}{next(_numbers)}"
        run("ip", "netns", "add", name)
        self.names.append(name)
        self.on(name, "ip link set lo up")
        return name

    def on(self, name, command):
        """Runs a command in a namespace."""
        return run("ip", "netns", "exec", name, *command.split())

    def address(self, name, address, device):
        self.on(name, f"ip addr add {address} dev {device}" + (" nodad" if ":" in address else ""))

    def rules(self, name, text):
        """Adds rules of nftables."""
        run("ip", "netns", "exec", name, "nft", "-f", "-", input=text)

    def cable(self, a, name_a, address_a, b, name_b, address_b):
        """Joins two namespaces by a pair of interfaces."""
        run("ip", "link", "add", name_a, "netns", a, "type", "veth", "peer", "name", name_b, "netns", b)
        for namespace, name, address in ((a, name_a, address_a), (b, name_b, address_b)):
            self.on(namespace, f"ip link set {name} up")
            self.address(namespace, address, name)

    def close(self):
        """Removes all."""
        while self.names:
            subprocess.run(["ip", "netns", "del", self.names.pop()], capture_output=True)
