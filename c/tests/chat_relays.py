"""Tests that a chat program connects two machines behind symmetric NATs through a TURN server, by one pasted line each.

usage: chat_relays.py [--case CASE].. PROGRAM [WORD ..]      runs `PROGRAM WORD .. controlling -t URL -u USER -w PASSWORD` and the other

Each machine is a network namespace behind a NAT of Linux (nftables) that takes another port for each destination. Both reach the server,
coturn, and nothing else leads from one to the other. It needs root, iproute2, nftables and coturn (Debian: `coturn`, `nftables`).

  without     with a STUN server only, they find no path: so the other cases are of use
  udp         both over UDP: they find a path through the server, and hear each other
  tcp         both over TCP to the server
  mixed       one over UDP, the other one over TCP
  blocked     the network of one lets no UDP out: it takes the server over TCP of two that it is given
  restarts    ICE restarts of both, with lines under way: all arrive
  moved       one machine gets another address: with new signals they find a path again
  lost        the server is started again: both find out, and with a new signal they find a path again
  redirected  the server that they are given, over UDP and TCP, names another one: both go on at that one

These are played only if they are named, for a program with TLS, from networks that let no UDP out. They need openssl, which makes the
certificate of the server:

  tls             both over TLS; SSL_CERT_FILE names the certificate
  untrusted       who does not trust the certificate says so, and has no relayed candidate
  misnamed        who trusts the certificate of another address says so, and has none
  tls_redirected  the server names another one, whose certificate names the first one: both go on at that one

Prints a line for each. The status is 0 if none failed, or if they cannot be played here, as it says.
"""
import pathlib
import shutil
import subprocess
import sys
import time

import chat_lines
import connect
from chat import end
from connect import ROLES, Failed, Peer, introduce

sys.dont_write_bytecode = True
sys.path.append(str(pathlib.Path(__file__).resolve().parents[2] / "interwork"))
import namespaces
import networks
import servers

SERVER, TLS_PORT = f"{servers.ADDRESS}:{servers.PORT}", 5349
UDP, TCP = f"turn:{SERVER}", f"turn:{SERVER}?transport=tcp"
USER, PASSWORD = servers.USER.split(":")
NO_UDP = """
    table ip blocked {
      chain forward { type filter hook forward priority -1; ip protocol udp drop; }
    }"""


def chats(network, *urls, before=()):
    """Two of them, each behind its NAT, with these URLs of servers, or the list of each. `before`: words before those of the command."""
    connect.PEER = "ip"
    lists = urls if isinstance(urls[0], tuple) else (urls, urls)
    sides = []
    for namespace, role, each in zip(network.namespaces, ROLES, lists):
        options = [word for url in each for word in ("-t" if url.startswith("turn") else "-s", url)]
        words = [*before, sys.argv[1], *sys.argv[2:], role, *options, "-u", USER, "-w", PASSWORD]
        sides.append(Peer("netns", "exec", namespace, *words))
    return sides


def through_the_server(a, b, ip=servers.ADDRESS):
    """Both find a path that begins or ends at the server, and hear each other."""
    paths = [side.says("path ").split(" -> ") for side in (a, b)]
    if not all(any(address.startswith(ip + ":") for address in path) for path in paths):
        raise Failed(f"{paths}")
    talk(a, b)


def talk(a, b):
    for one, other in ((a, b), (b, a)):
        one.hears("good morning")
        if other.says("heard ") != "good morning":
            raise Failed(f"{other.told}")


def met(network, *urls):
    a, b = chats(network, *urls)
    introduce(a, b)
    through_the_server(a, b)
    return a, b


def case_without(network):
    a, b = chats(network, f"stun:{SERVER}")
    signals = [side.says("signal ") for side in (a, b)]
    if not all(" typ srflx" in signal for signal in signals):
        raise Failed(f"no server-reflexive candidate: {signals}")
    a.hears("signal " + signals[1])
    b.hears("signal " + signals[0])
    for side in (a, b):
        try:
            path = side.says("path ", 5)
        except Failed:
            continue
        raise Failed(f"a path without a relay: {path}")


def case_udp(network):
    end(*met(network, UDP))


def case_tcp(network):
    end(*met(network, TCP))


def case_mixed(network):
    end(*met(network, (UDP,), (TCP,)))


def case_blocked(network):
    network.spaces.rules(network.nats[0], NO_UDP)
    end(*met(network, UDP, TCP))


def case_restarts(network):
    a, b = met(network, UDP)
    lines = chat_lines.Lines(a, b)
    for number in range(3):
        one, other = (a, b) if number % 2 else (b, a)
        one.hears("/restart")
        lines.say()
        chat_lines.carry(one, other)
        lines.say()
        chat_lines.carry(other, one)
        lines.say()
        for side in (a, b):
            side.says("path ")
        lines.say()
        lines.arrive()
    end(a, b)


def case_moved(network):
    a, b = met(network, UDP, TCP)
    moved = network.namespaces[0]
    for command in ("ip addr del 10.0.1.2/24 dev e0", "ip addr add 10.0.1.3/24 dev e0", "ip route add default via 10.0.1.1"):
        network.spaces.on(moved, command)
    said = a.says("signal ")
    if " 10.0.1.3 " not in said or said.count(" typ relay") != 2:
        raise Failed(said)
    b.hears("signal " + said)
    a.hears("signal " + b.says("signal "))
    through_the_server(a, b)
    end(a, b)


def case_lost(network):
    a, b = met(network, UDP)
    network.server.kill()
    network.server.wait()
    time.sleep(1)
    network.start_server()
    for side in (a, b):
        side.says("state Disconnected")
    for side in (a, b):  # the library's line of the event
        while "ended, lost" not in side.says("server "):
            pass
    end(a, b)


def case_redirected(network):
    at = network.coturn(servers.SECOND_ADDRESS, servers.PORT, "--no-tls", "--alternate-server", SERVER)
    a, b = met(network, (f"turn:{at}",), (f"turn:{at}?transport=tcp",))
    end(a, b)


CASES = {name.removeprefix("case_"): case for name, case in list(globals().items()) if name.startswith("case_")}


# ---- cases of programs that have TLS

def over_tls(network, *options, is_trusted=True):
    """Two of them in networks that let no UDP out, with a server over TLS that has these options and the certificate."""
    for nat in network.nats:
        network.spaces.rules(nat, NO_UDP)
    url = f"turns:{network.coturn(servers.SECOND_ADDRESS, TLS_PORT, *network.identity, *options)}"
    return chats(network, url, before=("env", f"SSL_CERT_FILE={network.certificate}") if is_trusted else ())


def refuses(side, why):
    if why not in (said := side.says("peer: TLS: ")) or " typ relay" in (said := side.says("signal ")):
        raise Failed(said)


def with_tls_tls(network):
    network.certify(servers.SECOND_ADDRESS)
    a, b = over_tls(network)
    introduce(a, b)
    through_the_server(a, b, servers.SECOND_ADDRESS)
    end(a, b)


def with_tls_tls_redirected(network):
    network.certify(servers.SECOND_ADDRESS)
    other = network.coturn(servers.ADDRESS, TLS_PORT, "-p", "3479", *network.identity)
    a, b = over_tls(network, "--tls-alternate-server", other)
    introduce(a, b)
    through_the_server(a, b)
    end(a, b)


def with_tls_untrusted(network):
    network.certify(servers.SECOND_ADDRESS)
    for side in over_tls(network, is_trusted=False):
        refuses(side, "self-signed certificate")


def with_tls_misnamed(network):
    network.certify(servers.ADDRESS)
    for side in over_tls(network):
        refuses(side, "IP address mismatch")


WITH_TLS = {name.removeprefix("with_tls_"): case for name, case in list(globals().items()) if name.startswith("with_tls_")}


class Nats(networks.Nats):
    """The network, which knows the namespaces of its NATs, and may have more servers."""

    def __init__(self, *kinds):
        super().__init__(*kinds)
        self.more, self.nats = [], []

    def certify(self, named):
        """Makes a certificate that names this address. `identity`: the options of coturn for it."""
        self.certificate, key = f"{self.folder.name}/certificate", f"{self.folder.name}/key"
        made = ["openssl", "req", "-x509", "-newkey", "rsa:2048", "-nodes", "-subj", "/CN=test", "-addext", f"subjectAltName=IP:{named}",
                "-keyout", key, "-out", self.certificate]
        subprocess.run(made, check=True, capture_output=True)
        self.identity = ["--cert", self.certificate, "--pkey", key]

    def coturn(self, address, port, *options):
        """Starts one more coturn, waits until it takes connections at this port, and returns where it is."""
        place, quiet = f"{self.folder.name}/{len(self.more)}", subprocess.DEVNULL
        usual = f"-n -L {address} -E {address} --lt-cred-mech -u {servers.USER} -r realm --no-dtls --no-cli --log-file /dev/null" \
                f" --simple-log --pidfile {place}.pid --db {place}.db --allow-loopback-peers"
        inside = ["ip", "netns", "exec", self.public]
        self.more.append(subprocess.Popen([*inside, "unshare", "--pid", "--fork", "--kill-child", "turnserver", *usual.split(), *options],
                                          stdin=quiet, stdout=quiet, stderr=quiet))
        namespaces.run(*inside, sys.executable, servers.__file__, address, str(port))
        return f"{address}:{port}"

    def close(self):
        for process in self.more:
            process.kill()
            process.wait()
        super().close()

    def add_host(self, index, kind):
        host = super().add_host(index, kind)
        self.nats.append(self.spaces.names[-1])
        return host


def why_not():
    for program, package in (("nft", "nftables"), ("turnserver", "coturn")):
        if shutil.which(program) is None:
            return f"needs {package}"
    return namespaces.why_not()


def played(name):
    """Plays a case, and returns 1 if it failed."""
    try:
        with Nats("symmetric", "symmetric") as network:
            try:
                {**CASES, **WITH_TLS}[name](network)
            finally:
                for process in Peer.runs:
                    process.kill()
                    process.wait()
    except Failed as why:
        print(f"{name}: FAILED, {why}", flush=True)
        return 1
    print(f"{name}: ok", flush=True)
    return 0


def main():
    names = []
    while sys.argv[1:2] == ["--case"]:
        names.append(sys.argv[2])
        del sys.argv[1:3]
    if len(sys.argv) < 2:
        sys.exit(__doc__)
    why = why_not()
    if why:
        print(f"skipped, {why}")
        return 0
    namespaces.remove_old()
    failed = sum(played(name) for name in names or CASES)
    return 1 if failed else 0


if __name__ == "__main__":
    sys.exit(main())
