"""Tests a chat program (examples/chat.c, and those of C++, Rust and Python): two runs of it, and the signaling between them.

usage: chat.py [--case CASE].. PROGRAM [WORD ..]      runs `PROGRAM WORD .. controlling -l` and the same with `controlled`

  chat      both find a path and hear each other; one makes an ICE restart, and the other one follows
  loss      one is killed: the other one says that checks were answered at first, and that consent for the path was lost, makes an ICE
            restart, and chats with a new run
  network   the machine gets another address: both make an ICE restart. It needs root, for a network namespace

These cases run at the same time, with a line for each; with --case only these. The status is 0 if none failed. IS_ICE_PATIENCE=4 waits
four times as long for each line, as for programs in an emulator.
"""
import os
import re
import shutil
import signal
import subprocess
import sys

import connect
from connect import ROLES, Failed, Peer, connected, introduce

# In a network namespace of its own: the one address of the machine, to which the route to 192.0.2.1 belongs, and then another one.
NETWORK = ("ip link set lo up; ip link add v0 type veth peer name v1; ip link set v0 up; ip link set v1 up;"
           "ip addr add 10.9.0.1/24 dev v0; ip route add default via 10.9.0.2")
MOVE = "ip addr add 10.9.1.1/24 dev v0; ip addr del 10.9.0.1/24 dev v0; ip route replace default via 10.9.1.2"
INSIDE = ["unshare", "--net", "sh", "-ec", f'{NETWORK}; exec "$@"', "sh"]


def chats(*options, roles=ROLES):
    connect.PEER = sys.argv[1]
    return [Peer(*sys.argv[2:], role, *options) for role in roles]


def meet(a, b):
    """Both find a path and hear each other. Returns the path."""
    path = connected(a, b)
    for one, other in ((a, b), (b, a)):
        one.hears("good morning")
        if other.says("heard ") != "good morning":
            raise Failed(f"{other.told}")
    return path


def end(a, b):
    """The first ends by a command, the other one with its input."""
    a.hears("/quit")
    b.run.stdin.close()
    for chat in (a, b):
        chat.ends()


def case_chat():
    a, b = chats("-l")
    introduce(a, b)
    meet(a, b)
    b.hears("/restart")
    a.hears("signal " + b.says("signal "))
    b.hears("signal " + a.says("signal "))
    meet(a, b)
    end(a, b)


def case_loss():
    a, b = chats("-l")
    introduce(a, b)
    path = " ".join(connected(a, b))
    b.run.send_signal(signal.SIGKILL)
    why = a.says("state Disconnected")
    answered, sent = map(int, re.fullmatch(r": (\d+) of (\d+) checks answered", why).groups())
    if not 0 < answered < sent:
        raise Failed(why)
    # Another pair may have been replaced before: of a check that came before the signal. A line of the library begins with a fragment.
    while not re.fullmatch(rf"(\S+: )?removed {re.escape(path)}( .*)?: consent lost", a.says("")):
        pass
    c, = chats("-l", roles=("controlled",))
    introduce(a, c)
    meet(a, c)
    end(a, c)


def case_network():
    a, b = chats()
    introduce(a, b)
    before = meet(a, b)
    subprocess.run(MOVE, shell=True, check=True)
    introduce(a, b)
    after = meet(a, b)
    if not before[0].startswith("10.9.0.1:") or not after[0].startswith("10.9.1.1:"):
        raise Failed(f"{before}, {after}")
    end(a, b)


CASES = {"chat": case_chat, "loss": case_loss, "network": case_network}


def played(name):
    """Runs a case, and returns the exit status."""
    try:
        CASES[name]()
    except Failed as why:
        print(f"{name}: FAILED, {why}")
        return 1
    finally:
        for process in Peer.runs:
            process.kill()
    print(f"{name}: ok")
    return 0


def begun(name):
    """Starts a case as a process of its own. The last one needs a network namespace; None: there can't be one."""
    inside = INSIDE if name == "network" else []
    if inside:
        can = shutil.which("unshare") and shutil.which("ip")
        if not can or subprocess.run([*inside, "true"], stderr=subprocess.DEVNULL).returncode != 0:
            print("network: skipped, it needs root, iproute2 and network namespaces", flush=True)
            return None
    return subprocess.Popen([*inside, sys.executable, *sys.argv], env={**os.environ, "CASE_OF_CHAT": name})


def main():
    if "CASE_OF_CHAT" in os.environ:
        return played(os.environ["CASE_OF_CHAT"])
    cases = []
    while sys.argv[1:2] == ["--case"]:
        cases.append(sys.argv[2])
        del sys.argv[1:3]
    processes = [process for process in map(begun, cases or CASES) if process]
    return max([process.wait() for process in processes])


if __name__ == "__main__":
    sys.exit(main())
