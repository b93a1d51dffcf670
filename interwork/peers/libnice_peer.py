"""An agent of libnice that reads and prints the lines of c/examples/peer.c (Debian: gir1.2-nice-0.1 and python3-gi).

usage: libnice_peer.py [-a ADDRESS].. [-s HOST:PORT] [-u HOST:PORT -U USER:PASSWORD] [-L] [-N regular|aggressive] controlling|controlled

-s names a STUN server, -u a TURN server. -L: it is lite. -N: its nomination.
"""
import argparse
import ctypes
import os
import sys
import threading

import gi

gi.require_version("Nice", "0.1")
from gi.repository import GLib, Nice  # noqa: E402

from lines import report

# These calls have no usable binding. Without attach_recv libnice reads nothing from its sockets.
LIBNICE = ctypes.CDLL("libnice.so.10")
POINTER, UINT, TEXT = ctypes.c_void_p, ctypes.c_uint, ctypes.c_char_p
RECEIVED = ctypes.CFUNCTYPE(None, POINTER, UINT, UINT, UINT, POINTER, POINTER)
LIBNICE.nice_agent_attach_recv.argtypes = [POINTER, UINT, UINT, POINTER, RECEIVED, POINTER]
LIBNICE.nice_agent_send.argtypes = [POINTER, UINT, UINT, UINT, TEXT]
LIBNICE.nice_agent_get_selected_pair.argtypes = [POINTER, UINT, UINT, POINTER, POINTER]
LIBNICE.nice_agent_generate_local_candidate_sdp.argtypes = [POINTER, POINTER]
LIBNICE.nice_agent_generate_local_candidate_sdp.restype = TEXT

NAMES = ("DISCONNECTED", "GATHERING", "CONNECTING", "CONNECTED", "READY", "FAILED")
STATES = {getattr(Nice.ComponentState, name): name.lower() for name in NAMES}


def arguments():
    """Reads the options."""
    parser = argparse.ArgumentParser()
    parser.add_argument("-a", action="append", default=[])
    parser.add_argument("-s")
    parser.add_argument("-u")
    parser.add_argument("-U", default=":")
    parser.add_argument("-L", action="store_true")
    parser.add_argument("-N", choices=("regular", "aggressive"), default="aggressive")
    parser.add_argument("role", choices=("controlling", "controlled"))
    return parser.parse_args()


def end_of(line):
    """Returns the address and the type of a candidate attribute."""
    words = line.split()
    return f"[{words[4]}]:{words[5]}" if ":" in words[4] else f"{words[4]}:{words[5]}", words[7]


class Peer:
    """A session."""

    def __init__(self, options):
        self.gathered, self.remote_ufrag, self.last_path = threading.Event(), None, None
        flags = Nice.AgentOption.ICE_TRICKLE
        if options.N == "regular":
            flags |= Nice.AgentOption.REGULAR_NOMINATION
        if options.L:
            flags |= Nice.AgentOption.LITE_MODE
        self.agent = Nice.Agent.new_full(GLib.MainContext.default(), Nice.Compatibility.RFC5245, flags)
        self.pointer = hash(self.agent)
        self.set_properties(options)
        for text in options.a:
            address = Nice.Address.new()
            address.set_from_string(text)
            self.agent.add_local_address(address)
        self.stream = self.agent.add_stream(1)
        if options.u:
            (host, port), (user, password) = options.u.rsplit(":", 1), options.U.split(":", 1)
            self.agent.set_relay_info(self.stream, 1, host, int(port), user, password, Nice.RelayType.UDP)
        self.callback = RECEIVED(self.received)
        LIBNICE.nice_agent_attach_recv(self.pointer, self.stream, 1, None, self.callback, None)
        self.agent.connect("candidate-gathering-done", lambda *_: self.gathered.set())
        self.agent.connect("component-state-changed", self.changed)
        self.agent.connect("new-selected-pair-full", self.report_path)

    def set_properties(self, options):
        """Sets the properties of the agent that the options and the tests need."""
        settings = {"controlling-mode": options.role == "controlling", "upnp": False, "ice-tcp": False, "keepalive-conncheck": True}
        if options.s:
            host, port = options.s.rsplit(":", 1)
            settings.update({"stun-server": host, "stun-server-port": int(port)})
        for name, value in settings.items():
            self.agent.set_property(name, value)

    # ---- calls of libnice

    def changed(self, _agent, _stream, _component, state):
        report("state", STATES.get(state, state))
        if state in (Nice.ComponentState.CONNECTED, Nice.ComponentState.READY):
            self.report_path()

    def report_path(self, *_):
        """Prints the selected pair if it changed."""
        local, remote = ctypes.c_void_p(), ctypes.c_void_p()
        if not LIBNICE.nice_agent_get_selected_pair(self.pointer, self.stream, 1, ctypes.byref(local), ctypes.byref(remote)):
            return
        lines = [LIBNICE.nice_agent_generate_local_candidate_sdp(self.pointer, c).decode() for c in (local, remote)]
        (near, near_type), (far, far_type) = map(end_of, lines)
        path = " ".join((near, far, near_type, far_type))
        if path != self.last_path:
            self.last_path = path
            report("path", path)

    def received(self, _agent, _stream, _component, length, data, _user):
        report("heard", ctypes.string_at(data, length).decode(errors="replace"))

    # ---- signaling

    def signal(self):
        """Prints the signal when all candidates are gathered."""
        self.gathered.wait(10)
        _, ufrag, password = self.agent.get_local_credentials(self.stream)
        candidates = self.agent.get_local_candidates(self.stream, 1)
        lines = ",".join(self.agent.generate_local_candidate_sdp(c).removeprefix("a=") for c in candidates)
        print("signal", ufrag, password, lines, flush=True)

    def restart(self):
        self.agent.restart()
        self.remote_ufrag = self.last_path = None
        self.signal()

    def take_signal(self, ufrag, password, lines=""):
        """Takes the other peer's signal. Other credentials than before mean a restart."""
        if self.remote_ufrag not in (None, ufrag):
            self.restart()
        self.remote_ufrag = ufrag
        self.agent.set_remote_credentials(self.stream, ufrag, password)
        self.add(filter(None, lines.split(",")))

    def add(self, lines):
        parsed = [self.agent.parse_remote_candidate_sdp(self.stream, "a=" + line) for line in lines]
        candidates = [candidate for candidate in parsed if candidate is not None]
        if candidates:
            self.agent.set_remote_candidates(self.stream, 1, candidates)

    def take(self, line):
        """Takes a line of standard input."""
        if line.startswith("signal "):
            self.take_signal(*line.split(" ", 3)[1:])
        elif line.startswith("candidate:"):
            self.add([line])
        elif line == "/restart":
            self.restart()
        elif line and not line.startswith("/"):
            LIBNICE.nice_agent_send(self.pointer, self.stream, 1, len(line.encode()), line.encode())


def main():
    peer = Peer(arguments())
    threading.Thread(target=GLib.MainLoop.new(GLib.MainContext.default(), False).run, daemon=True).start()
    peer.agent.gather_candidates(peer.stream)
    peer.signal()
    for line in sys.stdin:
        if line.strip() == "/quit":
            break
        peer.take(line.rstrip("\r\n"))
    sys.stderr.flush()
    os._exit(0)  # without the destructors, which wait for the main loop


main()
