"""Many agents in one process, in pairs over loopback: prints by how many KB of resident memory the process grows for each.

usage: many_peers.py MODULE AGENTS      MODULE: libnice, aioice, or is_ice.connection, which has aioice's calls
"""
import asyncio
import ctypes
import functools
import gc
import importlib
import re
import sys
from pathlib import Path

ADDRESS = "127.0.0.1"


def resident():
    """The KB of this process."""
    gc.collect()
    return int(re.search(r"VmRSS:\s+(\d+)", Path("/proc/self/status").read_text())[1])


class Awaitable:
    """Connections of aioice, or of is_ice."""

    def __init__(self, name):
        self.make = importlib.import_module(name).Connection
        if name == "aioice":
            importlib.import_module("aioice.ice").get_host_addresses = lambda use_ipv4, use_ipv6: [ADDRESS]
        else:
            self.make = functools.partial(self.make, addresses=[ADDRESS])
        self.loop, self.kept = asyncio.new_event_loop(), []

    async def pair(self):
        sides = [self.make(ice_controlling=role) for role in (True, False)]
        for side in sides:
            await side.gather_candidates()
        for one, other in (sides, sides[::-1]):
            one.remote_username, one.remote_password = other.local_username, other.local_password
            for candidate in other.local_candidates:
                await one.add_remote_candidate(candidate)
            await one.add_remote_candidate(None)
        await asyncio.gather(*(side.connect() for side in sides))
        self.kept.append(sides)

    def connect(self, pairs):
        for _ in range(pairs):
            self.loop.run_until_complete(self.pair())


class Libnice:
    """Agents of libnice."""

    def __init__(self, _name):
        import gi
        gi.require_version("Nice", "0.1")
        from gi.repository import GLib, Nice
        pointer, uint = ctypes.c_void_p, ctypes.c_uint
        received = ctypes.CFUNCTYPE(None, pointer, uint, uint, uint, pointer, pointer)
        self.attach = ctypes.CDLL("libnice.so.10").nice_agent_attach_recv  # without it libnice reads nothing from its sockets
        self.attach.argtypes = [pointer, uint, uint, pointer, received, pointer]
        self.nice, self.context, self.ignore, self.kept = Nice, GLib.MainContext.default(), received(lambda *_: None), []

    def agent(self, is_controlling):
        agent = self.nice.Agent.new(self.context, self.nice.Compatibility.RFC5245)
        for name, value in {"controlling-mode": is_controlling, "upnp": False, "ice-tcp": False}.items():
            agent.set_property(name, value)
        address = self.nice.Address.new()
        address.set_from_string(ADDRESS)
        agent.add_local_address(address)
        self.attach(hash(agent), agent.add_stream(1), 1, None, self.ignore, None)
        agent.gather_candidates(1)
        return agent

    def pair(self):
        agents = [self.agent(role) for role in (True, False)]
        while not all(agent.get_local_candidates(1, 1) for agent in agents):
            self.context.iteration(True)
        for one, other in (agents, agents[::-1]):
            _, ufrag, password = other.get_local_credentials(1)
            one.set_remote_credentials(1, ufrag, password)
            one.set_remote_candidates(1, 1, other.get_local_candidates(1, 1))
        while any(agent.get_component_state(1, 1) != self.nice.ComponentState.READY for agent in agents):
            self.context.iteration(True)
        self.kept.append(agents)

    def connect(self, pairs):
        for _ in range(pairs):
            self.pair()


def main():
    name, agents = sys.argv[1], int(sys.argv[2])
    stack = (Libnice if name == "libnice" else Awaitable)(name)
    stack.connect(1)
    before = resident()
    stack.connect(agents // 2)
    print((resident() - before) / (agents // 2 * 2))


main()
