"""aiortc over the agent: data channels between two RTCPeerConnections, also if one of them is over aioice."""

from __future__ import annotations

import asyncio
import unittest
from collections.abc import Callable
from typing import Any
from unittest import mock

import is_ice.aiortc
import is_ice.connection

from pairs import LOOPBACK, aioice, until
from turn_server import TurnServer

try:
    import aiortc
    import aiortc.rtcicetransport
except ImportError:
    aiortc = None

BLOCK = bytes(16384)


def peer(uses_agent: bool) -> Any:
    """An RTCPeerConnection over the agent or over aioice."""
    if uses_agent:
        is_ice.aiortc.install()
    else:
        is_ice.aiortc.uninstall()
    return aiortc.RTCPeerConnection(aiortc.RTCConfiguration(iceServers=[]))


async def session(offers: bool, answers: bool) -> tuple[Any, Any, list[str], int]:
    """Plays two peers over the agent or aioice."""
    return await played(peer(offers), lambda: peer(answers))


async def played(offering: Any, other_peer: Callable[[], Any]) -> tuple[Any, Any, list[str], int]:
    """Connects, sends texts that come back and a quarter of a MiB, and closes."""
    heard: list[str] = []
    got = 0
    channel = offering.createDataChannel("talk")
    channel.on("message", heard.append)
    answering = other_peer()

    def taken(other: Any) -> None:
        def message(data: Any) -> None:
            nonlocal got
            if isinstance(data, str):
                other.send("echo " + data)
            else:
                got += len(data)

        other.on("message", message)

    answering.on("datachannel", taken)
    await offering.setLocalDescription(await offering.createOffer())
    await answering.setRemoteDescription(offering.localDescription)
    await answering.setLocalDescription(await answering.createAnswer())
    await offering.setRemoteDescription(answering.localDescription)
    await until(lambda: bool(channel.readyState == "open"))
    for text in ("one", "two"):
        channel.send(text)
    for _ in range(16):
        channel.send(BLOCK)
    await until(lambda: len(heard) == 2 and got == 16 * len(BLOCK))
    await asyncio.gather(offering.close(), answering.close())
    return offering, answering, heard, got


@unittest.skipIf(aiortc is None, "aiortc is not installed (Debian's python3-aiortc)")
class PeerConnections(unittest.IsolatedAsyncioTestCase):
    def setUp(self) -> None:
        for patch in (mock.patch("aioice.ice.get_host_addresses", lambda use_ipv4, use_ipv6: LOOPBACK),
                      mock.patch.object(is_ice.connection, "host_addresses", lambda use_ipv4, use_ipv6: LOOPBACK)):
            patch.start()
            self.addCleanup(patch.stop)
        self.addCleanup(is_ice.aiortc.uninstall)

    async def test_data_channels(self) -> None:
        for offers, answers in ((True, True), (True, False), (False, True)):
            with self.subTest(offers=offers, answers=answers):
                offering, answering, heard, _ = await session(offers, answers)
                self.assertEqual(heard, ["echo one", "echo two"])
                self.assertEqual((offering.iceConnectionState, answering.iceConnectionState), ("closed", "closed"))

    async def test_the_connections_are_reported(self) -> None:
        created: list[is_ice.connection.Connection] = []
        states: list[str] = []
        is_ice.aiortc.install(created.append)
        offering = aiortc.RTCPeerConnection(aiortc.RTCConfiguration(iceServers=[]))
        offering.createDataChannel("talk")
        self.assertEqual(len(created), 1)
        created[0].on_event = lambda event: states.append(str(getattr(event, "state", "")))
        answering = peer(False)
        await offering.setLocalDescription(await offering.createOffer())
        await answering.setRemoteDescription(offering.localDescription)
        await answering.setLocalDescription(await answering.createAnswer())
        await offering.setRemoteDescription(answering.localDescription)
        await until(lambda: "State.Completed" in states)
        await asyncio.gather(offering.close(), answering.close())
        self.assertEqual(len(created), 1)

    async def test_install_and_uninstall(self) -> None:
        is_ice.aiortc.install()
        self.assertTrue(issubclass(aiortc.rtcicetransport.Connection, is_ice.connection.Connection))
        self.assertIs(aiortc.rtcicetransport.Connection.closed_event, aioice.ConnectionClosed)
        is_ice.aiortc.uninstall()
        self.assertIs(aiortc.rtcicetransport.Connection, aioice.Connection)

    async def test_only_relayed_candidates(self) -> None:
        """aiortc passes its TURN server on to the connection."""
        def restrict(connection: is_ice.connection.Connection) -> None:
            connection._relay_only = connection._loop.gatherer.relay_only = True

        def made() -> Any:
            is_ice.aiortc.install(restrict)
            return aiortc.RTCPeerConnection(aiortc.RTCConfiguration(iceServers=[aiortc.RTCIceServer(**server.urls)]))

        server = TurnServer()
        await server.start()
        offering, answering, heard, got = await played(made(), made)
        self.assertEqual((heard, got), (["echo one", "echo two"], 16 * len(BLOCK)))
        for side in (offering, answering):
            self.assertNotIn("typ host", side.localDescription.sdp)
            self.assertIn("typ relay", side.localDescription.sdp)
        self.assertEqual(server.strict.freed, 2)
        server.close()


class WithoutAiortc(unittest.TestCase):
    def test_it_says_what_to_install(self) -> None:
        with mock.patch("importlib.import_module", side_effect=ImportError):
            self.assertRaisesRegex(ImportError, "pip install", is_ice.aiortc.install)


if __name__ == "__main__":
    unittest.main()
