"""The demonstration for browsers: its files, and a session with a peer of aiortc in place of the page."""

from __future__ import annotations

import asyncio
import importlib.util
import json
import sys
import unittest
from pathlib import Path
from typing import Any
from unittest import mock

import is_ice.aiortc
import is_ice.connection

from pairs import LOOPBACK, within

FOLDER = Path(__file__).resolve().parent.parent / "examples" / "browser"
HAS_ALL = all(importlib.util.find_spec(name) for name in ("aiohttp", "aiortc"))


class Page:
    """What the page does: an offer with a data channel, and reading snapshots until one is as wanted."""

    def __init__(self, client: Any, url: str) -> None:
        self.client, self.url = client, url
        self.texts: asyncio.Queue[str] = asyncio.Queue()

    async def connect(self) -> int:
        """Connects over aioice, says hello, and returns the number of the session."""
        import aiortc
        is_ice.aiortc.uninstall()
        self.peer = aiortc.RTCPeerConnection(aiortc.RTCConfiguration(iceServers=[]))
        channel = self.peer.createDataChannel("talk")
        channel.on("open", lambda: channel.send("hello"))
        channel.on("message", self.texts.put_nowait)
        self.peer.addTransceiver("video", direction="recvonly")
        await self.peer.setLocalDescription(await self.peer.createOffer())
        async with self.client.post(self.url + "offer", json={"sdp": self.peer.localDescription.sdp}) as response:
            reply = await response.json()
        await self.peer.setRemoteDescription(aiortc.RTCSessionDescription(reply["sdp"], "answer"))
        return int(reply["number"])

    async def snapshot(self, number: int, wanted: Any) -> dict[str, Any]:
        """Returns the first snapshot for which `wanted` returns True."""
        async with self.client.get(f"{self.url}events/{number}") as response:
            async for line in response.content:
                if line.startswith(b"data: "):
                    told: dict[str, Any] = json.loads(line[6:])[0]
                    if wanted(told):
                        return told
        raise AssertionError("no such snapshot")


@unittest.skipUnless(HAS_ALL, "aiortc or aiohttp is not installed (Debian's python3-aiortc, python3-aiohttp)")
class BrowserExample(unittest.IsolatedAsyncioTestCase):
    async def asyncSetUp(self) -> None:
        patches: tuple[Any, ...] = (
            mock.patch("aioice.ice.get_host_addresses", lambda use_ipv4, use_ipv6: LOOPBACK),
            mock.patch.object(is_ice.connection, "host_addresses", lambda use_ipv4, use_ipv6: LOOPBACK),
            mock.patch.object(sys, "path", [str(FOLDER), *sys.path]))
        for patch in patches:
            patch.start()
            self.addCleanup(patch.stop)
        self.addCleanup(is_ice.aiortc.uninstall)
        import demo
        from aiohttp import ClientSession, web
        self.runner = web.AppRunner(demo.Demo().app())
        await self.runner.setup()
        await web.TCPSite(self.runner, "127.0.0.1", 0).start()
        self.client = ClientSession()
        self.url = f"http://127.0.0.1:{self.runner.addresses[0][1]}/"

    async def asyncTearDown(self) -> None:
        await self.client.close()
        await self.runner.cleanup()

    async def test_a_session_with_its_snapshots(self) -> None:
        page = Page(self.client, self.url)
        number = await page.connect()
        self.assertEqual(await within(page.texts.get(), 10), "the agent's side received: hello")
        told = await within(page.snapshot(number, lambda told: "Completed" in [state for _, state in told["states"]]), 10)
        self.assertEqual(told["role"], "controlled")
        pair = next(pair for pair in told["pairs"] if [pair["local"], pair["remote"]] == told["selected"])
        self.assertTrue(pair["nominated"])
        self.assertGreater(min(pair["checks_received"], pair["responses_received"]), 0)
        self.assertTrue(told["events"][0][1].startswith("IceRestart"))
        await page.peer.close()

    async def test_the_files_of_the_page(self) -> None:
        for path, text in (("", "<title>"), ("page.js", "use strict"), ("page.css", "svg")):
            async with self.client.get(self.url + path) as response:
                self.assertIn(text, await response.text())
        async with self.client.get(self.url + "events/7") as response:
            self.assertEqual(response.status, 404)


if __name__ == "__main__":
    unittest.main()
