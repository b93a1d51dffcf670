"""aiortc, unchanged, over the agent: a data channel and video, with itself and with a browser."""

from __future__ import annotations

import asyncio
import contextlib
import itertools
import time
from collections.abc import Awaitable, Callable, Iterator
from typing import Any

from aiortc import RTCConfiguration, RTCPeerConnection, RTCSessionDescription, VideoStreamTrack
from aiortc.mediastreams import MediaStreamError

import is_ice.aiortc
import is_ice.connection
from browser import Browser
from plays import Outcome

_BLOCK, _BLOCKS = 16384, 16
_TEXTS = [f"text {number}" for number in range(5)]
_PICTURES = 10
_PATIENCE = 20.0  # seconds for each step
_numbers = itertools.count(1_000_000)


class Peer:
    """A peer of aiortc: it echoes texts, and counts the bytes and pictures that it receives."""

    def __init__(self, uses_agent: bool, video: bool) -> None:
        self.connection = RTCPeerConnection(RTCConfiguration(iceServers=[]))
        self.uses_agent, self.video = uses_agent, video
        self.channel: Any = None
        self.texts: list[str] = []
        self.received = self.pictures = 0
        self._tasks: list[asyncio.Task[None]] = []
        self.connection.on("datachannel", self._listen)
        self.connection.on("track", lambda track: self._tasks.append(asyncio.create_task(self._watch(track))))

    def _listen(self, channel: Any) -> None:
        self.channel = channel
        channel.on("message", self._on_message)

    def _on_message(self, data: str | bytes) -> None:
        if isinstance(data, bytes):
            self.received += len(data)
        elif data.startswith("echo "):
            self.texts.append(data)
        else:
            self.channel.send("echo " + data)

    async def _watch(self, track: Any) -> None:
        try:
            while True:
                await track.recv()
                self.pictures += 1
        except MediaStreamError:
            pass  # the track ended

    @contextlib.contextmanager
    def _ice(self) -> Iterator[None]:
        """aiortc creates its ICE transports in here, when a channel, a track or the first description is added."""
        agents: list[is_ice.connection.Connection] = []
        (is_ice.aiortc.install(agents.append) if self.uses_agent else is_ice.aiortc.uninstall())
        yield
        is_ice.aiortc.uninstall()
        assert bool(agents) == self.uses_agent

    def _add_video(self) -> None:
        if self.video:
            self.connection.addTrack(VideoStreamTrack())

    async def offer(self) -> str:
        """Returns an offer with all candidates."""
        with self._ice():
            self._listen(self.connection.createDataChannel("talk"))
            self._add_video()
        await self.connection.setLocalDescription(await self.connection.createOffer())
        return str(self.connection.localDescription.sdp)

    async def answer(self, sdp: str) -> str:
        """Returns the answer to an offer."""
        with self._ice():
            await self.connection.setRemoteDescription(RTCSessionDescription(sdp, "offer"))
            self._add_video()
        await self.connection.setLocalDescription(await self.connection.createAnswer())
        return str(self.connection.localDescription.sdp)

    async def accept(self, sdp: str) -> None:
        """Takes an answer."""
        await self.connection.setRemoteDescription(RTCSessionDescription(sdp, "answer"))

    def is_open(self) -> bool:
        """Returns whether the data channel is open."""
        return bool(self.channel) and self.channel.readyState == "open"

    def pour(self) -> None:
        """Sends a quarter of a MiB."""
        for _ in range(_BLOCKS):
            self.channel.send(bytes(_BLOCK))

    async def close(self) -> None:
        """Closes the connection."""
        await self.connection.close()
        for task in self._tasks:
            task.cancel()


async def _until(condition: Callable[[], Awaitable[bool]]) -> bool:
    end = time.monotonic() + _PATIENCE
    while not await condition():
        if time.monotonic() > end:
            return False
        await asyncio.sleep(0.02)
    return True


async def _first_failure(steps: list[tuple[str, Callable[[], Awaitable[bool]]]]) -> str:
    """Returns the name of the first step that does not come about, or "works"."""
    for name, condition in steps:
        if not await _until(condition):
            return name
    return "works"


async def _is_done(peers: list[Peer], video: bool) -> str:
    """Texts, bytes and pictures each way between two peers whose channels are open."""
    for peer in peers:
        for text in _TEXTS:
            peer.channel.send(text)
        peer.pour()

    async def echoed() -> bool:
        return all(peer.texts == [f"echo {text}" for text in _TEXTS] for peer in peers)

    async def received() -> bool:
        return all(peer.received == _BLOCK * _BLOCKS for peer in peers)

    async def seen() -> bool:
        return not video or all(peer.pictures >= _PICTURES for peer in peers)

    return await _first_failure([("no echo", echoed), ("bytes are missing", received), ("no video", seen)])


async def with_itself(offers_by_agent: bool, answers_by_agent: bool, video: bool) -> Outcome:
    """Two peers of aiortc, each over the agent or over aioice."""
    offering, answering = Peer(offers_by_agent, video), Peer(answers_by_agent, video)
    start = time.monotonic()
    await offering.accept(await answering.answer(await offering.offer()))

    async def opened() -> bool:
        return offering.is_open() and answering.is_open()

    outcome = Outcome("no channel")
    if await _until(opened):
        outcome.ms["open"] = 1000 * (time.monotonic() - start)
        outcome.word = await _is_done([offering, answering], video)
    await asyncio.gather(offering.close(), answering.close())
    return outcome


async def with_browser(browser: Browser, browser_offers: bool, video: bool, uses_agent: bool = True) -> Outcome:
    """A peer of aiortc and the browser."""
    peer, number = Peer(uses_agent, video), next(_numbers)
    await browser.call("create", number, video)
    start = time.monotonic()
    if browser_offers:
        await browser.call("accept", number, await peer.answer(await browser.call("offer", number, True)))
    else:
        await peer.accept(await browser.call("answer", number, await peer.offer(), True))

    async def opened() -> bool:
        return peer.is_open() and bool((await browser.call("report", number))["open"])

    outcome = Outcome("no channel")
    if await _until(opened):
        outcome.ms["open"] = 1000 * (time.monotonic() - start)
        outcome.word = await _exchange(browser, number, peer)
    await browser.call("end", number)
    await peer.close()
    return outcome


async def _exchange(browser: Browser, number: int, peer: Peer) -> str:
    """Texts, bytes and pictures each way between a peer and the browser."""
    for text in _TEXTS:
        await browser.call("say", number, text)
    await browser.call("pour", number, _BLOCKS, _BLOCK)
    peer.pour()

    async def echoed() -> bool:
        return bool((await browser.call("report", number))["texts"] == [f"echo {text}" for text in _TEXTS])

    async def received() -> bool:
        total = _BLOCK * _BLOCKS
        return peer.received == total and (await browser.call("report", number))["received"] == total

    async def seen() -> bool:
        return not peer.video or peer.pictures >= _PICTURES and await browser.call("frames", number) >= _PICTURES

    return await _first_failure([("no echo", echoed), ("bytes are missing", received), ("no video", seen)])
