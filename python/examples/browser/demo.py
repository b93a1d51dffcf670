"""Serves a page on loopback. In a browser it opens a data channel and shows a test picture, over aiortc and the agent.

    python3 python/examples/browser/demo.py [--port PORT]

Next to them the page draws what the agent does: its state, the pairs with their checks, its events. Needs Debian's python3-aiortc and
python3-aiohttp. Ctrl-C ends it.
"""

from __future__ import annotations

import argparse
import asyncio
import itertools
import json
import sys
from collections.abc import Awaitable, Callable
from pathlib import Path
from typing import Any

FOLDER = Path(__file__).resolve().parent
sys.path[:0] = [str(FOLDER), str(FOLDER.parent.parent)]

try:
    from aiohttp import web
    from aiortc import RTCConfiguration, RTCPeerConnection, RTCSessionDescription
    from aiortc.contrib.media import MediaPlayer
except ImportError as error:
    sys.exit(f"{error}: apt install python3-aiortc python3-aiohttp")

import is_ice.aiortc  # noqa: E402
from watch import Watch  # noqa: E402

_FILES = {"/": "page.html", "/page.js": "page.js", "/page.css": "page.css"}
_PICTURE = "testsrc=size=320x240:rate=15"  # a filter of FFmpeg: color bars and a clock
_INTERVAL = 0.1  # seconds from one snapshot to the next


class Peer:
    """The demonstration's side of one page."""

    def __init__(self) -> None:
        self.connection = RTCPeerConnection(RTCConfiguration(iceServers=[]))
        self.watches: list[Watch] = []
        self._player = MediaPlayer(_PICTURE, format="lavfi")
        self.connection.on("datachannel", self._listen)

    def _listen(self, channel: Any) -> None:
        def answer(data: Any) -> None:
            channel.send(f"the agent's side received: {data}" if isinstance(data, str) else data)

        channel.on("message", answer)

    async def answer(self, sdp: str) -> str:
        """Takes the page's offer, and returns the answer with all candidates."""
        is_ice.aiortc.install(lambda connection: self.watches.append(Watch(connection)))
        await self.connection.setRemoteDescription(RTCSessionDescription(sdp, "offer"))
        self.connection.addTrack(self._player.video)
        await self.connection.setLocalDescription(await self.connection.createAnswer())
        return str(self.connection.localDescription.sdp)

    async def close(self) -> None:
        """Closes the connection."""
        self._player.video.stop()
        await self.connection.close()


def _file(name: str) -> Callable[[web.Request], Awaitable[web.FileResponse]]:
    async def get(_: web.Request) -> web.FileResponse:
        return web.FileResponse(FOLDER / name)

    return get


class Demo:
    """The server: the page, `/offer`, and `/events/N` with snapshots of peer N as server-sent events."""

    def __init__(self) -> None:
        self.peers: dict[int, Peer] = {}
        self._ends = False
        self._numbers = itertools.count(1)

    def app(self) -> web.Application:
        """Returns the application."""
        app = web.Application()
        for path, name in _FILES.items():
            app.router.add_get(path, _file(name))
        app.router.add_post("/offer", self._offer)
        app.router.add_get(r"/events/{number:\d+}", self._events)
        app.on_shutdown.append(self._end)
        return app

    async def _offer(self, request: web.Request) -> web.Response:
        number, peer = next(self._numbers), Peer()
        self.peers[number] = peer
        return web.json_response({"number": number, "sdp": await peer.answer((await request.json())["sdp"])})

    async def _events(self, request: web.Request) -> web.StreamResponse:
        peer = self.peers.pop(int(request.match_info["number"]), None)
        if peer is None:
            raise web.HTTPNotFound
        response = web.StreamResponse(headers={"Content-Type": "text/event-stream", "Cache-Control": "no-store"})
        await response.prepare(request)
        try:
            while not self._ends:
                told = json.dumps([watch.snapshot() for watch in peer.watches])
                await response.write(f"data: {told}\n\n".encode())
                await asyncio.sleep(_INTERVAL)
        except ConnectionResetError:
            pass  # the page was closed
        finally:
            await peer.close()
        return response

    async def _end(self, _: web.Application) -> None:
        self._ends = True
        for peer in [*self.peers.values()]:
            await peer.close()


async def serve(port: int) -> None:
    """Serves until the task is canceled."""
    runner = web.AppRunner(Demo().app())
    await runner.setup()
    site = web.TCPSite(runner, "127.0.0.1", port)
    await site.start()
    address = runner.addresses[0]
    print(f"open http://{address[0]}:{address[1]}/ in a browser; Ctrl-C ends the demonstration", flush=True)
    try:
        await asyncio.Event().wait()
    finally:
        await runner.cleanup()


if __name__ == "__main__":
    parser = argparse.ArgumentParser(description=__doc__, formatter_class=argparse.RawDescriptionHelpFormatter)
    parser.add_argument("--port", type=int, default=8080, help="0: any free port")
    try:
        asyncio.run(serve(parser.parse_args().port))
    except KeyboardInterrupt:
        pass
