"""A headless browser with page.html loaded, driven over a WebSocket on loopback. `chromium.py` and `firefox.py` have the protocols.

The browser starts with a new profile and a home of its own in a temporary folder, which is removed at the end.
"""

from __future__ import annotations

import asyncio
import importlib.util
import itertools
import json
import os
import shutil
import signal
import tempfile
from pathlib import Path
from typing import TYPE_CHECKING, Any

if TYPE_CHECKING:
    import aiohttp

PAGE = (Path(__file__).resolve().parent / "page.html").as_uri()
_PATIENCE = 60.0  # seconds for a start, or for the result of one command
_END = 5.0  # seconds for a browser to end by itself


class BrowserError(Exception):
    """The browser did not start, or a function of the page failed."""


class Browser:
    """One browser. `async with` starts and ends it; `call` runs a function of the page."""

    program = ""

    def __init__(self, mdns: bool = False, page: str = PAGE, capture: bool = False) -> None:
        """`mdns`: host candidates have an mDNS name instead of the address, as browsers do by default. `capture`: the page captures sound,
        which only Chromium does."""
        self.mdns, self.page, self.capture = mdns, page, capture
        self.version = ""
        self._profile = Path(tempfile.mkdtemp(prefix="browser-"))
        self._process: asyncio.subprocess.Process | None = None
        self._client: aiohttp.ClientSession | None = None
        self._reader: asyncio.Task[None] | None = None
        self._pending: dict[int, asyncio.Future[Any]] = {}
        self._numbers = itertools.count(1)

    @classmethod
    def missing(cls) -> str:
        """Returns what is not installed, or an empty text."""
        if shutil.which(cls.program) is None:
            return cls.program
        return "" if importlib.util.find_spec("aiohttp") else "python3-aiohttp"

    async def __aenter__(self) -> Browser:
        try:
            await asyncio.wait_for(self._start(), _PATIENCE)
        except BaseException as error:
            await self.close()
            if isinstance(error, (asyncio.TimeoutError, OSError)):
                raise BrowserError(f"{self.program} did not start: {error!r}") from error
            raise
        return self

    async def __aexit__(self, *error: object) -> None:
        await self.close()

    async def _start(self) -> None:
        import aiohttp
        quiet = asyncio.subprocess.DEVNULL
        home = {"HOME": str(self._profile), "TMPDIR": str(self._profile)}
        self._process = await asyncio.create_subprocess_exec(
            *self._command(), stdin=quiet, stdout=quiet, stderr=quiet, env={**os.environ, **home}, start_new_session=True)
        self._client = aiohttp.ClientSession()
        self._socket = await self._client.ws_connect(await self._endpoint(), max_msg_size=0)
        self._reader = asyncio.create_task(self._read())
        await self._load()

    async def close(self) -> None:
        """Ends the browser and all its processes."""
        if self._reader:
            try:
                await asyncio.wait_for(self._end(), _END)
            except Exception:
                pass  # it is killed below
            self._reader.cancel()
        if self._client:
            await self._client.close()
        if self._process:
            try:
                await asyncio.wait_for(self._process.wait(), _END)
            except asyncio.TimeoutError:
                pass
            try:
                os.killpg(self._process.pid, signal.SIGKILL)  # what is left of its process group
            except ProcessLookupError:
                pass
            await self._process.wait()
        shutil.rmtree(self._profile, ignore_errors=True)

    async def call(self, function: str, *arguments: object) -> Any:
        """Runs a function of the page, and returns its result."""
        return await self._evaluate(f"{function}({', '.join(json.dumps(argument) for argument in arguments)})")

    # ---- the WebSocket: both protocols number their commands

    async def _read(self) -> None:
        async for message in self._socket:
            told = json.loads(message.data)
            result = self._pending.pop(told.get("id"), None)
            if result is None or result.done():
                continue
            if "error" in told:
                result.set_exception(BrowserError(json.dumps(told)))
            else:
                result.set_result(told["result"])
        for result in self._pending.values():
            if not result.done():
                result.set_exception(BrowserError(f"{self.program} ended"))

    async def _command_result(self, method: str, parameters: dict[str, Any], **more: object) -> Any:
        number = next(self._numbers)
        self._pending[number] = asyncio.get_running_loop().create_future()
        await self._socket.send_json({"id": number, "method": method, "params": parameters, **more})
        return await asyncio.wait_for(self._pending[number], _PATIENCE)

    async def _profile_file(self, name: str) -> str:
        """Returns the contents of a file that the browser writes into its profile when it is ready."""
        path = self._profile / name
        while not (path.exists() and path.read_text().strip()):
            if self._process and self._process.returncode is not None:
                raise BrowserError(f"{self.program} ended with status {self._process.returncode}")
            await asyncio.sleep(0.1)
        return path.read_text()

    # ---- what the protocols differ in

    def _command(self) -> list[str]:
        """Returns the command that starts the browser."""
        raise NotImplementedError

    async def _endpoint(self) -> str:
        """Returns the URL of the WebSocket."""
        raise NotImplementedError

    async def _load(self) -> None:
        """Loads the page, and sets `version`."""
        raise NotImplementedError

    async def _end(self) -> None:
        """Lets the browser end."""
        raise NotImplementedError

    async def _evaluate(self, script: str) -> Any:
        """Returns the value of an expression, after it is settled."""
        raise NotImplementedError
