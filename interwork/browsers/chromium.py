"""Chromium by its DevTools protocol."""

from __future__ import annotations

import asyncio
import json
import os
from typing import Any

from browser import Browser, BrowserError

_QUIET = ["--disable-background-networking", "--disable-component-update", "--disable-sync", "--disable-default-apps", "--no-first-run",
          "--no-default-browser-check", "--disable-extensions", "--mute-audio", "--disable-breakpad",
          "--autoplay-policy=no-user-gesture-required",
          # a page in the background would be slowed down
          "--disable-background-timer-throttling", "--disable-renderer-backgrounding", "--disable-backgrounding-occluded-windows"]
_CAPTURE = ["--use-fake-ui-for-media-stream", "--use-fake-device-for-media-stream"]


class Chromium(Browser):
    """Chromium in its headless mode."""

    program = "chromium"

    def _command(self) -> list[str]:
        hidden = [] if self.mdns else ["--disable-features=WebRtcHideLocalIpsWithMdns"]
        capture = _CAPTURE if self.capture else []
        sandbox = ["--no-sandbox"] if os.geteuid() == 0 else []  # Chromium has no sandbox for root
        return [self.program, "--headless=new", *sandbox, "--disable-gpu", "--remote-debugging-port=0",
                f"--user-data-dir={self._profile}", *_QUIET, *hidden, *capture, "about:blank"]

    async def _endpoint(self) -> str:
        port, path = (await self._profile_file("DevToolsActivePort")).split()
        return f"ws://127.0.0.1:{port}{path}"

    async def _load(self) -> None:
        product = (await self._command_result("Browser.getVersion", {}))["product"]  # "Chrome/156.0.8078.79"
        self.version = "Chromium " + product.split("/")[1]
        target = await self._command_result("Target.createTarget", {"url": self.page})
        attached = await self._command_result("Target.attachToTarget", {"targetId": target["targetId"], "flatten": True})
        self._session = attached["sessionId"]
        while not await self._is_loaded():
            await asyncio.sleep(0.05)
        if self.capture:
            await self.call("capture")

    async def _is_loaded(self) -> bool:
        try:
            return bool(await self._evaluate("location.href !== 'about:blank' && document.readyState === 'complete'"))
        except BrowserError:
            return False  # between two pages there is nothing that evaluates

    async def _end(self) -> None:
        await self._command_result("Browser.close", {})

    async def _evaluate(self, script: str) -> Any:
        told = await self._command_result("Runtime.evaluate", {"expression": script, "awaitPromise": True, "returnByValue": True},
                                          sessionId=self._session)
        if "exceptionDetails" in told:
            raise BrowserError(json.dumps(told["exceptionDetails"]))
        return told["result"].get("value")
