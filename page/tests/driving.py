"""Chromium and Firefox with the page loaded: what a viewer can do, and what goes wrong. interwork/browsers has the protocols."""

from __future__ import annotations

import asyncio
import base64
import sys
from pathlib import Path
from typing import Any

TOP = Path(__file__).resolve().parent.parent.parent
sys.path.insert(0, str(TOP / "interwork" / "browsers"))

from chromium import Chromium  # noqa: E402
from firefox import Firefox  # noqa: E402

# Counts what goes wrong in the page, from before its first script.
WATCH = """globalThis.wrong = [];
addEventListener('error', (it) => wrong.push(String(it.message)));
addEventListener('unhandledrejection', (it) => wrong.push(String(it.reason)));
for (const name of ['error', 'warn']) {
  const old = console[name];
  console[name] = (...words) => { wrong.push(words.join(' ')); old.apply(console, words); };
}"""
KEYS = {"Tab": "\ue004", "Enter": "\ue006", " ": " ", "Escape": "\ue00c", "ArrowDown": "\ue015", "ArrowUp": "\ue013"}


class ChromiumViewer(Chromium):
    """A viewer with Chromium."""

    async def open(self, url: str) -> None:
        """Loads the page anew."""
        if not hasattr(self, "_is_watched"):
            self._is_watched = True
            await self._send("Page.enable", {})
            await self._send("Page.addScriptToEvaluateOnNewDocument", {"source": WATCH})
        await self._send("Page.navigate", {"url": "about:blank"})
        await self._send("Page.navigate", {"url": url})
        await ready(self)

    async def look(self, width: int, height: int, dark: bool = False) -> None:
        """Sets the size of the window, and the color scheme."""
        size = {"width": width, "height": height, "deviceScaleFactor": 1, "mobile": False}
        await self._send("Emulation.setDeviceMetricsOverride", size)
        features = [{"name": "prefers-color-scheme", "value": "dark" if dark else "light"}]
        await self._send("Emulation.setEmulatedMedia", {"features": features})

    async def picture(self, whole: bool = False) -> bytes:
        """Returns a picture of the window, as PNG."""
        told = await self._send("Page.captureScreenshot", {"format": "png", "captureBeyondViewport": whole})
        return base64.b64decode(told["data"])

    async def press(self, key: str) -> None:
        """Presses a key."""
        text = {"Enter": "\r", " ": " ", "Tab": ""}.get(key, key if len(key) == 1 else "")
        code = {"Enter": 13, " ": 32, "Tab": 9, "Escape": 27, "ArrowDown": 40, "ArrowUp": 38}.get(key, 0)
        for kind in ("keyDown", "keyUp"):
            more = {"text": text} if kind == "keyDown" and text else {}
            await self._send("Input.dispatchKeyEvent", {"type": kind, "key": key, "windowsVirtualKeyCode": code, **more})

    async def _send(self, method: str, parameters: dict[str, Any]) -> Any:
        return await self._command_result(method, parameters, sessionId=self._session)


class FirefoxViewer(Firefox):
    """A viewer with Firefox."""

    async def _load(self) -> None:
        await super()._load()
        # only a new window has the focus, and without it Enter presses no button
        self._context = (await self._command_result("browsingContext.create", {"type": "window"}))["context"]

    async def open(self, url: str) -> None:
        """Loads the page anew."""
        if not hasattr(self, "_is_watched"):
            self._is_watched = True
            await self._command_result("script.addPreloadScript", {"functionDeclaration": f"() => {{ {WATCH} }}"})
        for target in ("about:blank", url):
            await self._command_result("browsingContext.navigate", {"context": self._context, "url": target, "wait": "complete"})
        await ready(self)

    async def look(self, width: int, height: int, dark: bool = False) -> None:
        """Sets the size of the window. The color scheme is the system's."""
        size = {"context": self._context, "viewport": {"width": width, "height": height}, "devicePixelRatio": 1}
        await self._command_result("browsingContext.setViewport", size)

    async def picture(self, whole: bool = False) -> bytes:
        """Returns a picture of the window, as PNG."""
        told = await self._command_result("browsingContext.captureScreenshot",
                                          {"context": self._context, "origin": "document" if whole else "viewport"})
        return base64.b64decode(told["data"])

    async def press(self, key: str) -> None:
        """Presses a key."""
        actions = [{"type": kind, "value": KEYS.get(key, key)} for kind in ("keyDown", "keyUp")]
        await self._command_result("input.performActions", {
            "context": self._context, "actions": [{"type": "key", "id": "keyboard", "actions": actions}]})


VIEWERS = {"chromium": ChromiumViewer, "firefox": FirefoxViewer}
Viewer = ChromiumViewer | FirefoxViewer


async def ready(viewer: Viewer) -> None:
    """Waits until the agents run, or the page says that they did not start."""
    for _ in range(300):
        if await viewer._evaluate("Boolean(globalThis.page?.session || document.querySelector('main .failed'))"):
            return
        await asyncio.sleep(0.1)
    raise TimeoutError("the page did not start")
