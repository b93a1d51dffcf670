"""Firefox by WebDriver BiDi, without geckodriver."""

from __future__ import annotations

import json
from typing import Any

from browser import Browser, BrowserError

_PREFERENCES: dict[str, object] = {
    "media.autoplay.default": 0,
    "dom.min_background_timeout_value": 4,  # ms: a page in the background would be slowed down
    "app.update.enabled": False,
    "network.captive-portal-service.enabled": False,
    "network.connectivity-service.enabled": False,
    "datareporting.policy.dataSubmissionEnabled": False,
    "toolkit.telemetry.enabled": False,
    "browser.shell.checkDefaultBrowser": False,
    "remote.active-protocols": 1,  # WebDriver BiDi
}


class Firefox(Browser):
    """Firefox in its headless mode."""

    program = "firefox-esr"

    def _command(self) -> list[str]:
        preferences = _PREFERENCES | {"media.peerconnection.ice.obfuscate_host_addresses": self.mdns}
        lines = [f"user_pref({json.dumps(name)}, {json.dumps(value)});\n" for name, value in preferences.items()]
        (self._profile / "user.js").write_text("".join(lines))
        return [self.program, "--headless", "--no-remote", "--profile", str(self._profile), "--remote-debugging-port=0"]

    async def _endpoint(self) -> str:
        return f"ws://127.0.0.1:{json.loads(await self._profile_file('WebDriverBiDiServer.json'))['ws_port']}/session"

    async def _load(self) -> None:
        told = await self._command_result("session.new", {"capabilities": {}})
        self.version = f"Firefox {told['capabilities']['browserVersion']}"
        tree = await self._command_result("browsingContext.getTree", {})
        self._context = tree["contexts"][0]["context"]
        await self._command_result("browsingContext.navigate", {"context": self._context, "url": self.page, "wait": "complete"})

    async def _end(self) -> None:
        await self._command_result("browser.close", {})

    async def _evaluate(self, script: str) -> Any:
        # BiDi writes values in a form of its own, so the page returns JSON
        told = await self._command_result("script.evaluate", {
            "expression": f"(async () => JSON.stringify(await {script}))()", "awaitPromise": True, "target": {"context": self._context}})
        if told["type"] == "exception":
            raise BrowserError(told["exceptionDetails"]["text"])
        text = told["result"].get("value")
        return None if text is None else json.loads(text)
