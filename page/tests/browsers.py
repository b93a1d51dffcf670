#!/usr/bin/env python3
"""Tests the built page in headless Chromium and Firefox.

usage: page/tests/browsers.py [--pictures] PAGE [chromium|firefox ..]

--pictures writes the pictures anew that Chromium's are compared with. A browser that is not installed is skipped, and so is all if Debian's
python3-aiohttp is not there. IS_ICE_JS and IS_ICE_WASM are as for page/build.
"""

from __future__ import annotations

import asyncio
import base64
import json
import shutil
import subprocess
import sys
import tempfile
from pathlib import Path
from typing import Any, cast

HERE = Path(__file__).resolve().parent
sys.dont_write_bytecode = True
sys.path.insert(0, str(HERE))
PICTURES = HERE / "pictures"
SIZES = {"phone": (390, 844), "laptop": (1280, 800), "large": (1920, 1080)}
ALIKE = 6.0  # the most that two pictures of the same may differ: other fonts, other lines
USES = ("play", "step", "again", "speed", "zoom", "diagram", "restart", "say", "forge", "replay", "flood", "natA", "delay", "cutAB", "link")


class Fault(Exception):
    """What is not as it should be."""


def require(holds: object, what: object) -> None:
    """Fault unless it holds."""
    if not holds:
        raise Fault(str(what))


async def shown(viewer: Any, url: str, fragment: str) -> None:
    """Opens the page at a link, and puts the checks into it."""
    await viewer.open(f"{url}#{fragment}")
    await viewer._evaluate("(0, eval)(" + json.dumps((HERE / "checks.js").read_text()) + ")")


async def same_packets(viewer: Any, url: str, digests: dict[str, Any]) -> None:
    """Each story plays the packets that it plays under Node, and nothing goes wrong."""
    for story, told in digests.items():
        await shown(viewer, url, f"story={story}&at={told['until']}&pause=1")
        require(await viewer._evaluate("page.session.now") == told["until"], f"{story} is not played")
        require(await viewer.call("checks.digest") == told["digest"], f"{story} has other packets")
        require(await viewer.call("checks.faults") == [], await viewer.call("checks.faults"))
        require(await viewer._evaluate("wrong") == [], await viewer._evaluate("wrong"))
        require("path" in await viewer._evaluate("document.getElementById('status').textContent"), f"{story} has no path")


async def links(viewer: Any, url: str) -> None:
    """A link repeats what the viewer did, and what is saved is what happened."""
    await shown(viewer, url, "story=two-homes&seed=9&at=300&pause=1")
    for button in ("forge", "replay", "cutAB", "restart"):
        await viewer._evaluate(f"document.getElementById('{button}').click()")
    await viewer._evaluate("page.runTo(2000)")
    digest = await viewer.call("checks.digest")
    require("nothing changed" in await viewer._evaluate("document.getElementById('log').textContent"), "the forged check is not told")
    require(await viewer._evaluate("document.getElementById('cutAB').getAttribute('aria-pressed')") == "true", "the cut does not show")
    await viewer._evaluate("document.getElementById('link').click()")
    fragment = await viewer._evaluate("location.hash.slice(1)")
    await shown(viewer, url, f"{fragment}&at=2000&pause=1")
    require(await viewer.call("checks.digest") == digest, f"{fragment} plays other packets")
    require(await viewer._evaluate("wrong") == [], await viewer._evaluate("wrong"))
    capture = base64.b64decode(await viewer.call("checks.saved", "savePcap"))
    wanted = await viewer._evaluate(
        "page.session.tracks.filter((it) => it.contents).reduce((n, it) => n + !it.isHostile + Boolean(it.taken), 0)")
    read_by_tshark(capture, cast(int, wanted))
    picture = base64.b64decode(await viewer.call("checks.saved", "savePicture")).decode()
    require(picture.startswith("<svg") and picture.count("class=\"line\"") > 10, "the picture has no arrows")


def read_by_tshark(capture: bytes, wanted: int) -> None:
    """tshark reads the capture, if it is installed, with good checksums and nothing malformed."""
    require(capture[:4] == b"\x0a\x0d\x0d\x0a", "no pcapng")
    if shutil.which("tshark") is None:
        print("  tshark: skipped, it is not installed")
        return
    with tempfile.NamedTemporaryFile(suffix=".pcapng") as file:
        file.write(capture)
        file.flush()
        fields = [word for name in ("stun.type", "_ws.malformed", "udp.checksum.status", "ip.checksum.status") for word in ("-e", name)]
        options = ["-o", "udp.check_checksum:TRUE", "-o", "ip.check_checksum:TRUE", "-T", "fields", *fields]
        told = subprocess.run(["tshark", "-r", file.name, *options], capture_output=True, text=True, check=True)
    rows = [line.split("\t") for line in told.stdout.splitlines()]
    require(len(rows) == wanted, f"{len(rows)} packets, not {wanted}")
    require(all(row[1:] == ["", "1", "1"] for row in rows), "malformed packets, or wrong checksums")
    require(sum(row[0] != "" for row in rows) > 10, "no STUN")


async def keyboard(viewer: Any, url: str) -> None:
    """The keyboard alone reaches all, and plays."""
    await viewer.look(1280, 800)
    await shown(viewer, url, "story=two-homes&at=420&pause=1")
    reached = set()
    for _ in range(80):
        await viewer.press("Tab")
        reached.add(await viewer._evaluate("document.activeElement.id || document.activeElement.dataset.story || ''"))
    require(set(USES) <= reached, f"Tab does not reach {set(USES) - reached}")
    require({"two-homes", "flood"} <= reached, "Tab does not reach the stories")
    await viewer._evaluate("document.getElementById('diagram').focus()")
    await viewer.press("ArrowDown")
    await viewer.press("ArrowDown")
    require("Binding request" in await viewer._evaluate("document.getElementById('details').textContent"), "no packet is chosen")
    await viewer.press("Escape")
    require(await viewer._evaluate("document.getElementById('details').textContent") == "", "the choice does not end")
    before = await viewer._evaluate("page.session.now")
    await viewer.press(".")
    require(await viewer._evaluate("page.session.now") > before, "no step")
    await viewer.press(" ")
    require(await viewer._evaluate("document.getElementById('play').textContent") == "Pause", "it does not play")
    await viewer._evaluate("document.querySelector('[data-story=flood]').focus()")
    await viewer.press("Enter")
    await asyncio.sleep(0.3)
    require(await viewer._evaluate("page.story.id") == "flood", "Enter tells no story")
    said = await viewer._evaluate("document.getElementById('says').textContent")
    await viewer._evaluate("document.getElementById('turnA').focus()")
    await viewer.press(" ")
    require(await viewer._evaluate("page.session.settings.turnA"), "Space sets nothing")
    require(await viewer._evaluate("document.getElementById('says').textContent") != said, "an own setting has the words of a story")


async def plays(viewer: Any, url: str) -> None:
    """The page plays by itself, and pauses when the story is told."""
    await shown(viewer, url, "story=two-homes&speed=0")
    for _ in range(100):
        await asyncio.sleep(0.1)
        if await viewer._evaluate("document.getElementById('play').textContent") == "Play":
            break
    now = await viewer._evaluate("page.session.now")
    require(420 <= now < 700, f"it pauses at {now}")


async def sizes(viewer: Any, url: str, is_new: bool, compares: bool) -> None:
    """All fits in three sizes, light and dark, and looks as it did."""
    for name, (width, height) in SIZES.items():
        for dark in (False, True) if compares else (False,):
            await viewer.look(width, height, dark)
            await shown(viewer, url, "story=two-homes&at=420&pause=1")
            picture = await at_rest(viewer)
            told = await viewer.call("checks.fits")
            require(told["over"] <= 0 and told["diagram"] >= 300, f"{name}: {told}")
            if compares:
                await compare(viewer, picture, f"{name}-{'dark' if dark else 'light'}", is_new)


async def at_rest(viewer: Any) -> bytes:
    """Returns a picture of the window once two in a row are the same: a busy machine draws late."""
    picture = b""
    for _ in range(100):
        await asyncio.sleep(0.3)
        before, picture = picture, cast(bytes, await viewer.picture())
        if picture == before:
            return picture
    raise Fault("the page does not come to rest")


async def compare(viewer: Any, window: bytes, name: str, is_new: bool) -> None:
    """Compares a picture of the window with the one that is kept, or keeps it."""
    picture = base64.b64encode(window).decode()
    path = PICTURES / f"{name}.png"
    if is_new:
        PICTURES.mkdir(exist_ok=True)
        path.write_bytes(base64.b64decode(await viewer.call("checks.small", picture)))
        return
    others = sorted(it for it in PICTURES.glob(f"{name.split('-')[0]}-*.png") if it != path)
    for kept in (path, *others):
        found = await viewer.call("checks.difference", picture, base64.b64encode(kept.read_bytes()).decode())
        require((found < ALIKE) == (kept == path), f"{name}: differs from {kept.name} by {found:.1f}")


async def test(name: str, page: Path, digests: dict[str, Any], is_new: bool) -> list[str]:
    """Tests the page in a browser. Returns what is wrong."""
    from driving import VIEWERS
    url, faults = page.as_uri(), []
    async with VIEWERS[name]() as viewer:
        tests = {"the packets of Node": lambda: same_packets(viewer, url, digests), "links and files": lambda: links(viewer, url),
                 "keyboard": lambda: keyboard(viewer, url), "playing": lambda: plays(viewer, url),
                 "sizes": lambda: sizes(viewer, url, is_new, name == "chromium")}
        for what, run in tests.items():
            try:
                await run()
                print(f"  {viewer.version}: {what}: ok", flush=True)
            except Fault as fault:
                faults.append(f"{viewer.version}: {what}: {fault}")
    return faults


def main() -> int:
    """Returns the status: 0, or 1 if something is wrong, or 3 if no browser was there."""
    words = sys.argv[1:]
    if not words or any(word in ("-h", "--help") for word in words):
        print(__doc__)
        return 0 if words else 2
    is_new = "--pictures" in words
    page, *names = [word for word in words if not word.startswith("--")]
    try:
        from driving import VIEWERS
        missing = {name: VIEWERS[name].missing() for name in names or VIEWERS}
    except ImportError as why:
        missing = {"browsers": str(why)}
    for name, what in missing.items():
        if what:
            print(f"{name}: skipped, {what} is not installed")
    chosen = [name for name, what in missing.items() if not what]
    if not chosen:
        return 3
    told = subprocess.run(["node", str(HERE / "digests.js")], capture_output=True, text=True, check=True)
    faults = [fault for name in chosen for fault in asyncio.run(test(name, Path(page).resolve(), json.loads(told.stdout), is_new))]
    print("\n".join(faults) or f"the page works in {' and '.join(chosen)}")
    return 1 if faults else 0


if __name__ == "__main__":
    sys.exit(main())
