"""A headless Chromium, driven by its DevTools protocol over a WebSocket of the loopback range."""
import asyncio
import base64
import contextlib
import json
import pathlib
import shutil
import tempfile
import time
from collections.abc import AsyncIterator
from typing import Any

import aiohttp

# How long the browser may take to begin, and any one call, in seconds.
BEGINNING = 90.0
CALL = 60.0
NAMES = ("chromium", "chromium-browser", "google-chrome")


def browser() -> str | None:
    return next((found for name in NAMES if (found := shutil.which(name))), None)


class Page:
    def __init__(self, socket: aiohttp.ClientWebSocketResponse) -> None:
        self._socket = socket
        self._number = 0

    async def call(self, method: str, **parameters: Any) -> Any:
        self._number += 1
        await self._socket.send_json({"id": self._number, "method": method, "params": parameters})
        until = time.monotonic() + CALL
        while time.monotonic() < until:
            said = json.loads((await asyncio.wait_for(self._socket.receive(), CALL)).data)
            if said.get("id") == self._number:
                if "error" in said:
                    raise AssertionError(f"{method}: {said['error']}")
                return said["result"]
        raise AssertionError(f"{method} wasn't answered")

    async def value(self, code: str) -> Any:
        """What an expression of the page is."""
        said = await self.call("Runtime.evaluate", expression=code, awaitPromise=True, returnByValue=True)
        if "exceptionDetails" in said:
            raise AssertionError(f"{code}: {said['exceptionDetails']}")
        return said["result"].get("value")

    async def until(self, code: str, seconds: float) -> float:
        """Waits until an expression is true. How long that took."""
        begun = time.monotonic()
        while not await self.value(code):
            if time.monotonic() - begun > seconds:
                raise AssertionError(f"not within {seconds} s: {code}; the page says: {await self.value('document.body.innerText')}")
            await asyncio.sleep(0.02)
        return time.monotonic() - begun

    async def picture(self, path: pathlib.Path) -> None:
        said = await self.call("Page.captureScreenshot", format="png")
        path.write_bytes(base64.b64decode(said["data"]))


@contextlib.asynccontextmanager
async def page(url: str, width: int = 1000, height: int = 760, dark: bool = False) -> AsyncIterator[Page]:
    """A page that shows a URL, in a browser of its own."""
    program = browser()
    assert program
    with tempfile.TemporaryDirectory(prefix="ucon-browser-", ignore_cleanup_errors=True) as folder:
        process = await asyncio.create_subprocess_exec(
            program, "--headless=new", "--no-sandbox", "--disable-gpu", "--no-first-run", "--disable-dev-shm-usage", "--hide-scrollbars",
            "--disable-background-networking", "--disable-component-update", "--disable-sync",
            "--host-resolver-rules=MAP * ~NOTFOUND, EXCLUDE 127.0.0.1",
            f"--user-data-dir={folder}", "--remote-debugging-port=0", f"--window-size={width},{height}", "about:blank",
            stdout=asyncio.subprocess.DEVNULL, stderr=asyncio.subprocess.DEVNULL,
        )
        try:
            port = await opened(pathlib.Path(folder) / "DevToolsActivePort")
            async with aiohttp.ClientSession() as session:
                async with session.get(f"http://127.0.0.1:{port}/json") as response:
                    target = next(it for it in await response.json() if it["type"] == "page")
                async with session.ws_connect(target["webSocketDebuggerUrl"], max_msg_size=1 << 26) as socket:
                    made = Page(socket)
                    if dark:
                        await made.call("Emulation.setEmulatedMedia", features=[{"name": "prefers-color-scheme", "value": "dark"}])
                    await made.call("Emulation.setDeviceMetricsOverride", width=width, height=height, deviceScaleFactor=1, mobile=False)
                    await made.call("Page.enable")
                    await made.call("Page.navigate", url=url)
                    await made.until("document.readyState === 'complete' && location.href !== 'about:blank'", CALL)
                    yield made
        finally:
            with contextlib.suppress(ProcessLookupError):
                process.terminate()
            try:
                await asyncio.wait_for(process.wait(), 10)
            except asyncio.TimeoutError:
                process.kill()
                await process.wait()


async def opened(file: pathlib.Path) -> int:
    until = time.monotonic() + BEGINNING
    while time.monotonic() < until:
        with contextlib.suppress(OSError, ValueError, IndexError):
            return int(file.read_text().splitlines()[0])
        await asyncio.sleep(0.1)
    raise AssertionError("the browser didn't begin")
