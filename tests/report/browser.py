"""Controls headless Chromium through its debugging protocol, for checks of web pages."""
from __future__ import annotations

import base64
import contextlib
import json
import os
import shutil
import socket
import struct
import subprocess
import tempfile
import time
import urllib.request
from collections.abc import Iterator
from typing import Any, Optional

from harness import Wrong, must

# The timeout (s) for an answer. It is long enough for a busy machine.
SECONDS = 120
NAMES = ("chromium", "chromium-browser", "google-chrome")


def browser_path() -> Optional[str]:
    """Returns the path of the browser, or None if no browser is installed."""
    return next(filter(None, (shutil.which(name) for name in NAMES)), None)


class Socket:
    """A WebSocket client (RFC 6455). It masks the messages that it sends, and expects unmasked
    messages from the browser.
    """

    def __init__(self, port: int, path: str) -> None:
        self.stream = socket.create_connection(("127.0.0.1", port), SECONDS)
        key = base64.b64encode(os.urandom(16)).decode()
        head = (
            f"GET {path} HTTP/1.1\r\nHost: 127.0.0.1:{port}\r\nUpgrade: websocket\r\n"
            "Connection: Upgrade\r\n"
        )
        self.stream.sendall(
            f"{head}Sec-WebSocket-Key: {key}\r\nSec-WebSocket-Version: 13\r\n\r\n".encode()
        )
        self.file = self.stream.makefile("rb")
        must(b" 101 " in self.file.readline(), "the browser takes the socket")
        while self.file.readline().strip():
            pass

    def send(self, text: str) -> None:
        data, mask = text.encode(), os.urandom(4)
        length = bytes([0x80 | len(data)]) if len(data) < 126 else (
            b"\xfe" + struct.pack(">H", len(data))
            if len(data) < 1 << 16
            else b"\xff" + struct.pack(">Q", len(data))
        )  # fmt: skip
        self.stream.sendall(
            b"\x81" + length + mask + bytes(it ^ mask[place % 4] for place, it in enumerate(data))
        )

    def receive(self) -> str:
        """Returns the next message, which may consist of several frames."""
        whole = b""
        while True:
            first, second = self.file.read(2)
            length = second & 127
            if length >= 126:
                length = int.from_bytes(self.file.read(2 if length == 126 else 8), "big")
            data = self.file.read(length)
            if first & 15 in (0, 1):
                whole += data
                if first & 128:
                    return whole.decode()

    def close(self) -> None:
        self.file.close()
        self.stream.close()


class Page:
    """An open page. `faults` contains the messages on its console and its uncaught exceptions."""

    def __init__(self, stream: Socket) -> None:
        self.stream, self.number = stream, 0
        self.faults: list[str] = []
        self.loads = 0
        for domain in ("Runtime", "Log", "Page", "Network"):
            self.ask(f"{domain}.enable")
        self.asked: list[str] = []

    def ask(self, method: str, **params: Any) -> dict[str, Any]:
        """Calls a method of the browser and returns its result. Events that arrive before the
        result are stored.
        """
        self.number += 1
        self.stream.send(json.dumps({"id": self.number, "method": method, "params": params}))
        while True:
            message = json.loads(self.stream.receive())
            if message.get("id") == self.number:
                if "error" in message:
                    raise Wrong(f"{method}: {message['error']}")
                answer: dict[str, Any] = message["result"]
                return answer
            self.take(message)

    def take(self, message: dict[str, Any]) -> None:
        method, params = message.get("method"), message.get("params", {})
        if method == "Runtime.exceptionThrown":
            self.faults.append(json.dumps(params["exceptionDetails"]))
        elif method == "Runtime.consoleAPICalled" and params["type"] in ("error", "warning"):
            self.faults.append(json.dumps(params["args"]))
        elif method == "Log.entryAdded":
            self.faults.append(params["entry"]["text"])
        elif method == "Page.loadEventFired":
            self.loads += 1
        elif method == "Network.requestWillBeSent":
            self.asked.append(params["request"]["url"])

    def open(self, path: str) -> None:
        """Opens a file in the page, and waits until it has loaded."""
        before = self.loads
        self.ask("Page.navigate", url=f"file://{path}")
        self.wait_for_load(before)

    def wait_for_load(self, before: int) -> None:
        """Waits until more than `before` pages have been loaded."""
        end = time.monotonic() + SECONDS
        while self.loads == before:
            must(time.monotonic() < end, "the page is loaded")
            self.value("0")
            time.sleep(0.02)

    def value(self, script: str) -> Any:
        """Returns the value of a JavaScript expression on the page."""
        found = self.ask("Runtime.evaluate", expression=script, returnByValue=True)
        must("exceptionDetails" not in found, f"{script}: {found.get('exceptionDetails')}")
        return found["result"].get("value")

    def look(self, width: int, height: int = 900, scheme: str = "light", media: str = "") -> None:
        """Sets the window's size (pixels), the preferred color scheme (light or dark) and the CSS
        medium.
        """
        self.ask("Emulation.setDeviceMetricsOverride", width=width, height=height,
                 deviceScaleFactor=1, mobile=False)
        self.ask("Emulation.setEmulatedMedia", media=media,
                 features=[{"name": "prefers-color-scheme", "value": scheme}])

    def picture(self, clip: Optional[dict[str, float]] = None) -> bytes:
        """Returns a PNG image of the window, or of the part `clip` of the page."""
        more: dict[str, Any] = (
            {"clip": {**clip, "scale": 1}, "captureBeyondViewport": True} if clip else {}
        )
        return base64.b64decode(self.ask("Page.captureScreenshot", format="png", **more)["data"])

    def mouse(self, kind: str, x: float, y: float, **more: Any) -> None:
        self.ask("Input.dispatchMouseEvent", type=kind, x=x, y=y, **more)

    def click(self, x: float, y: float) -> None:
        self.drag(x, x, y)

    def drag(self, left: float, right: float, y: float) -> None:
        """Presses the mouse button at x = `left`, moves the pointer to x = `right`, and releases
        the button. Positions are in pixels, and the vertical position is `y` throughout.
        """
        self.mouse("mousePressed", left, y, button="left", clickCount=1)
        self.mouse("mouseMoved", (left + right) / 2, y, button="left", buttons=1)
        self.mouse("mouseMoved", right, y, button="left", buttons=1)
        self.mouse("mouseReleased", right, y, button="left", clickCount=1)

    def key(self, name: str, code: int, text: str = "", modifiers: int = 0) -> None:
        """Presses and releases the key with this name and key code."""
        for kind in ("keyDown", "keyUp"):
            more = {"text": text} if text and kind == "keyDown" else {}
            self.ask("Input.dispatchKeyEvent", type=kind, key=name, windowsVirtualKeyCode=code,
                     modifiers=modifiers, **more)


def flags(folder: str) -> list[str]:
    """Returns the browser's arguments. They turn off background network requests and, for root,
    the sandbox, since Chromium doesn't run as root with a sandbox.
    """
    found = [
        "--headless", "--disable-gpu", "--hide-scrollbars", "--no-first-run",
        "--disable-extensions", "--disable-dev-shm-usage",
    ]
    found += [
        "--disable-background-networking", "--disable-component-update", "--disable-sync",
        f"--user-data-dir={folder}",
    ]
    return found + (["--no-sandbox"] if os.geteuid() == 0 else [])


def port_of(folder: str, process: subprocess.Popen[bytes]) -> int:
    """Waits until the browser has written the port of its debugging protocol, and returns the port.
    """
    path = os.path.join(folder, "DevToolsActivePort")
    end = time.monotonic() + SECONDS
    while time.monotonic() < end and process.poll() is None:
        with contextlib.suppress(FileNotFoundError), open(path, encoding="utf-8") as file:
            lines = file.read().splitlines()
            if len(lines) >= 2:
                return int(lines[0])
        time.sleep(0.1)
    raise Wrong("the browser didn't start")


@contextlib.contextmanager
def opened_browser(path: str) -> Iterator[Page]:
    """Starts a new browser, and yields an empty page in it."""
    with tempfile.TemporaryDirectory(ignore_cleanup_errors=True) as folder:
        words = [path, *flags(folder), "--remote-debugging-port=0", "about:blank"]
        process = subprocess.Popen(words, stdout=subprocess.DEVNULL, stderr=subprocess.DEVNULL)
        try:
            port = port_of(folder, process)
            with urllib.request.urlopen(
                f"http://127.0.0.1:{port}/json/list", timeout=SECONDS
            ) as answer:
                pages = [it for it in json.load(answer) if it["type"] == "page"]
            stream = Socket(port, pages[0]["webSocketDebuggerUrl"].partition(f":{port}")[2])
            try:
                page = Page(stream)
                yield page
                with contextlib.suppress(Wrong, OSError, ValueError):
                    page.ask("Browser.close")
            finally:
                stream.close()
        finally:
            process.terminate()
            process.wait(SECONDS)
