"""Drives a real browser: chromium without a screen, by its DevTools protocol over a websocket."""
from __future__ import annotations

import base64
import json
import os
import re
import shutil
import socket
import subprocess
import tempfile
import time
import unittest
from pathlib import Path
from typing import Any

WAIT_SECONDS = 40
START_LINE = re.compile(r"DevTools listening on ws://([^:/]+):(\d+)(/\S+)")

# Scrolls to fifty places of the list, and tells how long each took, in order.
SCROLL = """(() => {
    const box = document.querySelector(".long-list"), waits = [];
    for (let i = 0; i < 50; i++) {
        const before = performance.now();
        box.scrollTop = (box.scrollHeight - box.clientHeight) * (i * 37 % 50) / 49;
        box.dispatchEvent(new Event("scroll"));
        box.getBoundingClientRect();
        waits.push(performance.now() - before);
    }
    return waits.sort((a, b) => a - b);
})()"""


def find_browser() -> str | None:
    return shutil.which("chromium")


class WebSocket:
    """The client's side of RFC 6455, as far as DevTools uses it: texts, also those in several frames."""

    def __init__(self, host: str, port: int, path: str) -> None:
        self.socket = socket.create_connection((host, port), WAIT_SECONDS)
        self.read = b""
        key = base64.b64encode(os.urandom(16)).decode()
        self.socket.sendall((f"GET {path} HTTP/1.1\r\nHost: {host}:{port}\r\nUpgrade: websocket\r\n"
                             f"Connection: Upgrade\r\nSec-WebSocket-Key: {key}\r\n"
                             "Sec-WebSocket-Version: 13\r\n\r\n").encode())
        while b"\r\n\r\n" not in self.read:
            self.receive()
        head, self.read = self.read.split(b"\r\n\r\n", 1)
        if b" 101 " not in head.split(b"\r\n")[0]:
            raise ConnectionError(head.decode("latin-1"))

    def receive(self) -> None:
        more = self.socket.recv(1 << 20)
        if not more:
            raise ConnectionError("the browser closed the connection")
        self.read += more

    def take(self, count: int) -> bytes:
        while len(self.read) < count:
            self.receive()
        taken, self.read = self.read[:count], self.read[count:]
        return taken

    def send(self, text: str) -> None:
        content, mask = text.encode(), os.urandom(4)
        if len(content) < 126:
            head = bytes([0x81, 0x80 | len(content)])
        elif len(content) < 1 << 16:
            head = bytes([0x81, 0xFE]) + len(content).to_bytes(2, "big")
        else:
            head = bytes([0x81, 0xFF]) + len(content).to_bytes(8, "big")
        repeated = (mask * (len(content) // 4 + 1))[:len(content)]
        masked = int.from_bytes(content, "big") ^ int.from_bytes(repeated, "big")
        self.socket.sendall(head + mask + masked.to_bytes(len(content), "big"))

    def next_text(self) -> str:
        whole = b""
        while True:
            first, second = self.take(2)
            length = second & 0x7F
            if length > 125:
                length = int.from_bytes(self.take(2 if length == 126 else 8), "big")
            content = self.take(length)
            if first & 0x0F in (0, 1):
                whole += content
                if first & 0x80:
                    return whole.decode()

    def close(self) -> None:
        self.socket.close()


class Browser:
    """One page in a browser of its own, which ends with it."""

    def __init__(self, width: int = 1280, height: int = 900, dark: bool = False) -> None:
        self.profile = tempfile.TemporaryDirectory(prefix="page-browser-")
        self.process = subprocess.Popen(
            [find_browser() or "chromium", "--headless=new", "--no-sandbox", "--disable-gpu", "--hide-scrollbars",
             "--no-first-run", "--disable-extensions", "--disable-background-networking",
             "--disable-component-update", "--remote-debugging-port=0", f"--user-data-dir={self.profile.name}",
             "about:blank"],
            stderr=subprocess.PIPE, stdout=subprocess.DEVNULL, text=True, errors="replace")
        self.number = 0
        self.events: list[dict[str, Any]] = []
        self.session = ""
        host, port, path = self.address()
        self.socket = WebSocket(host, port, path)
        target = self.call("Target.createTarget", url="about:blank")["targetId"]
        self.session = self.call("Target.attachToTarget", targetId=target, flatten=True)["sessionId"]
        for domain in ("Page", "Runtime", "Log"):
            self.call(f"{domain}.enable")
        self.size(width, height, dark)

    def address(self) -> tuple[str, int, str]:
        assert self.process.stderr is not None
        for line in self.process.stderr:
            if match := START_LINE.search(line):
                return match[1], int(match[2]), match[3]
        raise ConnectionError("the browser didn’t start")

    def call(self, method: str, **told: Any) -> dict[str, Any]:
        self.number += 1
        message = {"id": self.number, "method": method, "params": told}
        if self.session:
            message["sessionId"] = self.session
        self.socket.send(json.dumps(message))
        while True:
            answer = json.loads(self.socket.next_text())
            if answer.get("id") == self.number:
                if "error" in answer:
                    raise RuntimeError(f"{method}: {answer['error']}")
                return answer["result"]
            self.events.append(answer)

    def size(self, width: int, height: int, dark: bool = False) -> None:
        self.call("Emulation.setDeviceMetricsOverride", width=width, height=height, deviceScaleFactor=1,
                  mobile=width < 600)
        scheme = "dark" if dark else "light"
        self.call("Emulation.setEmulatedMedia", features=[{"name": "prefers-color-scheme", "value": scheme}])

    def open(self, path: Path) -> None:
        """Opens a file and waits until its script has run."""
        self.events.clear()
        self.call("Page.navigate", url=path.resolve().as_uri())
        until = time.monotonic() + WAIT_SECONDS
        while not self.run("location.protocol === 'file:' && document.documentElement?.dataset.ready === 'true'"):
            if time.monotonic() > until:
                raise TimeoutError(f"the script of {path.name} didn’t come to its end: {self.complaints()}")
            time.sleep(0.02)

    def run(self, script: str) -> Any:
        """The value of an expression on the page; waits where it is a promise."""
        result = self.call("Runtime.evaluate", expression=script, awaitPromise=True, returnByValue=True)
        if "exceptionDetails" in result:
            raise RuntimeError(json.dumps(result["exceptionDetails"])[:2000])
        return result["result"].get("value")

    def complaints(self) -> list[str]:
        """Errors of scripts and of the page's policy since the page was opened."""
        self.run("1")
        found = []
        for event in self.events:
            told = event.get("params", {})
            if event.get("method") == "Runtime.exceptionThrown":
                found.append(json.dumps(told)[:500])
            elif event.get("method") == "Log.entryAdded" and told["entry"]["level"] == "error":
                found.append(told["entry"]["text"])
            elif event.get("method") == "Page.javascriptDialogOpening":
                found.append("a dialog: " + told["message"])
        return found

    def picture(self, path: Path, whole: bool = False, part: tuple[int, int, int, int] | None = None) -> None:
        told: dict[str, Any] = {"format": "png", "captureBeyondViewport": whole or part is not None}
        if part:
            x, y, width, height = part
            told["clip"] = {"x": x, "y": y, "width": width, "height": height, "scale": 1}
        path.write_bytes(base64.b64decode(self.call("Page.captureScreenshot", **told)["data"]))

    def printed(self, path: Path) -> None:
        answer = self.call("Page.printToPDF", printBackground=False, preferCSSPageSize=True)
        path.write_bytes(base64.b64decode(answer["data"]))

    def close(self) -> None:
        try:
            self.call("Browser.close")
        except (OSError, RuntimeError):
            pass
        self.socket.close()
        try:
            self.process.wait(20)
        except subprocess.TimeoutExpired:
            self.process.kill()
            self.process.wait()
        if self.process.stderr:
            self.process.stderr.close()
        self.profile.cleanup()

    def __enter__(self) -> Browser:
        return self

    def __exit__(self, *_: object) -> None:
        self.close()


@unittest.skipUnless(find_browser(), "tools/install_browser.sh installs the browser")
class BrowserTest(unittest.TestCase):
    """Tests that share one browser, and a folder for their pages."""

    folder: Path
    browser: Browser

    @classmethod
    def setUpClass(cls) -> None:
        cls.browser = Browser()
        cls.room = tempfile.TemporaryDirectory()
        cls.folder = Path(cls.room.name)

    @classmethod
    def tearDownClass(cls) -> None:
        cls.browser.close()
        cls.room.cleanup()
