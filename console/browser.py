"""Drives a headless Chromium over its debugging pipe, for the console's test and its screenshots."""
from __future__ import annotations

import base64
import fcntl
import json
import os
import select
import shutil
import subprocess
import tempfile
import time
from pathlib import Path
from typing import Any, Optional

NAMES = ("chromium", "chromium-browser", "google-chrome-stable", "google-chrome")
FLAGS = (
    "--headless=new", "--no-sandbox", "--disable-gpu", "--no-first-run", "--disable-background-networking", "--disable-component-update", "--disable-sync",
    "--disable-dev-shm-usage", "--hide-scrollbars", "--remote-debugging-pipe",
)  # fmt: skip


class BrowserError(Exception):
    """The browser does not do what it is asked, or the page ended with an error."""


def find_browser() -> Optional[str]:
    """The path of a Chromium, or None."""
    return next((path for path in map(shutil.which, NAMES) if path), None)


def high_pipe() -> tuple[int, int]:
    """A pipe whose ends are none of 3 and 4, which the browser takes them as."""
    found = os.pipe()
    high = tuple(fcntl.fcntl(end, fcntl.F_DUPFD_CLOEXEC, 10) for end in found)
    for end in found:
        os.close(end)
    return high


class Browser:
    """One browser with one page."""

    def __init__(self, program: str):
        self.home = tempfile.TemporaryDirectory()
        (commands_out, self.commands), (self.events, events_in) = high_pipe(), high_pipe()
        self.process = subprocess.Popen(
            ["bash", "-c", 'exec 3<&"$1" 4>&"$2"; shift 2; exec "$@"', "bash", str(commands_out), str(events_in), program, *FLAGS,
             f"--user-data-dir={self.home.name}", "about:blank"],
            pass_fds=(commands_out, events_in), stdout=subprocess.DEVNULL, stderr=subprocess.DEVNULL,
        )  # fmt: skip
        os.close(commands_out)
        os.close(events_in)
        self.held = b""
        self.number = 0
        self.session: Optional[str] = None
        self.errors: list[str] = []
        self.target = self.open()

    def open(self) -> str:
        """Attaches to the page, and hears of its errors."""
        pages = [info for info in self.ask("Target.getTargets")["targetInfos"] if info["type"] == "page"]
        target = pages[0]["targetId"] if pages else self.ask("Target.createTarget", url="about:blank")["targetId"]
        self.session = self.ask("Target.attachToTarget", targetId=target, flatten=True)["sessionId"]
        for domain in ("Page", "Runtime", "Log"):
            self.ask(f"{domain}.enable")
        return target

    def __enter__(self) -> "Browser":
        return self

    def __exit__(self, *_: object) -> None:
        os.close(self.commands)
        try:
            self.process.wait(20)
        except subprocess.TimeoutExpired:
            self.process.kill()
            self.process.wait()
        os.close(self.events)
        self.home.cleanup()

    # ---- the pipe

    def message(self, seconds: float) -> dict[str, Any]:
        end = time.monotonic() + seconds
        while b"\0" not in self.held:
            if not select.select([self.events], [], [], max(0, end - time.monotonic()))[0]:
                raise BrowserError("the browser does not answer")
            data = os.read(self.events, 1 << 20)
            if not data:
                raise BrowserError("the browser ended")
            self.held += data
        text, _, self.held = self.held.partition(b"\0")
        return json.loads(text)

    def ask(self, method: str, **params: Any) -> dict[str, Any]:
        self.number += 1
        said = {"id": self.number, "method": method, "params": params} | ({"sessionId": self.session} if self.session else {})
        os.write(self.commands, json.dumps(said).encode() + b"\0")
        while True:
            message = self.message(60)
            self.note(message)
            if message.get("id") == self.number:
                if "error" in message:
                    raise BrowserError(f"{method}: {message['error']['message']}")
                return message["result"]

    def note(self, message: dict[str, Any]) -> None:
        """Keeps the errors of the page."""
        params = message.get("params", {})
        if message.get("method") == "Runtime.exceptionThrown":
            details = params["exceptionDetails"]
            self.errors.append(details.get("exception", {}).get("description") or details["text"])
        elif message.get("method") == "Log.entryAdded" and params["entry"]["level"] == "error":
            self.errors.append(f"{params['entry']['text']} {params['entry'].get('url', '')}")

    # ---- the page

    def go(self, address: str) -> None:
        self.ask("Page.navigate", url=address)

    def run(self, expression: str) -> Any:
        """The value of an expression, awaited where it is a promise."""
        found = self.ask("Runtime.evaluate", expression=expression, awaitPromise=True, returnByValue=True, userGesture=True)
        if "exceptionDetails" in found:
            raise BrowserError(found["exceptionDetails"].get("exception", {}).get("description", "an error"))
        return found["result"].get("value")

    def until(self, what: str, expression: str, seconds: float = 60) -> Any:
        """Waits until an expression holds, and gives its value, or true where that is an element."""
        end = time.monotonic() + seconds
        expression = f"(found => found instanceof Element || found)({expression})"
        while True:
            try:
                found = self.run(expression)
            except BrowserError as why:
                found = None
                if time.monotonic() >= end:
                    raise BrowserError(f"not within {seconds} seconds: {what} ({why})") from None
            if found:
                return found
            if time.monotonic() >= end:
                raise BrowserError(f"not within {seconds} seconds: {what}")
            time.sleep(0.03)

    def press(self, key: str) -> None:
        """Presses a key, as a person does."""
        code = {"Enter": 13, "Tab": 9, "Escape": 27}.get(key)
        text = "\r" if key == "Enter" else key if len(key) == 1 else ""
        more = {"windowsVirtualKeyCode": code} if code else {}
        self.ask("Input.dispatchKeyEvent", type="keyDown", key=key, text=text, **more)
        self.ask("Input.dispatchKeyEvent", type="keyUp", key=key, **more)

    def type(self, text: str) -> None:
        self.ask("Input.insertText", text=text)

    def size(self, width: int, height: int, is_dark: bool = False) -> None:
        self.ask("Emulation.setDeviceMetricsOverride", width=width, height=height, deviceScaleFactor=1, mobile=width < 600)
        self.ask("Emulation.setEmulatedMedia", features=[{"name": "prefers-color-scheme", "value": "dark" if is_dark else "light"}])

    def picture(self, path: Path) -> None:
        path.write_bytes(base64.b64decode(self.ask("Page.captureScreenshot", format="png")["data"]))
