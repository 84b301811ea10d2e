"""A real browser for tests: Debian's chromium, without a window, driven by WebDriver over the standard library."""

from __future__ import annotations

import base64
import json
import re
import shutil
import subprocess
import tempfile
import time
import urllib.error
import urllib.request
from pathlib import Path
from types import TracebackType
from typing import Any

DRIVER, CHROMIUM = "chromedriver", "chromium"
SECONDS = 60.0  # for one command
KEYS = {"Left": "\ue012", "Up": "\ue013", "Right": "\ue014", "Down": "\ue015", "Tab": "\ue004", "Enter": "\ue007",
        "Escape": "\ue00c", "Shift": "\ue008", "Backspace": "\ue003"}
ELEMENT = "element-6066-11e4-a52e-4f735466cecf"


def is_there() -> bool:
    """Whether the browser and its driver are installed."""
    return shutil.which(DRIVER) is not None and shutil.which(CHROMIUM) is not None


class BrowserError(Exception):
    """What the driver answered."""


class Browser:
    """One browser with one page. Use it with `with`: at the end it is closed."""

    def __init__(self, width: int = 1280, height: int = 900, options: tuple[str, ...] = ()) -> None:
        self.folder = tempfile.TemporaryDirectory(prefix="browser-")
        self.log = Path(self.folder.name, "driver.log")
        with self.log.open("wb") as log:
            self.process = subprocess.Popen([DRIVER, "--port=0"], stdout=log, stderr=subprocess.STDOUT)
        self.session = ""
        try:
            self.base = f"http://127.0.0.1:{self.port()}"
            words = ["--headless=new", "--no-sandbox", "--disable-gpu", "--hide-scrollbars", "--disable-dev-shm-usage",
                     f"--window-size={width},{height}", f"--user-data-dir={self.folder.name}/profile", *options]
            wanted = {"browserName": "chrome", "goog:loggingPrefs": {"browser": "ALL"},
                      "goog:chromeOptions": {"args": words, "binary": shutil.which(CHROMIUM) or CHROMIUM}}
            made = self.send("POST", "/session", {"capabilities": {"alwaysMatch": wanted}})
            self.session = f"/session/{made['sessionId']}"
        except BaseException:
            self.close()
            raise

    def __enter__(self) -> Browser:
        return self

    def __exit__(self, kind: type[BaseException] | None, error: BaseException | None, trace: TracebackType | None) -> None:
        self.close()

    def port(self) -> int:
        """The port on which the driver says that it listens."""
        end = time.monotonic() + SECONDS
        while time.monotonic() < end:
            found = re.search(rb"successfully on port (\d+)", self.log.read_bytes())
            if found:
                return int(found[1])
            if self.process.poll() is not None:
                break
            time.sleep(0.05)
        raise BrowserError(f"the driver does not start: {self.log.read_bytes()[-300:]!r}")

    def close(self) -> None:
        """Ends the browser and its driver."""
        if self.session:
            try:
                self.send("DELETE", self.session)
            except (BrowserError, OSError):
                pass
            self.session = ""
        self.process.terminate()
        try:
            self.process.wait(10)
        except subprocess.TimeoutExpired:
            self.process.kill()
            self.process.wait()
        for _ in range(20):  # the browser may still write into its folder
            try:
                self.folder.cleanup()
                break
            except OSError:
                time.sleep(0.1)

    def send(self, method: str, path: str, body: dict[str, Any] | None = None) -> Any:
        """One command, and the value that is answered."""
        data = json.dumps(body or {}).encode() if method == "POST" else None
        request = urllib.request.Request(self.base + path, data, {"Content-Type": "application/json"}, method=method)
        try:
            with urllib.request.urlopen(request, timeout=SECONDS) as answer:
                return json.load(answer)["value"]
        except urllib.error.HTTPError as error:
            value = json.load(error).get("value", {})
            raise BrowserError(f"{value.get('error')}: {str(value.get('message'))[:400]}") from None

    # What tests do

    def go(self, address: str | Path) -> None:
        """Opens a page: an address, or a file."""
        where = Path(address).resolve().as_uri() if isinstance(address, Path) else address
        self.send("POST", self.session + "/url", {"url": where})

    def run(self, script: str, *arguments: Any) -> Any:
        """Runs a script in the page: the value that it returns."""
        return self.send("POST", self.session + "/execute/sync", {"script": script, "args": list(arguments)})

    def run_later(self, script: str, *arguments: Any) -> Any:
        """Runs a script that calls its last argument with a value."""
        return self.send("POST", self.session + "/execute/async", {"script": script, "args": list(arguments)})

    def find(self, selector: str) -> dict[str, str]:
        """The first element of a selector."""
        found: dict[str, str] = self.send("POST", self.session + "/element", {"using": "css selector", "value": selector})
        return found

    def click(self, selector: str) -> None:
        """Clicks on an element."""
        self.send("POST", f"{self.session}/element/{self.find(selector)[ELEMENT]}/click")

    def type(self, selector: str, text: str) -> None:
        """Types into an element."""
        self.send("POST", f"{self.session}/element/{self.find(selector)[ELEMENT]}/value", {"text": text})

    def keys(self, *names: str) -> None:
        """Presses keys, one after the other: a letter, or a name of `KEYS`."""
        actions = []
        for name in names:
            value = KEYS.get(name, name)
            actions += [{"type": "keyDown", "value": value}, {"type": "keyUp", "value": value}]
        self.send("POST", self.session + "/actions", {"actions": [{"type": "key", "id": "keys", "actions": actions}]})

    def point(self, *moves: dict[str, Any]) -> None:
        """Moves the mouse: actions of WebDriver's pointer."""
        self.send("POST", self.session + "/actions", {"actions": [
            {"type": "pointer", "id": "mouse", "parameters": {"pointerType": "mouse"}, "actions": list(moves)}]})

    def point_at(self, selector: str) -> None:
        """Points at the middle of an element."""
        self.run("document.querySelector(arguments[0]).scrollIntoView({block: 'center'})", selector)
        self.point({"type": "pointerMove", "duration": 0, "origin": self.find(selector), "x": 0, "y": 0})

    def size(self, width: int, height: int) -> None:
        """The size of what is seen of the page, as on a device."""
        self.send("POST", f"{self.session}/goog/cdp/execute", {"cmd": "Emulation.setDeviceMetricsOverride", "params": {
            "width": width, "height": height, "deviceScaleFactor": 1, "mobile": False}})

    def media(self, **features: str) -> None:
        """What the page is shown on: `media="print"`, or features as `prefers_color_scheme="dark"`."""
        kind = features.pop("media", "")
        self.send("POST", f"{self.session}/goog/cdp/execute", {"cmd": "Emulation.setEmulatedMedia", "params": {
            "media": kind, "features": [{"name": name.replace("_", "-"), "value": value} for name, value in features.items()]}})

    def wait(self, script: str, seconds: float = 10.0) -> Any:
        """Waits until a script returns something true, and gives it."""
        end = time.monotonic() + seconds
        while True:
            value = self.run(script)
            if value or time.monotonic() > end:
                return value
            time.sleep(0.05)

    def text(self, selector: str) -> str:
        """The text of an element, as it is seen."""
        return str(self.run("return document.querySelector(arguments[0])?.innerText ?? ''", selector))

    def screenshot(self, path: Path) -> None:
        """A picture of what is seen."""
        path.write_bytes(base64.b64decode(self.send("GET", self.session + "/screenshot")))

    def logs(self) -> list[str]:
        """What was written to the console since the last time, errors and warnings alone."""
        found = self.send("POST", f"{self.session}/se/log", {"type": "browser"})
        return [str(each["message"]) for each in found if each["level"] in ("SEVERE", "WARNING")]
