"""A browser for tests: Chromium without a window, by its driver, which speaks the WebDriver protocol."""

from __future__ import annotations

import base64
import json
import os
import shutil
import subprocess
import tempfile
import time
import urllib.error
import urllib.request
from pathlib import Path
from typing import Any, Callable, Dict, List, Optional

_ELEMENT = "element-6066-11e4-a52e-4f735466cecf"

# Keys, as WebDriver spells them.
KEYS = {
    "Enter": "\ue007",
    "Delete": "\ue017",
    "Down": "\ue015",
    "Up": "\ue013",
    "Right": "\ue014",
    "Escape": "\ue00c",
    "End": "\ue010",
}


def missing() -> Optional[str]:
    """What isn't here that a browser needs."""
    if shutil.which("chromedriver") is None:
        return "Chromium's driver isn't here (Debian's packages chromium and chromium-driver)"
    return None


class Browser:
    def __init__(self, width: int = 1200, height: int = 800) -> None:
        self._home = tempfile.TemporaryDirectory(prefix="hac-browser-")
        self._driver = subprocess.Popen(
            ["chromedriver", "--port=0"],
            stdin=subprocess.DEVNULL,
            stdout=subprocess.PIPE,
            stderr=subprocess.DEVNULL,
            env={**os.environ, "HOME": self._home.name},
        )
        assert self._driver.stdout is not None
        line = b""
        while b"started successfully on port" not in line:
            line = self._driver.stdout.readline()
            if not line:
                raise OSError("chromedriver doesn't start")
        self._at = f"http://127.0.0.1:{int(line.split()[-1].rstrip(b'.'))}"
        options = [
            "--headless=new",
            "--no-sandbox",
            "--disable-gpu",
            "--disable-dev-shm-usage",
            f"--window-size={width},{height}",
        ]
        wanted = {"capabilities": {"alwaysMatch": {"goog:chromeOptions": {"args": options}}}}
        self._session = self._call("POST", "/session", wanted)["sessionId"]
        self.run("return 1")

    def close(self) -> None:
        try:
            self._call("DELETE", f"/session/{self._session}")
        except (OSError, AssertionError):
            pass
        self._driver.terminate()
        self._driver.communicate()
        self._home.cleanup()

    def _call(self, method: str, path: str, body: Optional[Dict[str, Any]] = None) -> Any:
        content = None if method != "POST" else json.dumps(body or {}).encode()
        request = urllib.request.Request(self._at + path, content, {"Content-Type": "application/json"}, method=method)
        try:
            with urllib.request.urlopen(request, timeout=120) as reply:
                return json.loads(reply.read())["value"]
        except urllib.error.HTTPError as error:
            raise AssertionError(json.loads(error.read())["value"]["message"].splitlines()[0]) from None

    def _in_session(self, path: str, **body: Any) -> Any:
        return self._call("POST", f"/session/{self._session}{path}", body)

    def go(self, address: str) -> None:
        self._in_session("/url", url=address)

    def back(self) -> None:
        self._in_session("/back")

    def run(self, script: str, *words: Any) -> Any:
        """What a script in the page gives."""
        return self._in_session("/execute/sync", script=script, args=list(words))

    def size(self, width: int, height: int) -> None:
        self._in_session("/window/rect", width=width, height=height)

    def prefers(self, scheme: str) -> None:
        """What the person at the browser prefers: dark or light."""
        features = [{"name": "prefers-color-scheme", "value": scheme}]
        self._in_session("/goog/cdp/execute", cmd="Emulation.setEmulatedMedia", params={"features": features})

    def find(self, selector: str) -> str:
        return self._in_session("/element", using="css selector", value=selector)[_ELEMENT]

    def click(self, selector: str) -> None:
        self._in_session(f"/element/{self.find(selector)}/click")

    def type(self, selector: str, text: str) -> None:
        """Writes into a field, in the place of what is there."""
        element = self.find(selector)
        self._in_session(f"/element/{element}/clear")
        self._in_session(f"/element/{element}/value", text=text)

    def press(self, *keys: str) -> None:
        """Presses keys, one after the other, wherever the focus is."""
        actions = []
        for key in keys:
            value = KEYS.get(key, key)
            actions += [{"type": "keyDown", "value": value}, {"type": "keyUp", "value": value}]
        self._in_session("/actions", actions=[{"type": "key", "id": "keys", "actions": actions}])

    def drag(self, source: str, target: str) -> None:
        """Drags one thing to another by the mouse."""
        origin = {_ELEMENT: self.find(source)}
        end = {_ELEMENT: self.find(target)}
        moves = [
            {"type": "pointerMove", "origin": origin, "x": 0, "y": 0},
            {"type": "pointerDown", "button": 0},
            {"type": "pause", "duration": 100},
            {"type": "pointerMove", "origin": origin, "x": 5, "y": 5, "duration": 100},
            {"type": "pointerMove", "origin": end, "x": 0, "y": 0, "duration": 300},
            {"type": "pointerMove", "origin": end, "x": 2, "y": 1, "duration": 100},
            {"type": "pause", "duration": 100},
            {"type": "pointerUp", "button": 0},
        ]
        self._in_session("/actions", actions=[{"type": "pointer", "id": "mouse", "actions": moves}])

    def texts(self, selector: str) -> List[str]:
        """The texts of all that a selector finds."""
        return self.run("return Array.from(document.querySelectorAll(arguments[0]), one => one.textContent)", selector)

    def text(self, selector: str) -> str:
        return self.run("return document.querySelector(arguments[0])?.textContent ?? ''", selector)

    def errors(self) -> List[str]:
        """What the page's console has of errors."""
        logs = self._in_session("/se/log", type="browser")
        return [line["message"] for line in logs if line["level"] == "SEVERE"]

    def picture(self, file: Path) -> None:
        file.write_bytes(base64.b64decode(self._call("GET", f"/session/{self._session}/screenshot")))

    def until(self, seen: Callable[[], Any], wanted: Any, seconds: float = 20) -> None:
        """Waits until something is seen."""
        end = time.monotonic() + seconds
        last = seen()
        while last != wanted:
            if time.monotonic() > end:
                raise AssertionError(f"{last!r} is seen, and not {wanted!r}")
            time.sleep(0.05)
            last = seen()
