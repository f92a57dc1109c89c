"""Debian's chromium without a window, driven by its debugging protocol over a pipe."""

import base64
import json
import os
import pathlib
import shutil
import subprocess
import tempfile
import time
from typing import Any

# How long an answer may take, on a busy machine.
PATIENCE = 120

KEYS = {"Tab": 9, "Enter": 13, "Escape": 27, " ": 32, "PageUp": 33, "PageDown": 34, "End": 35, "Home": 36,
        "ArrowLeft": 37, "ArrowUp": 38, "ArrowRight": 39, "ArrowDown": 40}


class Browser:
    """A chromium with one page. It has no network but files."""

    def __init__(self) -> None:
        program = shutil.which("chromium")
        if program is None:
            raise SystemExit("checks: chromium is missing: apt-get install chromium")
        self.room = tempfile.TemporaryDirectory(prefix="checks-browser.", ignore_cleanup_errors=True)
        told, self.asks = os.pipe()
        self.answers, tells = os.pipe()

        def as_pipe() -> None:
            """The browser reads what it is asked as 3, and answers as 4."""
            high = os.dup(tells)
            os.dup2(told, 3)
            os.dup2(high, 4)
        self.process = subprocess.Popen(
            [program, "--headless=new", "--no-sandbox", "--disable-gpu", "--disable-dev-shm-usage",
             "--remote-debugging-pipe", f"--user-data-dir={self.room.name}", "--disable-background-networking",
             "--disable-component-update", "--no-first-run", "--hide-scrollbars", "about:blank"],
            stdout=subprocess.DEVNULL, stderr=subprocess.DEVNULL, pass_fds=(3, 4), preexec_fn=as_pipe)
        os.close(told)
        os.close(tells)
        self.came, self.number, self.session = b"", 0, ""
        self.errors: list[str] = []
        target = next(one for one in self.ask("Target.getTargets")["targetInfos"] if one["type"] == "page")
        self.session = self.ask("Target.attachToTarget", targetId=target["targetId"], flatten=True)["sessionId"]
        for name in ("Page", "Runtime", "Log", "DOM", "Accessibility", "Performance"):
            self.ask(f"{name}.enable")

    def __enter__(self) -> "Browser":
        return self

    def __exit__(self, *_: object) -> None:
        self.process.terminate()
        self.process.wait()
        self.room.cleanup()

    def message(self) -> dict[str, Any]:
        while b"\0" not in self.came:
            more = os.read(self.answers, 1 << 20)
            if not more:
                raise SystemExit("checks: chromium has ended")
            self.came += more
        text, _, self.came = self.came.partition(b"\0")
        return json.loads(text)

    def ask(self, method: str, **given: object) -> dict[str, Any]:
        """What the browser answers of its page. What a page reports meanwhile is kept if it is an error."""
        return self.asked(method, self.session, given)

    def asked(self, method: str, session: str, given: dict[str, object]) -> dict[str, Any]:
        """What the page of a session answers, or without one the browser itself."""
        self.number += 1
        asked = {"id": self.number, "method": method, "params": given}
        if session:
            asked["sessionId"] = session
        os.write(self.asks, json.dumps(asked).encode() + b"\0")
        while True:
            came = self.message()
            if came.get("id") == self.number:
                if "error" in came:
                    raise RuntimeError(f"{method}: {came['error']}")
                return came["result"]
            if came.get("method") == "Runtime.exceptionThrown":
                thrown = came["params"]["exceptionDetails"].get("exception", {})
                self.errors.append(str(thrown.get("description"))[:300])
            elif came.get("method") == "Log.entryAdded" and came["params"]["entry"]["level"] == "error":
                self.errors.append(came["params"]["entry"]["text"][:300])

    def look(self, width: int, height: int = 900, is_dark: bool = False) -> None:
        self.ask("Emulation.setDeviceMetricsOverride", width=width, height=height, deviceScaleFactor=1, mobile=False)
        self.ask("Emulation.setEmulatedMedia",
                 features=[{"name": "prefers-color-scheme", "value": "dark" if is_dark else "light"}])

    def show(self, page: pathlib.Path, name: str = "") -> None:
        """Opens a page anew, and waits until its script has followed its address."""
        self.ask("Page.navigate", url="about:blank")
        self.ask("Page.navigate", url=page.resolve().as_uri() + (f"#{name}" if name else ""))
        self.wait("document.readyState === 'complete' && location.protocol === 'file:'")
        self.settle()

    def settle(self) -> None:
        """Waits until what the page began is done: its timers, and what it unpacks."""
        self.js("new Promise(then => setTimeout(() => requestAnimationFrame(() => setTimeout(then, 60)), 180))")

    def js(self, text: str) -> Any:
        got = self.ask("Runtime.evaluate", expression=text, returnByValue=True, awaitPromise=True)
        if "exceptionDetails" in got:
            raise RuntimeError(f"{text[:80]}: {got['exceptionDetails'].get('exception', {}).get('description')}")
        return got["result"].get("value")

    def wait(self, condition: str) -> None:
        until = time.monotonic() + PATIENCE
        while not self.js(condition):
            if time.monotonic() > until:
                raise RuntimeError(f"it did not come to be: {condition}")
            time.sleep(0.02)

    def key(self, key: str, modifiers: int = 0) -> None:
        text = {"Enter": "\r"}.get(key, key if len(key) == 1 and not modifiers else "")
        common = {"key": key, "modifiers": modifiers,
                  "windowsVirtualKeyCode": KEYS.get(key, ord(key.upper()) if len(key) == 1 else 0)}
        self.ask("Input.dispatchKeyEvent", type="keyDown", **common, **({"text": text} if text else {}))
        self.ask("Input.dispatchKeyEvent", type="keyUp", **common)

    def type(self, text: str) -> None:
        self.ask("Input.insertText", text=text)

    def at(self, selector: str) -> tuple[float, float, float, float]:
        """Where an element is in the window, into which it is scrolled: left, top, width, height."""
        box = self.js(f"(() => {{ const one = document.querySelector({json.dumps(selector)});"
                      " one.scrollIntoView({block: 'center'}); const box = one.getBoundingClientRect();"
                      " return [box.left, box.top, box.width, box.height]; })()")
        return box[0], box[1], box[2], box[3]

    def mouse(self, kind: str, x: float, y: float, buttons: int = 1) -> None:
        self.ask("Input.dispatchMouseEvent", type=kind, x=x, y=y, button="left", buttons=buttons,
                 clickCount=int(kind != "mouseMoved"))

    def click(self, selector: str) -> None:
        left, top, width, height = self.at(selector)
        for kind in ("mouseMoved", "mousePressed", "mouseReleased"):
            self.mouse(kind, left + width / 2, top + height / 2, int(kind != "mouseMoved"))

    def drag(self, selector: str, begin: float, end: float) -> None:
        """Drags over an element, from one part of its width to another."""
        left, top, width, height = self.at(selector)
        y = top + height / 2
        self.mouse("mousePressed", left + begin * width, y)
        for part in (0.3, 0.7, 1.0):
            self.mouse("mouseMoved", left + (begin + part * (end - begin)) * width, y)
        self.mouse("mouseReleased", left + end * width, y)

    def shot(self, to: pathlib.Path) -> None:
        to.write_bytes(base64.b64decode(self.ask("Page.captureScreenshot", format="png")["data"]))

    def renderers(self) -> float:
        """The seconds of the processor that all processes of pages have taken."""
        found = self.asked("SystemInfo.getProcessInfo", "", {})["processInfo"]
        return sum(one["cpuTime"] for one in found if one["type"] == "renderer")

    def seconds(self) -> float:
        """The seconds of the processor that the page's main thread has taken."""
        return next(one["value"] for one in self.ask("Performance.getMetrics")["metrics"]
                    if one["name"] == "ThreadTime")
