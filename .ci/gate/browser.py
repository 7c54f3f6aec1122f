"""A browser without a window: Debian's `chromium`, driven by its own protocol over two pipes."""
from __future__ import annotations

import base64
import json
import os
import select
import subprocess
import tempfile
import time
from pathlib import Path
from typing import Any

SECONDS = 60
WIDTH, HEIGHT = 1400, 1700


class Browser:
    """The browser, with a profile of its own that is gone when it ends."""

    def __init__(self) -> None:
        self.folder = tempfile.TemporaryDirectory()
        taken, self.input = os.pipe()
        self.output, given = os.pipe()
        words = ["chromium", "--headless=new", "--remote-debugging-pipe", "--no-sandbox",
                 "--disable-gpu", "--disable-dev-shm-usage", "--no-first-run",
                 f"--user-data-dir={self.folder.name}",
                 f"--window-size={WIDTH},{HEIGHT}", "about:blank"]
        # The browser reads commands from its descriptor 3, and writes answers to 4.
        self.process = subprocess.Popen(
            ["sh", "-c", f'exec "$@" 3<&{taken} 4>&{given}', "sh", *words],
            pass_fds=(taken, given), stdout=subprocess.DEVNULL, stderr=subprocess.DEVNULL)
        os.close(taken)
        os.close(given)
        self.number, self.read = 0, b""
        self.events: list[Any] = []

    def message(self) -> Any:
        """The next message that the browser writes."""
        end = time.monotonic() + SECONDS
        while b"\0" not in self.read:
            left = end - time.monotonic()
            if left <= 0 or not select.select([self.output], [], [], left)[0]:
                raise TimeoutError("the browser does not answer")
            part = os.read(self.output, 1 << 16)
            if not part:
                raise EOFError("the browser has ended")
            self.read += part
        text, _, self.read = self.read.partition(b"\0")
        return json.loads(text)

    def call(self, method: str, session: str | None = None, **members: Any) -> Any:
        """The result of a command."""
        self.number += 1
        command = {"id": self.number, "method": method, "params": members}
        if session:
            command["sessionId"] = session
        os.write(self.input, json.dumps(command).encode() + b"\0")
        while (answer := self.message()).get("id") != self.number:
            self.events.append(answer)
        if "error" in answer:
            raise RuntimeError(f"{method}: {answer['error']['message']}")
        return answer["result"]

    def wait_for(self, event: str, session: str | None) -> None:
        """Waits for an event in a tab."""
        while not any(it.get("method") == event and it.get("sessionId") == session
                      for it in self.events):
            self.events.append(self.message())

    def tab(self, address: str) -> Tab:
        return Tab(self, address)

    def stop(self) -> None:
        self.call("Browser.close")
        self.process.wait(SECONDS)
        self.folder.cleanup()


class Tab:
    """A tab of the browser that shows a page."""

    def __init__(self, browser: Browser, address: str) -> None:
        self.browser = browser
        target = browser.call("Target.createTarget", url="about:blank")["targetId"]
        found = browser.call("Target.attachToTarget", targetId=target, flatten=True)
        self.session = found["sessionId"]
        self.call("Page.enable")
        self.load("Page.navigate", url=address)

    def call(self, method: str, **members: Any) -> Any:
        return self.browser.call(method, self.session, **members)

    def value(self, script: str) -> Any:
        """What a script in the page comes to, after it is waited for."""
        found = self.call(
            "Runtime.evaluate", expression=script, awaitPromise=True, returnByValue=True)
        if "exceptionDetails" in found:
            raise RuntimeError(found["exceptionDetails"]["exception"]["description"])
        return found["result"].get("value")

    def show(self) -> None:
        """Puts the tab in front of the others: what is behind does not move."""
        self.call("Page.bringToFront")

    def load(self, method: str, **members: Any) -> None:
        """Loads a page, and waits until it is there."""
        self.browser.events.clear()
        self.call(method, **members)
        self.browser.wait_for("Page.loadEventFired", self.session)

    def reload(self) -> None:
        self.load("Page.reload")

    def picture(self, file: Path) -> None:
        """Writes what is shown as a picture."""
        shown = self.call("Page.captureScreenshot", format="png")
        with open(file, "wb") as out:
            out.write(base64.b64decode(shown["data"]))
