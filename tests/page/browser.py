"""A browser without a window, steered through two pipes by Chromium's own protocol."""
from __future__ import annotations

import json
import os
import select
import shutil
import subprocess
import tempfile
import time
from typing import Any

# How long an answer may take.
SECONDS = 30
# Opens all jobs of a page.
OPEN = """[...document.querySelectorAll('article > details')].forEach((part) => {
  part.open = true;
  part.dispatchEvent(new Event('toggle'));
})"""
# Waits until each drawing is there, for five seconds at most. A browser paints them one after another, and not at once.
DRAWN = """new Promise((done) => {
  const look = (left) => {
    const is_bare = [...document.querySelectorAll('.drawing')].some((place) => !place.firstChild);
    if (is_bare && left) setTimeout(() => look(left - 1), 20);
    else requestAnimationFrame(() => setTimeout(done, 50));
  };
  look(250);
})"""


class Browser:
    """A running Chromium. Use it by `with`; it is ended whatever happens."""

    def __init__(self, program: str) -> None:
        self.folder = tempfile.mkdtemp()
        to_read, self.to_browser = os.pipe()
        self.from_browser, to_write = os.pipe()
        words = [program, "--headless=new", "--no-sandbox", "--disable-gpu", "--disable-dev-shm-usage",
                 "--no-first-run",
                 "--disable-background-networking", "--disable-component-update", "--disable-sync", "--hide-scrollbars",
                 f"--user-data-dir={self.folder}", "--remote-debugging-pipe", "about:blank"]
        shell = ["bash", "-c", f'exec "$@" 3<&{to_read} 4>&{to_write}', "bash", *words]
        self.process = subprocess.Popen(shell, pass_fds=(to_read, to_write), stdin=subprocess.DEVNULL,
                                        stdout=subprocess.DEVNULL, stderr=subprocess.DEVNULL)
        os.close(to_read)
        os.close(to_write)
        self.count, self.rest = 0, b""
        self.events: list[dict] = []

    def __enter__(self) -> Browser:
        return self

    def __exit__(self, *_: object) -> None:
        self.process.kill()
        self.process.wait()
        shutil.rmtree(self.folder, ignore_errors=True)

    def _message(self, until: float) -> dict | None:
        """The next message, if one comes in time."""
        while b"\0" not in self.rest:
            ready, _, _ = select.select([self.from_browser], [], [], max(0, until - time.monotonic()))
            if not ready:
                return None
            piece = os.read(self.from_browser, 1 << 20)
            if not piece:
                raise ConnectionError("the browser has ended")
            self.rest += piece
        message, _, self.rest = self.rest.partition(b"\0")
        return json.loads(message)

    def send(self, method: str, session: str | None = None, **parameters: Any) -> int:
        """Makes a call, whose answer has this number."""
        self.count += 1
        call = {"id": self.count, "method": method, "params": parameters}
        if session:
            call["sessionId"] = session
        os.write(self.to_browser, json.dumps(call).encode() + b"\0")
        return self.count

    def answer(self, number: int) -> dict:
        """The answer of a number. What comes before it is kept in `events`, other answers too."""
        until = time.monotonic() + SECONDS
        while message := self._message(until):
            if message.get("id") == number:
                if "error" in message:
                    raise RuntimeError(str(message["error"]))
                return message["result"]
            self.events.append(message)
        raise TimeoutError(f"no answer of number {number}")

    def ask(self, method: str, session: str | None = None, **parameters: Any) -> dict:
        """The answer to a call. What happens before it comes is kept in `events`."""
        return self.answer(self.send(method, session, **parameters))

    def wait_for(self, method: str, session: str) -> None:
        """Waits until something has happened, which may be among what is kept."""
        until = time.monotonic() + SECONDS
        while not any(event.get("method") == method and event.get("sessionId") == session for event in self.events):
            message = self._message(until)
            if message is None:
                raise TimeoutError(f"no {method}")
            self.events.append(message)

    def answers(self) -> bool:
        """Whether a page with nothing in it answers."""
        try:
            target = self.ask("Target.createTarget", url="about:blank")["targetId"]
            session = self.ask("Target.attachToTarget", targetId=target, flatten=True)["sessionId"]
            return self.ask("Runtime.evaluate", session, expression="6 * 7")["result"]["value"] == 42
        except TimeoutError:
            return False


class Page:
    """A page that was opened at a width, in light colours. All its jobs are open then if that is asked for. `drawn` is how
    many jobs were drawn before that, `spent` how many seconds of a processor it took, `said` is what the console has,
    `asked` what was asked for."""

    def __init__(self, browser: Browser, url: str, width: int, is_all: bool = True) -> None:
        self.browser = browser
        browser.events.clear()
        self.target = browser.ask("Target.createTarget", url="about:blank")["targetId"]
        self.session = browser.ask("Target.attachToTarget", targetId=self.target, flatten=True)["sessionId"]
        for domain in ["Page", "Runtime", "Log", "Network"]:
            self.ask(f"{domain}.enable")
        self.ask("Emulation.setDeviceMetricsOverride", width=width, height=1000, deviceScaleFactor=1, mobile=False)
        self.ask("Performance.enable", timeDomain="threadTicks")
        self.take_colours("light")
        browser.events.clear()
        before = self.work()
        self.ask("Page.navigate", url=url)
        browser.wait_for("Page.loadEventFired", self.session)
        self.wait_for_drawings()
        self.spent = self.work() - before
        self.drawn = self.run("document.querySelectorAll('.sheet').length")
        if is_all:
            self.run(OPEN)
        self.wait_for_drawings()

    def ask(self, method: str, **parameters: Any) -> dict:
        return self.browser.ask(method, self.session, **parameters)

    def take_colours(self, scheme: str) -> None:
        """Takes light or dark colours."""
        self.ask("Emulation.setEmulatedMedia", features=[{"name": "prefers-color-scheme", "value": scheme}])

    def work(self) -> float:
        """How many seconds of a processor the page took so far."""
        metrics = self.ask("Performance.getMetrics")["metrics"]
        return next(each["value"] for each in metrics if each["name"] == "TaskDuration")

    def wait_for_drawings(self) -> None:
        """A drawing is painted when the browser knows how wide it is."""
        self.run(DRAWN)

    def run(self, code: str) -> Any:
        """The value of an expression on the page."""
        answer = self.ask("Runtime.evaluate", expression=code, returnByValue=True, awaitPromise=True)
        if "exceptionDetails" in answer:
            raise RuntimeError(f"{code[:80]}: {answer['exceptionDetails']}")
        return answer["result"].get("value")

    def press(self, key: str, code: int, times: int = 1) -> None:
        """Presses a key. Of many presses only the answers to some are waited for."""
        for count in range(times):
            for kind in ["rawKeyDown", "keyUp"]:
                last = self.browser.send("Input.dispatchKeyEvent", self.session, type=kind, key=key, code=key,
                                         windowsVirtualKeyCode=code)
            if count % 20 == 19 or count == times - 1:
                self.browser.answer(last)

    def pull(self, begin: tuple[float, float], end: tuple[float, float]) -> None:
        """Pulls the pointer from one place to another."""
        for kind, (x, y), buttons in [("mousePressed", begin, 1), ("mouseMoved", end, 1), ("mouseReleased", end, 0)]:
            self.ask("Input.dispatchMouseEvent", type=kind, x=x, y=y, button="left", buttons=buttons, clickCount=1)

    def said(self) -> list[str]:
        """Errors and warnings of the console."""
        found = []
        for event in self.browser.events:
            method, parameters = event.get("method"), event.get("params", {})
            if method == "Runtime.exceptionThrown":
                found.append(parameters["exceptionDetails"].get("exception", {}).get("description", "an exception"))
            elif method == "Log.entryAdded":
                found.append(parameters["entry"]["text"])
            elif method == "Runtime.consoleAPICalled":
                found.append(f"console.{parameters['type']}")
        return found

    def asked(self) -> list[str]:
        """The addresses that were asked for."""
        return [event["params"]["request"]["url"] for event in self.browser.events
                if event.get("method") == "Network.requestWillBeSent"]

    def picture(self) -> bytes:
        """The whole page as a PNG, in base 64."""
        height = min(6000, self.run("document.documentElement.scrollHeight"))
        width = self.run("innerWidth")
        clip = {"x": 0, "y": 0, "width": width, "height": height, "scale": 1}
        return self.ask("Page.captureScreenshot", clip=clip, captureBeyondViewport=True)["data"]

    def close(self) -> None:
        self.browser.ask("Target.closeTarget", targetId=self.target)
