"""A headless Chromium that is spoken to through two pipes, with the standard library alone."""

import base64
import json
import os
import select
import shutil
import subprocess
import tempfile
import time
from typing import Any, Dict, List, Optional

NAMES = ("chromium", "chromium-browser", "google-chrome")


def found() -> Optional[str]:
    """The browser's program, if there is one."""
    return next((it for it in map(shutil.which, NAMES) if it), None)


class Browser:
    """Opens pages, counts what goes wrong on them, presses keys, clicks and takes pictures."""

    def __init__(self) -> None:
        program = found()
        if program is None:
            raise FileNotFoundError("no Chromium here: on Debian, apt-get install chromium")
        self.folder = tempfile.mkdtemp()
        to_it, self.to = os.pipe()
        self.from_, from_it = os.pipe()
        # The browser reads what it is told from descriptor 3 and answers on 4.
        words = [str(program), "--headless=new", "--no-sandbox", "--disable-gpu",
                 "--remote-debugging-pipe", "--no-first-run", "--hide-scrollbars",
                 "--user-data-dir=" + self.folder, "about:blank"]
        shell = ["sh", "-c", 'exec "$@" 3<&%d 4>&%d' % (to_it, from_it), "sh", *words]
        self.ran = subprocess.Popen(
            shell, pass_fds=(to_it, from_it), stdin=subprocess.DEVNULL, stdout=subprocess.DEVNULL,
            stderr=subprocess.DEVNULL)
        os.close(to_it)
        os.close(from_it)
        self.number, self.rest = 0, b""
        self.faults: List[str] = []
        self.loads: List[str] = []
        self.session: Optional[str] = None
        target = self.call("Target.createTarget", url="about:blank")["targetId"]
        attached = self.call("Target.attachToTarget", targetId=target, flatten=True)
        self.session = attached["sessionId"]
        for domain in ("Page", "Runtime", "Log", "Network"):
            self.call(domain + ".enable")

    def close(self) -> None:
        """Ends the browser."""
        self.session = None
        self.call("Browser.close")
        self.ran.wait(20)
        # (a shell takes descriptors of one digit alone)
        os.close(self.to)
        os.close(self.from_)
        shutil.rmtree(self.folder, ignore_errors=True)

    def read(self, until: float) -> Dict[str, Any]:
        """The next thing that the browser says, before a time."""
        while b"\0" not in self.rest:
            if not select.select([self.from_], [], [], max(until - time.monotonic(), 0))[0]:
                raise TimeoutError("the browser doesn't answer")
            got = os.read(self.from_, 1 << 20)
            if not got:
                raise EOFError("the browser has ended")
            self.rest += got
        said, _, self.rest = self.rest.partition(b"\0")
        return json.loads(said)

    def note(self, said: Dict[str, Any]) -> Any:
        """Takes what the browser says by itself: faults, and what it loads."""
        what, of = said.get("method"), said.get("params", {})
        if what == "Runtime.exceptionThrown":
            details = of["exceptionDetails"]
            said_ = details.get("exception", {}).get("description")
            self.faults.append(said_ or details["text"])
        elif what == "Log.entryAdded" and of["entry"]["level"] in ("error", "warning"):
            self.faults.append(of["entry"]["text"])
        elif what == "Runtime.consoleAPICalled":
            self.faults.append("console: " + json.dumps(of["args"]))
        elif what == "Page.javascriptDialogOpening":
            self.faults.append("dialog: " + of["message"])
        elif what == "Network.requestWillBeSent":
            self.loads.append(of["request"]["url"])
        return what

    def call(self, method: str, **params: Any) -> Dict[str, Any]:
        """Tells the browser to do something, and gives its answer."""
        self.number += 1
        said = {"id": self.number, "method": method, "params": params}
        if self.session:
            said["sessionId"] = self.session
        os.write(self.to, json.dumps(said).encode() + b"\0")
        until = time.monotonic() + 60
        while True:
            answer = self.read(until)
            if answer.get("id") == self.number:
                if "error" in answer:
                    raise RuntimeError("%s: %s" % (method, answer["error"]["message"]))
                return answer["result"]
            self.note(answer)

    def open(self, file: str) -> None:
        """Opens a page, and waits until it is there."""
        self.faults, self.loads = [], []
        self.call("Page.navigate", url="file://" + os.path.abspath(file))
        until = time.monotonic() + 60
        while self.note(self.read(until)) != "Page.loadEventFired":
            pass

    def value(self, expression: str) -> Any:
        """The value of an expression on the page."""
        answer = self.call("Runtime.evaluate", expression=expression, returnByValue=True)
        if "exceptionDetails" in answer:
            fault = answer["exceptionDetails"].get("exception", {})
            raise RuntimeError(fault.get("description", "a fault in " + expression))
        return answer["result"].get("value")

    def settle(self, expression: str) -> None:
        """Waits until an expression is true, some seconds at most."""
        until = time.monotonic() + 10
        while not self.value(expression) and time.monotonic() < until:
            time.sleep(0.05)

    def size(self, wide: int, high: int) -> None:
        """Makes the window so large."""
        self.call("Emulation.setDeviceMetricsOverride", width=wide, height=high,
                  deviceScaleFactor=1, mobile=False)

    def media(self, kind: str = "", scheme: str = "light") -> None:
        """Shows the page on a screen or on paper, light or dark."""
        features = [{"name": "prefers-color-scheme", "value": scheme}]
        self.call("Emulation.setEmulatedMedia", media=kind, features=features)

    def click(self, selector: str) -> None:
        """Clicks where a person would: in the middle of the first thing that the selector names."""
        at = self.value(
            "(function () { var it = document.querySelector(%s);"
            " it.scrollIntoView({block: 'center', inline: 'center'});"
            " var r = it.getBoundingClientRect();"
            " return [r.x + r.width / 2, r.y + r.height / 2]; })()" % json.dumps(selector))
        for what in ("mousePressed", "mouseReleased"):
            self.call("Input.dispatchMouseEvent", type=what, x=at[0], y=at[1], button="left",
                      clickCount=1)

    def press(self, key: str) -> None:
        """Presses a key."""
        for what in ("rawKeyDown", "keyUp"):
            self.call("Input.dispatchKeyEvent", type=what, key=key, code=key,
                      windowsVirtualKeyCode=KEYS.get(key, 0))

    def picture(self, file: str, is_whole: bool = False) -> None:
        """Takes a picture."""
        got = self.call("Page.captureScreenshot", format="png", captureBeyondViewport=is_whole)
        with open(file, "wb") as out:
            out.write(base64.b64decode(got["data"]))

    def paper(self, file: str) -> None:
        """Prints the page into a file."""
        got = self.call("Page.printToPDF", preferCSSPageSize=True, printBackground=False)
        with open(file, "wb") as out:
            out.write(base64.b64decode(got["data"]))


KEYS = {"ArrowLeft": 37, "ArrowUp": 38, "ArrowRight": 39, "ArrowDown": 40, "Tab": 9, "Enter": 13,
        "Escape": 27}
