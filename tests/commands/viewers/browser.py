"""A headless Chromium that gets its commands through two pipes."""
from __future__ import annotations

import fcntl
import json
import os
import shutil
import subprocess
import tempfile
import time
from typing import Any

NAMES = ["chromium", "chromium-browser", "google-chrome"]
CHROMIUM: str = next(filter(None, map(shutil.which, NAMES)), "")
OPTIONS = (
    "--headless=new --no-sandbox --disable-gpu --hide-scrollbars --remote-debugging-pipe"
    " --no-first-run".split()
)
FAULTS = ("Log.entryAdded", "Runtime.exceptionThrown", "Page.javascriptDialogOpening")
SECONDS = 120


class Browser:
    """A browser with one page; `faults` has its errors and breaches of the content policy."""

    def __init__(self) -> None:
        self.folder = tempfile.mkdtemp(prefix="page-")
        self.faults: list[str] = []
        self.count = 0
        self.rest = b""
        inner_read, write = os.pipe()
        read, inner_write = os.pipe()
        # The browser reads its orders from 3 and answers on 4.
        inner = [fcntl.fcntl(end, fcntl.F_DUPFD_CLOEXEC, 10) for end in (inner_read, inner_write)]
        self.process = subprocess.Popen(
            [CHROMIUM, *OPTIONS, "--user-data-dir=" + self.folder, "about:blank"],
            stdin=subprocess.DEVNULL,
            stdout=subprocess.DEVNULL,
            stderr=subprocess.DEVNULL,
            close_fds=False,
            preexec_fn=lambda: [os.dup2(end, number) for number, end in enumerate(inner, 3)],
        )
        for end in [inner_read, inner_write] + inner:
            os.close(end)
        self.write, self.read, self.session = write, read, None
        targets = self.ask("Target.getTargets")["targetInfos"]
        number = next(target["targetId"] for target in targets if target["type"] == "page")
        attached = self.ask("Target.attachToTarget", targetId=number, flatten=True)
        self.session = attached["sessionId"]
        for domain in ("Page", "Runtime", "Log"):
            self.ask(domain + ".enable")
        self.ask("Performance.enable", timeDomain="threadTicks")

    def receive(self) -> dict[str, Any]:
        while b"\0" not in self.rest:
            self.rest += os.read(self.read, 1 << 20)
        text, self.rest = self.rest.split(b"\0", 1)
        message: dict[str, Any] = json.loads(text)
        if message.get("method") in FAULTS:
            self.faults.append(json.dumps(message["params"])[:400])
        return message

    def ask(self, method: str, **parameters: Any) -> dict[str, Any]:
        self.count += 1
        message = {"id": self.count, "method": method, "params": parameters}
        if self.session:
            message["sessionId"] = self.session
        os.write(self.write, json.dumps(message).encode() + b"\0")
        while True:
            answer = self.receive()
            if answer.get("id") == self.count:
                if "error" in answer:
                    raise AssertionError("%s: %s" % (method, answer["error"]))
                result: dict[str, Any] = answer["result"]
                return result

    def open(self, path: str) -> None:
        """Opens a page, and waits until it is loaded and its script has run."""
        began = time.time()
        self.ask("Page.navigate", url="file://" + path)
        while self.receive().get("method") != "Page.loadEventFired":
            if time.time() - began > SECONDS:
                raise AssertionError("the page was not loaded")

    def value(self, expression: str) -> Any:
        """What an expression of the page's language comes to."""
        answer = self.ask(
            "Runtime.evaluate", expression=expression, returnByValue=True, awaitPromise=True
        )
        if "exceptionDetails" in answer:
            raise AssertionError(f"{expression}: {answer['exceptionDetails']!r:.300}")
        return answer["result"].get("value")

    def worked(self) -> float:
        """Seconds of the processor that the page's thread has worked."""
        metrics = self.ask("Performance.getMetrics")["metrics"]
        return float(next(each["value"] for each in metrics if each["name"] == "TaskDuration"))

    def press(self, key: str, code: int) -> None:
        for kind in ("rawKeyDown", "keyUp"):
            self.ask(
                "Input.dispatchKeyEvent", type=kind, key=key, code=key, windowsVirtualKeyCode=code
            )
        if key == "Enter":
            self.ask("Input.dispatchKeyEvent", type="char", key=key, text="\r")

    def resize(self, width: int, height: int) -> None:
        metrics = {"width": width, "height": height, "deviceScaleFactor": 1, "mobile": False}
        self.ask("Emulation.setDeviceMetricsOverride", **metrics)

    def close(self) -> None:
        self.session = None
        self.ask("Browser.close")
        self.process.wait(30)
        shutil.rmtree(self.folder, ignore_errors=True)
