"""Drives a headless chromium over a pipe, in the DevTools protocol: JSON messages that end with a zero byte."""
import base64
import json
import os
import shutil
import subprocess
import tempfile
import time

PROGRAM = shutil.which("chromium") or shutil.which("chromium-browser")
SECONDS = 20


class Browser:
    """One page in a browser that has its own directory for its files."""

    def __init__(self):
        self._files = tempfile.TemporaryDirectory(ignore_cleanup_errors=True)
        asked, told = os.pipe(), os.pipe()
        words = [PROGRAM, "--headless", "--no-sandbox", "--disable-gpu", "--disable-dev-shm-usage",
                 "--remote-debugging-pipe", f"--user-data-dir={self._files.name}", "about:blank"]

        def as_3_and_4():
            """Chromium reads from handle 3 and writes to handle 4."""
            reader, writer = os.dup(asked[0]), os.dup(told[1])
            os.dup2(reader, 3)
            os.dup2(writer, 4)

        with open(os.devnull, "wb") as nothing:
            self._child = subprocess.Popen(words, preexec_fn=as_3_and_4, pass_fds=(3, 4, asked[0], told[1]),
                                           stdin=subprocess.DEVNULL, stdout=nothing, stderr=nothing)
        os.close(asked[0])
        os.close(told[1])
        self._to, self._from = asked[1], told[0]
        self._rest, self._number, self.events = b"", 0, []
        target = self.call("Target.createTarget", url="about:blank")["targetId"]
        self._session = self.call("Target.attachToTarget", targetId=target, flatten=True)["sessionId"]
        for domain in ("Page", "Runtime", "Log", "Network"):
            self.call(f"{domain}.enable")

    _session = None

    def close(self):
        """Ends the browser."""
        self._child.terminate()
        self._child.wait()
        os.close(self._to)
        os.close(self._from)
        self._files.cleanup()

    def _read(self):
        end = time.monotonic() + SECONDS
        while b"\0" not in self._rest:
            if time.monotonic() > end:
                raise TimeoutError("chromium does not answer")
            part = os.read(self._from, 1 << 20)
            if not part:
                raise EOFError("chromium ended")
            self._rest += part
        message, _, self._rest = self._rest.partition(b"\0")
        return json.loads(message)

    def call(self, method, **params):
        """Calls a method, and returns its result. Events that come before it are kept in `events`."""
        self._number += 1
        message = {"id": self._number, "method": method, "params": params}
        if self._session:
            message["sessionId"] = self._session
        os.write(self._to, json.dumps(message).encode() + b"\0")
        while True:
            answer = self._read()
            if answer.get("id") == self._number:
                if "error" in answer:
                    raise RuntimeError(f"{method}: {answer['error']['message']}")
                return answer["result"]
            self.events.append(answer)

    def open(self, path, width=1600, height=1000, scheme="light"):
        """Opens a file, and returns after how many seconds it was drawn."""
        self.call("Emulation.setDeviceMetricsOverride", width=width, height=height, deviceScaleFactor=1,
                  mobile=False)
        self.call("Emulation.setEmulatedMedia", features=[{"name": "prefers-color-scheme", "value": scheme}])
        self.events.clear()
        start = time.monotonic()
        self.call("Page.navigate", url="file://" + path)
        while not any(event["method"] == "Page.loadEventFired" for event in self.events):
            self.events.append(self._read())
        self.run("new Promise(done => requestAnimationFrame(() => setTimeout(done)))")
        return time.monotonic() - start

    def run(self, text):
        """Returns the value of an expression of JavaScript in the page."""
        found = self.call("Runtime.evaluate", expression=text, awaitPromise=True, returnByValue=True)
        if "exceptionDetails" in found:
            raise RuntimeError(str(found["exceptionDetails"]))
        return found["result"].get("value")

    def press(self, key, text="", times=1):
        """Presses a key, such as `Tab` or `Enter`."""
        for _ in range(times):
            codes = {"Tab": 9, "Enter": 13, " ": 32, "ArrowDown": 40}
            for kind in ("keyDown", "keyUp"):
                self.call("Input.dispatchKeyEvent", type=kind, key=key, code=key,
                          text=text if kind == "keyDown" else "", windowsVirtualKeyCode=codes.get(key, 0))

    def type(self, text):
        """Types a text into what has the focus."""
        self.call("Input.insertText", text=text)

    def print(self):
        """Returns the page as a PDF."""
        return base64.b64decode(self.call("Page.printToPDF", preferCSSPageSize=True)["data"])

    def picture(self, whole=False):
        """Returns a picture of the page as a PNG."""
        return base64.b64decode(self.call("Page.captureScreenshot", captureBeyondViewport=whole)["data"])
