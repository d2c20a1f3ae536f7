"""A headless Chromium, told what to do over two pipes."""
import json
import os
import shutil
import subprocess
import tempfile
import time

CHROMIUM = next((path for path in map(shutil.which, ("chromium", "chromium-browser", "google-chrome")) if path), None)


class Browser:
    """One page in a browser of its own."""

    def __init__(self):
        self._profile = tempfile.mkdtemp(prefix="gcaudit-test-")
        reading, self._to = os.pipe()
        self._from, writing = os.pipe()
        words = [
            "sh",
            "-c",
            'exec "$0" "$@" 3<&%d 4>&%d' % (reading, writing),
            CHROMIUM,
            "--headless",
            "--no-sandbox",
            "--disable-gpu",
            "--remote-debugging-pipe",
            "--user-data-dir=" + self._profile,
            "about:blank",
        ]
        self._process = subprocess.Popen(
            words, pass_fds=(reading, writing), stdout=subprocess.DEVNULL, stderr=subprocess.DEVNULL
        )
        os.close(reading)
        os.close(writing)
        self._left, self._number = b"", 0
        target = self.call("Target.getTargets")["targetInfos"]
        page = next(one["targetId"] for one in target if one["type"] == "page")
        self._session = self.call("Target.attachToTarget", targetId=page, flatten=True)["sessionId"]

    def __enter__(self):
        return self

    def __exit__(self, *error):
        self._process.terminate()
        self._process.wait(timeout=60)
        os.close(self._to)
        os.close(self._from)
        shutil.rmtree(self._profile, ignore_errors=True)

    def call(self, method, **words):
        """The answer to a command of the browser's protocol."""
        self._number += 1
        message = {"id": self._number, "method": method, "params": words}
        if getattr(self, "_session", None):
            message["sessionId"] = self._session
        os.write(self._to, json.dumps(message).encode() + b"\0")
        while True:
            while b"\0" not in self._left:
                piece = os.read(self._from, 1 << 16)
                if not piece:
                    raise AssertionError("the browser ended")
                self._left += piece
            one, _, self._left = self._left.partition(b"\0")
            answer = json.loads(one)
            if answer.get("id") == self._number:
                if "error" in answer:
                    raise AssertionError(answer["error"])
                return answer["result"]

    def size(self, width, height):
        self.call(
            "Emulation.setDeviceMetricsOverride", width=width, height=height, deviceScaleFactor=1, mobile=width < 600
        )

    def open(self, path):
        self.call("Page.navigate", url="file://" + path)
        for _ in range(200):
            if self.value("document.readyState") == "complete" and self.value("location.href") != "about:blank":
                return
            time.sleep(0.05)
        raise AssertionError("the page was not loaded")

    def value(self, expression):
        """What an expression of the page's script is."""
        answer = self.call("Runtime.evaluate", expression=expression, returnByValue=True)
        if "exceptionDetails" in answer:
            raise AssertionError(answer["exceptionDetails"])
        return answer["result"].get("value")

    def key(self, key, text=""):
        for kind in ("keyDown", "keyUp"):
            more = {"text": text} if text and kind == "keyDown" else {}
            self.call(
                "Input.dispatchKeyEvent",
                type=kind,
                key=key,
                code=key,
                windowsVirtualKeyCode={"Enter": 13, "Tab": 9, "ArrowDown": 40}.get(key, 0),
                **more,
            )

    def type(self, text):
        self.call("Input.insertText", text=text)
