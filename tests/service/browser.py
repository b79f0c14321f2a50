"""A headless Chromium that is driven through its DevTools protocol over a pipe, with the standard library alone."""
import json
import os
import shutil
import subprocess
import tempfile
import time

PATIENCE = 60


class Browser:
    """A browser with one page. Its keys and scripts act as those of a user."""

    def __init__(self, program):
        self._folder = tempfile.mkdtemp()
        to_browser, self._to = os.pipe()
        self._from, from_browser = os.pipe()
        words = [program, "--headless=new", "--disable-gpu", "--no-first-run", "--disable-background-networking", "--disable-component-update"]
        words += [f"--user-data-dir={self._folder}", "--remote-debugging-pipe", "--window-size=1200,900", "about:blank"]
        if os.geteuid() == 0:
            words.insert(1, "--no-sandbox")

        def pipes():
            # (the browser reads from descriptor 3, and writes to 4)
            read, write = os.dup(to_browser), os.dup(from_browser)
            os.dup2(read, 3)
            os.dup2(write, 4)

        self._run = subprocess.Popen(
            words, pass_fds=(3, 4, to_browser, from_browser), preexec_fn=pipes, stdin=subprocess.DEVNULL, stdout=subprocess.DEVNULL,
            stderr=subprocess.DEVNULL,
        )
        os.close(to_browser)
        os.close(from_browser)
        self._number, self._data, self._session = 0, b"", None
        targets = self.send("Target.getTargets")["targetInfos"]
        page = next(one["targetId"] for one in targets if one["type"] == "page")
        self._session = self.send("Target.attachToTarget", targetId=page, flatten=True)["sessionId"]
        self.send("Page.enable")

    def send(self, method, **parameters):
        """The result of a command."""
        self._number += 1
        message = {"id": self._number, "method": method, "params": parameters}
        if self._session:
            message["sessionId"] = self._session
        os.write(self._to, json.dumps(message).encode() + b"\0")
        while True:
            answer = self._next()
            if answer.get("id") == self._number:
                if "error" in answer:
                    raise RuntimeError(f"{method}: {answer['error']}")
                return answer["result"]

    def _next(self):
        while b"\0" not in self._data:
            piece = os.read(self._from, 1 << 16)
            if not piece:
                raise EOFError("the browser ended")
            self._data += piece
        message, _, self._data = self._data.partition(b"\0")
        return json.loads(message)

    def open(self, address):
        """Opens an address, and waits until the page is there."""
        self.send("Page.navigate", url=address)
        self.until("document.readyState === 'complete' && location.href !== 'about:blank'")

    def value(self, script):
        """The value of a script on the page."""
        found = self.send("Runtime.evaluate", expression=script, returnByValue=True, awaitPromise=True)
        if "exceptionDetails" in found:
            raise RuntimeError(f"{script}: {found['exceptionDetails']}")
        return found["result"].get("value")

    def until(self, script):
        """Waits until a script is true."""
        end = time.monotonic() + PATIENCE
        while time.monotonic() < end:
            found = self.value(script)
            if found:
                return found
            time.sleep(0.05)
        raise AssertionError(f"it never is so: {script}")

    def press(self, key, text=""):
        """Presses a key."""
        codes = {"Tab": 9, "Enter": 13}
        about = {"key": key, "code": key, "windowsVirtualKeyCode": codes.get(key, 0)}
        if key == "Enter":
            text = "\r"
        self.send("Input.dispatchKeyEvent", type="keyDown", text=text, **about)
        self.send("Input.dispatchKeyEvent", type="keyUp", **about)

    def write(self, text):
        """Writes a text where the cursor is."""
        self.send("Input.insertText", text=text)

    def scripts(self, are_on):
        """Whether pages may run scripts."""
        self.send("Emulation.setScriptExecutionDisabled", value=not are_on)

    def scheme(self, name):
        """Whether the user wants light or dark pages."""
        self.send("Emulation.setEmulatedMedia", features=[{"name": "prefers-color-scheme", "value": name}])

    def width(self, pixels):
        """How wide the window is."""
        self.send("Emulation.setDeviceMetricsOverride", width=pixels, height=800, deviceScaleFactor=1, mobile=False)

    def picture(self):
        """The window as PNG, in base64."""
        return self.send("Page.captureScreenshot", format="png")["data"]

    def end(self):
        """Ends the browser."""
        self._run.kill()
        self._run.wait()
        os.close(self._to)
        os.close(self._from)
        # (some of its processes may still write there)
        shutil.rmtree(self._folder, ignore_errors=True)
