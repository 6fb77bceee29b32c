"""A browser that a test drives: it opens pages, presses keys, and looks at what is there."""
import json
import os
import shutil
import subprocess
import tempfile
import threading

BROWSER = shutil.which("chromium") or shutil.which("chromium-browser")
LIMIT = 12000  # pauses of 0.01 s for whatever has to appear
KEYS = {"Tab": 9, "Enter": 13}


class Browser:
    """One page of a headless browser, by the DevTools protocol over two pipes. A context."""

    def __enter__(self):
        self.folder = tempfile.mkdtemp()
        theirs, self.commands = os.pipe()
        self.answers, also_theirs = os.pipe()
        words = [
            BROWSER, "--headless", "--no-sandbox", "--disable-gpu", "--hide-scrollbars",
            f"--user-data-dir={self.folder}/user", "--remote-debugging-pipe", "about:blank",
        ]
        placed = ["bash", "-c", f'exec "$@" 3<&{theirs} 4>&{also_theirs}', "bash", *words]
        quiet = {"stdin": subprocess.DEVNULL, "stdout": subprocess.DEVNULL, "stderr": subprocess.DEVNULL}
        self.process = subprocess.Popen(placed, pass_fds=(theirs, also_theirs), **quiet)
        os.close(theirs)
        os.close(also_theirs)
        self.read, self.number, self.session = b"", 0, None
        target = self.ask("Target.createTarget", url="about:blank")["targetId"]
        self.session = self.ask("Target.attachToTarget", targetId=target, flatten=True)["sessionId"]
        return self

    def __exit__(self, *_):
        os.close(self.commands)
        os.close(self.answers)
        self.process.kill()
        self.process.wait()
        shutil.rmtree(self.folder, ignore_errors=True)  # its children may still be writing

    def ask(self, method, **its):
        """Sends a command, and returns the answer to it."""
        self.number += 1
        call = {"id": self.number, "method": method, "params": its}
        if self.session:
            call["sessionId"] = self.session
        os.write(self.commands, json.dumps(call).encode() + b"\0")
        while True:
            answer = self.next()
            if answer.get("id") == self.number:
                assert "error" not in answer, answer
                return answer["result"]

    def next(self):
        while b"\0" not in self.read:
            more = os.read(self.answers, 1 << 16)
            assert more, "the browser has ended"
            self.read += more
        message, _, self.read = self.read.partition(b"\0")
        return json.loads(message)

    def open(self, url):
        self.ask("Page.navigate", url=url)
        self.until("document.readyState == 'complete'")

    def value(self, expression):
        """The value of an expression in the page."""
        found = self.ask("Runtime.evaluate", expression=expression, returnByValue=True)
        assert "exceptionDetails" not in found, found
        return found["result"].get("value")

    def until(self, expression):
        """Waits until it is true, some minutes at most."""
        pause = threading.Event()
        for _ in range(LIMIT):
            if self.value(expression):
                return
            pause.wait(0.01)
        text = self.value("document.body.innerText")
        raise AssertionError(f"it never was so that {expression}; the page:\n{text}")

    def press(self, key):
        text = {"text": "\r"} if key == "Enter" else {}
        code = {"key": key, "code": key, "windowsVirtualKeyCode": KEYS[key]}
        self.ask("Input.dispatchKeyEvent", type="keyDown", **code, **text)
        self.ask("Input.dispatchKeyEvent", type="keyUp", **code)

    def look_of(self, width, scheme):
        """The width of its screen, and light or dark."""
        size = {"width": width, "height": 740, "deviceScaleFactor": 1, "mobile": width < 600}
        self.ask("Emulation.setDeviceMetricsOverride", **size)
        features = [{"name": "prefers-color-scheme", "value": scheme}]
        self.ask("Emulation.setEmulatedMedia", features=features)
