"""A Chromium without a window, driven over a pipe by its own protocol, with the standard library alone."""

import base64
import json
import os
import shutil
import subprocess
import tempfile

OPTIONS = ("--headless", "--no-sandbox", "--disable-gpu", "--hide-scrollbars", "--remote-debugging-pipe")

# The virtual key codes of the keys that are pressed, and the text that each one types.
KEYS = {"Tab": (9, ""), "Enter": (13, "\r"), " ": (32, " ")}
CONTROL = 2


def program():
    """Chromium, installed from Debian's packages where it is missing."""
    if shutil.which("chromium") is None:
        print("installing chromium")
        quiet = {"env": {**os.environ, "DEBIAN_FRONTEND": "noninteractive"}, "stdout": subprocess.DEVNULL}
        install = ["install", "--yes", "--no-install-recommends", "chromium", "fonts-dejavu-core"]
        for words in (["update"], install):
            subprocess.run(["apt-get", *words], check=True, **quiet)
    return shutil.which("chromium")


class Browser:
    """One browser with one page; what it says by itself is kept in `events`."""

    def __enter__(self):
        self.folder = tempfile.TemporaryDirectory()
        theirs_in, self.ours_out = os.pipe()
        self.ours_in, theirs_out = os.pipe()
        # The protocol speaks on the descriptors 3 and 4, which the shell puts in place.
        script = f'exec "$@" 3<&{theirs_in} 4>&{theirs_out}'
        words = [program(), *OPTIONS, f"--user-data-dir={self.folder.name}", "about:blank"]
        self.process = subprocess.Popen(
            ["bash", "-c", script, "sh", *words], pass_fds=(theirs_in, theirs_out), stderr=subprocess.DEVNULL
        )
        os.close(theirs_in)
        os.close(theirs_out)
        self.count, self.rest, self.events, self.session = 0, b"", [], None
        target = self.call("Target.createTarget", url="about:blank")["targetId"]
        self.session = self.call("Target.attachToTarget", targetId=target, flatten=True)["sessionId"]
        for domain in ("Page", "Runtime", "Network", "Log"):
            self.call(f"{domain}.enable")
        return self

    def __exit__(self, *_):
        self.session = None
        self.call("Browser.close")
        self.process.wait()
        os.close(self.ours_in)
        os.close(self.ours_out)
        shutil.rmtree(self.folder.name, ignore_errors=True)

    def call(self, method, **parameters):
        """One call of the protocol and its answer."""
        self.count += 1
        message = {"id": self.count, "method": method, "params": parameters}
        if self.session:
            message["sessionId"] = self.session
        os.write(self.ours_out, json.dumps(message).encode() + b"\0")
        while True:
            answer = self.next()
            if answer.get("id") == self.count:
                if "error" in answer:
                    raise RuntimeError(f"{method}: {answer['error']}")
                return answer["result"]
            self.events.append(answer)

    def next(self):
        """The next message of the browser."""
        while b"\0" not in self.rest:
            piece = os.read(self.ours_in, 2**16)
            if not piece:
                raise RuntimeError("the browser has ended")
            self.rest += piece
        message, self.rest = self.rest.split(b"\0", 1)
        return json.loads(message)

    def open(self, path):
        """Loads a file and waits until it stands."""
        self.events = []
        self.call("Page.navigate", url=path.as_uri())
        while not any(event.get("method") == "Page.loadEventFired" for event in self.events):
            self.events.append(self.next())

    def ask(self, expression):
        """The value of an expression in the page."""
        answer = self.call("Runtime.evaluate", expression=expression, returnByValue=True)
        if "exceptionDetails" in answer:
            raise RuntimeError(f"{expression}: {answer['exceptionDetails']}")
        return answer["result"].get("value")

    def press(self, key, modifiers=0):
        code, text = KEYS.get(key, (ord(key.upper()[0]), key))
        shared = {"key": key, "windowsVirtualKeyCode": code, "modifiers": modifiers}
        self.call("Input.dispatchKeyEvent", type="keyDown", text="" if modifiers else text, **shared)
        self.call("Input.dispatchKeyEvent", type="keyUp", **shared)

    def replace(self, text):
        """Types a text over what stands in the field that has the focus."""
        self.call("Input.dispatchKeyEvent", type="keyDown", key="a", modifiers=CONTROL, commands=["selectAll"])
        self.call("Input.insertText", text=text)

    def size(self, width, height):
        self.call("Emulation.setDeviceMetricsOverride", width=width, height=height, deviceScaleFactor=1, mobile=False)

    def picture(self, **options):
        """What the page looks like, as the bytes of a PNG file."""
        return base64.b64decode(self.call("Page.captureScreenshot", format="png", **options)["data"])

    def paper(self):
        """The page printed, as the bytes of a PDF file."""
        return base64.b64decode(self.call("Page.printToPDF")["data"])
