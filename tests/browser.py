"""Debian's chromium without a window, told what to do over a pipe."""
import base64
import json
import os
import subprocess
import tempfile
import time


class Browser:
    """A page of so many pixels. It ends with its block."""

    def __init__(self):
        (read, self.told), (self.heard, write) = os.pipe(), os.pipe()
        self.room = tempfile.TemporaryDirectory(ignore_cleanup_errors=True)  # in which chromium may still write when it ends
        flags = f"--headless --no-sandbox --disable-gpu --hide-scrollbars --remote-debugging-pipe --user-data-dir={self.room.name}"
        words, nothing = ["bash", "-c", f"exec chromium {flags} 3<&{read} 4>&{write}"], subprocess.DEVNULL
        self.process = subprocess.Popen(words, pass_fds=[read, write], stdout=nothing, stderr=nothing)
        os.close(read)
        os.close(write)
        self.calls, self.rest, self.session = 0, b"", {}
        target = self.call("Target.createTarget", url="about:blank")["targetId"]
        self.session = {"sessionId": self.call("Target.attachToTarget", targetId=target, flatten=True)["sessionId"]}

    def __enter__(self):
        return self

    def __exit__(self, *_):
        self.process.terminate()
        self.process.wait()
        os.close(self.told)
        os.close(self.heard)
        self.room.cleanup()

    def call(self, method, **parameters):
        """What a method of the protocol answers."""
        self.calls += 1
        os.write(self.told, json.dumps({"id": self.calls, "method": method, "params": parameters, **self.session}).encode() + b"\0")
        while True:
            while b"\0" not in self.rest:
                self.rest += os.read(self.heard, 1 << 16) or exit("chromium has ended")
            said, _, self.rest = self.rest.partition(b"\0")
            answer = json.loads(said)
            if answer.get("id") == self.calls:
                return answer["result"]

    def value(self, script):
        """The value of an expression in the page."""
        return self.call("Runtime.evaluate", expression=script, returnByValue=True)["result"].get("value")

    def until(self, script, seconds=20):
        """Whether an expression in the page comes true within so many seconds."""
        end = time.monotonic() + seconds
        while not (holds := self.value(f"!!({script})")) and time.monotonic() < end:
            time.sleep(0.05)
        return holds

    def show(self, address, width, height, colours="light"):
        """Opens an address in a page of a size, for light or dark screens."""
        self.call("Emulation.setDeviceMetricsOverride", width=width, height=height, deviceScaleFactor=1, mobile=False)
        self.call("Emulation.setEmulatedMedia", features=[{"name": "prefers-color-scheme", "value": colours}])
        self.call("Page.navigate", url=address)
        return self.until("document.readyState == 'complete'")

    def type(self, text):
        """Types a text where the page has its focus."""
        self.call("Input.insertText", text=text)

    def picture(self):
        """What is to be seen, as a file in PNG."""
        return base64.b64decode(self.call("Page.captureScreenshot", format="png")["data"])
