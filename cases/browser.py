"""A Chromium without a window, which is told what to do by the pipe that its DevTools protocol has."""

import base64
import fcntl
import json
import os
import pathlib
import select
import subprocess
import tempfile
import time

from running import end_with_parent

# Under which names a Chromium may be there.
NAMES = ["chromium", "chromium-browser", "google-chrome"]
SECONDS = 30
# The descriptors at which it reads commands and writes answers.
READS, WRITES = 3, 4


def high_pipe():
    """A pipe whose descriptors aren't among those that the browser has."""
    ends = os.pipe()
    moved = [fcntl.fcntl(end, fcntl.F_DUPFD_CLOEXEC, 10) for end in ends]
    for end in ends:
        os.close(end)
    return moved


class Browser:
    """A browser that shows a page."""

    def __init__(self, program, url):
        self.folder = tempfile.TemporaryDirectory(prefix="lg-browser-", ignore_cleanup_errors=True)
        its_input, self.input = high_pipe()
        self.output, its_output = high_pipe()

        def at_start():
            os.dup2(its_input, READS)
            os.dup2(its_output, WRITES)
            end_with_parent()

        words = ["--headless", "--no-sandbox", "--disable-gpu", "--disable-background-networking", "--no-first-run",
                 "--no-proxy-server", f"--user-data-dir={self.folder.name}", "--remote-debugging-pipe"]
        self.process = subprocess.Popen([program, *words], stdin=subprocess.DEVNULL, stdout=subprocess.DEVNULL,
                                        stderr=subprocess.DEVNULL, close_fds=False, preexec_fn=at_start,
                                        env={**os.environ, "TMPDIR": self.folder.name})
        os.close(its_input)
        os.close(its_output)
        self.number, self.rest, self.session, self.faults = 0, b"", None, []
        target = self.call("Target.createTarget", url="about:blank")["targetId"]
        self.session = self.call("Target.attachToTarget", targetId=target, flatten=True)["sessionId"]
        self.call("Runtime.enable")
        self.call("Page.navigate", url=url)

    def call(self, method, **words):
        """What a command gives. Exceptions of the page's script that are told meanwhile are kept."""
        self.number += 1
        message = {"id": self.number, "method": method, "params": words}
        if self.session:
            message["sessionId"] = self.session
        os.write(self.input, json.dumps(message).encode() + b"\0")
        while True:
            got = self.message()
            if got.get("method") == "Runtime.exceptionThrown":
                self.faults.append(got["params"]["exceptionDetails"])
            if got.get("id") == self.number:
                return got["result"]

    def message(self):
        """The next message from the browser."""
        while b"\0" not in self.rest:
            ready, _, _ = select.select([self.output], [], [], SECONDS)
            part = os.read(self.output, 65_536) if ready else b""
            if not part:
                raise RuntimeError(f"the browser says nothing; it ended with {self.process.poll()}")
            self.rest += part
        first, _, self.rest = self.rest.partition(b"\0")
        return json.loads(first)

    def value(self, expression):
        """The value of an expression of JavaScript in the page. None if it has none, or the page isn't there yet."""
        return self.call("Runtime.evaluate", expression=expression, returnByValue=True)["result"].get("value")

    def until(self, expression, wanted, seconds):
        """Waits until an expression has a value. Gives the time, or None if it still has another after so many
        seconds."""
        limit = time.monotonic() + seconds
        while time.monotonic() < limit:
            if self.value(expression) == wanted:
                return time.monotonic()
            time.sleep(0.02)
        return None

    def keep_picture(self, path):
        """Keeps a picture of what is shown, as a file in PNG."""
        self.call("Emulation.setDeviceMetricsOverride", width=720, height=360, deviceScaleFactor=1, mobile=False)
        pathlib.Path(path).write_bytes(base64.b64decode(self.call("Page.captureScreenshot", format="png")["data"]))

    def __enter__(self):
        return self

    def __exit__(self, *_):
        """Closes it, so that its other processes end too. One that doesn't close is killed."""
        try:
            self.session = None
            self.call("Browser.close")
            self.process.wait(SECONDS)
        except (OSError, RuntimeError, subprocess.TimeoutExpired):
            self.process.kill()
            self.process.wait()
        for end in (self.input, self.output):
            os.close(end)
        self.folder.cleanup()
