"""A browser without a window for tests: chromium, driven by the WebDriver protocol."""

import json
import os
import re
import shutil
import subprocess
import tempfile
import time
import urllib.error
import urllib.request


def missing():
    """Why there is no browser here, or None."""
    lacks = [name for name in ("chromium", "chromedriver") if shutil.which(name) is None]
    return "no program %s" % " and ".join(lacks) if lacks else None


class Browser:
    """A browser that shows one page, as a context."""

    def __init__(self, width=1200, height=900):
        self.size = (width, height)
        self.session = ""

    def __enter__(self):
        self.folder = tempfile.TemporaryDirectory(prefix="steer-page-browser")
        self.driver = subprocess.Popen(["chromedriver", "--port=0"], stdin=subprocess.DEVNULL,
                                       stdout=subprocess.PIPE, stderr=subprocess.DEVNULL)
        try:
            self.address = "http://127.0.0.1:%d" % self._port()
            self._begin()
        except BaseException:
            self.__exit__()
            raise
        return self

    def _port(self):
        for line in self.driver.stdout:
            found = re.search(rb"started successfully on port (\d+)", line)
            if found:
                return int(found.group(1))
        raise OSError("chromedriver ended")

    def _begin(self):
        words = ["--headless=new", "--disable-gpu", "--disable-dev-shm-usage", "--no-first-run",
                 "--disable-extensions", "--disable-background-networking",
                 "--window-size=%d,%d" % self.size, "--user-data-dir=" + self.folder.name]
        if os.geteuid() == 0:
            words.append("--no-sandbox")
        wanted = {"browserName": "chrome", "goog:loggingPrefs": {"browser": "ALL"},
                  "goog:chromeOptions": {"args": words, "binary": shutil.which("chromium")}}
        answer = self._send("/session", {"capabilities": {"alwaysMatch": wanted}})
        self.session = "/session/" + answer["sessionId"]
        self.size_to(*self.size)

    def __exit__(self, *fault):
        if self.session:
            self._send(self.session, method="DELETE")
        self.driver.terminate()
        self.driver.wait()
        self.driver.stdout.close()
        self.folder.cleanup()

    def _send(self, path, body=None, method="POST"):
        data = None if method == "DELETE" else json.dumps(body or {}).encode()
        request = urllib.request.Request(self.address + path, data, method=method,
                                         headers={"Content-Type": "application/json"})
        try:
            with urllib.request.urlopen(request, timeout=300) as answer:
                return json.load(answer)["value"]
        except urllib.error.HTTPError as fault:
            raise AssertionError(json.load(fault)["value"]["message"]) from None

    def ask(self, command, **body):
        return self._send(self.session + command, body)

    def protocol(self, command, **parameters):
        """A command of the browser's own protocol for its tools."""
        return self.ask("/goog/cdp/execute", cmd=command, params=parameters)

    def size_to(self, width, height):
        self.protocol("Emulation.setDeviceMetricsOverride", width=width, height=height,
                      deviceScaleFactor=1, mobile=False)

    def scheme(self, name):
        """Shows the page as someone sees it who prefers this colour scheme."""
        self.protocol("Emulation.setEmulatedMedia",
                      features=[{"name": "prefers-color-scheme", "value": name}])

    def open(self, path):
        self.ask("/url", url="file://" + path)

    def run(self, script, *values):
        """The value of a function's body in the page."""
        return self.ask("/execute/sync", script=script, args=list(values))

    def wait(self, condition):
        """Waits until an expression of the page is true, at most two minutes."""
        end = time.monotonic() + 120
        while not self.run("return Boolean(%s)" % condition):
            if time.monotonic() > end:
                raise AssertionError("never true: " + condition)
            time.sleep(0.05)

    def point(self, *actions):
        """Moves and presses the pointer: (x, y), "down" or "up", at places in the window."""
        moves = []
        for action in actions:
            if isinstance(action, tuple):
                moves.append({"type": "pointerMove", "x": round(action[0]), "y": round(action[1]),
                              "duration": 0})
            else:
                moves.append({"type": "pointer" + action.capitalize(), "button": 0})
        self.ask("/actions", actions=[{"type": "pointer", "id": "mouse", "actions": moves}])

    def press(self, *keys):
        strokes = [{"type": kind, "value": key} for key in keys for kind in ("keyDown", "keyUp")]
        self.ask("/actions", actions=[{"type": "key", "id": "keys", "actions": strokes}])

    def log(self):
        """What the browser complained of since it was asked last."""
        return [entry["message"] for entry in self.ask("/se/log", type="browser")]
