"""A headless Chromium for tests of pages, driven by its driver."""

import base64
import json
import re
import shutil
import subprocess
import tempfile
import urllib.request

CHROMIUM, DRIVER = shutil.which("chromium"), shutil.which("chromedriver")
MISSING = None if CHROMIUM and DRIVER else "Debian's packages chromium and chromium-driver are not here"
STARTED = re.compile(rb"successfully on port (\d+)")
OPTIONS = ("--headless=new", "--no-sandbox", "--disable-gpu", "--disable-dev-shm-usage", "--window-size=1400,1000")


class Browser:
    """A browser with a window. Its files are in a folder of its own, which is removed once it is closed."""

    def __init__(self):
        self.folder = tempfile.TemporaryDirectory()
        folder = self.folder.name
        self.driver = subprocess.Popen([DRIVER, "--port=0"], stdout=subprocess.PIPE, stderr=subprocess.DEVNULL,
                                       env={"PATH": "/usr/bin:/bin", "HOME": folder, "TMPDIR": folder})
        self.session = None
        while line := self.driver.stdout.readline():
            if found := STARTED.search(line):
                self.base = f"http://127.0.0.1:{int(found[1])}/session"
                break
        options = {"binary": CHROMIUM, "args": [*OPTIONS, f"--user-data-dir={folder}/profile"]}
        made = self.call("POST", "", {"capabilities": {"alwaysMatch": {
            "goog:chromeOptions": options, "goog:loggingPrefs": {"browser": "ALL"}}}})
        self.session = made["sessionId"]

    def call(self, method, path, body=None):
        """Sends the driver a request, and returns the answer."""
        url = f"{self.base}/{self.session}{path}" if self.session else self.base
        data = None if body is None else json.dumps(body).encode()
        request = urllib.request.Request(url, data, {"Content-Type": "application/json"}, method=method)
        with urllib.request.build_opener(urllib.request.ProxyHandler({})).open(request, timeout=120) as answer:
            return json.load(answer)["value"]

    def open(self, path, fragment=""):
        """Opens a file, by way of an empty page, so that it is read anew."""
        self.call("POST", "/url", {"url": "about:blank"})
        self.call("POST", "/url", {"url": f"file://{path}{fragment}"})

    def run(self, script, *arguments):
        """What a script returns."""
        return self.call("POST", "/execute/sync", {"script": script, "args": list(arguments)})

    def screenshot(self):
        """The bytes of a PNG of the window."""
        return base64.b64decode(self.call("GET", "/screenshot"))

    def messages(self):
        """What the browser complained of since the last call."""
        return [each["message"] for each in self.call("POST", "/se/log", {"type": "browser"})]

    def close(self):
        try:
            if self.session:
                self.call("DELETE", "")
        finally:
            self.driver.terminate()
            self.driver.communicate()
            self.folder.cleanup()
