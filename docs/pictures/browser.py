"""A browser without a window, which is told what to do by the DevTools protocol over two pipes. Standard library only."""
import base64
import json
import os
import pathlib
import select
import shutil
import subprocess
import time

BROWSERS = ("chromium", "chromium-browser", "chromium-headless-shell", "google-chrome", "chrome")
OPTIONS = ("--headless", "--no-sandbox", "--disable-gpu", "--disable-dev-shm-usage", "--no-first-run", "--hide-scrollbars",
           "--window-size=1280,900", "--remote-debugging-pipe")
SECONDS = 60
# The kinds of lines in the console that tell of a mistake.
WRONG = ("error", "assert")


class BrowserFailed(Exception):
    """The browser gave no answer, or refused what was asked."""


def browser_here():
    """The browser of this machine, or None."""
    return next((found for found in map(shutil.which, BROWSERS) if found), None)


class Browser:
    """A browser with one page. `errors` has what the page's script threw, and what it wrote to the console as an error."""

    def __init__(self, path, folder):
        # The browser reads at 3 and writes at 4.
        read_there, self.requests = os.pipe()
        self.answers, written_there = os.pipe()
        command = ["sh", "-c", f'exec "$@" 3<&{read_there} 4>&{written_there}', "sh", path, *OPTIONS, f"--user-data-dir={folder}/browser"]
        places, nothing = {**os.environ, "TMPDIR": folder}, subprocess.DEVNULL
        self.process = subprocess.Popen(command, pass_fds=(read_there, written_there), stdout=nothing, stderr=nothing, env=places)
        for end in (read_there, written_there):
            os.close(end)
        self.unread, self.number, self.session, self.errors, self.is_loaded = b"", 0, None, [], False
        page = self.ask("Target.createTarget", url="about:blank")["targetId"]
        self.session = self.ask("Target.attachToTarget", targetId=page, flatten=True)["sessionId"]
        for domain in ("Page", "Runtime", "Log"):
            self.ask(f"{domain}.enable")

    def __enter__(self):
        return self

    def __exit__(self, *_):
        self.process.kill()
        self.process.wait()
        os.close(self.requests)
        os.close(self.answers)

    def ask(self, method, **words):
        """What the browser answers."""
        self.number += 1
        request = {"id": self.number, "method": method, "params": words}
        if self.session:
            request["sessionId"] = self.session
        os.write(self.requests, json.dumps(request).encode() + b"\0")
        end = time.monotonic() + SECONDS
        while (said := self._hear(end)).get("id") != self.number:
            self._note(said)
        if "error" in said:
            raise BrowserFailed(f"{method}: {said['error']}")
        return said["result"]

    def _hear(self, end):
        """The next that the browser says."""
        while b"\0" not in self.unread:
            if not select.select([self.answers], [], [], max(0, end - time.monotonic()))[0]:
                raise BrowserFailed(f"no answer within {SECONDS} s")
            got = os.read(self.answers, 1 << 16)
            if not got:
                raise BrowserFailed("the browser has ended")
            self.unread += got
        said, self.unread = self.unread.split(b"\0", 1)
        return json.loads(said)

    def _note(self, event):
        """Notes what happens in the page."""
        method, words = event.get("method"), event.get("params", {})
        self.is_loaded |= method == "Page.loadEventFired"
        if method == "Runtime.exceptionThrown":
            self.errors.append(words["exceptionDetails"].get("exception", {}).get("description", words["exceptionDetails"]["text"]))
        elif method == "Runtime.consoleAPICalled" and words["type"] in WRONG:
            self.errors.append(" ".join(str(value.get("value")) for value in words["args"]))
        elif method == "Log.entryAdded" and words["entry"]["level"] in WRONG:
            self.errors.append(words["entry"]["text"])

    # ---- what a person does

    def open(self, path):
        """Opens a file, and waits until it is there."""
        self.errors, self.is_loaded = [], False
        self.ask("Page.navigate", url=pathlib.Path(path).as_uri())
        end = time.monotonic() + SECONDS
        while not self.is_loaded:
            self._note(self._hear(end))

    def value(self, expression):
        """What an expression of the page's script is."""
        said = self.ask("Runtime.evaluate", expression=expression, returnByValue=True)
        if "exceptionDetails" in said:
            raise BrowserFailed(f"{expression}: {said['result'].get('description')}")
        return said["result"].get("value")

    def mouse(self, kind, x, y, **words):
        """The mouse does something at a point of the window."""
        self.ask("Input.dispatchMouseEvent", type=f"mouse{kind}", x=x, y=y, **words)

    def picture(self):
        """What the window shows, as a PNG."""
        return base64.b64decode(self.ask("Page.captureScreenshot", format="png")["data"])
