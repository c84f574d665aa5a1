"""A page in headless Chromium, by its debugging protocol over two pipes, for checks/page."""
import fcntl
import json
import os
import shutil
import subprocess

BROWSERS = "chromium", "chromium-browser", "google-chrome"
FLAGS = "--headless=new", "--no-sandbox", "--disable-gpu", "--no-first-run", "--remote-debugging-pipe"
KEYS = {"Enter": 13, "Tab": 9, "Escape": 27, "ArrowDown": 40, " ": 32}


class Missing(Exception):
    """What is needed to run and isn't there."""


def chromium():
    for name in BROWSERS:
        if shutil.which(name):
            return name
    raise Missing("there is no Chromium here (Debian: apt-get install chromium)")


class Browser:
    """A browser with one page. Its address is noted for each request that the page makes."""

    def __init__(self, program, folder):
        their_in, our_out = os.pipe()
        our_in, their_out = os.pipe()
        ends = [fcntl.fcntl(end, fcntl.F_DUPFD, 10) for end in (their_in, their_out)]

        def as_three_and_four():
            os.dup2(ends[0], 3)
            os.dup2(ends[1], 4)

        words = [program, *FLAGS, f"--user-data-dir={folder}", "about:blank"]
        quiet = {"stdout": subprocess.DEVNULL, "stderr": subprocess.DEVNULL}
        self.process = subprocess.Popen(words, preexec_fn=as_three_and_four, close_fds=False, **quiet)
        for end in (their_in, their_out, *ends):
            os.close(end)
        self.out, self.into = os.fdopen(our_in, "rb", buffering=0), our_out
        self.left, self.number, self.session, self.asked_for, self.faults = b"", 0, None, [], []

    def message(self):
        while b"\0" not in self.left:
            more = self.out.read(1 << 20)
            if not more:
                raise Missing("Chromium ended")
            self.left += more
        text, _, self.left = self.left.partition(b"\0")
        return json.loads(text)

    def call(self, method, **parameters):
        self.number += 1
        message = {"id": self.number, "method": method, "params": parameters}
        if self.session:
            message["sessionId"] = self.session
        data = json.dumps(message).encode() + b"\0"
        while data:
            data = data[os.write(self.into, data) :]
        while True:
            found = self.message()
            self.note(found)
            if found.get("id") == self.number:
                if "error" in found:
                    raise RuntimeError(f"{method}: {found['error']['message']}")
                return found["result"]

    def note(self, found):
        """Notes requests, and exceptions that nobody caught."""
        if found.get("method") == "Network.requestWillBeSent":
            self.asked_for.append(found["params"]["request"]["url"])
        if found.get("method") == "Runtime.exceptionThrown":
            self.faults.append(found["params"]["exceptionDetails"].get("exception", {}).get("description", "an exception"))

    def open(self, page):
        self.session = None
        target = self.call("Target.createTarget", url="about:blank")["targetId"]
        self.session = self.call("Target.attachToTarget", targetId=target, flatten=True)["sessionId"]
        for domain in "Network", "Page", "Runtime":
            self.call(f"{domain}.enable")
        self.call("Page.navigate", url=page.absolute().as_uri())
        self.until('document.readyState === "complete" && typeof isReady !== "undefined" && isReady', "the page isn't ready")

    def evaluate(self, expression):
        found = self.call("Runtime.evaluate", expression=expression, awaitPromise=True, returnByValue=True)
        if "exceptionDetails" in found:
            raise RuntimeError(found["exceptionDetails"].get("exception", {}).get("description", "an exception"))
        return found["result"].get("value")

    def until(self, condition, why, seconds=60):
        wait = f"""(async () => {{
          for (let left = {seconds * 20}; left > 0; left -= 1) {{
            if ({condition}) return true;
            await new Promise((done) => setTimeout(done, 50));
          }}
          return false;
        }})()"""
        if not self.evaluate(wait):
            raise RuntimeError(f"{why}: {self.evaluate('found(`progress`).textContent')}")

    def choose_files(self, element, paths):
        place = self.call("Runtime.evaluate", expression=f'found("{element}")')["result"]["objectId"]
        self.call("DOM.setFileInputFiles", files=[str(path) for path in paths], objectId=place)

    def press(self, key, modifiers=0):
        text = {"Enter": "\r", " ": " "}.get(key) if modifiers == 0 else None
        how = {"key": key, "code": "Space" if key == " " else key, "windowsVirtualKeyCode": KEYS[key], "modifiers": modifiers}
        self.call("Input.dispatchKeyEvent", type="keyDown", **how, **({"text": text} if text else {}))
        self.call("Input.dispatchKeyEvent", type="keyUp", **how)

    def close(self):
        try:
            self.session = None
            self.call("Browser.close")
        except (Missing, OSError, RuntimeError):
            self.process.kill()
        self.process.wait()
