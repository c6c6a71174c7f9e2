"""A headless Chromium that is asked over a pipe, by the standard library alone: pages are opened, asked, and shown."""
import base64
import json
import os
import select
import shutil
import subprocess
import tempfile
import time

NAMES = ("chromium", "chromium-browser", "google-chrome")


def find():
    """The browser's program, or None."""
    return next((found for found in map(shutil.which, NAMES) if found), None)


class Browser:
    """One browser with one page at a time. It notes each request and each error of the page."""

    def __init__(self, program):
        self.home = tempfile.TemporaryDirectory(ignore_cleanup_errors=True)
        down, up = os.pipe(), os.pipe()
        command = [program, "--headless=new", "--no-sandbox", "--disable-gpu", "--hide-scrollbars", "--no-first-run",
                   "--disable-background-networking", "--disable-component-update", "--disable-sync",
                   f"--user-data-dir={self.home.name}", "--remote-debugging-pipe", "about:blank"]

        def give_pipes():
            os.dup2(down[0], 1023)
            os.dup2(up[1], 1022)
            os.dup2(1023, 3)
            os.dup2(1022, 4)

        self.process = subprocess.Popen(command, preexec_fn=give_pipes, pass_fds=(3, 4), stdin=subprocess.DEVNULL,
                                        stdout=subprocess.DEVNULL, stderr=subprocess.DEVNULL)
        os.close(down[0])
        os.close(up[1])
        self.writes, self.reads, self.rest, self.count = down[1], up[0], b"", 0
        self.requests, self.errors = [], []
        targets = self.call("Target.getTargets", session=None)["targetInfos"]
        target = next(one["targetId"] for one in targets if one["type"] == "page")
        self.session = self.call("Target.attachToTarget", {"targetId": target, "flatten": True}, session=None)["sessionId"]
        for domain in ("Page", "Runtime", "Network", "Log"):
            self.call(f"{domain}.enable")
        self.call("Performance.enable", {"timeDomain": "threadTicks"})

    def message(self, until):
        """The next message of the browser."""
        while b"\0" not in self.rest:
            if not select.select([self.reads], [], [], max(0, until - time.monotonic()))[0]:
                raise TimeoutError("the browser doesn't answer")
            piece = os.read(self.reads, 1 << 20)
            if not piece:
                raise EOFError("the browser ended")
            self.rest += piece
        text, _, self.rest = self.rest.partition(b"\0")
        told = json.loads(text)
        self.note(told.get("method"), told.get("params", {}))
        return told

    def note(self, method, told):
        if method == "Network.requestWillBeSent":
            self.requests.append(told["request"]["url"])
        elif method == "Runtime.exceptionThrown":
            details = told["exceptionDetails"]
            self.errors.append(details.get("exception", {}).get("description") or details["text"])
        elif method == "Runtime.consoleAPICalled" and told["type"] in ("error", "warning", "assert"):
            self.errors.append(" ".join(str(one.get("value", one.get("description"))) for one in told["args"]))
        elif method == "Log.entryAdded" and told["entry"]["level"] in ("error", "warning"):
            self.errors.append(told["entry"]["text"])

    def call(self, method, params=None, session="own", seconds=300):
        """What the browser answers to a call."""
        self.count += 1
        told = {"id": self.count, "method": method, "params": params or {}}
        if session == "own":
            told["sessionId"] = self.session
        pieces = memoryview(json.dumps(told).encode() + b"\0")
        while pieces:
            pieces = pieces[os.write(self.writes, pieces):]
        until = time.monotonic() + seconds
        while True:
            answer = self.message(until)
            if answer.get("id") == self.count:
                if "error" in answer:
                    raise RuntimeError(f"{method}: {answer['error']['message']}")
                return answer["result"]

    def open(self, url, wide=1280, high=800):
        """Opens a page, and waits until it is there. What was noted before is forgotten."""
        self.call("Emulation.setDeviceMetricsOverride",
                  {"width": wide, "height": high, "deviceScaleFactor": 1, "mobile": False})
        self.call("Page.navigate", {"url": "about:blank"})
        self.requests, self.errors = [], []
        self.call("Page.navigate", {"url": url})
        until = time.monotonic() + 300
        while self.ask("document.URL == 'about:blank' || document.readyState") != "complete":
            if time.monotonic() > until:
                raise TimeoutError(url)
            time.sleep(0.02)

    def ask(self, text, seconds=300):
        """The value of an expression, as JSON tells it; a promise is waited for."""
        answer = self.call("Runtime.evaluate", {"expression": text, "returnByValue": True, "awaitPromise": True},
                           seconds=seconds)
        if "exceptionDetails" in answer:
            raise RuntimeError(answer["exceptionDetails"].get("exception", {}).get("description", text))
        return answer["result"].get("value")

    def busy(self):
        """For how many seconds of processor time the page's own thread was at work since the page was begun."""
        told = {one["name"]: one["value"] for one in self.call("Performance.getMetrics")["metrics"]}
        return told["TaskDuration"]

    def key(self, key, shift=False):
        """A key is pressed, as at a keyboard."""
        for kind in ("keyDown", "keyUp"):
            self.call("Input.dispatchKeyEvent", {"type": kind, "key": key, "modifiers": 8 if shift else 0})

    def mouse(self, kind, x, y, **more):
        self.call("Input.dispatchMouseEvent", {"type": kind, "x": x, "y": y, **more})

    def show(self, path, whole=True):
        """Saves what is shown as PNG."""
        told = self.call("Page.captureScreenshot", {"format": "png", "captureBeyondViewport": whole})
        path.write_bytes(base64.b64decode(told["data"]))

    def close(self):
        self.process.kill()
        self.process.wait()
        os.close(self.writes)
        os.close(self.reads)
        self.home.cleanup()
