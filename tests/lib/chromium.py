"""A headless Chromium, told what to do by its DevTools protocol over two pipes."""
import json
import os
import shutil
import subprocess
import tempfile
import time

NAMES = ("chromium", "chromium-browser", "google-chrome")
SECONDS = 60


def found():
    """The path of Debian's Chromium, or of one of another name; None where there is none."""
    return next((path for name in NAMES if (path := shutil.which(name))), None)


class Chromium:
    """A browser with one tab. Use it by `with`."""

    def __init__(self, path, *, width=1280, height=900, dark=False):
        self.room = tempfile.TemporaryDirectory(prefix="chromium-", ignore_cleanup_errors=True)
        ours, self.to = os.pipe()
        self.come, theirs = os.pipe()
        # (the browser reads its orders from descriptor 3, and writes to descriptor 4)
        words = [path, "--headless=new", "--no-sandbox", "--disable-gpu", "--disable-dev-shm-usage", "--no-first-run", "--remote-debugging-pipe",
                 "--disable-background-networking", "--disable-component-update", "--hide-scrollbars",
                 f"--user-data-dir={self.room.name}", f"--window-size={width},{height}", "about:blank"]
        self.browser = subprocess.Popen(["sh", "-c", f'exec "$@" 3<&{ours} 4>&{theirs}', "sh", *words], pass_fds=(ours, theirs),
                                        stdin=subprocess.DEVNULL, stdout=subprocess.DEVNULL, stderr=subprocess.DEVNULL)
        os.close(ours)
        os.close(theirs)
        self.last, self.rest, self.events = 0, b"", []
        self.session = None
        targets = self.ask("Target.getTargets")["targetInfos"]
        page = next(it for it in targets if it["type"] == "page")
        self.session = self.ask("Target.attachToTarget", targetId=page["targetId"], flatten=True)["sessionId"]
        for domain in ("Page", "Runtime", "Log", "Network"):
            self.ask(f"{domain}.enable")
        self.ask("Emulation.setEmulatedMedia", features=[{"name": "prefers-color-scheme", "value": "dark" if dark else "light"}])

    def __enter__(self):
        return self

    def __exit__(self, *_):
        self.session = None
        try:
            self.ask("Browser.close")
            self.browser.wait(10)
        except (OSError, subprocess.TimeoutExpired, TimeoutError):
            self.browser.kill()
            self.browser.wait()
        os.close(self.to)
        os.close(self.come)
        self.room.cleanup()

    def next_message(self, until):
        while b"\0" not in self.rest:
            if time.monotonic() > until:
                raise TimeoutError("the browser doesn't answer")
            came = os.read(self.come, 1 << 20)
            if not came:
                raise OSError("the browser ended")
            self.rest += came
        message, _, self.rest = self.rest.partition(b"\0")
        return json.loads(message)

    def ask(self, method, **parameters):
        """What a method of the protocol answers. Events that come meanwhile are kept."""
        self.last += 1
        order = {"id": self.last, "method": method, "params": parameters} | ({"sessionId": self.session} if self.session else {})
        os.write(self.to, json.dumps(order).encode() + b"\0")
        until = time.monotonic() + SECONDS
        while True:
            message = self.next_message(until)
            if message.get("id") == self.last:
                if "error" in message:
                    raise ValueError(f"{method}: {message['error']}")
                return message["result"]
            self.events.append(message)

    def wait_for(self, method):
        """Waits for an event."""
        until = time.monotonic() + SECONDS
        while not any(it.get("method") == method for it in self.events):
            self.events.append(self.next_message(until))

    def open(self, path):
        """Opens a file. It answers what was said on the console and in the log, and which other addresses were asked for."""
        self.events = []
        self.ask("Page.navigate", url=path.resolve().as_uri())
        self.wait_for("Page.loadEventFired")
        return self.said(path)

    def said(self, path):
        """The same of what has happened since the file was opened."""
        self.value_of("new Promise((done) => requestAnimationFrame(() => requestAnimationFrame(done)))")
        kinds = ("Runtime.consoleAPICalled", "Runtime.exceptionThrown", "Log.entryAdded", "Page.javascriptDialogOpening")
        asked = [it["params"]["request"]["url"] for it in self.events if it.get("method") == "Network.requestWillBeSent"]
        told = [json.dumps(it["params"])[:1000] for it in self.events if it.get("method") in kinds]
        return told + [f"it asked for {url[:200]}" for url in asked if url != path.resolve().as_uri()]

    def value_of(self, expression):
        """The value of an expression of JavaScript, in the page."""
        came = self.ask("Runtime.evaluate", expression=expression, returnByValue=True, awaitPromise=True)
        if "exceptionDetails" in came:
            raise ValueError(json.dumps(came["exceptionDetails"])[:1000])
        return came["result"].get("value")
