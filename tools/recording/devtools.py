"""Chromium by the DevTools protocol, over two pipes: no port is opened."""

import fcntl
import json
import os
import select
import shutil
import signal
import subprocess
import tempfile
import time

BROWSERS = ("chromium", "chromium-browser", "google-chrome", "google-chrome-stable", "microsoft-edge", "brave-browser")
LONGEST = 60
# In a world of its own, so that the page doesn't see it: calls `changed` when something may have changed.
WORLD = "recorder"
LISTENER = """
(() => {
    const tell = () => changed("");
    const names = ["selectionchange", "input", "change", "focusin", "focusout", "scroll", "toggle", "load"];
    names.push("transitionend", "animationend");
    for (const name of names) addEventListener(name, tell, {capture: true, passive: true});
    addEventListener("resize", tell);
    new MutationObserver(tell).observe(document, {subtree: true, childList: true, attributes: true, characterData: true});
})()
"""


class BrowserError(Exception):
    """There is no browser, or it has failed."""


class BrowserEnded(BrowserError):
    """The browser has ended, as when its window is closed."""


def browsers():
    """The browsers that there are, as paths."""
    return [path for path in map(shutil.which, BROWSERS) if path]


class Browser:
    """A browser that is started with a profile of its own, and ended with this."""

    def __init__(self, path, has_window, size):
        self.profile = tempfile.mkdtemp(prefix="record-chromium-")
        words = [path, "--remote-debugging-pipe", "--force-renderer-accessibility", "--no-first-run", f"--user-data-dir={self.profile}"]
        words += [f"--window-size={size[0]},{size[1]}", *([] if has_window else ["--headless=new"])]
        words += ["--no-sandbox"] if os.geteuid() == 0 else []
        taken, self.to = os.pipe()
        self.back, given = os.pipe()
        # (the numbers 3 and 4 are those of the browser's ends, whatever is there in this process)
        ends = [fcntl.fcntl(end, fcntl.F_DUPFD, 10) for end in (taken, given)]

        def begin():
            os.dup2(ends[0], 3)
            os.dup2(ends[1], 4)

        how = {"stdin": subprocess.DEVNULL, "stdout": subprocess.DEVNULL, "stderr": subprocess.DEVNULL, "start_new_session": True}
        self.process = subprocess.Popen([*words, "about:blank"], pass_fds=(3, 4), preexec_fn=begin, **how)
        for end in (taken, given, *ends):
            os.close(end)
        self.parts, self.messages, self.count, self.session = [], [], 0, None

    # ---- messages

    def receive(self, seconds):
        """Takes what has come, and waits at most so long for it: whether anything has."""
        if not select.select([self.back], [], [], max(0, seconds))[0]:
            return False
        some = os.read(self.back, 1 << 20)
        if not some:
            raise BrowserEnded("the browser has ended")
        while b"\0" in some:
            end, _, some = some.partition(b"\0")
            self.messages.append(json.loads(b"".join([*self.parts, end])))
            self.parts = []
        self.parts.append(some)
        return True

    def send(self, method, parameters):
        self.count += 1
        message = {"id": self.count, "method": method, "params": parameters}
        if self.session:
            message["sessionId"] = self.session
        try:
            data = json.dumps(message).encode() + b"\0"
            while data:
                data = data[os.write(self.to, data) :]
        except BrokenPipeError as error:
            raise BrowserEnded("the browser has ended") from error
        return self.count

    def ask(self, *calls):
        """The results of these calls, each a pair of a method and its parameters, in order: `None` for an error."""
        waiting, found, end = [self.send(*call) for call in calls], {}, time.monotonic() + LONGEST
        while len(found) < len(calls):
            events = []
            for message in self.messages:
                if message.get("id") in waiting:
                    found[message["id"]] = message.get("result")
                elif "method" in message:
                    events.append(message)
            self.messages = events
            if len(found) < len(calls) and not self.receive(end - time.monotonic()):
                raise BrowserError(f"the browser doesn't answer {calls[0][0]}")
        return [found[id] for id in waiting]

    def call(self, method, **parameters):
        result = self.ask((method, parameters))[0]
        if result is None:
            raise BrowserError(f"the browser refuses {method}")
        return result

    def evaluate(self, text):
        """What an expression of JavaScript is, in the page."""
        result = self.call("Runtime.evaluate", expression=text, returnByValue=True, awaitPromise=True)
        return result.get("result", {}).get("value")

    # ---- the page

    def open(self, url, size):
        """Opens a page, and waits until it is loaded, or for some seconds."""
        target = next(one for one in self.call("Target.getTargets")["targetInfos"] if one["type"] == "page")
        self.session = self.call("Target.attachToTarget", targetId=target["targetId"], flatten=True)["sessionId"]
        for domain in ("Page", "Runtime", "DOM", "Accessibility", "DOMSnapshot"):
            self.call(f"{domain}.enable")
        if size:
            self.call("Emulation.setDeviceMetricsOverride", width=size[0], height=size[1], deviceScaleFactor=1, mobile=False)
            self.call("Emulation.setFocusEmulationEnabled", enabled=True)
        self.call("Runtime.addBinding", name="changed", executionContextName=WORLD)
        self.call("Page.addScriptToEvaluateOnNewDocument", source=LISTENER, worldName=WORLD)
        failure = self.call("Page.navigate", url=url).get("errorText")
        if failure:
            raise BrowserError(f"{url}: {failure}")
        for _ in range(100):
            if self.evaluate("document.readyState") == "complete":
                break
            time.sleep(0.1)

    def wait(self, seconds, quiet, longest):
        """Waits at most so long until something has changed, and then until nothing has for a quiet time: the time of the first change."""
        end, begun = time.monotonic() + seconds, None
        while True:
            heard = [one for one in self.messages if one["method"] in ("Runtime.bindingCalled", "Accessibility.loadComplete")]
            self.messages, now = [], time.monotonic()
            if heard and begun is None:
                begun = now
            if heard:
                end = min(now + quiet, begun + longest)
            if now >= end:
                return begun
            self.receive(end - now)

    def close(self):
        """Ends the browser, and removes its profile."""
        try:
            os.killpg(self.process.pid, signal.SIGTERM)
            self.process.wait(5)
        except (ProcessLookupError, subprocess.TimeoutExpired):
            self.process.kill()
        self.process.wait()
        shutil.rmtree(self.profile, ignore_errors=True)
