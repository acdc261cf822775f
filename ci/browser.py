"""A headless Chromium by its DevTools protocol, over pipes: for ci/page."""
import base64
import json
import os
import shutil
import subprocess
import tempfile
import time

FLAGS = (
    "--headless",
    "--no-sandbox",
    "--disable-gpu",
    "--disable-background-networking",
    "--disable-component-update",
    "--no-first-run",
    "--hide-scrollbars",
    "--remote-debugging-pipe",
)
WATCHED = ("Page", "Runtime", "Log", "Network")


class Browser:
    """The browser. `events` are what it said besides answers."""

    def __init__(self, command):
        self.profile = tempfile.mkdtemp()
        its_input, self.output = os.pipe()
        self.input, its_output = os.pipe()
        # it reads from descriptor 3, and writes to 4
        script = f'exec "$@" 3<&{its_input} 4>&{its_output}'
        words = ["sh", "-c", script, "sh", command, *FLAGS, f"--user-data-dir={self.profile}", "about:blank"]
        quiet = subprocess.DEVNULL
        self.process = subprocess.Popen(words, pass_fds=(its_input, its_output), stdin=quiet, stdout=quiet, stderr=quiet)
        os.close(its_input)
        os.close(its_output)
        self.buffer, self.number, self.events = b"", 0, []

    def read(self):
        """The next answer or event."""
        while b"\0" not in self.buffer:
            more = os.read(self.input, 1 << 16)
            if not more:
                raise EOFError("the browser has ended")
            self.buffer += more
        line, self.buffer = self.buffer.split(b"\0", 1)
        return json.loads(line)

    def call(self, method, session=None, **parameters):
        """Calls a method, and returns its result."""
        self.number += 1
        words = {"id": self.number, "method": method, "params": parameters}
        if session:
            words["sessionId"] = session
        os.write(self.output, json.dumps(words).encode() + b"\0")
        while True:
            said = self.read()
            if said.get("id") != self.number:
                self.events.append(said)
            elif "error" in said:
                raise RuntimeError(f"{method}: {said['error']['message']}")
            else:
                return said["result"]

    def close(self):
        self.process.terminate()
        self.process.wait()
        shutil.rmtree(self.profile, ignore_errors=True)


class Tab:
    """A page of the browser."""

    def __init__(self, browser, url, width=1280, height=900, dark=False, before=""):
        self.browser = browser
        target = browser.call("Target.createTarget", url="about:blank")["targetId"]
        self.session = browser.call("Target.attachToTarget", targetId=target, flatten=True)["sessionId"]
        self.target = target
        for domain in WATCHED:
            self.call(f"{domain}.enable")
        self.call("Performance.enable", timeDomain="threadTicks")
        self.resize(width, height, dark)
        if before:
            self.call("Page.addScriptToEvaluateOnNewDocument", source=before)
        self.call("Page.navigate", url=url)
        self.wait('document.readyState === "complete"')

    def call(self, method, **parameters):
        return self.browser.call(method, self.session, **parameters)

    def resize(self, width, height=900, dark=False):
        self.call("Emulation.setDeviceMetricsOverride", width=width, height=height, deviceScaleFactor=1, mobile=False)
        scheme = {"name": "prefers-color-scheme", "value": "dark" if dark else "light"}
        self.call("Emulation.setEmulatedMedia", features=[scheme])

    def value(self, script):
        """What a script evaluates to, once it is known."""
        answer = self.call("Runtime.evaluate", expression=script, awaitPromise=True, returnByValue=True)
        if "exceptionDetails" in answer:
            details = answer["exceptionDetails"]
            raise RuntimeError(details.get("exception", {}).get("description") or details["text"])
        return answer["result"].get("value")

    def processor_seconds(self):
        """The time of the processor that the page's own work took."""
        metrics = {it["name"]: it["value"] for it in self.call("Performance.getMetrics")["metrics"]}
        return metrics["TaskDuration"]

    def wait(self, condition):
        """Asks the page until it is so. The page answers after its other work, so a slow machine is asked less often."""
        for _ in range(10_000):
            if self.value(condition):
                return
            time.sleep(0.02)
        raise RuntimeError(f"it isn't so: {condition}")

    def key(self, name, code=0, text="", modifiers=0):
        """Presses a key."""
        common = {"key": name, "code": name, "windowsVirtualKeyCode": code, "modifiers": modifiers}
        self.call("Input.dispatchKeyEvent", type="keyDown", text=text, **common)
        self.call("Input.dispatchKeyEvent", type="keyUp", **common)

    def picture(self, path, top, height):
        """Writes a picture of a part of the page."""
        width = self.call("Page.getLayoutMetrics")["cssContentSize"]["width"]
        clip = {"x": 0, "y": top, "width": width, "height": height, "scale": 1}
        data = self.call("Page.captureScreenshot", captureBeyondViewport=True, clip=clip)["data"]
        path.write_bytes(base64.b64decode(data))

    def close(self):
        self.browser.call("Target.closeTarget", targetId=self.target)
