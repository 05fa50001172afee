"""A browser without a window, driven by its DevTools protocol over a pipe."""

import base64
import json
import os
import select
import subprocess
import time

PATIENCE = 30


class Browser:
    def __init__(self, program, folder):
        theirs_in, self.to = os.pipe()
        self.back, theirs_out = os.pipe()
        sandbox = ["--no-sandbox"] if os.geteuid() == 0 else []
        # The protocol is spoken on descriptors 3 and 4.
        self.process = subprocess.Popen(
            ["bash", "-c", 'exec "$@" 3<&%d 4>&%d' % (theirs_in, theirs_out), "bash", program, "--headless", *sandbox,
             "--disable-gpu", "--disable-dev-shm-usage", "--hide-scrollbars", "--no-first-run", "--remote-debugging-pipe",
             "--user-data-dir=" + folder, "about:blank"], pass_fds=(theirs_in, theirs_out),
            stdin=subprocess.DEVNULL, stdout=subprocess.DEVNULL, stderr=subprocess.DEVNULL)
        os.close(theirs_in)
        os.close(theirs_out)
        self.octets, self.number, self.events = b"", 0, []

    def message(self, limit):
        while b"\0" not in self.octets:
            assert time.monotonic() < limit, "the browser does not answer"
            if select.select([self.back], [], [], 0.2)[0]:
                octets = os.read(self.back, 1 << 20)
                assert octets, "the browser is gone"
                self.octets += octets
        text, _, self.octets = self.octets.partition(b"\0")
        return json.loads(text)

    def call(self, method, session=None, **parameters):
        self.number += 1
        words = {"id": self.number, "method": method, "params": parameters}
        if session:
            words["sessionId"] = session
        os.write(self.to, json.dumps(words).encode() + b"\0")
        limit = time.monotonic() + PATIENCE
        while (answer := self.message(limit)).get("id") != self.number:
            self.events.append(answer)
        assert "error" not in answer, (method, answer["error"])
        return answer["result"]

    def end(self):
        try:
            self.call("Browser.close")
        except (AssertionError, OSError):
            self.process.terminate()
        self.process.wait(PATIENCE)
        os.close(self.to)
        os.close(self.back)


class Tab:
    """One page in a window of its own size, with what the person has asked of the system."""

    def __init__(self, browser, width=1280, height=800, script=True, **features):
        self.browser = browser
        self.target = browser.call("Target.createTarget", url="about:blank")["targetId"]
        self.session = browser.call("Target.attachToTarget", targetId=self.target, flatten=True)["sessionId"]
        for domain in ("Page", "Runtime", "Log", "Network", "Audits"):
            self.call(domain + ".enable")
        self.call("Emulation.setDeviceMetricsOverride", width=width, height=height, deviceScaleFactor=1, mobile=width < 600)
        self.call("Emulation.setEmulatedMedia", features=[{"name": name.replace("_", "-"), "value": value}
                                                          for name, value in features.items()])
        self.call("Emulation.setScriptExecutionDisabled", value=not script)

    def call(self, method, **parameters):
        return self.browser.call(method, self.session, **parameters)

    def open(self, address):
        self.call("Page.navigate", url=address)
        self.wait("document.readyState === 'complete' && location.href.startsWith('http')")

    def run(self, expression):
        """The value of an expression in the page; where the page's own script is off, this one still runs."""
        answer = self.call("Runtime.evaluate", expression=expression, returnByValue=True, awaitPromise=True)
        assert "exceptionDetails" not in answer, answer
        return answer["result"].get("value")

    def wait(self, expression, seconds=PATIENCE):
        limit = time.monotonic() + seconds
        while not self.run(expression):
            assert time.monotonic() < limit, "it did not come to be so: " + expression
            time.sleep(0.1)

    def picture(self, path):
        octets = self.call("Page.captureScreenshot", format="png")["data"]
        with open(path, "wb") as file:
            file.write(base64.b64decode(octets))

    def press(self, key):
        code = {"End": 35, "Home": 36}[key]
        for kind in ("keyDown", "keyUp"):
            self.call("Input.dispatchKeyEvent", type=kind, key=key, code=key, windowsVirtualKeyCode=code)

    def roles(self):
        """Role and name of everything that a screen reader is told of."""
        nodes = self.call("Accessibility.getFullAXTree")["nodes"]
        return [(node["role"]["value"], node.get("name", {}).get("value", "")) for node in nodes if not node["ignored"]]

    def events(self, *methods):
        return [event["params"] for event in self.browser.events
                if event.get("sessionId") == self.session and event["method"] in methods]

    def close(self):
        self.browser.call("Target.closeTarget", targetId=self.target)
