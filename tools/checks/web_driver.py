"""A browser without a window, driven through chromedriver by WebDriver (https://www.w3.org/TR/webdriver2/).

It takes Chromium and its driver, Debian's packages chromium and chromium-driver, and nothing else beside Python.
"""
import base64
import contextlib
import json
import os
import re
import shutil
import signal
import subprocess
import tempfile
import urllib.error
import urllib.request

DRIVER = "chromedriver"
PACKAGES = "chromium chromium-driver"
# What the name of an element is under in what WebDriver answers.
ELEMENT = "element-6066-11e4-a52e-4f735466cecf"
# How long a call may take, in seconds: a long proof is checked in one.
LIMIT = 600
# The keys that have no sign, by their code points in WebDriver.
KEYS = {"Tab": "\ue004", "Enter": "\ue007", "Home": "\ue011", "Left": "\ue012", "Right": "\ue014", "Down": "\ue015"}
# The browser asks nothing of the network for itself, and a name that a page asks for is found nowhere.
ARGUMENTS = [
    *"--headless=new --disable-gpu --disable-dev-shm-usage --no-first-run --disable-extensions".split(),
    *"--disable-background-networking --disable-component-update --disable-sync --disable-default-apps".split(),
    "--host-resolver-rules=MAP * ~NOTFOUND",
    "--window-size=1280,1000",
]


class NoBrowser(Exception):
    """There is no browser to drive, and why."""


class Fault(Exception):
    """A call that the driver doesn't answer well: the name of its error, and what it says."""


def needed():
    """Ends where there is no driver, or no browser."""
    if not shutil.which(DRIVER) or not shutil.which("chromium"):
        raise NoBrowser(f"there is no {DRIVER}, or no chromium; on Debian, `apt-get install {PACKAGES}` installs them")


class Browser:
    """A session of the driver."""

    def __init__(self, address, folder):
        self.address = address
        arguments = [*ARGUMENTS, f"--user-data-dir={folder}"]
        if os.geteuid() == 0:
            # Chromium's sandbox isn't for root.
            arguments.append("--no-sandbox")
        wanted = {"browserName": "chrome", "goog:chromeOptions": {"args": arguments}}
        wanted["goog:loggingPrefs"] = {"browser": "ALL", "performance": "ALL"}
        wanted["timeouts"] = {"script": LIMIT * 1000, "pageLoad": LIMIT * 1000}
        made = self.call("POST", "/session", {"capabilities": {"alwaysMatch": wanted}})
        self.session, self.version = f"/session/{made['sessionId']}", made["capabilities"]["browserVersion"]

    def call(self, method, path, given=None):
        """A call of the driver, and the value that it answers."""
        data = None if given is None else json.dumps(given).encode()
        request = urllib.request.Request(self.address + path, data, {"Content-Type": "application/json"}, method=method)
        try:
            with urllib.request.urlopen(request, timeout=LIMIT) as answer:
                return json.load(answer)["value"]
        except urllib.error.HTTPError as fault:
            value = json.load(fault)["value"]
            raise Fault(f"{value['error']}: {value['message'][:300]}") from fault

    def post(self, path, **given):
        return self.call("POST", self.session + path, given)

    def open(self, address):
        """Opens a page, and forgets what was asked of the network before."""
        self.post("/url", url="about:blank")
        self.logged("performance")
        self.command("Performance.enable", timeDomain="threadTicks")
        self.post("/url", url=address)

    def run(self, script, *given):
        """What a script returns, in the page."""
        return self.post("/execute/sync", script=script, args=list(given))

    def wait_for(self, script, *given):
        """What a script hands to the function that is its last argument."""
        return self.post("/execute/async", script=script, args=list(given))

    def find(self, selector):
        """The elements that a selector of CSS selects."""
        return [found[ELEMENT] for found in self.post("/elements", using="css selector", value=selector)]

    def click(self, element):
        self.post(f"/element/{element}/click")

    def clear(self, element):
        self.post(f"/element/{element}/clear")

    def type(self, element, text):
        """Types into an element, or gives the path of a file to one that takes files."""
        self.post(f"/element/{element}/value", text=text)

    def press(self, *keys):
        """Presses keys one after another, wherever the focus is: each the name of a key, or a text."""
        actions = []
        for key in keys:
            for sign in KEYS.get(key, key):
                actions += [{"type": "keyDown", "value": sign}, {"type": "keyUp", "value": sign}]
        self.post("/actions", actions=[{"type": "key", "id": "keys", "actions": actions}])

    def command(self, name, **given):
        """A command of the browser's own protocol."""
        return self.post("/goog/cdp/execute", cmd=name, params=given)

    def logged(self, kind):
        """What was logged since this was asked last: `browser` is the console, `performance` what was asked of the
        network."""
        return self.post("/se/log", type=kind)

    def asked_of_the_network(self):
        """The addresses that the page asked for since this was asked last, and which of them its own policy refused."""
        events = [json.loads(entry["message"])["message"] for entry in self.logged("performance")]
        asked, refused = {}, []
        for event in events:
            params = event["params"]
            if event["method"] == "Network.requestWillBeSent":
                asked[params["requestId"]] = params["request"]["url"]
            elif event["method"] == "Network.loadingFailed" and params.get("blockedReason") == "csp":
                refused.append(asked.get(params["requestId"]))
        return list(asked.values()), refused

    def picture(self, path):
        """Keeps what the page shows from its top to its end, as PNG."""
        shown = self.command("Page.captureScreenshot", format="png", captureBeyondViewport=True)
        with open(path, "wb") as file:
            file.write(base64.b64decode(shown["data"]))

    def seconds(self):
        """How long the page had a processor since it was opened, in seconds."""
        metrics = self.command("Performance.getMetrics")["metrics"]
        [seconds] = [metric["value"] for metric in metrics if metric["name"] == "TaskDuration"]
        return seconds


@contextlib.contextmanager
def browser():
    """A browser with a profile of its own, which ends with the block."""
    needed()
    streams = {"stdin": subprocess.DEVNULL, "stdout": subprocess.PIPE, "stderr": subprocess.DEVNULL, "text": True}
    with tempfile.TemporaryDirectory(ignore_cleanup_errors=True) as folder:
        driver = subprocess.Popen([DRIVER, "--port=0"], start_new_session=True, **streams)
        try:
            driven = Browser(f"http://127.0.0.1:{port_of(driver)}", folder)
            try:
                yield driven
            finally:
                with contextlib.suppress(Fault, OSError):
                    driven.call("DELETE", driven.session)
        finally:
            # Where it didn't end the browser, that is in the driver's group, and ends with it.
            with contextlib.suppress(ProcessLookupError):
                os.killpg(driver.pid, signal.SIGKILL)
            driver.wait()
            driver.stdout.close()


def port_of(driver):
    """The port on which the driver listens, which it prints."""
    for line in driver.stdout:
        found = re.search(r"started successfully on port (\d+)", line)
        if found:
            return int(found[1])
    raise NoBrowser(f"{DRIVER} didn't start")
