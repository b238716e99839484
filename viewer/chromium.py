"""A headless Chromium that opens pages and is told what to do in them, by the interface of its driver."""
import base64
import contextlib
import json
import subprocess
import time
import urllib.error
import urllib.request

PORT = 9517


def call(method, path, body=None):
    """A call of the driver's interface; answers its value."""
    data = None if body is None else json.dumps(body).encode()
    request = urllib.request.Request(f"http://127.0.0.1:{PORT}{path}", data, {"content-type": "application/json"}, method=method)
    with urllib.request.urlopen(request, timeout=120) as answer:
        return json.load(answer)["value"]


class Browser:
    """A window with a page."""

    def __init__(self, session):
        self.session = session

    def post(self, path, **body):
        return call("POST", f"{self.session}/{path}", body)

    def open(self, file, address=""):
        """Opens a page anew, with an address in it."""
        self.post("url", url="about:blank")
        self.post("url", url=file.as_uri() + address)

    def size(self, width, height):
        self.post("goog/cdp/execute", cmd="Emulation.setDeviceMetricsOverride", params={"width": width, "height": height, "deviceScaleFactor": 1, "mobile": width < 500})

    def theme(self, name):
        self.post("goog/cdp/execute", cmd="Emulation.setEmulatedMedia", params={"features": [{"name": "prefers-color-scheme", "value": name}]})

    def run(self, script, *words):
        return self.post("execute/sync", script=script, args=words)

    def wait(self, script, *words):
        """Runs a script that says by `done` that it is through."""
        return self.post("execute/async", script=f"const done = arguments[arguments.length - 1]; {script}", args=words)

    def element(self, chosen):
        (found,) = self.post("element", using="css selector", value=chosen).values()
        return f"element/{found}"

    def click(self, chosen):
        self.post(f"{self.element(chosen)}/click")

    def keys(self, chosen, text):
        self.post(f"{self.element(chosen)}/value", text=text)

    def back(self):
        self.post("back")

    def picture(self, file):
        file.write_bytes(base64.b64decode(call("GET", f"{self.session}/screenshot")))

    def pictures(self, chosen):
        """A picture of each element that is chosen, as text in base 64."""
        found = self.post("elements", using="css selector", value=chosen)
        return [call("GET", f"{self.session}/element/{next(iter(each.values()))}/screenshot") for each in found]

    def faults(self):
        """What the page's script complained of since the last call."""
        return [entry["message"] for entry in self.post("se/log", type="browser") if entry["level"] == "SEVERE"]


@contextlib.contextmanager
def browser():
    driver = subprocess.Popen(["chromedriver", f"--port={PORT}"], stdout=subprocess.DEVNULL, stderr=subprocess.DEVNULL)
    session = None
    try:
        for _ in range(100):
            with contextlib.suppress(urllib.error.URLError, ConnectionError):
                call("GET", "/status")
                break
            time.sleep(0.1)
        options = {"args": ["--headless=new", "--no-sandbox", "--disable-gpu", "--window-size=1200,900"]}
        made = call("POST", "/session", {"capabilities": {"alwaysMatch": {"browserName": "chrome", "goog:chromeOptions": options, "goog:loggingPrefs": {"browser": "ALL"}}}})
        session = f"/session/{made['sessionId']}"
        yield Browser(session)
    finally:
        if session:
            call("DELETE", session)
        driver.kill()
        driver.wait()
