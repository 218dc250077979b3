"""A small client of a browser's test driver, with the standard library alone: what all browsers can do, and Chromium."""

import base64
import json
import shutil
import socket
import subprocess
import time
import urllib.error
import urllib.request

# so long a browser may take to answer, on a machine that has other work too
ANSWER_SECONDS = 180
# so long an element may be drawn anew, or lie below another one, until a click meets it
CLICK_SECONDS = 20
# what a driver says of such an element
NOT_YET = ("stale element reference", "element click intercepted", "element not interactable", "no such element")
ELEMENT = "element-6066-11e4-a52e-4f735466cecf"


class Missing(Exception):
    """The browser or its driver isn't there, or doesn't start."""


def free_port():
    with socket.socket() as one:
        one.bind(("127.0.0.1", 0))
        return one.getsockname()[1]


def find_browser():
    browser = shutil.which("chromium") or shutil.which("google-chrome")
    driver = shutil.which("chromedriver")
    if not browser or not driver:
        raise Missing("chromium or chromedriver isn't there")
    return browser, driver


class Window:
    """One window of a browser, by the commands of WebDriver; `ask` hands one on to the browser."""

    def ask(self, method, path, body=None):
        raise NotImplementedError

    def open(self, url):
        self.ask("POST", "/url", {"url": url})

    def find(self, selector):
        found = self.ask("POST", "/element", {"using": "css selector", "value": selector})
        return found[ELEMENT]

    def click(self, selector):
        """Clicks an element, as soon as it lies still: one that is just drawn anew is looked for again."""
        last = time.monotonic() + CLICK_SECONDS
        while True:
            try:
                return self.ask("POST", f"/element/{self.find(selector)}/click", {})
            except RuntimeError as fault:
                if time.monotonic() > last or not any(word in str(fault) for word in NOT_YET):
                    raise
            time.sleep(0.1)

    def type(self, selector, text):
        self.ask("POST", f"/element/{self.find(selector)}/value", {"text": text})

    def give_files(self, selector, *files):
        """Chooses files in a field for files."""
        self.type(selector, "\n".join(str(one) for one in files))

    def run(self, script, *words):
        return self.ask("POST", "/execute/sync", {"script": script, "args": list(words)})

    def wait_for(self, script, *words):
        """A script that answers by calling its last argument."""
        return self.ask("POST", "/execute/async", {"script": script, "args": list(words)})

    def text(self, selector):
        return self.run("return document.querySelector(arguments[0]).textContent", selector)

    def press(self, keys):
        """Presses and releases keys, wherever the focus is; a key of ALT is held until the end."""
        held = "\ue00a" if keys.startswith("\ue00a") else ""
        steps = [{"type": "keyDown", "value": held}] * bool(held)
        for key in keys.removeprefix(held):
            steps += [{"type": "keyDown", "value": key}, {"type": "keyUp", "value": key}]
        steps += [{"type": "keyUp", "value": held}] * bool(held)
        self.ask("POST", "/actions", {"actions": [{"type": "key", "id": "keys", "actions": steps}]})

    def shot(self):
        return self.ask("GET", "/screenshot")

    def picture(self, name):
        with open(name, "wb") as out:
            out.write(base64.b64decode(self.shot()))


class Driven(Window):
    """A window of a browser that has a program as its driver, which is asked by HTTP."""

    def __init__(self, driver, asked, surroundings=None):
        self.port = free_port()
        self.driver = subprocess.Popen([driver, f"--port={self.port}"], env=surroundings,
                                       stdout=subprocess.DEVNULL, stderr=subprocess.DEVNULL)
        self.window = ""
        try:
            self.wait_for_driver()
            self.window = self.open_window(asked)
        except BaseException:
            self.driver.terminate()
            self.driver.wait()
            raise

    def wait_for_driver(self):
        for _ in range(100):
            try:
                if self.call("GET", "/status")["ready"]:
                    return
            except OSError:
                time.sleep(0.1)
        raise Missing("the browser's driver doesn't answer")

    def open_window(self, asked):
        try:
            return self.call("POST", "/session", {"capabilities": {"alwaysMatch": asked}})["sessionId"]
        except (OSError, RuntimeError) as fault:
            raise Missing(f"the browser doesn't start: {fault}") from None

    def call(self, method, path, body=None):
        data = None if body is None else json.dumps(body).encode()
        asked = urllib.request.Request(f"http://127.0.0.1:{self.port}{path}", data, method=method,
                                       headers={"Content-Type": "application/json"})
        try:
            with urllib.request.urlopen(asked, timeout=ANSWER_SECONDS) as answer:
                return json.load(answer)["value"]
        except urllib.error.HTTPError as fault:
            raise RuntimeError(fault.read().decode()[:500]) from None

    def ask(self, method, path, body=None):
        return self.call(method, f"/session/{self.window}{path}", body)

    def close(self):
        try:
            if self.window:
                self.ask("DELETE", "")
        except (OSError, RuntimeError):
            pass  # it is gone already, which shows where it was asked for something
        finally:
            self.driver.terminate()
            self.driver.wait()


class Browser(Driven):
    """One window of Chromium without a screen."""

    def __init__(self, width=1400, height=1500):
        browser, driver = find_browser()
        words = ["--headless=new", "--no-sandbox", "--disable-gpu", "--disable-dev-shm-usage",
                 f"--window-size={width},{height}"]
        super().__init__(driver, {"goog:chromeOptions": {"binary": browser, "args": words}})

    def command(self, name, **words):
        """A command of the browser's own, such as a size of the screen or a scheme of colours."""
        return self.ask("POST", "/goog/cdp/execute", {"cmd": name, "params": words})

    def screen(self, width, height, dark=False):
        """The size of the screen in points, and whether the user asks for dark pages."""
        self.command("Emulation.setDeviceMetricsOverride", width=width, height=height,
                     deviceScaleFactor=1, mobile=width < 700)
        scheme = {"name": "prefers-color-scheme", "value": "dark" if dark else "light"}
        self.command("Emulation.setEmulatedMedia", features=[scheme])

    def eyes(self, kind):
        """How the page is seen: none, deuteranopia, protanopia, tritanopia or achromatopsia."""
        self.command("Emulation.setEmulatedVisionDeficiency", type=kind)
