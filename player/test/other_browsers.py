"""Firefox and WebKit for the tests, with the standard library alone: Firefox by its own Marionette, which needs no
driver, and WebKit by WebKitGTK's MiniBrowser and WebKitWebDriver."""

import glob
import json
import os
import pathlib
import shutil
import socket
import subprocess
import tempfile
import time

from browser import ANSWER_SECONDS, Driven, Missing, Window, free_port

START_SECONDS = 60
FIREFOX_SETTINGS = {"browser.shell.checkDefaultBrowser": False, "browser.startup.page": 0,
                    "app.normandy.enabled": False, "network.captive-portal-service.enabled": False,
                    "network.connectivity-service.enabled": False, "toolkit.startup.max_resumed_crashes": -1}
# The commands of Marionette for those of WebDriver.
MARIONETTE = {"POST /url": "Navigate", "POST /element": "FindElement", "POST /execute/sync": "ExecuteScript",
              "POST /execute/async": "ExecuteAsyncScript", "POST /actions": "PerformActions",
              "GET /screenshot": "TakeScreenshot", "POST /window/rect": "SetWindowRect"}
ELEMENT_COMMANDS = {"click": "ElementClick", "value": "ElementSendKeys"}
MINI_BROWSERS = "/usr/lib/*/webkit2gtk-4*/MiniBrowser"
SCREEN = "1600x1700x24"


def sized(window, width, height):
    """Makes the page so large, in points."""
    around = window.run("return [outerWidth - innerWidth, outerHeight - innerHeight]")
    window.ask("POST", "/window/rect", {"width": width + around[0], "height": height + around[1]})


class Firefox(Window):
    """One window of Firefox without a screen."""

    name = "Firefox"

    def __init__(self, width=1400, height=1500):
        program = shutil.which("firefox-esr") or shutil.which("firefox")
        if not program:
            raise Missing("firefox isn't there")
        self.folder = tempfile.TemporaryDirectory(ignore_cleanup_errors=True)
        port = free_port()
        settings = {**FIREFOX_SETTINGS, "marionette.port": port}
        lines = [f"user_pref({json.dumps(name)}, {json.dumps(value)});\n" for name, value in settings.items()]
        pathlib.Path(self.folder.name, "user.js").write_text("".join(lines), encoding="ascii")
        self.program = subprocess.Popen([program, "--headless", "--no-remote", "--marionette", "--profile",
                                         self.folder.name], stdout=subprocess.DEVNULL, stderr=subprocess.DEVNULL)
        self.line, self.rest, self.asked = None, b"", 0
        try:
            self.line = self.connect(port)
            self.answer()
            self.command("WebDriver:NewSession", {"capabilities": {}})
            sized(self, width, height)
        except BaseException:
            self.end()
            raise

    def connect(self, port):
        until = time.time() + START_SECONDS
        while time.time() < until and self.program.poll() is None:
            try:
                return socket.create_connection(("127.0.0.1", port), ANSWER_SECONDS)
            except OSError:
                time.sleep(0.1)
        raise Missing("firefox doesn't answer")

    def answer(self):
        """The next message: its length in digits, a colon, and so many bytes of JSON."""
        while b":" not in self.rest:
            self.rest += self.received()
        length, _, self.rest = self.rest.partition(b":")
        while len(self.rest) < int(length):
            self.rest += self.received()
        message, self.rest = self.rest[:int(length)], self.rest[int(length):]
        return json.loads(message)

    def received(self):
        found = self.line.recv(1 << 16)
        if not found:
            raise RuntimeError("firefox has ended")
        return found

    def command(self, name, words):
        self.asked += 1
        data = json.dumps([0, self.asked, name, words]).encode()
        self.line.sendall(str(len(data)).encode() + b":" + data)
        _, _, fault, found = self.answer()
        if fault:
            raise RuntimeError(f"{fault['error']}: {fault['message']}"[:500])
        return found.get("value") if isinstance(found, dict) and "value" in found else found

    def ask(self, method, path, body=None):
        if path.startswith("/element/"):
            _, _, element, what = path.split("/")
            return self.command(f"WebDriver:{ELEMENT_COMMANDS[what]}", {"id": element, **(body or {})})
        return self.command(f"WebDriver:{MARIONETTE[f'{method} {path}']}", body or {})

    # Marionette runs a script beside the page, where the page's own const and class can't be seen: so the page runs it.
    def run(self, script, *words):
        return super().run("return window.Function(arguments[0]).apply(window, arguments[1])", script, words)

    def wait_for(self, script, *words):
        return super().wait_for("window.Function(arguments[0]).apply(window, [...arguments[1], arguments[2]])",
                                script, words)

    def screen(self, width, height):
        sized(self, width, height)

    def close(self):
        try:
            self.command("Marionette:Quit", {"flags": ["eForceQuit"]})
            self.program.wait(START_SECONDS)
        except (OSError, RuntimeError, subprocess.TimeoutExpired):
            pass  # it is gone already, which shows where it was asked for something
        finally:
            self.end()

    def end(self):
        if self.line:
            self.line.close()
        if self.program.poll() is None:
            self.program.kill()
            self.program.wait()
        self.folder.cleanup()


class Screen:
    """A screen for a browser that needs one: the user's, or one of Xvfb that nobody sees."""

    def __init__(self):
        self.program = None
        self.surroundings = dict(os.environ)
        if os.environ.get("DISPLAY") or os.environ.get("WAYLAND_DISPLAY"):
            return
        if not shutil.which("Xvfb"):
            raise Missing("there is no screen, and no Xvfb")
        ready, told = os.pipe()
        self.program = subprocess.Popen(["Xvfb", "-displayfd", str(told), "-screen", "0", SCREEN, "-nolisten", "tcp"],
                                        pass_fds=[told], stdout=subprocess.DEVNULL, stderr=subprocess.DEVNULL)
        os.close(told)
        with os.fdopen(ready) as answer:
            number = answer.readline().strip()
        if not number:
            self.close()
            raise Missing("Xvfb doesn't start")
        self.surroundings["DISPLAY"] = f":{number}"

    def close(self):
        if self.program:
            self.program.terminate()
            self.program.wait()


class WebKit(Driven):
    """One window of WebKitGTK's MiniBrowser."""

    name = "WebKit"

    def __init__(self, width=1400, height=1500):
        driver = shutil.which("WebKitWebDriver")
        browsers = sorted(glob.glob(MINI_BROWSERS))
        if not driver or not browsers:
            raise Missing("WebKitWebDriver or MiniBrowser isn't there")
        self.screen_of = Screen()
        asked = {"browserName": "MiniBrowser",
                 "webkitgtk:browserOptions": {"binary": browsers[-1], "args": ["--automation"]}}
        try:
            super().__init__(driver, asked, self.screen_of.surroundings)
            sized(self, width, height)
        except BaseException:
            self.screen_of.close()
            raise

    def screen(self, width, height):
        sized(self, width, height)

    def close(self):
        try:
            super().close()
        finally:
            self.screen_of.close()
