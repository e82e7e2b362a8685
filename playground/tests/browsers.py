"""Browsers without a window: Chromium by chromedriver, Firefox by its own Marionette. Both answer the same calls."""
import base64
import http.client
import json
import os
import shutil
import socket
import subprocess
import sys
import tempfile
import time

# how much longer all may take where the machine has other work, as in `SLOWER=3 playground/test`
SLOWER = float(os.environ.get("SLOWER", "1"))
SECONDS = 20
# how long a script in the page may take, in milliseconds
SCRIPT = int(100_000 * SLOWER)
ELEMENT = "element-6066-11e4-a52e-4f735466cecf"
KEYS = {
    "Tab": "\ue004",
    "Enter": "\ue007",
    "Escape": "\ue00c",
    "Left": "\ue012",
    "Up": "\ue013",
    "Right": "\ue014",
    "Down": "\ue015",
    "Home": "\ue011",
    "End": "\ue010",
    "Space": " ",
    "Backspace": "\ue003",
    "Shift": "\ue008",
    "Control": "\ue009",
}


def free_port():
    with socket.socket() as it:
        it.bind(("127.0.0.1", 0))
        return it.getsockname()[1]


def retried(deed, what):
    for _ in range(int(200 * SLOWER)):
        try:
            return deed()
        except OSError:
            time.sleep(0.1)
    sys.exit(f"{what} doesn't answer")


class Browser:
    """What both browsers have in common. `command` is what differs."""

    def run(self, script, *words):
        """What an `async` function with this body answers."""
        script = (
            f"const done = arguments[arguments.length - 1]; const given = [...arguments].slice(0, -1); "
            f"(async (...given) => {{ {script} }})(...given).then(done, (e) => done('FAILED ' + e + e.stack))"
        )
        found = self.command("execute", {"script": script, "args": list(words)})
        if isinstance(found, str) and found.startswith("FAILED"):
            raise AssertionError(found)
        return found

    def until(self, script, *words, seconds=SECONDS):
        """Waits until an expression holds."""
        end = time.monotonic() + seconds * SLOWER
        while time.monotonic() < end:
            if self.run(f"return {script}", *words):
                return
            time.sleep(0.03)
        raise AssertionError(f"never: {script}")

    def keys(self, *names, held=None):
        """Presses keys one after another, as a keyboard does; a name of `KEYS`, or text."""
        presses = [KEYS.get(name, name) for name in names]
        letters = [letter for press in presses for letter in press]
        actions = [{"type": kind, "value": letter} for letter in letters for kind in ("keyDown", "keyUp")]
        if held:
            actions = [{"type": "keyDown", "value": KEYS[held]}, *actions, {"type": "keyUp", "value": KEYS[held]}]
        self.command("actions", {"actions": [{"type": "key", "id": "keyboard", "actions": actions}]})

    def middle(self, selector, text):
        """The middle of an element, which is brought into sight."""
        place = self.run(
            """
            const found = [...document.querySelectorAll(given[0])];
            const it = found.find(({ textContent }) => given[1] === null || textContent.trim() === given[1]);
            if (!it) return null;
            it.scrollIntoView({ block: "center", behavior: "instant" });
            const { x, y, width, height } = it.getBoundingClientRect();
            return [Math.round(x + width / 2), Math.round(y + height / 2)];""",
            selector,
            text,
        )
        if place is None:
            raise AssertionError(f"nothing there: {selector} {text or ''}")
        return place

    def pointer(self, selector, text, *presses):
        x, y = self.middle(selector, text)
        move = {"type": "pointerMove", "duration": 0, "x": x, "y": y, "origin": "viewport"}
        deeds = [move, *({"type": press, "button": 0} for press in presses)]
        self.command("actions", {"actions": [{"type": "pointer", "id": "mouse", "actions": deeds}]})

    def hover(self, selector, text=None):
        """Moves a mouse to the middle of an element."""
        self.pointer(selector, text)

    def click(self, selector, text=None):
        """Clicks on the middle of an element, as a mouse does."""
        self.pointer(selector, text, "pointerDown", "pointerUp")


class Chromium(Browser):
    name = "Chromium"

    def __init__(self, *flags):
        port = free_port()
        self.driver = subprocess.Popen(["chromedriver", f"--port={port}"], stdout=subprocess.DEVNULL)
        self.port, self.session = port, ""
        options = {"args": ["--headless=new", "--no-sandbox", "--disable-gpu", "--window-size=1280,860", *flags]}
        wanted = {"browserName": "chrome", "goog:chromeOptions": options, "goog:loggingPrefs": {"browser": "ALL"}}
        wanted["timeouts"] = {"script": SCRIPT}
        answer = retried(
            lambda: self.ask("POST", "/session", {"capabilities": {"alwaysMatch": wanted}}), "chromedriver"
        )
        self.session = f"/session/{answer['sessionId']}"

    def ask(self, method, path, body=None):
        line = http.client.HTTPConnection("127.0.0.1", self.port, timeout=120 * SLOWER)
        line.request(method, self.session + path, json.dumps(body or {}) if method == "POST" else None)
        value = json.loads(line.getresponse().read())["value"]
        if isinstance(value, dict) and "error" in value:
            raise AssertionError(value["message"])
        return value

    def command(self, name, words):
        return self.ask("POST", {"execute": "/execute/async", "actions": "/actions", "url": "/url"}[name], words)

    def go(self, url):
        self.command("url", {"url": "about:blank"})
        self.command("url", {"url": url})

    def back(self):
        self.ask("POST", "/back")

    def devtools(self, method, **words):
        return self.ask("POST", "/goog/cdp/execute", {"cmd": method, "params": words})

    def window(self, width, height):
        """The size of the page, in its own pixels."""
        self.devtools(
            "Emulation.setDeviceMetricsOverride", width=width, height=height, deviceScaleFactor=1, mobile=False
        )

    def media(self, **features):
        """As `dark` or `forced colours` of the system would make it: `prefers_color_scheme="dark"`."""
        told = [{"name": name.replace("_", "-"), "value": value} for name, value in features.items()]
        self.devtools("Emulation.setEmulatedMedia", features=told)

    def complaints(self):
        """What the console has said since this was last asked, but for requests that a test lets fail."""
        return [it["message"] for it in self.ask("POST", "/se/log", {"type": "browser"}) if it["level"] == "SEVERE"]

    def shot(self, path):
        with open(path, "wb") as file:
            file.write(base64.b64decode(self.ask("GET", "/screenshot")))

    def close(self):
        self.ask("DELETE", "")
        self.driver.terminate()
        self.driver.wait(20)


class Firefox(Browser):
    name = "Firefox"

    def __init__(self):
        self.room = tempfile.mkdtemp(prefix="sectc-firefox-")
        port = free_port()
        with open(f"{self.room}/user.js", "w") as file:
            file.write(f'user_pref("marionette.port", {port});\n')
        words = ["firefox-esr", "--marionette", "--headless", "--no-remote", "--profile", self.room]
        self.process = subprocess.Popen(words, stdout=subprocess.DEVNULL, stderr=subprocess.DEVNULL)
        self.line = retried(lambda: socket.create_connection(("127.0.0.1", port), timeout=60 * SLOWER), "Firefox")
        self.rest, self.number = b"", 0
        self.message()
        self.ask("WebDriver:NewSession", {"capabilities": {}})
        self.ask("WebDriver:SetTimeouts", {"script": SCRIPT})

    def message(self):
        while b":" not in self.rest:
            self.rest += self.line.recv(65536)
        length, _, rest = self.rest.partition(b":")
        while len(rest) < int(length):
            rest += self.line.recv(1 << 20)
        self.rest = rest[int(length) :]
        return json.loads(rest[: int(length)])

    def ask(self, name, words):
        self.number += 1
        text = json.dumps([0, self.number, name, words])
        self.line.sendall(f"{len(text.encode())}:{text}".encode())
        _, _, error, value = self.message()
        if error:
            raise AssertionError(error["message"])
        return value.get("value", value) if isinstance(value, dict) else value

    def command(self, name, words):
        return self.ask(
            {
                "execute": "WebDriver:ExecuteAsyncScript",
                "actions": "WebDriver:PerformActions",
                "url": "WebDriver:Navigate",
            }[name],
            words,
        )

    def go(self, url):
        self.command("url", {"url": "about:blank"})
        self.command("url", {"url": url})

    def complaints(self):
        return []

    def close(self):
        try:
            self.ask("Marionette:Quit", {"flags": ["eForceQuit"]})
        except (AssertionError, OSError):
            self.process.terminate()
        self.process.wait(30)
        shutil.rmtree(self.room, ignore_errors=True)
