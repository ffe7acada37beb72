"""Browsers that a test leads: Chromium by its WebDriver (chromium-driver), Firefox by its Marionette."""
import base64
import json
import os
import shutil
import socket
import subprocess
import tempfile
import time
import urllib.error
import urllib.request

ELEMENT = "element-6066-11e4-a52e-4f735466cecf"


class Trouble(Exception):
    """What a browser says of a command that failed."""


class Chromium:
    """A headless Chromium. Its console is kept, and each address that it asks for."""

    def __init__(self, wide=1280, high=900, more=()):
        with socket.socket() as place:
            place.bind(("127.0.0.1", 0))
            port = place.getsockname()[1]
        self.base = "http://127.0.0.1:%d" % port
        self.downloads = tempfile.mkdtemp()
        quiet = {"stdout": subprocess.DEVNULL, "stderr": subprocess.DEVNULL}
        self.process = subprocess.Popen(["chromedriver", "--port=%d" % port], **quiet)
        try:
            self.begin(wide, high, more)
        except (Trouble, OSError):
            self.process.kill()
            self.process.wait()
            raise

    def begin(self, wide, high, more):
        """Waits for the driver, a minute at most, and has it start the browser."""
        last = time.time() + 60
        while True:
            try:
                self.call("GET", "/status")
                break
            except OSError:
                if time.time() > last or self.process.poll() is not None:
                    raise
                time.sleep(0.1)
        words = ["--headless=new", "--no-sandbox", "--disable-gpu", "--disable-dev-shm-usage",
                 "--window-size=%d,%d" % (wide, high), *more]
        prefs = {"download.default_directory": self.downloads}
        wanted = {"goog:loggingPrefs": {"browser": "ALL", "performance": "ALL"},
                  "timeouts": {"script": 120000, "pageLoad": 120000},
                  "goog:chromeOptions": {"args": words, "prefs": prefs}}
        got = self.call("POST", "/session", {"capabilities": {"alwaysMatch": wanted}})
        self.session = "/session/" + got["sessionId"]
        self.version = got["capabilities"]["browserVersion"]

    def call(self, method, path, body=None):
        data = None if body is None else json.dumps(body).encode()
        asked = urllib.request.Request(self.base + path, data, {"Content-Type": "application/json"}, method=method)
        try:
            with urllib.request.urlopen(asked, timeout=300) as answer:
                return json.load(answer)["value"]
        except urllib.error.HTTPError as error:
            raise Trouble(error.read().decode()[:1000]) from error

    def post(self, path, body):
        return self.call("POST", self.session + path, body)

    def go(self, address):
        self.post("/url", {"url": address})

    def run(self, script, *values):
        """The value of a script, which may wait for promises."""
        whole = "const done = arguments[arguments.length - 1], given = [...arguments];\n" \
                "(async () => {%s})().then((it) => done([it ?? null]), (error) => done(String(error)));" % script
        got = self.post("/execute/async", {"script": whole, "args": list(values)})
        if isinstance(got, str):
            raise Trouble(got)
        return got[0]

    def find(self, selector):
        return self.post("/element", {"using": "css selector", "value": selector})[ELEMENT]

    def press(self, selector):
        self.post("/element/%s/click" % self.find(selector), {})

    def send(self, selector, text):
        self.post("/element/%s/value" % self.find(selector), {"text": text})

    def keys(self, *keys):
        """Presses keys, one after the other, where the focus is; a pair holds the first while the second is pressed."""
        steps = []
        for key in keys:
            names = list(key) if isinstance(key, tuple) else [key]
            steps += [{"type": "keyDown", "value": name} for name in names]
            steps += [{"type": "keyUp", "value": name} for name in reversed(names)]
        self.post("/actions", {"actions": [{"type": "key", "id": "keys", "actions": steps}]})

    def move_to(self, selector):
        place = {"type": "pointerMove", "duration": 0, "x": 0, "y": 0, "origin": {ELEMENT: self.find(selector)}}
        self.post("/actions", {"actions": [{"type": "pointer", "id": "mouse", "actions": [place]}]})

    def tool(self, command, **values):
        """A command of the browser's own tools."""
        return self.post("/goog/cdp/execute", {"cmd": command, "params": values})

    def log(self, kind="browser"):
        return self.post("/se/log", {"type": kind})

    def shot(self, path):
        with open(path, "wb") as file:
            file.write(base64.b64decode(self.call("GET", self.session + "/screenshot")))

    def close(self):
        try:
            self.call("DELETE", self.session)
        except (Trouble, OSError):
            # (it has ended already)
            pass
        self.process.terminate()
        self.process.wait()
        shutil.rmtree(self.downloads, ignore_errors=True)


class Firefox:
    """A headless Firefox, which can load pages and run scripts."""

    def __init__(self, port=2829):
        self.home = tempfile.mkdtemp()
        with open(os.path.join(self.home, "user.js"), "w") as file:
            file.write('user_pref("marionette.port", %d);\n' % port)
        words = ["firefox-esr", "--headless", "--marionette", "--profile", self.home, "--no-remote"]
        quiet = {"stdout": subprocess.DEVNULL, "stderr": subprocess.DEVNULL}
        self.process = subprocess.Popen(words, env=dict(os.environ, HOME=self.home), **quiet)
        for _ in range(600):
            try:
                self.socket = socket.create_connection(("127.0.0.1", port))
                break
            except OSError:
                time.sleep(0.2)
        self.socket.settimeout(300)
        self.held, self.number = b"", 0
        self.receive()
        got = self.command("WebDriver:NewSession", {"capabilities": {"alwaysMatch": {}}})
        self.version = got["capabilities"]["browserVersion"]
        self.command("WebDriver:SetTimeouts", {"script": 120000, "pageLoad": 120000})

    def receive(self):
        while b":" not in self.held:
            self.held += self.socket.recv(65536)
        length, _, self.held = self.held.partition(b":")
        while len(self.held) < int(length):
            self.held += self.socket.recv(1 << 20)
        answer, self.held = self.held[:int(length)], self.held[int(length):]
        return json.loads(answer)

    def command(self, name, values):
        self.number += 1
        text = json.dumps([0, self.number, name, values]).encode()
        self.socket.sendall(b"%d:%s" % (len(text), text))
        _, _, error, got = self.receive()
        if error:
            raise Trouble(str(error)[:1000])
        return got

    def go(self, address):
        self.command("WebDriver:Navigate", {"url": address})

    def run(self, script, *values):
        whole = "const done = arguments[arguments.length - 1], given = [...arguments];\n" \
                "(async () => {%s})().then((it) => done([it ?? null]), (error) => done(String(error)));" % script
        got = self.command("WebDriver:ExecuteAsyncScript", {"script": whole, "args": list(values)})["value"]
        if isinstance(got, str):
            raise Trouble(got)
        return got[0]

    def shot(self, path):
        got = self.command("WebDriver:TakeScreenshot", {"full": False})["value"]
        with open(path, "wb") as file:
            file.write(base64.b64decode(got))

    def close(self):
        try:
            self.command("Marionette:Quit", {"flags": ["eForceQuit"]})
        except (Trouble, OSError):
            pass
        self.process.terminate()
        self.process.wait()
