"""Browsers without a window that a tool drives: Chromium by its debugging pipe, and Firefox by Marionette. Both speak JSON.

Both can open an address, run a script in the page, press keys and touch. A script is the body of an asynchronous function, and answers
what can be told as JSON.
"""
import base64
import json
import os
import pathlib
import select
import shutil
import signal
import socket
import subprocess
import tempfile
import time

# Seconds that a browser is waited for: until it begins, and for an answer.
BEGINS_IN = 60
ANSWERS_IN = 300
KEYS_OF_FIREFOX = {"ArrowUp": "\ue013", "ArrowLeft": "\ue012", "ArrowDown": "\ue015", "ArrowRight": "\ue014", "Enter": "\ue007"}
CODES_OF_CHROMIUM = {"ArrowUp": 38, "ArrowLeft": 37, "ArrowDown": 40, "ArrowRight": 39, "Enter": 13, " ": 32}
PATHS = {"chromium": ["chromium", "chromium-browser", "google-chrome"], "firefox": ["firefox-esr", "firefox"]}


class Broken(Exception):
    """A browser doesn't do what it is told: what it says."""


def path_of(name):
    """The program of a browser, or None."""
    return next(filter(None, map(shutil.which, PATHS[name])), None)


def environment(home):
    """The environment of a browser, whose home is a folder that is cleared afterwards."""
    return {**os.environ, "HOME": home, "MOZ_HEADLESS": "1"}


class Browser:
    """A browser that has begun, with a folder of its own."""

    def __init__(self):
        self.room = tempfile.TemporaryDirectory(ignore_cleanup_errors=True)
        self.process = None

    def __enter__(self):
        return self

    def __exit__(self, *_):
        self.end()

    def begin(self, words, **more):
        """Starts the program in a group of its own, which is ended with it."""
        nothing = dict.fromkeys(("stdin", "stdout", "stderr"), subprocess.DEVNULL)
        self.process = subprocess.Popen(words, env=environment(self.room.name), start_new_session=True, **nothing, **more)

    def end(self):
        if self.process:
            try:
                os.killpg(self.process.pid, signal.SIGKILL)
            except ProcessLookupError:
                pass
            self.process.wait()
        self.room.cleanup()


class Chromium(Browser):
    """Chromium. It reads orders from its descriptor 3 and answers on 4, each ended by a zero byte."""

    def __init__(self):
        super().__init__()
        taken, self.orders = os.pipe()
        self.answers, given = os.pipe()
        words = [path_of("chromium"), "--headless=new", "--no-sandbox", "--disable-gpu", "--disable-dev-shm-usage", "--no-first-run",
                 "--hide-scrollbars", "--remote-debugging-pipe", f"--user-data-dir={self.room.name}/profile", "about:blank"]
        script = 'exec 3<&"$1" 4>&"$2"; shift 2; exec "$@"'
        numbers = [str(taken), str(given)]
        self.begin(["bash", "-c", script, "bash", *numbers, *words], pass_fds=(taken, given))
        os.close(taken)
        os.close(given)
        self.left, self.number, self.session, self.errors, self.is_loaded = b"", 0, None, [], False
        target = next(one for one in self.targets() if one["type"] == "page")
        self.session = self.order("Target.attachToTarget", targetId=target["targetId"], flatten=True)["sessionId"]
        for domain in ("Page", "Runtime", "Log"):
            self.order(f"{domain}.enable")

    def targets(self):
        end = time.monotonic() + BEGINS_IN
        while time.monotonic() < end:
            found = self.order("Target.getTargets")["targetInfos"]
            if any(one["type"] == "page" for one in found):
                return found
            time.sleep(0.1)
        raise Broken("Chromium has no page")

    def message(self):
        """The next message of the browser."""
        while b"\0" not in self.left:
            if not select.select([self.answers], [], [], ANSWERS_IN)[0]:
                raise Broken("Chromium doesn't answer")
            more = os.read(self.answers, 1 << 20)
            if not more:
                raise Broken("Chromium has ended")
            self.left += more
        said, _, self.left = self.left.partition(b"\0")
        return json.loads(said)

    def note(self, said):
        """Keeps of a message what the browser complains of, and whether a page is loaded."""
        words = said.get("params", {})
        if said.get("method") == "Log.entryAdded":
            self.errors.append(words["entry"]["text"])
        elif said.get("method") == "Runtime.exceptionThrown":
            self.errors.append(words["exceptionDetails"].get("exception", {}).get("description", "an error"))
        elif said.get("method") == "Page.loadEventFired":
            self.is_loaded = True

    def order(self, method, **words):
        """Gives an order, and waits for its answer."""
        self.number += 1
        told = {"id": self.number, "method": method, "params": words} | ({"sessionId": self.session} if self.session else {})
        os.write(self.orders, json.dumps(told).encode() + b"\0")
        while True:
            said = self.message()
            self.note(said)
            if said.get("id") == self.number:
                if "error" in said:
                    raise Broken(f"{method}: {said['error']['message']}")
                return said["result"]

    def open(self, address):
        self.is_loaded = False
        is_other = "loaderId" in self.order("Page.navigate", url=address)
        while is_other and not self.is_loaded:
            self.note(self.message())

    def run(self, script, *values):
        """Runs the body of an asynchronous function, whose parameters are `values`. What it answers."""
        words = json.dumps(values)
        said = self.order("Runtime.evaluate", expression=f"(async (...values) => {{ {script} }})(...{words})", awaitPromise=True,
                          returnByValue=True, userGesture=True)
        if "exceptionDetails" in said:
            raise Broken(said["exceptionDetails"].get("exception", {}).get("description", "an error"))
        return said["result"].get("value")

    def press(self, key):
        code = CODES_OF_CHROMIUM.get(key, ord(key.upper()) if len(key) == 1 else 0)
        text = {"Enter": "\r"}.get(key, key if len(key) == 1 else "")
        event = {"key": key, "windowsVirtualKeyCode": code}
        self.order("Input.dispatchKeyEvent", type="keyDown", text=text, **event)
        self.order("Input.dispatchKeyEvent", type="keyUp", **event)

    def touch(self, x, y):
        self.order("Input.dispatchTouchEvent", type="touchStart", touchPoints=[{"x": x, "y": y}])
        self.order("Input.dispatchTouchEvent", type="touchEnd", touchPoints=[])

    def look(self, width, height, is_phone=False, is_dark=False, is_still=False):
        """A window of that size, of a phone or not, of a reader who wants darkness, or no motion."""
        self.order("Emulation.setDeviceMetricsOverride", width=width, height=height, deviceScaleFactor=2 if is_phone else 1,
                   mobile=is_phone)
        self.order("Emulation.setTouchEmulationEnabled", enabled=is_phone)
        self.order("Emulation.setEmulatedMedia", features=[
            {"name": "prefers-color-scheme", "value": "dark" if is_dark else "light"},
            {"name": "prefers-reduced-motion", "value": "reduce" if is_still else "no-preference"}])

    def picture(self, file, selector="html"):
        """Leaves a picture of the page, from its top down to the end of an element."""
        ends = "const end = document.querySelector(values[0]).getBoundingClientRect().bottom + 12;"
        width, height = self.run(f"{ends} return [innerWidth, Math.min(innerHeight, end)]", selector)
        clip = {"x": 0, "y": 0, "width": width, "height": height, "scale": 1}
        pathlib.Path(file).write_bytes(base64.b64decode(self.order("Page.captureScreenshot", clip=clip)["data"]))


class Firefox(Browser):
    """Firefox. It listens at a port of this machine, and each message begins with its length."""

    def __init__(self):
        super().__init__()
        with socket.socket() as free:
            free.bind(("127.0.0.1", 0))
            port = free.getsockname()[1]
        profile = pathlib.Path(self.room.name) / "profile"
        profile.mkdir()
        settings = {"marionette.port": port, "browser.shell.checkDefaultBrowser": False, "app.update.enabled": False,
                    "datareporting.policy.dataSubmissionEnabled": False, "dom.w3c_touch_events.enabled": 1}
        lines = (f'user_pref("{name}", {json.dumps(value)});\n' for name, value in settings.items())
        (profile / "user.js").write_text("".join(lines))
        self.begin([path_of("firefox"), "--headless", "--marionette", "--remote-allow-system-access", "--no-remote", "--profile", str(profile)])
        self.socket, self.left, self.number, self.errors = self.connect(port), b"", 0, []
        self.message()
        self.order("WebDriver:NewSession", capabilities={"alwaysMatch": {"unhandledPromptBehavior": "dismiss"}})
        self.order("WebDriver:SetTimeouts", script=ANSWERS_IN * 1000)

    def connect(self, port):
        end = time.monotonic() + BEGINS_IN
        while time.monotonic() < end:
            try:
                found = socket.create_connection(("127.0.0.1", port), timeout=ANSWERS_IN)
                return found
            except OSError:
                time.sleep(0.2)
        raise Broken("Firefox doesn't listen")

    def message(self):
        while b":" not in self.left:
            self.left += self.socket.recv(1 << 16) or self.gone()
        length, _, self.left = self.left.partition(b":")
        while len(self.left) < int(length):
            self.left += self.socket.recv(1 << 20) or self.gone()
        said, self.left = self.left[:int(length)], self.left[int(length):]
        return json.loads(said)

    def gone(self):
        raise Broken("Firefox has ended")

    def order(self, name, **words):
        self.number += 1
        told = json.dumps([0, self.number, name, words]).encode()
        self.socket.sendall(str(len(told)).encode() + b":" + told)
        while True:
            kind, number, error, result = self.message()
            if kind == 1 and number == self.number:
                if error:
                    raise Broken(f"{name}: {error.get('message')}")
                return result

    def open(self, address):
        self.order("WebDriver:Navigate", url=address)

    def run(self, script, *values):
        body = ("const done = arguments[arguments.length - 1], values = Array.from(arguments).slice(0, -1);"
                f"(async () => {{ {script} }})().then((value) => done({{ value }}), (error) => done({{ error: String(error) }}));")
        said = self.order("WebDriver:ExecuteAsyncScript", script=body, args=list(values))["value"]
        if "error" in said:
            raise Broken(said["error"])
        return said.get("value")

    def press(self, key):
        value = KEYS_OF_FIREFOX.get(key, key)
        self.order("WebDriver:PerformActions", actions=[{"type": "key", "id": "keys", "actions": [
            {"type": "keyDown", "value": value}, {"type": "keyUp", "value": value}]}])

    def touch(self, x, y):
        pressed = [{"type": kind, "button": 0} for kind in ("pointerDown", "pointerUp")]
        steps = [{"type": "pointerMove", "x": round(x), "y": round(y)}, *pressed]
        finger = {"type": "pointer", "id": "finger", "parameters": {"pointerType": "touch"}, "actions": steps}
        self.order("WebDriver:PerformActions", actions=[finger])

    def look(self, width, height, is_phone=False, is_dark=False, is_still=False):
        """A window whose page has that size, of a reader who wants darkness, or no motion."""
        outer = self.run("return [outerWidth - innerWidth, outerHeight - innerHeight]")
        self.order("WebDriver:SetWindowRect", width=width + outer[0], height=height + outer[1])
        self.order("Marionette:SetContext", value="chrome")
        for name, value in (("ui.prefersReducedMotion", is_still), ("layout.css.prefers-color-scheme.content-override", not is_dark)):
            self.order("WebDriver:ExecuteScript", script="Services.prefs.setIntPref(...arguments)", args=[name, int(value)])
        self.order("Marionette:SetContext", value="content")

    def picture(self, file):
        """Leaves a picture of the page as far as it is in the window."""
        said = self.order("WebDriver:TakeScreenshot", full=False)
        pathlib.Path(file).write_bytes(base64.b64decode(said["value"]))
