"""Chromium and Firefox without a window, for the scripts beside this file: a page is opened, asked and pictured."""
import base64
import json
import os
import select
import shutil
import signal
import socket
import subprocess
import tempfile
import time

WAIT = 300


class Failed(Exception):
    """What a browser answers in place of a result."""


class Browser:
    """A browser of its own profile, ended with `close`."""

    def __init__(self, *words, **how):
        self.profile = tempfile.mkdtemp(prefix="xduce-browser-")
        words = [word.format(profile=self.profile) for word in words]
        self.process = subprocess.Popen(
            words,
            stdin=subprocess.DEVNULL,
            stdout=subprocess.DEVNULL,
            stderr=subprocess.DEVNULL,
            start_new_session=True,
            env={**os.environ, "HOME": self.profile},
            **how,
        )

    def close(self):
        try:
            os.killpg(self.process.pid, signal.SIGKILL)
        except ProcessLookupError:
            pass
        self.process.wait()
        shutil.rmtree(self.profile, ignore_errors=True)


class Chromium(Browser):
    """Chromium by its protocol for developers, over a pipe."""

    names = "chromium", "chromium-browser", "google-chrome"

    def __init__(self, path, *more):
        to_read, given = os.pipe()
        taken, to_write = os.pipe()
        # (it reads its descriptor 3 and writes its descriptor 4)
        words = [
            "sh",
            "-c",
            f'exec 3<&{to_read} 4>&{to_write}; exec "$@"',
            "sh",
            path,
            "--headless=new",
            "--no-sandbox",
            "--disable-gpu",
            "--disable-dev-shm-usage",
            "--user-data-dir={profile}",
            "--remote-debugging-pipe",
            "--force-device-scale-factor=1",
            *more,
            "about:blank",
        ]
        super().__init__(*words, pass_fds=(to_read, to_write))
        os.close(to_read)
        os.close(to_write)
        self.given, self.taken, self.seen, self.number, self.session = given, taken, b"", 0, None
        until = time.time() + WAIT
        while True:
            pages = [
                it for it in self.call("Target.getTargets")["targetInfos"] if it["type"] == "page"
            ]
            if pages or time.time() > until:
                break
            time.sleep(0.05)
        self.session = self.call(
            "Target.attachToTarget", targetId=pages[0]["targetId"], flatten=True
        )["sessionId"]
        self.call("Page.enable")

    def call(self, method, **given):
        self.number += 1
        message = {"id": self.number, "method": method, "params": given}
        if self.session:
            message["sessionId"] = self.session
        os.write(self.given, json.dumps(message).encode() + b"\0")
        until = time.time() + WAIT
        while True:
            while b"\0" in self.seen:
                one, _, self.seen = self.seen.partition(b"\0")
                found = json.loads(one)
                if found.get("id") == self.number:
                    if "error" in found:
                        raise Failed(found["error"])
                    return found["result"]
            if not select.select([self.taken], [], [], max(0, until - time.time()))[0]:
                raise Failed(f"{method}: no answer")
            more = os.read(self.taken, 1 << 20)
            if not more:
                raise Failed("the browser ended")
            self.seen += more

    def open(self, address):
        self.call("Page.navigate", url=address)
        until = time.time() + WAIT
        while time.time() < until:
            try:
                if self.run(
                    "return document.readyState === 'complete' && (location.href === 'about:blank') === "
                    + json.dumps(address == "about:blank")
                ):
                    break
            except Failed:
                pass  # (the page that was there goes)
            time.sleep(0.02)

    def run(self, script):
        """What the body of an asynchronous function gives in the page, as data."""
        found = self.call(
            "Runtime.evaluate",
            expression=f"(async () => {{ {script} }})()",
            awaitPromise=True,
            returnByValue=True,
        )
        if "exceptionDetails" in found:
            raise Failed(
                found["exceptionDetails"]
                .get("exception", {})
                .get("description", found["exceptionDetails"]["text"])
            )
        return found["result"].get("value")

    def keys(self, text):
        """Types a text where the caret is."""
        self.call("Input.insertText", text=text)

    def size(self, width, height, is_dark=False):
        self.call(
            "Emulation.setDeviceMetricsOverride",
            width=width,
            height=height,
            deviceScaleFactor=1,
            mobile=width < 600,
        )
        self.call(
            "Emulation.setEmulatedMedia",
            features=[{"name": "prefers-color-scheme", "value": "dark" if is_dark else "light"}],
        )

    def picture(self, path):
        data = self.call("Page.captureScreenshot", format="png")["data"]
        with open(path, "wb") as file:
            file.write(base64.b64decode(data))


class Firefox(Browser):
    """Firefox by its protocol for drivers."""

    names = "firefox", "firefox-esr"

    def __init__(self, path, *more):
        with socket.socket() as free:
            free.bind(("127.0.0.1", 0))
            self.port = free.getsockname()[1]
        super().__init__(
            "sh",
            "-c",
            f'echo \'user_pref("marionette.port", {self.port});\' >{{profile}}/user.js; exec "$@"',
            "sh",
            path,
            "--headless",
            "--no-remote",
            "--marionette",
            "--profile",
            "{profile}",
            *more,
        )
        self.number, self.seen = 0, b""
        until = time.time() + WAIT
        while True:
            try:
                self.socket = socket.create_connection(("127.0.0.1", self.port), timeout=WAIT)
                break
            except OSError:
                if time.time() > until or self.process.poll() is not None:
                    raise Failed("Firefox doesn't start")
                time.sleep(0.1)
        self.take()
        self.call("WebDriver:NewSession", capabilities={})
        self.call("WebDriver:SetTimeouts", script=1000 * WAIT)

    def take(self):
        while (
            b":" not in self.seen
            or len(self.seen)
            < int(self.seen.partition(b":")[0]) + len(self.seen.partition(b":")[0]) + 1
        ):
            more = self.socket.recv(1 << 20)
            if not more:
                raise Failed("the browser ended")
            self.seen += more
        length, _, rest = self.seen.partition(b":")
        self.seen = rest[int(length) :]
        return json.loads(rest[: int(length)])

    def call(self, method, **given):
        self.number += 1
        message = json.dumps([0, self.number, method, given])
        self.socket.sendall(f"{len(message.encode())}:{message}".encode())
        while True:
            found = self.take()
            if found[0] == 1 and found[1] == self.number:
                if found[2]:
                    raise Failed(found[2]["message"])
                return found[3]

    def open(self, address):
        self.call("WebDriver:Navigate", url=address)

    def run(self, script):
        given = {
            "script": f"const done = arguments[0]; (async () => {{ {script} }})().then(it => done([it]), it => done([null, String(it)]))",
            "args": [],
        }
        found = self.call("WebDriver:ExecuteAsyncScript", **given)["value"]
        if len(found) > 1:
            raise Failed(found[1])
        return found[0]

    def keys(self, text):
        self.run(f"document.execCommand('insertText', false, {json.dumps(text)})")

    def size(self, width, height, is_dark=False):
        self.call("WebDriver:SetWindowRect", width=width, height=height + 85)

    def picture(self, path):
        data = self.call("WebDriver:TakeScreenshot", full=False)["value"]
        with open(path, "wb") as file:
            file.write(base64.b64decode(data))


def found():
    """Each browser that is there: its class and its path."""
    for kind in (Chromium, Firefox):
        path = next(filter(None, map(shutil.which, kind.names)), None)
        if path:
            yield kind, path
