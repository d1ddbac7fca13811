"""A browser without a window, spoken to by its DevTools protocol over a WebSocket; of Python's library alone. `page.py` tries pages in it."""
import atexit
import base64
import json
import os
import pathlib
import shutil
import signal
import socket
import subprocess
import sys
import tempfile
import time
import urllib.request

WORDS = "--headless=new --no-sandbox --disable-gpu --disable-dev-shm-usage --no-first-run --remote-debugging-port=0 --remote-allow-origins=*".split()
KEYS = {"Escape": 27, "Tab": 9, "Enter": 13, "ArrowDown": 40, "ArrowUp": 38, "End": 35, "Home": 36}


def found():
    """The browser of this machine, or None."""
    return next((path for path in map(shutil.which, ("chromium", "chromium-browser", "google-chrome")) if path), None)


class Socket:
    """A WebSocket's client side."""

    def __init__(self, url):
        host, path = url.removeprefix("ws://").split("/", 1)
        name, port = host.split(":")
        self.line = socket.create_connection((name, int(port)), timeout=120)
        key = base64.b64encode(os.urandom(16)).decode()
        self.line.sendall(f"GET /{path} HTTP/1.1\r\nHost: {host}\r\nUpgrade: websocket\r\nConnection: Upgrade\r\n"
                          f"Sec-WebSocket-Key: {key}\r\nSec-WebSocket-Version: 13\r\n\r\n".encode())
        self.read = self.line.makefile("rb")
        while self.read.readline().strip():
            pass

    def send(self, text):
        data, mask = text.encode(), os.urandom(4)
        size = len(data)
        length = bytes([0x80 | size]) if size < 126 else b"\xfe" + size.to_bytes(2, "big") if size < 65536 else b"\xff" + size.to_bytes(8, "big")
        self.line.sendall(b"\x81" + length + mask + bytes(byte ^ mask[at % 4] for at, byte in enumerate(data)))

    def take(self):
        text = b""
        while True:
            first, second = self.read.read(2)
            size = second & 127
            if size > 125:
                size = int.from_bytes(self.read.read(2 if size == 126 else 8), "big")
            part = self.read.read(size)
            if first & 15 in (0, 1):
                text += part
                if first & 128:
                    return text.decode()


class Browser:
    """One window of the browser: pages are opened in it, and clicked."""

    def __init__(self, program):
        self.folder = tempfile.TemporaryDirectory(ignore_cleanup_errors=True)
        words, nothing = [program, *WORDS, f"--user-data-dir={self.folder.name}", "about:blank"], subprocess.DEVNULL
        self.process = subprocess.Popen(words, stdout=nothing, stderr=nothing)
        signal.signal(signal.SIGTERM, lambda *_: sys.exit(1))
        atexit.register(self.close)
        self.socket, self.count, self.faults = Socket(self.address()), 0, []
        for domain in ("Page", "Runtime", "Accessibility", "Network"):
            self.call(f"{domain}.enable")

    def address(self):
        """Where the window listens, once the browser has told its port."""
        file = pathlib.Path(self.folder.name) / "DevToolsActivePort"
        for _ in range(600):
            if file.exists() and file.read_text().strip():
                port = file.read_text().split()[0]
                with urllib.request.urlopen(f"http://127.0.0.1:{port}/json/list", timeout=60) as answer:
                    windows = [it for it in json.load(answer) if it["type"] == "page"]
                if windows:
                    return windows[0]["webSocketDebuggerUrl"]
            time.sleep(0.1)
        raise SystemExit("the browser doesn't listen")

    def close(self):
        self.process.terminate()
        self.process.wait(60)
        self.folder.cleanup()

    def call(self, method, **words):
        """What the browser answers; what it tells by itself is noted where it is a fault of the page."""
        self.count += 1
        self.socket.send(json.dumps({"id": self.count, "method": method, "params": words}))
        while True:
            told = json.loads(self.socket.take())
            if told.get("id") == self.count:
                if "error" in told:
                    raise SystemExit(f"{method}: {told['error']}")
                return told["result"]
            self.note(told)

    def note(self, told):
        if told.get("method") == "Runtime.exceptionThrown":
            self.faults.append(str(told["params"]["exceptionDetails"].get("exception", {}).get("description")))
        if told.get("method") == "Page.javascriptDialogOpening":
            self.faults.append("a dialog opened")
        if told.get("method") == "Network.requestWillBeSent" and not told["params"]["request"]["url"].startswith(("file:", "data:")):
            self.faults.append("asked for " + told["params"]["request"]["url"])

    def open(self, address, wide=1400, high=900):
        self.size(wide, high)
        self.call("Page.navigate", url="about:blank")
        self.call("Page.navigate", url=address)
        self.wait("document.readyState === 'complete' && location.protocol === 'file:'")

    def size(self, wide, high):
        self.call("Emulation.setDeviceMetricsOverride", width=wide, height=high, deviceScaleFactor=1, mobile=False)

    def value(self, expression):
        """What an expression has for its value, once the page has drawn what is due."""
        tried = f"() => {{ try {{ give({expression}); }} catch (fault) {{ fail(fault); }} }}"
        wrapped = f"new Promise((give, fail) => requestAnimationFrame(() => requestAnimationFrame({tried})))"
        told = self.call("Runtime.evaluate", expression=wrapped, awaitPromise=True, returnByValue=True)
        if "exceptionDetails" in told:
            raise SystemExit(f"{expression}: {told['exceptionDetails'].get('exception', {}).get('description')}")
        return told["result"].get("value")

    def wait(self, expression):
        for _ in range(600):
            told = self.call("Runtime.evaluate", expression=expression, returnByValue=True)
            if told["result"].get("value"):
                return
            time.sleep(0.1)
        raise SystemExit(f"never came: {expression}")

    def click(self, x, y):
        for kind in ("mouseMoved", "mousePressed", "mouseReleased"):
            self.call("Input.dispatchMouseEvent", type=kind, x=x, y=y, button="left" if kind != "mouseMoved" else "none", clickCount=1)

    def click_at(self, element):
        """Brings an element that an expression gives into sight, and clicks in its middle."""
        self.value(f"({element}).scrollIntoView({{ block: 'center', inline: 'center' }})")
        self.click(*self.value(f"((box) => [box.x + box.width / 2, box.y + box.height / 2])(({element}).getBoundingClientRect())"))

    def click_on(self, selector):
        self.click_at(f"document.querySelector({json.dumps(selector)})")

    def key(self, key):
        words = {"key": key, "windowsVirtualKeyCode": KEYS.get(key, ord(key[0].upper()))}
        if len(key) == 1:
            words["text"] = key
        elif key == "Enter":
            words["text"] = "\r"
        self.call("Input.dispatchKeyEvent", type="keyDown", **words)
        self.call("Input.dispatchKeyEvent", type="keyUp", key=key, windowsVirtualKeyCode=words["windowsVirtualKeyCode"])

    def type(self, text):
        self.call("Input.insertText", text=text)

    def scheme(self, scheme, media=""):
        self.call("Emulation.setEmulatedMedia", media=media, features=[{"name": "prefers-color-scheme", "value": scheme}])

    def shot(self, file):
        pathlib.Path(file).write_bytes(base64.b64decode(self.call("Page.captureScreenshot", format="png")["data"]))
