"""A headless Chromium that is told what to do over its debugging protocol, with Python's standard library alone."""

import base64
import json
import os
import socket
import struct
import subprocess
import tempfile
import time
import urllib.request


class Wire:
    """A connection to the browser, over which it is told what to do: frames of a WebSocket."""

    def __init__(self, url):
        host, path = url.split("/", 3)[2:]
        name, port = host.split(":")
        self.socket = socket.create_connection((name, int(port)))
        key = base64.b64encode(os.urandom(16)).decode()
        asked = f"GET /{path} HTTP/1.1\r\nHost: {host}\r\nUpgrade: websocket\r\nConnection: Upgrade\r\nSec-WebSocket-Key: {key}\r\nSec-WebSocket-Version: 13\r\n\r\n"
        self.socket.sendall(asked.encode())
        self.file = self.socket.makefile("rb")
        while self.file.readline() != b"\r\n":
            pass
        self.count, self.events = 0, []

    def send(self, text):
        data = text.encode()
        if len(data) < 126:
            head = struct.pack(">BB", 0x81, 0x80 | len(data))
        elif len(data) < 65536:
            head = struct.pack(">BBH", 0x81, 0xFE, len(data))
        else:
            head = struct.pack(">BBQ", 0x81, 0xFF, len(data))
        self.socket.sendall(head + bytes(4) + data)

    def receive(self):
        data = b""
        while True:
            first, second = self.file.read(2)
            length = second & 127
            if length > 125:
                form = ">H" if length == 126 else ">Q"
                length = struct.unpack(form, self.file.read(struct.calcsize(form)))[0]
            data += self.file.read(length)
            if first & 128:
                return data.decode()

    def call(self, method, **params):
        self.count += 1
        self.send(json.dumps({"id": self.count, "method": method, "params": params}))
        while True:
            said = json.loads(self.receive())
            if said.get("id") == self.count:
                if "error" in said:
                    raise RuntimeError(said["error"])
                return said["result"]
            self.events.append(said)


class Browser:
    def __init__(self):
        self.folder = tempfile.TemporaryDirectory()
        words = [os.environ.get("CHROMIUM", "chromium"), "--headless=new", "--no-sandbox", "--disable-gpu", "--hide-scrollbars", "--remote-debugging-port=0"]
        self.process = subprocess.Popen([*words, f"--user-data-dir={self.folder.name}", "about:blank"], stdout=subprocess.DEVNULL, stderr=subprocess.DEVNULL)
        port = self.waited(self.port)
        tabs = json.load(urllib.request.urlopen(f"http://127.0.0.1:{port}/json"))
        self.wire = Wire(next(it for it in tabs if it["type"] == "page")["webSocketDebuggerUrl"])
        for domain in ("Page", "Runtime", "Log"):
            self.wire.call(f"{domain}.enable")

    def port(self):
        name = f"{self.folder.name}/DevToolsActivePort"
        return open(name, encoding="utf-8").read().split()[:1][0] if os.path.exists(name) and os.path.getsize(name) else None

    def waited(self, work, seconds=60):
        end = time.time() + seconds
        while time.time() < end:
            found = work()
            if found:
                return found
            time.sleep(0.05)
        raise RuntimeError("waited in vain")

    def size(self, width, height):
        self.wire.call("Emulation.setDeviceMetricsOverride", width=width, height=height, deviceScaleFactor=1, mobile=False)

    def scheme(self, name):
        self.wire.call("Emulation.setEmulatedMedia", features=[{"name": "prefers-color-scheme", "value": name}])

    def before(self, script):
        """A script that each page runs before its own; none where it is empty."""
        self.wire.call("Page.addScriptToEvaluateOnNewDocument", source=script)

    def press(self, key):
        for kind in ("keyDown", "keyUp"):
            self.wire.call("Input.dispatchKeyEvent", type=kind, key=key, **({"text": key} if kind == "keyDown" and len(key) == 1 else {}))

    def open(self, url):
        self.wire.call("Page.navigate", url="about:blank")
        self.wire.call("Page.navigate", url=url)
        self.waited(lambda: self.value("document.body && document.body.dataset.ready"))

    def value(self, text):
        said = self.wire.call("Runtime.evaluate", expression=text, returnByValue=True, awaitPromise=True)
        if "exceptionDetails" in said:
            raise RuntimeError(said["exceptionDetails"].get("exception", said["exceptionDetails"]))
        return said["result"].get("value")

    def text(self, name):
        return " ".join(self.value(f"document.getElementById('{name}').textContent").split())

    def click(self, name):
        self.value(f"document.getElementById('{name}').click()")

    def type(self, name, text):
        """Puts a text into a field, and waits until the page has answered."""
        calls = self.value("S.model.program.calls")
        self.value(f"(() => {{ const it = document.getElementById('{name}'); it.value = {json.dumps(text)}; it.dispatchEvent(new Event('input')); }})()")
        self.waited(lambda: self.value("S.model.program.calls") > calls)
        time.sleep(0.3)

    def faults(self):
        return [it["params"] for it in self.wire.events if it["method"] == "Runtime.exceptionThrown" or (it["method"] == "Log.entryAdded" and it["params"]["entry"]["level"] == "error")]

    def shot(self, file):
        said = self.wire.call("Page.captureScreenshot", format="png")
        with open(file, "wb") as it:
            it.write(base64.b64decode(said["data"]))

    def close(self):
        self.wire.call("Browser.close")
        self.process.wait()
