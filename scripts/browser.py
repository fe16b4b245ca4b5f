"""A browser without a window, for scripts/test-tools: Debian's chromium, spoken to by the DevTools protocol over a plain socket."""
import base64
import json
import os
import shutil
import socket
import struct
import subprocess
import tempfile
import time
import urllib.request


def program():
    """The browser's command, or none."""
    return shutil.which("chromium") or shutil.which("chromium-browser") or shutil.which("google-chrome")


class Browser:
    """One page. `asked` holds the addresses that it has asked for, `said` what its script threw or wrote to the console."""

    def __init__(self):
        self.folder = tempfile.mkdtemp()
        flags = ["--headless", "--no-sandbox", "--disable-gpu", "--disable-dev-shm-usage", "--no-first-run", "--disable-background-networking"]
        place = [f"--user-data-dir={self.folder}", "--remote-debugging-port=0", "about:blank"]
        environment = dict(os.environ, HOME=self.folder)
        self.child = subprocess.Popen([program(), *flags, *place], stdout=subprocess.DEVNULL, stderr=subprocess.DEVNULL, env=environment)
        self.asked, self.said, self.count, self.rest = [], [], 0, b""
        self.connect(self.port())
        for part in ["Page", "Runtime", "Network"]:
            self.call(f"{part}.enable")

    def port(self):
        """The port, which the browser writes to a file once it listens."""
        path = os.path.join(self.folder, "DevToolsActivePort")
        for _ in range(300):
            if os.path.exists(path):
                with open(path, encoding="ascii") as file:
                    line = file.readline().strip()
                if line:
                    return int(line)
            time.sleep(0.1)
        raise OSError("the browser did not start")

    def connect(self, port):
        # a proxy of the machine is not asked
        opener = urllib.request.build_opener(urllib.request.ProxyHandler({}))
        pages = json.load(opener.open(f"http://127.0.0.1:{port}/json/list"))
        path = next(page["webSocketDebuggerUrl"] for page in pages if page["type"] == "page").split(str(port), 1)[1]
        self.socket = socket.create_connection(("127.0.0.1", port), timeout=60)
        key = base64.b64encode(os.urandom(16)).decode()
        lines = [f"GET {path} HTTP/1.1", f"Host: 127.0.0.1:{port}", "Upgrade: websocket", "Connection: Upgrade", f"Sec-WebSocket-Key: {key}"]
        self.socket.sendall("\r\n".join([*lines, "Sec-WebSocket-Version: 13", "", ""]).encode())
        while b"\r\n\r\n" not in self.rest:
            self.rest += self.socket.recv(4096)
        self.rest = self.rest.split(b"\r\n\r\n", 1)[1]

    def take(self, length):
        while len(self.rest) < length:
            piece = self.socket.recv(1 << 16)
            if not piece:
                raise OSError("the browser has ended")
            self.rest += piece
        taken, self.rest = self.rest[:length], self.rest[length:]
        return taken

    def receive(self):
        """One message, of one or more frames."""
        message = b""
        while True:
            first, second = self.take(2)
            length = second & 127
            if length == 126:
                (length,) = struct.unpack(">H", self.take(2))
            elif length == 127:
                (length,) = struct.unpack(">Q", self.take(8))
            message += self.take(length)
            if first & 128:
                return json.loads(message)

    def send(self, message):
        text = json.dumps(message).encode()
        length = len(text)
        size = struct.pack(">B", 128 | length) if length < 126 else struct.pack(">BH", 254, length) if length < 1 << 16 else struct.pack(">BQ", 255, length)
        mask = os.urandom(4)
        self.socket.sendall(b"\x81" + size + mask + bytes(byte ^ mask[at % 4] for at, byte in enumerate(text)))

    def call(self, method, **words):
        """Calls a method and gives its result; what comes before it is noted."""
        self.count += 1
        self.send({"id": self.count, "method": method, "params": words})
        while True:
            message = self.receive()
            if message.get("id") == self.count:
                return message.get("result", {})
            self.note(message)

    def note(self, message):
        method, words = message.get("method"), message.get("params", {})
        if method == "Network.requestWillBeSent":
            self.asked.append(words["request"]["url"])
        elif method in ("Runtime.exceptionThrown", "Runtime.consoleAPICalled"):
            self.said.append(json.dumps(words)[:400])
        elif method == "Page.javascriptDialogOpening":
            self.said.append("a dialog: " + words["message"])

    def open(self, path, step=0):
        """Opens a file of this machine, and waits until its script has drawn it."""
        self.asked.clear()
        self.said.clear()
        self.call("Page.navigate", url="about:blank")
        self.call("Page.navigate", url=f"file://{path}#{step}")
        for _ in range(300):
            if self.value("document.readyState === 'complete' && document.body.dataset.step !== undefined"):
                return
            time.sleep(0.05)
        raise OSError("the page was not drawn: " + " ".join(self.said))

    def value(self, expression):
        """The value of an expression in the page."""
        return self.call("Runtime.evaluate", expression=expression, returnByValue=True).get("result", {}).get("value")

    def press(self, key):
        for kind in ["keyDown", "keyUp"]:
            self.call("Input.dispatchKeyEvent", type=kind, key=key, code=key)

    def close(self):
        self.socket.close()
        self.child.terminate()
        self.child.wait()
        shutil.rmtree(self.folder, ignore_errors=True)
