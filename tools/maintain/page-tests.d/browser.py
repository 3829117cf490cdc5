"""A headless Chromium with one page, driven over its debugging protocol by two pipes."""

from __future__ import annotations

import base64
import fcntl
import glob
import json
import os
import re
import select
import shutil
import subprocess
import time
from typing import Any

from repository import Missing, read_bytes, write_bytes

PATIENCE = 120.0  # seconds for an answer
KEYS = {"Tab": 9, "Enter": 13, "Escape": 27, "ArrowLeft": 37, "ArrowUp": 38, "ArrowRight": 39, "ArrowDown": 40}
# The roles that want a name.
NAMED = ("button", "link", "textbox", "combobox", "img", "checkbox", "slider", "progressbar", "region")
# Where descriptors of this program do not meet those that Chromium wants, 3 and 4.
ABOVE = 20


def pipe() -> tuple[int, int]:
    """Both ends of a pipe, by high numbers."""
    ends = os.pipe()
    high = [fcntl.fcntl(it, fcntl.F_DUPFD, ABOVE) for it in ends]
    for it in ends:
        os.close(it)
    return high[0], high[1]


class Browser:
    """Chromium with one page. What the page complains of, and what it asks of a network, is kept."""

    def __init__(self, home: str) -> None:
        program = os.environ.get("CHROMIUM") or shutil.which("chromium")
        if not program:
            raise Missing("there is no command chromium in PATH (Debian: chromium); CHROMIUM may name it")
        (theirs_in, self.out), (self.into, theirs_out) = pipe(), pipe()

        def give() -> None:
            os.dup2(theirs_in, 3)
            os.dup2(theirs_out, 4)

        words = "--headless=new --no-sandbox --disable-gpu --no-first-run --disable-dev-shm-usage --remote-debugging-pipe".split()
        self.process = subprocess.Popen(
            [program, *words, f"--user-data-dir={home}", "--window-size=1200,1500", "about:blank"],
            stdin=subprocess.DEVNULL,
            stdout=subprocess.DEVNULL,
            stderr=subprocess.DEVNULL,
            preexec_fn=give,
            pass_fds=(3, 4),
        )
        os.close(theirs_in)
        os.close(theirs_out)
        self.left, self.number, self.session = b"", 0, ""
        self.complaints: list[str] = []
        self.asked: list[str] = []
        target = self.call("Target.createTarget", url="about:blank")["targetId"]
        self.session = self.call("Target.attachToTarget", targetId=target, flatten=True)["sessionId"]
        for domain in ("Runtime", "Log", "Page", "DOM", "Network"):
            self.call(f"{domain}.enable")

    def end(self) -> None:
        self.process.kill()
        self.process.wait()

    def message(self, until: float) -> dict[str, Any]:
        """The next message of the browser."""
        while b"\0" not in self.left:
            ready, _, _ = select.select([self.into], [], [], max(0.0, until - time.monotonic()))
            more = os.read(self.into, 1 << 20) if ready else b""
            if not more:
                raise Missing("the browser gives no answer")
            self.left += more
        whole, _, self.left = self.left.partition(b"\0")
        found: dict[str, Any] = json.loads(whole)
        return found

    def note(self, event: dict[str, Any]) -> None:
        """Keeps what the page complains of, and what it asks of a network."""
        method, params = event.get("method"), event.get("params", {})
        if method in ("Runtime.exceptionThrown", "Log.entryAdded"):
            self.complaints.append(json.dumps(params)[:400])
        if method == "Network.requestWillBeSent":
            self.asked.append(params["request"]["url"])

    def call(self, method: str, **params: Any) -> dict[str, Any]:
        """Calls a method of the protocol; events that come meanwhile are noted."""
        self.number += 1
        sent = {"id": self.number, "method": method, "params": params, **({"sessionId": self.session} if self.session else {})}
        self.send(json.dumps(sent).encode() + b"\0")
        until = time.monotonic() + PATIENCE
        while True:
            found = self.message(until)
            if found.get("id") != self.number:
                self.note(found)
                continue
            if "error" in found:
                raise Missing(f"{method}: {found['error']['message']}")
            result: dict[str, Any] = found["result"]
            return result

    def send(self, octets: bytes) -> None:
        while octets:
            octets = octets[os.write(self.out, octets) :]

    def value(self, expression: str) -> Any:
        """What an expression in the page gives, once it is there."""
        found = self.call("Runtime.evaluate", expression=expression, awaitPromise=True, returnByValue=True)
        if "exceptionDetails" in found:
            raise Missing(f"{expression[:80]}: {json.dumps(found['exceptionDetails'])[:400]}")
        return found["result"].get("value")

    def wait(self, expression: str, patience: float = PATIENCE) -> Any:
        """Waits until an expression is true in the page, and gives its value."""
        until = time.monotonic() + patience
        while time.monotonic() < until:
            found = self.value(expression)
            if found:
                return found
            time.sleep(0.05)
        raise Missing(f"this never comes true in the page: {expression[:80]}")

    def open(self, path: str) -> None:
        """Opens a file that has no script of its own."""
        url = f"file://{os.path.abspath(path)}"
        self.call("Page.navigate", url=url)
        self.wait(f"document.readyState === 'complete' && location.href === {json.dumps(url)}")

    def go(self, path: str) -> None:
        self.call("Page.navigate", url=f"file://{os.path.abspath(path)}")
        self.wait("Boolean(window.lagtool)")

    def begin(self, *paths: str) -> None:
        """Gives files to the page by its input."""
        self.value("window.shown = window.replayed = null, 1")
        root = self.call("DOM.getDocument")["root"]["nodeId"]
        node = self.call("DOM.querySelector", nodeId=root, selector="#file")["nodeId"]
        self.call("DOM.setFileInputFiles", nodeId=node, files=[os.path.abspath(it) for it in paths])

    def choose(self, *paths: str, patience: float = PATIENCE) -> dict[str, Any]:
        """Gives files to the page by its input, and gives what is shown then."""
        self.begin(*paths)
        return self.shown(patience)

    def replay(self, path: str) -> dict[str, Any]:
        """The same for a script."""
        self.begin(path)
        found: dict[str, Any] = self.wait("window.replayed")
        return found

    def drop(self, path: str) -> dict[str, Any]:
        """Drops a file on the page, and gives what is shown then."""
        self.value("window.shown = null, scrollTo(0, 0), 1")
        x, y = self.value("(() => { const it = document.getElementById('drop').getBoundingClientRect(); return [it.x + 20, it.y + 10]; })()")
        data = {"items": [], "files": [os.path.abspath(path)], "dragOperationsMask": 1}
        for kind in ("dragEnter", "dragOver", "drop"):
            self.call("Input.dispatchDragEvent", type=kind, x=x, y=y, data=data)
        return self.shown()

    def shown(self, patience: float = PATIENCE) -> dict[str, Any]:
        found: dict[str, Any] = self.wait("window.shown", patience)
        return found

    def most_memory(self) -> int:
        """The most octets that a process which shows a page had in memory so far."""
        most = 0
        for home in glob.glob("/proc/[0-9]*"):
            try:
                with open(f"{home}/cmdline", "rb") as words, open(f"{home}/status", encoding="utf-8") as status:
                    if b"--type=renderer" in words.read() and os.getsid(int(home[6:])) == os.getsid(self.process.pid):
                        found = re.search(r"^VmHWM:\s*(\d+) kB", status.read(), re.M)
                        most = max(most, 1024 * int(found[1]) if found else 0)
            except OSError:
                continue  # it ended meanwhile
        return most

    def paste(self, path: str) -> dict[str, Any]:
        """Pastes a file into the page, and gives what is shown then."""
        octets = base64.b64encode(read_bytes(path)).decode()
        self.value("window.shown = null, 1")
        file = f"new File([Uint8Array.from(atob('{octets}'), (it) => it.charCodeAt(0))], {json.dumps(os.path.basename(path))})"
        data = f"const data = new DataTransfer(); data.items.add({file});"
        self.value(f"(() => {{ {data} document.body.dispatchEvent(new ClipboardEvent('paste', {{ clipboardData: data, bubbles: true }})); }})()")
        return self.shown()

    def paste_text(self, text: str) -> None:
        data = f"const data = new DataTransfer(); data.setData('text', {json.dumps(text)});"
        self.value(f"(() => {{ {data} document.body.dispatchEvent(new ClipboardEvent('paste', {{ clipboardData: data, bubbles: true }})); }})()")

    def key(self, name: str) -> None:
        code = KEYS.get(name, ord(name[0]))
        text = {"text": "\r" if name == "Enter" else name} if name == "Enter" or len(name) == 1 else {}
        for kind in ("keyDown", "keyUp"):
            self.call("Input.dispatchKeyEvent", type=kind, key=name, code=name, windowsVirtualKeyCode=code, **(text if kind == "keyDown" else {}))

    def wheel(self, x: float, y: float, way: float) -> None:
        """Turns the wheel with the control key."""
        self.call("Input.dispatchMouseEvent", type="mouseWheel", x=x, y=y, deltaX=0, deltaY=way, modifiers=2)

    def drag(self, x: float, y: float, way: float) -> None:
        for kind, at in ("mousePressed", x), ("mouseMoved", x + way / 2), ("mouseMoved", x + way), ("mouseReleased", x + way):
            self.call("Input.dispatchMouseEvent", type=kind, x=at, y=y, button="left", buttons=1, clickCount=1)

    def settle(self) -> None:
        """Waits until the page is drawn."""
        self.value("new Promise((done) => setTimeout(() => requestAnimationFrame(() => requestAnimationFrame(done)), 100))")

    def nameless(self) -> list[str]:
        """What can be used in the page, and has no name that a screen reader says."""
        nodes = self.call("Accessibility.getFullAXTree")["nodes"]
        used = [it for it in nodes if not it.get("ignored") and it.get("role", {}).get("value") in NAMED]
        return [json.dumps(it["role"]["value"]) for it in used if not it.get("name", {}).get("value")]

    def size(self, width: int, height: int) -> None:
        self.call("Emulation.setDeviceMetricsOverride", width=width, height=height, deviceScaleFactor=1, mobile=False)

    def dark(self, on: bool) -> None:
        self.call("Emulation.setEmulatedMedia", features=[{"name": "prefers-color-scheme", "value": "dark" if on else "light"}])

    def picture(self, path: str) -> None:
        write_bytes(path, base64.b64decode(self.call("Page.captureScreenshot", format="png")["data"]))
