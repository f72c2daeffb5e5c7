"""A headless Chromium that a test drives by a pipe, and a host of static files for it."""
import base64
import fcntl
import functools
import http.server
import json
import os
import shutil
import subprocess
import tempfile
import threading
import time
from typing import Any

FLAGS = ["--headless=new", "--no-sandbox", "--disable-gpu", "--disable-dev-shm-usage", "--remote-debugging-pipe", "--no-first-run", "--window-size=1200,780"]
QUIET = ["--disable-background-networking", "--disable-component-update", "--disable-sync", "--host-resolver-rules=MAP * ~NOTFOUND, EXCLUDE 127.0.0.1"]
SECONDS = 30.0
# The numbers of keys that have a name, and the text that they type.
KEYS = {"Enter": (13, "\r"), "Tab": (9, ""), "Escape": (27, ""), "F1": (112, ""), "ArrowLeft": (37, ""), "ArrowUp": (38, ""), "ArrowRight": (39, ""), "ArrowDown": (40, "")}


def found() -> str | None:
    """Returns the path of Chromium, if it is installed."""
    return shutil.which("chromium") or shutil.which("chromium-browser") or shutil.which("google-chrome")


class Browser:
    """A browser with a profile of its own."""

    def __init__(self) -> None:
        self.profile = tempfile.mkdtemp()
        reads, self_writes = os.pipe()
        self_reads, writes = os.pipe()

        def lay_pipes() -> None:
            """The browser reads file 3 and writes file 4."""
            of_reads, of_writes = fcntl.fcntl(reads, fcntl.F_DUPFD, 20), fcntl.fcntl(writes, fcntl.F_DUPFD, 20)
            os.dup2(of_reads, 3)
            os.dup2(of_writes, 4)

        words = [found() or "", *FLAGS, *QUIET, f"--user-data-dir={self.profile}", "about:blank"]
        quiet = subprocess.DEVNULL
        self.process = subprocess.Popen(words, preexec_fn=lay_pipes, close_fds=False, stdout=quiet, stderr=quiet, start_new_session=True)
        os.close(reads)
        os.close(writes)
        self.writes, self.reads = os.fdopen(self_writes, "wb", buffering=0), os.fdopen(self_reads, "rb", buffering=0)
        self.count, self.rest = 0, b""
        self.events: list[dict[str, Any]] = []

    def ask(self, method: str, session: str | None = None, **parameters: Any) -> dict[str, Any]:
        """Calls a method of the browser, and returns its answer."""
        self.count += 1
        message = {"id": self.count, "method": method, "params": parameters, **({"sessionId": session} if session else {})}
        self.writes.write(json.dumps(message).encode() + b"\0")
        while True:
            got = self.receive()
            if got.get("id") == self.count:
                if "error" in got:
                    raise RuntimeError(f"{method}: {got['error']}")
                return dict(got["result"])
            self.events.append(got)

    def receive(self) -> dict[str, Any]:
        """Returns the next message of the browser."""
        while b"\0" not in self.rest:
            more = self.reads.read(1 << 16)
            if not more:
                raise EOFError("the browser is gone")
            self.rest += more
        one, self.rest = self.rest.split(b"\0", 1)
        return dict(json.loads(one))

    def close(self) -> None:
        """Ends the browser, and takes its profile away."""
        try:
            self.ask("Browser.close")
            self.process.wait(10)
        except (EOFError, OSError, RuntimeError, subprocess.TimeoutExpired):
            self.process.kill()
        shutil.rmtree(self.profile, ignore_errors=True)


class Tab:
    """A tab with the page."""

    def __init__(self, browser: Browser, url: str | None = None, colours: str = "light", width: int = 1200, height: int = 780) -> None:
        self.browser = browser
        self.target = browser.ask("Target.createTarget", url="about:blank")["targetId"]
        self.session = browser.ask("Target.attachToTarget", targetId=self.target, flatten=True)["sessionId"]
        for domain in ("Page", "Runtime", "Network", "DOM", "Log"):
            self.ask(f"{domain}.enable")
        self.ask("Target.setAutoAttach", autoAttach=True, waitForDebuggerOnStart=False, flatten=True)
        self.ask("Emulation.setEmulatedMedia", features=[{"name": "prefers-color-scheme", "value": colours}])
        self.ask("Emulation.setDeviceMetricsOverride", width=width, height=height, deviceScaleFactor=1, mobile=False)
        if url:
            self.go(url)

    def ask(self, method: str, **parameters: Any) -> dict[str, Any]:
        """Calls a method of the tab."""
        return self.browser.ask(method, self.session, **parameters)

    def go(self, url: str) -> None:
        """Opens an address, and waits until the machine is ready or the page says why not."""
        self.run("window.isLeft = true")
        self.ask("Page.navigate", url=url)
        self.until("!window.isLeft")
        self.settled()

    def reload(self) -> None:
        """Opens the page again, and waits likewise."""
        self.run("window.isLeft = true; setTimeout(() => location.reload())")
        self.until("!window.isLeft")
        self.settled()

    def run(self, code: str) -> Any:
        """Returns what an expression of JavaScript gives in the page."""
        got = self.ask("Runtime.evaluate", expression=code, awaitPromise=True, returnByValue=True)
        if "exceptionDetails" in got:
            raise RuntimeError(json.dumps(got["exceptionDetails"])[:600])
        return got["result"].get("value")

    def until(self, code: str, seconds: float = SECONDS) -> None:
        """Waits until an expression is true; while a page is left and another one opened, it may have no value."""
        end = time.monotonic() + seconds
        while True:
            try:
                if self.run(f"(() => {{ try {{ return !!({code}); }} catch {{ return false; }} }})()"):
                    return
            except RuntimeError:
                pass
            if time.monotonic() > end:
                raise TimeoutError(f"{code}\n{self.run('document.body?.innerText')}")
            time.sleep(0.01)

    def settled(self) -> None:
        """Waits until nothing runs."""
        self.until("document.readyState === 'complete' && /^(Ready|Open elsewhere|The machine)/.test(document.getElementById('state')?.textContent)")

    def press(self, key: str, modifiers: int = 0, code: str = "") -> None:
        """Presses a key."""
        number, text = KEYS.get(key, (ord(key[0].upper()) if key.isalnum() else 0, key))
        how: dict[str, Any] = {"key": key, "code": code or key, "windowsVirtualKeyCode": number, "modifiers": modifiers}
        if text and not modifiers:
            how["text"] = text
        self.ask("Input.dispatchKeyEvent", type="keyDown", **how)
        self.ask("Input.dispatchKeyEvent", type="keyUp", key=key, code=code or key, windowsVirtualKeyCode=number, modifiers=modifiers)

    def keys(self, text: str) -> None:
        """Types text by its keys."""
        for key in text:
            self.press(key)

    def enter(self, line: str) -> None:
        """Lays a line into the page's line, and ends it by the key."""
        self.run("document.getElementById('line').focus()")
        self.ask("Input.insertText", text=line)
        self.press("Enter")

    def typed(self, *lines: str) -> str:
        """Types lines, waits until they have ended, and returns what the transcript got behind the first of them."""
        before = len(self.transcript())
        for line in lines:
            self.enter(line)
            self.until("document.getElementById('line').value === ''")
        self.until(f"document.getElementById('transcript').textContent.length >= {before + sum(len(it) + 6 for it in lines)}")
        time.sleep(0.05)
        self.settled()
        return self.transcript()[before:]

    def transcript(self) -> str:
        return str(self.run("document.getElementById('transcript').textContent"))

    def text(self, name: str) -> str:
        """Returns the text of an element by its id."""
        return str(self.run(f"document.getElementById({name!r}).textContent"))

    def click(self, selector: str) -> None:
        """Clicks in the middle of an element."""
        self.run(f"document.querySelector({json.dumps(selector)}).scrollIntoView({{ block: 'nearest' }})")
        box = self.run(f"(() => {{ const b = document.querySelector({json.dumps(selector)}).getBoundingClientRect(); return [b.x + b.width / 2, b.y + b.height / 2]; }})()")
        for kind in ("mousePressed", "mouseReleased"):
            self.ask("Input.dispatchMouseEvent", type=kind, x=box[0], y=box[1], button="left", clickCount=1)

    def choose(self, path: str) -> None:
        """Gives a file to the page's chooser."""
        document = self.ask("DOM.getDocument")["root"]["nodeId"]
        node = self.ask("DOM.querySelector", nodeId=document, selector="#file")["nodeId"]
        self.ask("DOM.setFileInputFiles", nodeId=node, files=[path])

    def worker(self) -> str:
        """Returns the session of the newest worker."""
        attached = [it for it in self.browser.events if it.get("method") == "Target.attachedToTarget" and it.get("sessionId") == self.session]
        return str([it for it in attached if it["params"]["targetInfo"]["type"] == "worker"][-1]["params"]["sessionId"])

    def picture(self, path: str) -> None:
        """Takes a picture of what is seen."""
        data = self.ask("Page.captureScreenshot", format="png")["data"]
        with open(path, "wb") as file:
            file.write(base64.b64decode(data))

    def close(self) -> None:
        self.browser.ask("Target.closeTarget", targetId=self.target)


class Quiet(http.server.SimpleHTTPRequestHandler):
    """A host of static files that writes nothing."""

    def log_message(self, *_: Any) -> None:  # pylint: disable=arguments-differ
        pass


def host(folder: str) -> tuple[http.server.ThreadingHTTPServer, str]:
    """Begins a host of a folder's files on this machine, and returns it with its address."""
    server = http.server.ThreadingHTTPServer(("127.0.0.1", 0), functools.partial(Quiet, directory=folder))
    threading.Thread(target=server.serve_forever, daemon=True).start()
    return server, f"http://127.0.0.1:{server.server_address[1]}/index.html"
