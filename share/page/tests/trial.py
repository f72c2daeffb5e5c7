"""What a trial of the page has: a browser, the built page, and a host for its folder."""
import os
import tempfile
import time
from pathlib import Path

from browser import Browser, Tab, host

LOOP = ("∇LOOP", "→1", "∇")
HALF = ("∇Z←HALF N", "Z←N÷2", "∇")


class Trial:
    """What a trial has: the built page in a folder, and the native program, where one is given."""

    def __init__(self, folder: Path, program: str | None) -> None:
        self.folder, self.program = folder, program
        self.browser = Browser()
        self.file = (folder / "apl.html").resolve().as_uri()
        self.room = tempfile.mkdtemp()
        self.server, self.site = host(str(folder / "site"))

    def tab(self, name: str, url: str | None = None, **how: object) -> Tab:
        """Opens a tab on a workspace of this name."""
        return Tab(self.browser, f"{url or self.file}#{name}", **how)  # type: ignore[arg-type]

    def close(self) -> None:
        self.browser.close()
        self.server.shutdown()


def same(got: object, wanted: object) -> None:
    if got != wanted:
        raise AssertionError(f"got {got!r}, and not {wanted!r}")


def has(text: str, part: str) -> None:
    if part not in text:
        raise AssertionError(f"there is no {part!r} in {text!r}")


def in_time(seconds: float, most: float) -> None:
    """Fails where something took too long, unless UNTIMED is set, as on a machine that does other work."""
    if seconds >= most and not os.environ.get("UNTIMED"):
        raise AssertionError(f"it took {seconds * 1000:.1f} ms")


def saved(tab: Tab) -> None:
    """Waits until what stands is kept."""
    tab.until("document.getElementById('kept').textContent.startsWith('Kept')")
    time.sleep(0.3)


def download(trial: Trial, tab: Tab) -> Path:
    """Returns the path of the file that the page gives."""
    trial.browser.ask("Browser.setDownloadBehavior", behavior="allow", downloadPath=trial.room)
    before = set(os.listdir(trial.room))
    tab.click("#workspaces summary")
    tab.until("document.querySelector('#workspaces button')")
    tab.run("[...document.querySelectorAll('#workspaces button')].find(it => it.textContent === 'Download').click()")
    for _ in range(500):
        new = [it for it in set(os.listdir(trial.room)) - before if it.endswith(".json")]
        if new:
            time.sleep(0.1)
            return Path(trial.room) / new[0]
        time.sleep(0.02)
    raise AssertionError("no file was downloaded")
