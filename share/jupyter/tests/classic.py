"""Trials of the kernel in the classic notebook, in Chromium, as a person uses it. Each returns what it has seen, or raises."""
import os
import secrets
import socket
import subprocess
import sys
import time
from contextlib import contextmanager, suppress
from pathlib import Path
from typing import Any, Iterator, List

from tests.kernels import notebook

sys.path.append(str(Path(__file__).resolve().parents[2] / "page/tests"))
import browser  # noqa: E402  pylint: disable=wrong-import-position

MEAN = "∇Z←MEAN V\nZ←(+/V)÷⍴V\n∇"
READY = "window.Jupyter && Jupyter.notebook && Jupyter.notebook._fully_loaded && Jupyter.notebook.kernel?.info_reply.banner"
SHIFT, CONTROL, INTERRUPTED_IN = 8, 2, 2.0


def has_browser() -> bool:
    """Whether Chromium is installed."""
    return browser.found() is not None


class Notebook(browser.Tab):
    """A tab with a notebook."""

    def settled(self) -> None:
        """Waits until the kernel answers."""
        self.until(READY, 4 * browser.SECONDS)
        self.until("document.getElementById('apl-bar')")

    def cell(self, number: int) -> None:
        """Chooses a cell to be edited."""
        self.run(f"Jupyter.notebook.select({number}); Jupyter.notebook.edit_mode()")
        self.until(f"Jupyter.notebook.get_selected_index() === {number} && document.activeElement.closest('.CodeMirror')")

    def source(self, number: int) -> str:
        """Returns what is typed in a cell."""
        return str(self.run(f"Jupyter.notebook.get_cell({number}).get_text()"))

    def output(self, number: int) -> str:
        """Returns what is shown below a cell."""
        areas = f"Jupyter.notebook.get_cell({number}).element.find('.output_area').toArray()"
        return str(self.run(f"{areas}.map(it => it.innerText.trim()).join('\\n')"))

    def ended(self, seconds: float = browser.SECONDS) -> None:
        """Waits until no cell runs."""
        self.until("!Jupyter.notebook.get_cells().some(it => it.element.hasClass('running'))", seconds)

    def shown(self, number: int, wanted: str) -> None:
        """Waits until a text is shown below a cell."""
        self.until(f"Jupyter.notebook.get_cell({number}).element.find('.output').text().includes({wanted!r})")


class Place:
    """A server of notebooks in a folder, with a browser."""

    def __init__(self, folder: str) -> None:
        self.folder, self.port, token = folder, free_port(), secrets.token_hex(8)
        self.address = f"http://127.0.0.1:{self.port}/notebooks/{{}}?token={token}"
        self.pictures = os.environ.get("PICTURES", "")
        words = ["--no-browser", "--ip=127.0.0.1", f"--port={self.port}", "--port-retries=0", "--allow-root",
                 f"--NotebookApp.token={token}", f"--notebook-dir={folder}"]
        self.log = open(f"{folder}/server.log", "w", encoding="utf-8")
        self.server = subprocess.Popen([sys.executable, "-m", "notebook", *words], stdout=self.log, stderr=self.log)
        self.browser = browser.Browser()
        try:
            self.begin()
        except BaseException:
            self.close()
            raise

    def begin(self) -> None:
        """Waits until the server is there."""
        end = time.monotonic() + 4 * browser.SECONDS
        while time.monotonic() < end:
            with suppress(OSError):
                socket.create_connection(("127.0.0.1", self.port), 1).close()
                return
            time.sleep(0.1)
        raise TimeoutError("the notebook server doesn't begin")

    @contextmanager
    def opened(self, name: str, *cells: str) -> Iterator[Notebook]:
        """Opens a notebook with these cells."""
        Path(self.folder, f"{name}.ipynb").write_text(notebook(*cells), encoding="utf-8")
        tab = Notebook(self.browser, self.address.format(f"{name}.ipynb"))
        try:
            yield tab
            if self.pictures:
                tab.picture(f"{self.pictures}/{name}.png")
        finally:
            tab.run("Jupyter.notebook.session.delete()")
            tab.run("window.onbeforeunload = null")
            tab.close()

    def close(self) -> None:
        """Ends the server and the browser."""
        self.browser.close()
        self.server.terminate()
        self.server.wait(20)
        self.log.close()


def free_port() -> int:
    """Returns a port that nobody has."""
    with socket.socket() as it:
        it.bind(("127.0.0.1", 0))
        return int(it.getsockname()[1])


def same(got: object, wanted: object) -> None:
    """Asks that both are the same."""
    assert got == wanted, f"\n    there is\n{got!r}\n    and not\n{wanted!r}"


def typing(place: Place) -> str:
    """A cell is typed by its keys, run, and a name completed."""
    with place.opened("typing", MEAN, "", "", "") as tab:
        tab.cell(0)
        tab.press("Enter", SHIFT)
        tab.ended()
        tab.cell(1)
        tab.keys("2 3`r`i6")
        same(tab.source(1), "2 3⍴⍳6")
        tab.press("Enter", SHIFT)
        tab.shown(1, "4 5 6")
        tab.cell(3)
        tab.keys("``i`")
        tab.press("ArrowLeft")
        tab.keys("i`+")
        same(tab.source(3), "`i+i")
        tab.cell(2)
        tab.keys("10`-MEA")
        tab.press("Tab")
        tab.until("Jupyter.notebook.get_cell(2).get_text().includes('MEAN')")
        tab.keys(" 4 6")
        tab.press("Enter", SHIFT)
        tab.shown(2, "50")
        same((tab.source(2), tab.output(1)), ("10×MEAN 4 6", "1 2 3\n4 5 6"))
    return "keys behind the backquote, Shift+Enter, Tab"


def bar(place: Place) -> str:
    """The bar types a character, and tells its name, key and example."""
    with place.opened("bar", "") as tab:
        tab.cell(0)
        tab.click("#apl-bar button[aria-label^='count']")
        tab.keys("5")
        same((tab.source(0), tab.run("document.activeElement.closest('.CodeMirror') !== null")), ("⍳5", True))
        same(tab.run("document.getElementById('apl-hint').textContent"), "⍳  count, index of   key ` i   ⍳5  gives  1 2 3 4 5")
        tab.until("[...document.fonts].some(it => it.family === 'APL' && it.status === 'loaded')")
        count = tab.run("document.querySelectorAll('#apl-bar button').length")
    return f"{count} characters"


def help_at_the_cursor(place: Place) -> str:
    """Shift+Tab tells what stands at the cursor."""
    with place.opened("help", f"{MEAN}\nM←2 2⍴⍳4", "MEAN M", "2 ⍴") as tab:
        tab.run("Jupyter.notebook.execute_cells([0])")
        tab.ended()
        seen: List[str] = []
        for number, column, wanted in [(1, 4, "[1] Z←(+/V)÷⍴V"), (1, 6, "shape 2 2"), (2, 3, "reshape")]:
            tab.cell(number)
            tab.run(f"Jupyter.notebook.get_cell({number}).code_mirror.setCursor(0, {column})")
            tab.press("Tab", SHIFT)
            tab.until(f"document.querySelector('#tooltip .tooltiptext')?.innerText.includes({wanted!r})")
            seen.append(wanted)
            if number != 2:
                tab.press("Escape")
    return "a listing, a value, an entry of the reference"


def fault(place: Place) -> str:
    """A fault is shown with its caret and the state indicator, and "run all" stops there."""
    cells = ["# A bill", "MARKS←2 4 9\n+/MARKS\n(⍳3)∘.×⍳4", f"{MEAN}\nMEAN MARKS", "10×MEAN 1 2", "'not reached'", "V←1 3\n→⎕LC",
             "M←2 3⍴⍳6\nM"]
    with place.opened("fault", *cells) as tab:
        tab.run("Jupyter.notebook.execute_all_cells()")
        tab.shown(3, "MEAN[1] *")
        time.sleep(0.5)
        tab.ended()
        same(tab.output(3).split("\n")[:5], ["DOMAIN ERROR", "MEAN[1] Z←(+/V)÷⍴V", "               ^", "      )SI", "MEAN[1] *"])
        same((tab.output(1), tab.output(4)), ("15\n1 2 3  4\n2 4 6  8\n3 6 9 12", ""))
        tab.run("Jupyter.notebook.execute_cells([5, 6])")
        tab.shown(5, "20")
        tab.until("Jupyter.notebook.get_cell(6).element.find('.output table td').length === 6")
        place_of_text = "getComputedStyle(Jupyter.notebook.get_cell(1).element.find('.output pre')[0]).fontFamily"
        assert "APL" in str(tab.run(place_of_text)), tab.run(place_of_text)
    return "the cells behind it don't run; resumed; a table"


def interrupt(place: Place) -> str:
    """The button interrupts a loop; what it has written is seen before."""
    with place.opened("interrupt", "∇SPIN\n'it spins'\nL:→L\n∇\nSPIN", ")SI\n→\n'goes on'") as tab:
        tab.run("Jupyter.notebook.execute_cells([0])")
        tab.shown(0, "it spins")
        time.sleep(0.3)
        began = time.monotonic()
        tab.click("#int_interrupt, [data-jupyter-action='jupyter-notebook:interrupt-kernel']")
        tab.shown(0, "SPIN[2] *")
        took = time.monotonic() - began
        assert took < INTERRUPTED_IN or "UNTIMED" in os.environ, f"an interrupt took {took:.1f} s"
        tab.run("Jupyter.notebook.execute_cells([1])")
        tab.shown(1, "goes on")
        same(tab.output(1), "SPIN[2] *\ngoes on")
    return f"{took * 1000:.0f} ms after the click"


def restart(place: Place) -> str:
    """A restart begins with the saved workspace, and a notebook that is opened again shows what it showed."""
    with place.opened("restart", "A←6\n)SAVE ledger\nA←7", "A", ")LIB") as tab:
        tab.run("Jupyter.notebook.execute_cells([0])")
        tab.ended()
        tab.run("Jupyter.notebook.kernel.restart()")
        tab.until("Jupyter.notebook.kernel.is_connected()")
        time.sleep(1)
        tab.settled()
        tab.run("Jupyter.notebook.execute_cells([1, 2])")
        tab.shown(2, "ledger")
        same(tab.output(1).split("\n")[1:], ["6"])
        tab.run("Jupyter.notebook.save_notebook()")
        tab.until("!Jupyter.notebook.dirty")
        tab.reload()
        same(tab.output(1).split("\n")[1:], ["6"])
    return "A is as it was saved"


ALL: List[Any] = [typing, bar, help_at_the_cursor, fault, interrupt, restart]
