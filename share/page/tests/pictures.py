"""Pictures of the page with a session, for the documents and to be looked at."""
import time
from pathlib import Path

from browser import Tab
from trial import Trial, saved

SHOWN = (
    "MARKS←2 4 9", "CLASS←3 3⍴MARKS,1 2 5 6 7 9", "CLASS", "+/CLASS", "∇Z←MEAN V", "Z←(+/V)÷⍴V", "∇", "∇REPORT M;I", "I←1",
    "NEXT:'ROW ',(⍕I),': ',⍕MEAN M[I;]", "I←I+1", "→(I≤1↑⍴M)/NEXT", "'DONE'", "∇", "REPORT CLASS",
)


def show_lines(tab: Tab) -> None:
    """Shows the lines of the function that waits, with the call's line in them."""
    tab.run("document.querySelector('#levels li:last-child button').click()")
    tab.until("document.querySelector('#listing [aria-current=true]')")


def pictures(folder: Path, to: Path) -> None:
    """Takes pictures of the page with a session: page.png, page-dark.png, page-narrow.png, page-narrow-dark.png, page-reference.png,
    page-menu.png and page-guide.png."""
    to.mkdir(parents=True, exist_ok=True)
    trial = Trial(folder, None)
    try:
        tab = trial.tab("class")
        tab.typed(*SHOWN)
        tab.until("document.querySelector('#levels code').textContent")
        show_lines(tab)
        for mark in ("STOP 4", "TRACE 3"):
            tab.run(f"document.querySelector(\"[data-at='{mark}']\").click()")
            tab.until(f"document.querySelector(\"[data-at='{mark}'][aria-pressed=true]\")")
        tab.run("document.getElementById('line').focus()")
        tab.keys("V`[1 2 6")
        tab.run("document.querySelector('#bar button[aria-label^=\"shape\"]').dispatchEvent(new PointerEvent('pointerenter'))")
        tab.picture(f"{to}/page.png")
        saved(tab)
        for name, how in (("dark", {"colours": "dark"}), ("narrow", {"width": 360, "height": 740}), ("narrow-dark", {"width": 360, "height": 740, "colours": "dark"})):
            tab.close()
            tab = trial.tab("class", **how)  # type: ignore[arg-type]
            show_lines(tab)
            tab.picture(f"{to}/page-{name}.png")
        tab.run("document.getElementById('line').focus()")
        tab.keys("M`[`i")
        tab.press("F1")
        tab.picture(f"{to}/page-reference.png")
        tab.close()
        tab = trial.tab("start")
        tab.click("#guides summary")
        tab.until("document.querySelector('#guides button')")
        tab.picture(f"{to}/page-menu.png")
        tab.run("document.querySelector('#guides button').click()")
        tab.until("document.getElementById('name').textContent === 'tutorial'")
        tab.settled()
        tab.run("[...document.querySelectorAll('#guide footer button')].at(-1).click()")
        tab.run("[...document.querySelectorAll('#guide footer button')][1].click()")
        time.sleep(0.5)
        tab.picture(f"{to}/page-guide.png")
    finally:
        trial.close()
