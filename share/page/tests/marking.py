"""Stops and traces at the side, steps, refused definitions and the reference, tried in a headless Chromium. Each function tries one thing, and raises
where it isn't so."""
from browser import Tab
from trial import HALF, Trial, has, same

SHIFT = 8
FACT = ("∇Z←FACT N", "Z←1", "→(N≤0)/0", "Z←N×FACT N-1", "∇")
PRESSED = "[...document.querySelectorAll('#listing [aria-pressed=true]')].map(it => it.dataset.at).join()"


def ends(tab: Tab, text: str) -> None:
    """Waits until the transcript ends so and nothing runs."""
    tab.until(f"document.getElementById('transcript').textContent.endsWith({text!r})")
    tab.settled()


def open_listing(tab: Tab) -> None:
    """Opens the lines of the first function."""
    tab.click("#functions button")
    tab.until("!document.getElementById('listing').hidden")


def marks(trial: Trial) -> str:
    """A press on a line's number sets a stop and takes it away, by the mouse and by the keyboard, and what is typed for it stands in the transcript."""
    tab = trial.tab("marks")
    tab.typed(*FACT)
    open_listing(tab)
    same(tab.run("[...document.querySelectorAll('#listing li')].map(it => it.textContent).join(';')"), "[1]TZ←1;[2]T→(N≤0)/0;[3]TZ←N×FACT N-1")
    tab.click("[data-at='STOP 2']")
    ends(tab, "      2 ⎕STOP 'FACT'\n\n")
    tab.until(f"{PRESSED} === 'STOP 2'")
    # By the keyboard: the arrows move, and the cursor stays at the mark that is pressed.
    same(tab.run("document.activeElement.dataset.at"), "STOP 2")
    for key in ("ArrowDown", "ArrowRight", "Enter"):
        tab.press(key)
    ends(tab, "      3 ⎕TRACE 'FACT'\n\n")
    tab.until(f"{PRESSED} === 'STOP 2,TRACE 3'")
    same(tab.run("document.activeElement.dataset.at"), "TRACE 3")
    # What is typed is shown too, and undone by a typed line.
    tab.typed("1 3 ⎕STOP 'FACT'")
    tab.until(f"{PRESSED} === 'STOP 1,STOP 3,TRACE 3'")
    tab.typed("2 ⎕STOP 'FACT'")
    tab.until(f"{PRESSED} === 'STOP 2,TRACE 3'")
    has(tab.typed("FACT 0"), "FACT[2]\n")
    tab.until("document.querySelector('#listing [aria-current=true]')?.textContent.startsWith('[2]')")
    tab.typed("→")
    tab.click("[data-at='STOP 2']")
    tab.click("[data-at='TRACE 3']")
    ends(tab, "      (⍳0) ⎕TRACE 'FACT'\n3\n")
    tab.until(f"{PRESSED} === ''")
    tab.typed("∇OPEN")
    tab.click("[data-at='STOP 2']")
    tab.until("document.getElementById('told').textContent.startsWith('A definition is open')")
    tab.typed("∇", ")ERASE FACT")
    tab.until("document.getElementById('listing').hidden")
    tab.close()
    return ""


def steps(trial: Trial) -> str:
    """A step goes on to the next line of the function, a branch too, and leaves its stops as they were."""
    tab = trial.tab("steps")
    tab.typed("∇Z←SUM N", "Z←0", "→3", "L:Z←Z+N", "→(0<N←N-1)/L", "∇", "1 ⎕STOP 'SUM'", "SUM 2")
    same(tab.run("document.getElementById('step').disabled"), False)
    for number in (2, 3, 4, 3, 4):
        tab.click("#step")
        ends(tab, f"SUM[{number}]\n      1 ⎕STOP 'SUM'\n1 2 3 4\n")
        tab.until(f"document.getElementById('levels').textContent.startsWith('SUM[{number}]')")
    tab.click("#step")
    ends(tab, "      →⎕LC\n3\n      1 ⎕STOP 'SUM'\n1 2 3 4\n")
    tab.until("document.getElementById('step').disabled")
    tab.close()
    return ""


def refused(trial: Trial) -> str:
    """A definition that is refused is told by its line, nothing is lost, and no line of it is done as a statement."""
    tab = trial.tab("refused")
    tab.typed(*HALF, "V←5")
    tab.click("#new-function")
    for text, why, selected in (
        ("Z←F X\nZ←X\n\nZ←'AB\nZ←Z", "DEFN ERROR. Line 3 is refused.\n\nSYNTAX ERROR\n      Z←'AB\n        ^\n", "Z←'AB"),
        ("Z←V X\nV←6", "DEFN ERROR. The header is refused: it is none, or its name is a variable’s.", "Z←V X"),
        ("Z←F X\nL:Z←X\nL:Z←X", "DEFN ERROR. Line 2 is refused.", "L:Z←X"),
        ("Z←F X\nZ←X\n∇", "No line may begin with ∇: the page types the first one and the last one.", "∇"),
    ):
        tab.run(f"document.querySelector('#function textarea').value = {text!r}; document.querySelector('#function [role=alert]').textContent = ''")
        tab.click("#define")
        tab.until("document.querySelector('#function [role=alert]').textContent")
        same(tab.run("document.querySelector('#function [role=alert]').textContent"), why)
        same(tab.run("document.querySelector('#function textarea').value"), text)
        same(tab.run("(it => it.value.slice(it.selectionStart, it.selectionEnd))(document.querySelector('#function textarea'))"), selected)
        same(tab.run("document.getElementById('function').open"), True)
    tab.run("document.querySelector('#function textarea').value = 'Z←F X\\nZ←X+1'; window.asked = 0; window.confirm = () => { window.asked++; return false; }")
    tab.press("Escape")
    tab.run("document.querySelector('#function [value=close]').click()")
    same(tab.run("[window.asked, document.getElementById('function').open, document.querySelector('#function textarea').value].join()"), "2,true,Z←F X\nZ←X+1")
    tab.click("#define")
    tab.until("!document.getElementById('function').open")
    has(tab.typed("F V"), "6\n")
    tab.close()
    return ""


def reference(trial: Trial) -> str:
    """The reference opens at the symbol at the cursor and from the bar, by keys and by the mouse, and closes with Escape."""
    tab = trial.tab("reference")
    title, is_open = "document.querySelector('#help h2').textContent", "!document.getElementById('help').hidden"
    tab.keys("2`r`i5")
    tab.press("ArrowLeft")
    tab.press("F1")
    tab.until(is_open)
    same(tab.run(title), "¯  sign of a negative number")
    tab.press("Escape")
    tab.until(f"!({is_open}) && document.activeElement.id === 'line'")
    tab.press("ArrowLeft")
    tab.press("F1")
    same(tab.run(title), "⍳  count, index of")
    same(tab.run("document.activeElement.tagName"), "H2")
    same(tab.run("[...document.querySelectorAll('#help h3')].map(it => it.textContent).join(';')"), "⍳B count;A⍳B index of")
    tab.run("document.querySelector('#help .line').click()")
    same(tab.run("document.getElementById('line').value"), "⍳4")
    tab.press("Escape")
    tab.until(f"!({is_open})")
    tab.run("document.getElementById('line').value = \"2 ⎕STOP 'F'\"; document.getElementById('line').setSelectionRange(4, 4)")
    tab.click("#ask")
    same(tab.run(title), "⎕STOP")
    same(tab.run("document.querySelector('#help h3').textContent"), "A ⎕STOP B, ⎕STOP B stops")
    tab.press("Escape")
    tab.run("document.getElementById('line').value = ''; document.querySelector('#bar button').focus()")
    tab.press("ArrowRight")
    tab.press("?", SHIFT, "Slash")
    same(tab.run(title), "<  less")
    tab.press("Escape")
    box = tab.run("(it => [it.x + it.width / 2, it.y + it.height / 2])(document.querySelector('#bar button[aria-label=\"count, index of\"]').getBoundingClientRect())")
    for kind in ("mousePressed", "mouseReleased"):
        tab.ask("Input.dispatchMouseEvent", type=kind, x=box[0], y=box[1], button="right", clickCount=1)
    tab.until(is_open)
    same(tab.run(title), "⍳  count, index of")
    tab.run("(it => { it.value = [...it.options].find(it => it.text.startsWith('⎕LC')).value; it.dispatchEvent(new Event('change')); })(document.querySelector('#help select'))")
    same(tab.run(title), "⎕LC line counter")
    same(tab.run("document.querySelectorAll('#help select option').length > 80"), True)
    tab.run("document.getElementById('line').focus()")
    tab.keys("'?")
    same(tab.run("document.getElementById('line').value"), "'?")
    tab.close()
    return ""


ALL = [marks, steps, refused, reference]
