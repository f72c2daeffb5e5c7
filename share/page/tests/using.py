"""What a person does with a session, done in a headless Chromium: each function here tries one thing, raises where it isn't so, and tells what it saw."""
import time
from collections.abc import Callable

from browser import Tab
from trial import HALF, LOOP, Trial, has, in_time, same

CTRL = 2


def opened_from_disk(trial: Trial) -> str:
    """The file opens from the disk and answers what is typed by keys in under a second, at the best of three times."""
    took = []
    for name in ("disk", "disk-2", "disk-3"):
        tab = Tab(trial.browser)
        begun = time.monotonic()
        tab.go(f"{trial.file}#{name}")
        tab.keys("2+3`-4")
        tab.press("Enter")
        tab.until("document.getElementById('transcript').textContent.endsWith('14\\n')")
        took.append(time.monotonic() - begun)
        has(tab.transcript(), "      2+3×4\n14\n")
        tab.close()
    in_time(min(took), 1)
    return f"{min(took) * 1000:.0f} ms from opening to the answer"


def keys_of_the_line(trial: Trial) -> str:
    """Backquote, history, completion and what is pasted."""
    tab = trial.tab("keys")
    tab.keys("MARKS`[2 4 9")
    tab.press("Enter")
    tab.keys("`'``'`x")
    same(tab.run("document.getElementById('line').value"), "⍕`'`x")
    tab.run("document.getElementById('line').value = ''")
    tab.settled()
    tab.keys("+/MA")
    tab.press("Tab")
    same(tab.run("document.getElementById('line').value"), "+/MARKS")
    tab.press("Enter")
    tab.until("document.getElementById('transcript').textContent.includes('\\n15\\n')")
    tab.keys("MARKS")
    tab.press("Tab")
    same(tab.run("document.activeElement.id === 'line'"), False)
    tab.run("document.getElementById('line').value = ''; document.getElementById('line').focus()")
    tab.press("ArrowUp")
    tab.press("ArrowUp")
    same(tab.run("document.getElementById('line').value"), "MARKS←2 4 9")
    tab.press("ArrowDown")
    tab.press("ArrowDown")
    same(tab.run("document.getElementById('line').value"), "")
    tab.run("""(() => { const d = new DataTransfer(); d.setData('text', '∇Z←TWICE N\\nZ←2×N\\n∇\\nTWICE 2');
        document.getElementById('line').dispatchEvent(new ClipboardEvent('paste', { clipboardData: d, bubbles: true, cancelable: true })); })()""")
    tab.until("document.getElementById('functions').textContent.includes('TWICE')")
    has(tab.transcript(), "      ∇Z←TWICE N\n[1]   Z←2×N\n[2]   ∇\n")
    tab.press("Enter")
    tab.until("document.getElementById('transcript').textContent.endsWith('TWICE 2\\n4\\n')")
    tab.close()
    return ""


def language_bar(trial: Trial) -> str:
    """The bar types by the mouse and by the keyboard, and tells each character's name, key and example."""
    tab = trial.tab("bar")
    tab.click("#bar button[aria-label='count, index of']")
    tab.keys("5")
    tab.press("Enter")
    tab.until("document.getElementById('transcript').textContent .endsWith('      ⍳5\\n1 2 3 4 5\\n')")
    has(tab.text("hint"), "key ` i")
    has(tab.run("document.querySelector('#bar button[aria-label=\"count, index of\"]').title"), "⍳5 gives 1 2 3 4 5")
    tab.run("document.querySelector('#bar button').focus()")
    tab.press("ArrowRight")
    same(tab.run("document.activeElement.textContent"), "<")
    tab.press("Enter")
    same(tab.run("[document.activeElement.id, document.getElementById('line').value].join()"), "line,<")
    tab.close()
    return ""


def interrupted(trial: Trial) -> str:
    """A line that doesn't end is interrupted by the button and by the key, within a second."""
    tab, took = trial.tab("interrupt"), []
    tab.typed(*LOOP)
    ways: list[Callable[[], None]] = [lambda: tab.click("#interrupt"), lambda: tab.press("c", CTRL, "KeyC")]
    for way in ways:
        tab.enter("LOOP")
        tab.until("!document.getElementById('interrupt').disabled")
        time.sleep(0.3)
        same(tab.text("state"), "Running")
        begun = time.monotonic()
        way()
        tab.settled()
        took.append(time.monotonic() - begun)
        has(tab.transcript(), "INTERRUPT\nLOOP[1] →1\n")
        tab.typed("→")
    tab.close()
    in_time(max(took), 1)
    return f"after {max(took) * 1000:.0f} ms"


def flood(trial: Trial) -> str:
    """What writes without end is interrupted within a second too, and the page shows a part of it."""
    tab = trial.tab("flood")
    tab.typed("∇FLOOD", "⎕←⍳1000", "→1", "∇")
    tab.enter("FLOOD")
    time.sleep(1.5)
    begun = time.monotonic()
    tab.click("#interrupt")
    tab.settled()
    took = time.monotonic() - begun
    has(tab.transcript(), "INTERRUPT\nFLOOD[")
    in_time(took, 1)
    if len(tab.transcript()) > 1_000_000:
        raise AssertionError(f"{len(tab.transcript())} characters")
    tab.close()
    return f"after {took * 1000:.0f} ms"


def functions_and_variables(trial: Trial) -> str:
    """The side tells what there is; a function is read and changed in its window."""
    tab = trial.tab("side")
    tab.typed(*HALF, "M←2 3⍴⍳6", "T←'AB'")
    same(tab.run("[...document.querySelectorAll('#variables li')].map(it => it.textContent).join(';')"), "M numbers, 2 by 3;T characters, 2")
    tab.click("#functions button")
    tab.until("!document.getElementById('listing').hidden")
    tab.click("#listing header button")
    tab.until("document.getElementById('function').open")
    same(tab.run("document.querySelector('#function textarea').value"), "Z←HALF N\nZ←N÷2\n")
    tab.run("document.querySelector('#function textarea').value = 'Z←HALF N\\nZ←(N-2|N)'; document.querySelector('#function textarea').setSelectionRange(99, 99)")
    tab.keys("`=")
    tab.click("#function .bar button[aria-label='sign of a negative number']")
    same(tab.run("document.querySelector('#function textarea').value"), "Z←HALF N\nZ←(N-2|N)÷¯")
    tab.run("document.querySelector('#function textarea').setRangeText('2', 19, 20, 'end')")
    tab.click("#define")
    tab.until("document.getElementById('transcript').textContent.includes('[2]   ∇')")
    tab.until("!document.getElementById('function').open")
    has(tab.typed("HALF 7"), "3\n")
    tab.click("#variables button")
    tab.until("document.getElementById('transcript').textContent.endsWith('      M\\n1 2 3\\n4 5 6\\n')")
    tab.typed("∇OPEN")
    tab.click("#variables button")
    tab.until("document.getElementById('told').textContent.startsWith('A definition is open')")
    has(tab.typed("∇"), "[1]   ∇")
    tab.close()
    return ""


def guide(trial: Trial) -> str:
    """The tutorial's steps are typed, and a sample workspace opens with its page."""
    tab = trial.tab("start")
    for title, workspace in (("Tutorial", "tutorial"), ("A bill that is half-done", "stepper")):
        tab.click("#guides summary")
        tab.until("document.querySelector('#guides button')")
        tab.run(f"[...document.querySelectorAll('#guides button')].find(it => it.textContent === {title!r}).click()")
        tab.until(f"document.getElementById('name').textContent === {workspace!r}")
        tab.settled()
        tab.until(f"document.querySelector('#guide header')?.textContent.includes({title!r})")
    tab.until("document.getElementById('levels').textContent.startsWith('LESS[3] suspendedZ←PRICE-OFF÷100ITEM[2]')")
    tab.run("[...document.querySelectorAll('#guide footer button')].find(it => it.textContent === 'Next').click()")
    tab.run("[...document.querySelectorAll('#guide footer button')].find(it => it.textContent === 'Type these lines').click()")
    tab.until("document.getElementById('transcript').textContent.includes('      )SI\\nLESS[3] *\\nITEM[2]\\nBILL[4]\\n')")
    tab.run("document.querySelector('#guide select').value = '2'; document.querySelector('#guide select').dispatchEvent(new Event('change'))")
    same(tab.run("document.querySelector('#guide h2').textContent"), "Going on")
    tab.run("[...document.querySelectorAll('#guide footer button')].find(it => it.textContent === 'Next').click()")
    tab.run("[...document.querySelectorAll('#guide button')].find(it => it.textContent === 'Open it anew').click()")
    tab.until("document.getElementById('name').textContent === 'stepper-2'")
    tab.settled()
    tab.until("document.querySelector('#guide h2')?.textContent === 'Mending'")
    tab.run("[...document.querySelectorAll('#guide footer button')].find(it => it.textContent === 'Type these lines').click()")
    tab.until("document.getElementById('transcript').textContent.includes('TO PAY: 3400\\n')")
    tab.close()
    return ""


def asks_no_other_host(trial: Trial) -> str:
    """The page asks no host but its own, and breaks no policy."""
    for url in (trial.site, trial.file):
        begin = len(trial.browser.events)
        tab = trial.tab("hosts", url)
        has(tab.typed("2+3×4"), "14\n")
        events = [it for it in trial.browser.events[begin:] if it.get("sessionId") == tab.session]
        asked = [it["params"]["request"]["url"] for it in events if it["method"] == "Network.requestWillBeSent"]
        own = url.rsplit("/", 1)[0]
        same([it for it in asked if not it.startswith((own, "blob:", "data:"))], [])
        same([it["params"]["entry"]["text"] for it in events if it["method"] == "Log.entryAdded" and "favicon" not in str(it)], [])
        refused = tab.run("fetch('http://127.0.0.1:1/').then(() => 'went', it => it.name + (document.querySelector('meta[http-equiv]') ? '' : '!'))")
        same(refused, "TypeError")
        same(tab.run("typeof navigator.locks.request + isSecureContext"), "functiontrue")
        tab.close()
    return ""


def own_font(trial: Trial) -> str:
    """Each character of the language is drawn by the font that the page brings."""
    tab = trial.tab("font")
    tab.enter("⍝ !\"#$%&'()*+,-./0123456789:;<=>?@AZ[\\]^_`az{|}~¯×÷←↑→↓∆∇∊∘∧∨≠≤≥⊖⊤⊥⌈⌊⌽⌿⍀⍉⍋⍎⍒⍕⍙⍝⍱⍲⍳⍴⎕")
    tab.until("document.querySelector('#transcript .typed')")
    tab.ask("CSS.enable")
    document = tab.ask("DOM.getDocument")["root"]["nodeId"]
    node = tab.ask("DOM.querySelector", nodeId=document, selector="#transcript .typed")["nodeId"]
    fonts = tab.ask("CSS.getPlatformFontsForNode", nodeId=node)["fonts"]
    same([it["isCustomFont"] for it in fonts], [True])
    tab.close()
    return str(fonts[0]["familyName"])


LINES_IN_TIME = """(async () => {
    const form = document.getElementById('form'), line = document.getElementById('line'), transcript = document.getElementById('transcript'), times = [];
    for (let i = 0; i < 100; i++) {
        line.value = `2+3×${i}`;
        const wanted = `${2 + 3 * i}\\n`, begun = performance.now();
        form.requestSubmit();
        await new Promise(done => {
            const watch = new MutationObserver(() => {
                if (transcript.lastChild.textContent !== wanted) return;
                watch.disconnect();
                done();
            });
            watch.observe(transcript, { childList: true });
        });
        times.push(performance.now() - begun);
        await new Promise(done => setTimeout(done, 15));
    }
    return times.sort((a, b) => a - b)[50];
})()"""


def line_in_time(trial: Trial) -> str:
    """A line is answered in under 2 ms from its key: the median of a hundred lines, at the best of three times."""
    tab = trial.tab("time")
    medians = [tab.run(LINES_IN_TIME) for _ in range(3)]
    tab.close()
    in_time(min(medians) / 1000, 0.002)
    return f"{min(medians):.2f} ms"


ALL: list[Callable[[Trial], str]] = [
    opened_from_disk, keys_of_the_line, language_bar, interrupted, flood, functions_and_variables, guide, asks_no_other_host, own_font,
    line_in_time,
]
