"""That nothing is lost: reloads, tabs, files and workers that end, tried in a headless Chromium. Each function tries one thing, and raises where it
isn't so."""
import json
import subprocess
import time
from pathlib import Path

from trial import HALF, LOOP, Trial, download, has, same, saved


def definition_prompt(trial: Trial) -> str:
    """Within a definition the prompt is the line's number, after a reload too."""
    tab = trial.tab("prompt")
    tab.typed("∇Z←F X", "Z←X+1")
    same(tab.text("prompt"), "[2]   ")
    saved(tab)
    tab.reload()
    same(tab.text("prompt"), "[2]   ")
    has(tab.typed("Z←2×Z", "∇", "F 4"), "10\n")
    same(tab.text("prompt"), "      ")
    tab.close()
    return ""


def reloaded(trial: Trial) -> str:
    """A call that is suspended goes on after a reload."""
    tab = trial.tab("reload")
    tab.typed(*HALF, "1+HALF 7")
    tab.until("document.getElementById('levels').textContent === 'HALF[1] suspendedZ←N÷2'")
    same(tab.run("document.querySelectorAll('#transcript .fault').length"), 1)
    saved(tab)
    tab.reload()
    has(tab.transcript(), "DOMAIN ERROR\n")
    has(tab.text("levels"), "HALF[1]")
    has(tab.typed("N←8"), "N←8")
    tab.click("#resume")
    tab.until("document.getElementById('transcript').textContent.endsWith('→⎕LC\\n5\\n')")
    tab.until("document.getElementById('resume').disabled")
    tab.close()
    return ""


def two_tabs(trial: Trial) -> str:
    """A second tab of a workspace is told, and opens it when the first is closed; so on a host and from the disk."""
    for url in (trial.site, trial.file):
        first = trial.tab("twice", url)
        first.typed("A←7")
        saved(first)
        second = trial.tab("twice", url)
        has(second.text("banner"), "open in another tab")
        second.enter("A←8")
        same(second.transcript(), "")
        first.close()
        second.until("document.getElementById('state').textContent === 'Ready'")
        second.run("document.getElementById('line').value = ''")
        has(second.typed("A"), "7\n")
        second.close()
    return ""


def downloaded(trial: Trial) -> str:
    """The file that the page gives is one that the native program goes on with."""
    tab = trial.tab("download")
    tab.typed(*HALF, "1+HALF 7")
    path = download(trial, tab)
    same(json.loads(path.read_text(encoding="utf-8"))["contexts"][0]["line"], "1+HALF 7")
    tab.close()
    if not trial.program:
        return "no native program was given to read it"
    ran = subprocess.run([trial.program, str(path)], input="N←8\n→⎕LC\n".encode(), stdout=subprocess.PIPE, check=True)
    same(ran.stdout.decode(), "5\n")
    return "read by the native program"


def opened_file(trial: Trial) -> str:
    """A file opens as a workspace of its own; a damaged one is told, and the session stays."""
    path = Path(trial.room) / "given.json"
    path.write_text('{"contexts":[],"functions":[],"io":0,"variables":[{"name":"B","value":{"nums":[7],"shape":[]}}],"version":2}', encoding="utf-8")
    damaged = Path(trial.room) / "damaged.json"
    damaged.write_text("[" * 100_000, encoding="utf-8")
    tab = trial.tab("open")
    tab.typed("A←7")
    tab.choose(str(damaged))
    tab.until("document.getElementById('banner').textContent.includes('damaged.json is refused')")
    has(tab.typed("A+1"), "8\n")
    tab.choose(str(path))
    tab.until("document.getElementById('name').textContent === 'given'")
    tab.settled()
    has(tab.typed("B,⍳2"), "7 0 1\n")
    tab.go(trial.file + "#open")
    has(tab.typed("A"), "7\n")
    tab.close()
    return ""


def worker_that_dies(trial: Trial) -> str:
    """Where the worker ends the page says so, shows the lines that are not done, and goes on from what was kept."""
    tab = trial.tab("dies")
    tab.typed(*LOOP, "A←7")
    saved(tab)
    tab.enter("LOOP")
    tab.until("!document.getElementById('interrupt').disabled")
    trial.browser.ask("Runtime.enable", tab.worker())
    trial.browser.ask("Runtime.evaluate", tab.worker(), expression="setTimeout(() => { throw new Error('on purpose'); })")
    tab.until("document.getElementById('transcript').textContent.includes('The machine was begun again')")
    tab.settled()
    same(tab.run("[...document.querySelectorAll('#transcript .undone')].map(it => it.textContent).join()"), "      LOOP\n")
    has(tab.typed("A"), "7\n")
    tab.close()
    return ""


def stopped_by_force(trial: Trial) -> str:
    """A step that takes long is stopped by force, by a second press."""
    tab = trial.tab("force")
    tab.typed("A←7", "M←1000 1000⍴⍳7")
    time.sleep(0.5)
    tab.until("document.getElementById('kept').textContent.includes('2,0')")
    tab.enter("⍴M+.×M")
    tab.until("!document.getElementById('interrupt').disabled")
    tab.click("#interrupt")
    tab.until("document.getElementById('interrupt').textContent === 'Stop by force' || document.getElementById('interrupt').disabled", 5)
    if tab.run("document.getElementById('interrupt').disabled"):
        tab.close()
        return "the step ended before it could be tried"
    tab.click("#interrupt")
    tab.until("document.getElementById('transcript').textContent.includes('The machine was begun again')", 2)
    tab.settled()
    has(tab.typed("A,⍴M"), "7 1000 1000\n")
    tab.close()
    return ""


def overtaken(trial: Trial) -> str:
    """What another page wrote isn't written over, though there be no lock: the page says that it keeps nothing more."""
    tab = trial.tab("overtaken")
    tab.typed("A←7")
    saved(tab)
    tab.run("""new Promise(done => {
        const begun = indexedDB.open('apl', 1);
        begun.onsuccess = () => {
            const notes = begun.result.transaction('notes', 'readwrite').objectStore('notes'), had = notes.get('overtaken');
            had.onsuccess = () => { notes.put({ ...had.result, written: had.result.written + 1, history: ['ANOTHER'] }, 'overtaken').onsuccess = done; };
        };
    })""")
    tab.typed("A←8")
    tab.until("document.getElementById('banner').textContent.includes('another page has written')")
    tab.reload()
    has(tab.typed("A"), "7\n")
    tab.close()
    return ""


def large_workspace(trial: Trial) -> str:
    """A large workspace is written in pauses; a line that was typed just before the page is left is done there, or shown to be typed again."""
    tab = trial.tab("large")
    tab.typed(*(f"{name}←(⍳1000000)+123456789012" for name in "ABC"))
    tab.until("document.getElementById('kept').textContent.includes(', 39,0')")
    begun = time.monotonic()
    tab.enter("X←5")
    tab.until("document.getElementById('transcript').textContent.endsWith('X←5\\n')")
    took = time.monotonic() - begun
    time.sleep(0.1)
    tab.reload()
    undone = "      X←5\n" in tab.run("[...document.querySelectorAll('#transcript .undone')].map(it => it.textContent)")
    tab.until("document.getElementById('variables').textContent.includes('C numbers, 1000000')")
    if undone:
        tab.run("[...document.querySelectorAll('#banner button')][0].click()")
    tab.until("document.getElementById('variables').textContent.includes('X a number')")
    tab.close()
    return f"answered in {took * 1000:.0f} ms, then {'shown again' if undone else 'kept'}"


ALL = [definition_prompt, reloaded, two_tabs, downloaded, opened_file, worker_that_dies, stopped_by_force, overtaken, large_workspace]
