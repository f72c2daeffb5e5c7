"""That everybody can use the page: names, roles, contrast, the order of the focus, what is read aloud, a narrow window. Each function tries one thing
in a headless Chromium, and raises where it isn't so."""
from collections.abc import Iterator

from browser import Tab
from trial import HALF, Trial, has, same

SHIFT = 8
SIZES = ((1200, 780), (360, 740))
# What each text is drawn with, against what is behind it: those with a contrast under 4.5, and how many there are.
CONTRASTS = """(() => {
    const parsed = text => { const it = text.match(/[\\d.]+/g).map(Number); return it.length < 4 ? [...it, 1] : it; };
    const over = (upper, lower) => [0, 1, 2].map(i => upper[i] * upper[3] + lower[i] * (1 - upper[3])).concat(1);
    const behind = it => {
        const own = it ? parsed(getComputedStyle(it).backgroundColor) : [255, 255, 255, 1];
        return own[3] === 1 ? own : over(own, behind(it.parentElement));
    };
    const light = it => it.slice(0, 3).map(x => x / 255).map(x => x <= .04045 ? x / 12.92 : ((x + .055) / 1.055) ** 2.4)
        .reduce((sum, x, i) => sum + x * [.2126, .7152, .0722][i], 0);
    const opacity = it => it ? Number(getComputedStyle(it).opacity) * opacity(it.parentElement) : 1;
    const root = document.querySelector('dialog[open]') ?? document.body, walk = document.createTreeWalker(root, NodeFilter.SHOW_TEXT);
    const seen = [...root.querySelectorAll('input, textarea, select')];
    while (walk.nextNode()) if (walk.currentNode.data.trim()) seen.push(walk.currentNode.parentElement);
    const shown = [...new Set(seen)].filter(it => it.checkVisibility({ visibilityProperty: true }) && !it.closest('.unseen, option, script, [type=file]'));
    const weak = shown.map(it => {
        const behindIt = behind(it), own = parsed(getComputedStyle(it).color);
        const [a, b] = [light(over([...own.slice(0, 3), own[3] * opacity(it)], behindIt)), light(behindIt)].sort((x, y) => y - x);
        return [(a + .05) / (b + .05), it];
    });
    return [shown.length, weak.filter(it => it[0] < 4.5).map(([ratio, it]) => `${ratio.toFixed(2)} ${it.tagName} ${it.id} ${it.className} ${it.textContent.slice(0, 20)}`)];
})()"""
# What is wrong with the controls that are shown: too small to be met, beyond the window's sides, or a name that is told twice.
CONTROLS = """(() => {
    const root = document.querySelector('dialog[open]') ?? document.body, wrong = [];
    for (const it of root.querySelectorAll('button, summary, select, input, textarea')) {
        if (!it.checkVisibility() || it.type === 'file') continue;
        it.scrollIntoView({ block: 'nearest', inline: 'nearest' });
        const box = it.getBoundingClientRect(), told = `${it.tagName} ${it.id} ${it.textContent.slice(0, 20)}`;
        const inside = it.matches('.line') ? box.left >= 0 : box.left >= -1 && box.right <= innerWidth + 1;
        if (!inside || box.top < -1 || box.bottom > innerHeight + 1) wrong.push(`beyond: ${told} ${JSON.stringify(box)}`);
        if (box.height < 24 && !it.matches('.line, #line') || box.width < 24) wrong.push(`small: ${told} ${box.width} by ${box.height}`);
    }
    const ids = [...document.querySelectorAll('[id]')].map(it => it.id);
    wrong.push(...ids.filter((it, i) => ids.indexOf(it) !== i).map(it => `twice: ${it}`));
    for (const it of document.querySelectorAll('[aria-describedby], [for]'))
        if (!document.getElementById(it.getAttribute('aria-describedby') ?? it.htmlFor)) wrong.push(`of nothing: ${it.outerHTML.slice(0, 80)}`);
    if (root.scrollWidth > innerWidth || document.documentElement.scrollWidth > innerWidth) wrong.push(`as wide as ${document.documentElement.scrollWidth}`);
    const levels = [...document.querySelectorAll('h1, h2, h3')].filter(it => it.checkVisibility()).map(it => Number(it.tagName[1]));
    levels.forEach((it, i) => { if (it > (levels[i - 1] ?? 0) + 1) wrong.push(`a heading of level ${it} behind ${levels[i - 1]}`); });
    return wrong;
})()"""
# How the focused element is told: its name, and whether its focus is seen.
FOCUSED = """(() => {
    const it = document.activeElement, style = getComputedStyle(it), form = getComputedStyle(document.getElementById('form'));
    const isSeen = it.matches(':focus-visible') && style.outlineStyle === 'solid' && parseFloat(style.outlineWidth) >= 2
        || it.id === 'line' && form.boxShadow.includes('inset');
    return [it.id || it.dataset.at || it.textContent.slice(0, 20), isSeen];
})()"""
CHANGES = """(() => {
    window.changes = 0;
    const live = document.querySelectorAll('[role=status], [role=alert], [aria-live=polite], [aria-live=assertive]');
    for (const it of live) new MutationObserver(() => { window.changes++; }).observe(it, { childList: true, subtree: true, characterData: true });
    return live.length;
})()"""


def states(tab: Tab) -> Iterator[str]:
    """Brings the page into what it may show, one after the other, and tells which that is."""
    tab.typed(*HALF, "M←2 3⍴⍳6", "1 ⎕STOP 'HALF'", "HALF 8", "1+HALF 7", "→⎕LC")
    yield "a session with faults"
    tab.run("document.querySelector('#functions button').click()")
    tab.until("document.querySelector('#listing [aria-pressed=true]')")
    tab.run("document.querySelector(\"[data-at='TRACE 1']\").click()")
    tab.until("document.querySelectorAll('#listing [aria-pressed=true]').length === 2")
    yield "the lines of a function"
    tab.run("document.querySelector('#listing header button').click()")
    tab.until("document.getElementById('function').open")
    tab.run("document.querySelector('#function textarea').value = 'Z←HALF N\\n(N'; document.getElementById('define').click()")
    tab.until("document.querySelector('#function [role=alert]').textContent")
    yield "a definition that is refused"
    tab.run("document.getElementById('function').close(); document.getElementById('line').focus()")
    tab.keys("`/")
    tab.press("F1")
    tab.until("document.querySelectorAll('#help h3').length === 2")
    yield "the reference"
    tab.press("Escape")
    for menu in ("workspaces", "guides"):
        tab.run(f"document.querySelector('#{menu} summary').click()")
        tab.until(f"document.querySelector('#{menu} button')")
        yield f"the menu {menu}"
        tab.press("Escape")
        tab.run(f"document.querySelector('#{menu}').open = false")
    tab.run("[...document.querySelectorAll('#guides button')][0].click()")
    tab.until("document.getElementById('name').textContent.startsWith('tutorial')")
    tab.settled()
    tab.until("!document.getElementById('guide').hidden")
    yield "the tutorial"


def contrast(trial: Trial) -> str:
    """All texts have a contrast of 4.5 and more, and all controls are large enough and within the window: light and dark, wide and narrow."""
    count = 0
    for colours in ("light", "dark"):
        for width, height in SIZES:
            tab = trial.tab(f"{colours}-{width}", colours=colours, width=width, height=height)
            for state in states(tab):
                shown, weak = tab.run(CONTRASTS)
                same([state, colours, width, weak], [state, colours, width, []])
                same([state, colours, width, tab.run(CONTROLS)], [state, colours, width, []])
                count += shown
            tab.close()
    # A comparison that can't fail would show nothing.
    tab = trial.tab("weak")
    tab.run("document.getElementById('state').style.color = '#aaa'; document.getElementById('step').style.width = '10px'")
    same(len(tab.run(CONTRASTS)[1]), 1)
    has(str(tab.run(CONTROLS)), "small: BUTTON step")
    tab.close()
    return f"{count} texts"


def names(trial: Trial) -> str:
    """In Chromium's tree for screen readers each control has a name, each part its role, and nothing that can be focused is hidden."""
    tab, count = trial.tab("names"), 0
    tab.ask("Accessibility.enable")
    for state in states(tab):
        nodes = [it for it in tab.ask("Accessibility.getFullAXTree")["nodes"] if not it["ignored"]]
        told = [(it["role"]["value"], it.get("name", {}).get("value", "").strip()) for it in nodes]
        controls = [it for it in told if it[0] in ("button", "textbox", "link", "combobox", "dialog", "toolbar", "DisclosureTriangle", "region", "log")]
        same([state, [it for it in controls if not it[1]]], [state, []])
        focusable = [it for it in nodes if any(p["name"] == "focusable" and p["value"]["value"] for p in it.get("properties", []))]
        same([state, [it["role"]["value"] for it in focusable if it["role"]["value"] in ("generic", "none", "paragraph")]], [state, []])
        wanted = {("dialog", "A function")} if state.startswith("a definition") else {
            ("banner", ""), ("main", ""), ("contentinfo", ""), ("complementary", "The workspace"), ("heading", "APL"), ("log", "Transcript"), ("textbox", "A line of APL"),
            ("toolbar", "Characters of the language"), ("group", "The running session"), ("button", "Explain the symbol at the cursor")}
        same([state, wanted - set(told)], [state, set()])
        count += len(controls)
    same(tab.run("document.documentElement.lang + document.title"), "entutorial · APL")
    tab.close()
    return f"{count} controls"


def focus(trial: Trial) -> str:
    """The Tab key goes through all controls in the order in which they stand, one stop for each bar and for the marks of a function, and the focus is seen."""
    tab = trial.tab("focus")
    tab.typed(*HALF, "A←1", "HALF 7")
    tab.run("document.querySelector('#functions button').click()")
    tab.until("!document.getElementById('listing').hidden")
    tab.run("document.querySelector('summary').focus()")
    met: list[str] = []
    while "new-function" not in met:
        name, is_seen = tab.run(FOCUSED)
        same((name, is_seen), (name, True))
        met.append(name)
        tab.press("Tab")
        if len(met) > 60:
            raise AssertionError(f"the focus doesn't come to the end: {met}")
    tab.press("Tab", SHIFT)
    wanted = [
        "Workspace: focus", "Learn", "resume", "step", "give-up", "¯", "transcript", "line", "ask", "State indicator", "HALF[1] suspendedZ←N", "Edit", "Close", "STOP 1",
        "Variables", "A a number", "Functions", "HALF Z←HALF N", "new-function"]
    same(met, wanted)
    for name in reversed(wanted[:-1]):
        tab.press("Tab", SHIFT)
        same(tab.run(FOCUSED)[0], name)
    tab.close()
    return f"{len(wanted)} stops"


def read_aloud(trial: Trial) -> str:
    """Answers and faults are read aloud, once each, and no key that is pressed."""
    tab = trial.tab("aloud")
    tab.typed(*HALF)
    same(tab.run("document.getElementById('transcript').getAttribute('aria-live')"), "off")
    same(tab.run(CHANGES) >= 3, True)
    tab.keys("2+3`-4")
    tab.press("ArrowLeft")
    same(tab.run("window.changes"), 0)
    tab.press("Enter")
    tab.until("document.getElementById('told').textContent === '14'")
    same(tab.run("window.changes"), 1)
    tab.typed("14")
    same(tab.text("told"), "14\xa0")
    tab.typed("1+HALF 7")
    same(tab.text("told"), "DOMAIN ERROR: HALF[1] Z←N÷2, at ÷ divide")
    tab.typed("∇Z←F X")
    same(tab.text("told"), "Line 1 of the definition")
    tab.typed("∇", "⍳1000")
    has(tab.text("told"), "characters more")
    same(len(tab.text("told")) < 700, True)
    tab.close()
    return ""


ALL = [contrast, names, focus, read_aloud]
