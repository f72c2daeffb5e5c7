"""What the page shows of this repository: the keys, an example of each character, the tutorial and the sample workspaces."""
import gzip
import json
import re
from pathlib import Path
from typing import Any

from modules import TOP, script

SHARE = Path(TOP) / "share"
PLAIN = ("```sh", "```")
# What the documents say of a terminal, and what the page says instead.
OF_A_TERMINAL = re.compile(r" `bin/apl-terminal [^`]*` opens it[^.]*\.|, at a terminal or \[in a browser\].*? too(?=\.)|^`\)EDIT WAIT` .*? written\. ")
TYPING = """\
A character of the language is typed by a backquote and a key: `` `- `` is `×`, `` `i `` is `⍳`, `` `r `` is `⍴`, `` `[ `` is `←`, `` `2 `` is `¯`, \
`` `g `` is `∇`, `` `l `` is `⎕`. The bar above the session has them all, and tells the key of each. The arrow keys bring back earlier lines, Tab \
completes names. A click on a line of this page takes it to be typed, and the button below types all lines of a step."""
# A line has a bound of steps there, and none here.
BOUND = """\
A line may run without end. At the terminal and in the page Ctrl-C interrupts it, and it is suspended as after a fault. The program itself, \
where it reads lines from a file, does so after a million steps."""
NO_BOUND = "A line that doesn't end is ended by the button Interrupt, and is suspended as after a fault. The lines behind it are then offered again."
# Sections of the reference that are of the native program and of the terminal, and lines that are otherwise in the page.
OF_THE_PROGRAM = ("The program", "Commands of the terminal", "What there isn't")
IN_THE_PAGE = {
    "The line took more steps than it is given, and was cut off: 1,000,000, or as many as the program's word `--steps` says. A step is one phrase done "
    "or one line ended. The caret is under the first column.": "The line was ended by the button Interrupt. The caret is under the first column.",
    "| steps of a typed line | 1,000,000, or what `--steps` says; at the terminal, in a notebook and in the page no bound | INTERRUPT |":
        "| steps of a typed line | no bound | |",
    "| bytes of a line of input; lines of input | 2,000; 1,000,000 | the program ends |": "| bytes of a line | 2,000 | the line is not done |",
}
LEFT_OUT = ("At a terminal", "Keeping it for another day", "What comes next")


def keys() -> list[tuple[str, str, str]]:
    """Returns the keys behind the backquote: each with its character and what that is."""
    lines = (SHARE / "keys.txt").read_text(encoding="utf-8").splitlines()
    found = [line.split(" ", 2) for line in lines if line[1:2] == " "]
    return [(key, character, meaning) for key, character, meaning in found]


def examples() -> dict[str, tuple[str, str]]:
    """Returns an example by its character: what is typed, and what that gives."""
    lines = (SHARE / "page/examples.txt").read_text(encoding="utf-8").splitlines()
    found = [line.split("\t") for line in lines if "\t" in line]
    return {character: (typed, answer) for character, typed, answer in found}


def typed_lines(lines: list[str]) -> list[dict[str, Any]]:
    """Returns the lines of a session as a document has them, each with whether it is typed, and then without its six blanks."""
    check = script(f"{TOP}/bin/check-docs")
    found: list[dict[str, Any]] = []
    for entry in check.entries_of([("", line) for line in lines]):
        found += [{"typed": True, "text": it} for it in entry.typed]
        found += [{"typed": False, "text": it} for it in entry.answer]
    return found


def block(lines: list[str]) -> dict[str, Any]:
    """Returns a block of a page: a session, which may begin anew with the page's workspace, another listing, a table, or words."""
    if lines[0].startswith("```apl"):
        return {"kind": "apl", "anew": lines[0] == "```apl", "lines": typed_lines(lines[1:-1])}
    if lines[0] in PLAIN:
        return {"kind": "plain", "lines": lines[1:-1]}
    return {"kind": "table" if lines[0].startswith("|") else "text", "lines": lines}


def blocks(lines: list[str]) -> list[dict[str, Any]]:
    """Returns the blocks of a step of a page."""
    found: list[dict[str, Any]] = []
    taken: list[str] = []
    fenced = False
    for line in [*lines, ""]:
        fence = line.startswith("```")
        if taken and not fenced and (not line or fence):
            found.append(block(taken))
            taken = []
        if line or fenced:
            taken.append(line)
        if fence and fenced:
            found.append(block(taken))
            taken = []
        fenced ^= fence
    return found


def steps_of(title: str, found: list[dict[str, Any]]) -> list[dict[str, Any]]:
    """Returns the steps of a heading's blocks: a second session that begins anew is a step of its own, with the words before it."""
    parts: list[list[dict[str, Any]]] = [[]]
    for it in found:
        last = parts[-1]
        if it.get("anew") and any(before["kind"] == "apl" for before in last):
            words: list[dict[str, Any]] = []
            while last[-1]["kind"] != "apl":
                words.insert(0, last.pop())
            parts.append(words)
        parts[-1].append(it)
    return [{"title": f"{title} ({n})" if n > 1 else title, "blocks": part} for n, part in enumerate(parts, 1)]


def page(name: str, path: Path, workspace: str | None) -> dict[str, Any]:
    """Returns a page whose steps begin at its headings, with the workspace that it is of."""
    steps: list[dict[str, Any]] = []
    lines: list[str] = []
    title, *rest = path.read_text(encoding="utf-8").splitlines()
    heading = title = title.removeprefix("# ")
    for line in [*rest, "## "]:
        if not line.startswith("## "):
            line = OF_A_TERMINAL.sub("", line).replace(BOUND, NO_BOUND)
            lines.append(TYPING if line.startswith("APL's characters are typed by") else line)
            continue
        if heading not in LEFT_OUT:
            steps += steps_of(heading, blocks(lines))
        heading, lines = line[3:], []
    sessions = [it for step in steps for it in step["blocks"] if it["kind"] == "apl"]
    sessions[0]["anew"] = False
    return {"name": name, "title": title, "workspace": workspace, "steps": steps}


def symbols_of(text: str) -> list[str]:
    """Returns the system names, the commands and the characters of the language in the code of a text, an axis left aside."""
    found: list[str] = []
    for code in re.findall(r"`` (.+?) ``|`(.+?)`", text):
        it = code[0] or code[1]
        if it != "[K]":
            it = it.replace("[K]", "").replace("[⎕]", "")
        found += re.findall(r"⎕[A-Z]+|\)[A-Z]+|[^A-Za-z0-9 ]", it)
    return list(dict.fromkeys(found))


def entries() -> list[dict[str, Any]]:
    """Returns the entries of the reference, each with its section, its title and its blocks."""
    found: list[dict[str, Any]] = []
    section, lines = "", list[str]()
    title = ""
    for line in [*(Path(TOP) / "docs/REFERENCE.md").read_text(encoding="utf-8").splitlines(), "## "]:
        if not line.startswith(("## ", "### ")):
            lines.append(IN_THE_PAGE.get(line, line))
            continue
        if section and section not in OF_THE_PROGRAM and any(lines):
            shown = blocks(lines)
            for it in shown:
                it["anew"] = False
            found.append({"section": section, "title": title, "blocks": shown})
        if line.startswith("## "):
            section = line[3:]
        title, lines = line.lstrip("# "), []
    return found


def reference() -> dict[str, Any]:
    """Returns the entries of the reference, and which of them each symbol has: those whose titles have it, or else whose first words do."""
    found = entries()
    of: dict[str, list[int]] = {}
    for where in ("title", "words"):
        known = set(of)
        for n, it in enumerate(found):
            first = it["blocks"][0]
            text = it["title"] if where == "title" else " ".join(first["lines"]) if first["kind"] == "text" else ""
            if where == "words" and symbols_of(it["title"]):
                continue
            for symbol in symbols_of(text):
                if symbol not in known:
                    of.setdefault(symbol, []).append(n)
    return {"entries": found, "of": of}


def content() -> dict[str, Any]:
    """Returns all that the page shows of the repository."""
    pages = [page("tutorial", Path(TOP) / "docs/TUTORIAL.md", None)]
    for path in sorted((SHARE / "workspaces").glob("*.md")):
        pages.append(page(path.stem, path, path.with_suffix(".json").read_text(encoding="utf-8")))
    found = keys()
    return {
        "keys": [(key, character) for key, character, _ in found],
        "meanings": {character: meaning for _, character, meaning in found},
        "examples": examples(),
        "pages": pages,
        "reference": reference(),
    }


def packed() -> bytes:
    """Returns the content as the page holds it: JSON, by gzip."""
    return gzip.compress(json.dumps(content(), ensure_ascii=False, separators=(",", ":")).encode(), 9, mtime=0)
