"""The entries of docs/REFERENCE.md, found by what stands at the cursor."""
import re
from pathlib import Path
from typing import Dict, List

from aplkernel.words import TOP

NAME = "[A-Za-z∆⍙_][0-9A-Za-z∆⍙_]*"
# A number and a text are one token each, so that a name in a text is none.
TOKEN = re.compile(rf"'[^'\n]*'|⎕[A-Z]+|^ *\)[A-Za-z]+|{NAME}|¯?[0-9]+|[^ \n]", re.MULTILINE)
SPAN = re.compile("`([^`]+)`")
IN_SPAN = re.compile(r"⎕[A-Z]+|\)[A-Z]+|[^A-Za-z0-9 ]")
AXIS = re.compile(r"\[K\]$")
# Characters whose entry has a title in words.
TITLES = {"Comments": "⍝", "Texts": "'", "Numbers": "¯", "Names": "∆⍙_", "Branch and labels": ":→"}


def token_at(code: str, cursor: int) -> str:
    """Returns what stands before the cursor, or else at it: a name, a character of the language, a command; "" for none."""
    found = [it for it in TOKEN.finditer(code) if it.start() <= cursor <= it.end()]
    before = [it for it in found if it.start() < cursor]
    chosen = (before or found)[:1]
    text = chosen[0][0].strip(" ") if chosen else ""
    if text[:1] == ")" and len(text) > 1:
        return text.upper()
    return "'" if text[:1] == "'" else "¯" if re.fullmatch("¯?[0-9]+", text) else text


def signs_of(title: str) -> List[str]:
    """Returns what an entry with this title is found by."""
    found = list(TITLES.get(title, ""))
    for span in SPAN.findall(title):
        of_span = IN_SPAN.findall(AXIS.sub("", span) or span)
        # of a command's and of a definition's span the rest is how it is written
        found += of_span[:1] if span.startswith(")") else ["∇"] if "∇" in of_span else of_span
    return found


def entries(top: Path = TOP) -> Dict[str, List[str]]:
    """Returns the entries, as Markdown, by what they are found by."""
    found: Dict[str, List[str]] = {}
    text = (top / "docs/REFERENCE.md").read_text(encoding="utf-8")
    for part in re.split(r"^#(?=##? )", text, flags=re.MULTILINE)[1:]:
        if part.startswith("## "):
            title = part.split("\n", 1)[0][len("## "):]
            for sign in dict.fromkeys(signs_of(title)):
                found.setdefault(sign, []).append(part.strip())
    return found


def plain(entry: str) -> str:
    """Returns an entry without the marks of Markdown."""
    lines = [it for it in entry.split("\n") if not it.startswith("```")]
    return re.sub(r"\[([^\]]+)\]\([^)]*\)", r"\1", "\n".join(lines)).replace("`", "").removeprefix("## ")
