"""What the user is told and asked."""
from __future__ import annotations

import textwrap
import unicodedata
from typing import List, Protocol

from apl import Fault, Line
from apl.answers import COMMAND, DEFN
from apl.arrays import LANGUAGE
from apl.commands import CLEAR
from apl_terminal.journal import Past

# So many lines are shown before they are played again, and three times as many of what they write then.
SHOWN = 8


class FrontEnd(Protocol):
    """What the user sees and answers."""

    def show(self, lines: List[Line]) -> None:
        """Shows what a line writes."""

    def tell(self, text: str) -> None:
        """Tells something of the terminal's own."""

    def ask(self, text: str, default: bool) -> bool:
        """Asks a question for yes or no. Raises Gone where the user goes without an answer."""

    def width(self) -> int:
        """Tells how many characters a line has room for."""


class Gone(Exception):
    """The user went without an answer, or closed the window while lines were played again: all stays as it is."""


def prompted(next_line: int) -> str:
    """Returns the prompt: six blanks, or the number of the line within a definition."""
    return f"[{next_line}]".ljust(6) if next_line else " " * 6


def question(past: Past, name: str, path: str, is_changed: bool) -> str:
    """Returns what is asked before lines are played again."""
    count, since = len(past.lines), f"since {name} was saved" if past.base else f"in {name}"
    since = "in a workspace without a name" if name == CLEAR else since
    found = [f"{count} line{'s' * (count != 1)} {'were' if count != 1 else 'was'} typed {since}, and not saved:"]
    if past.workspace is not None:
        found = [f"What was done {since} is not saved{', and ended with' if count else '.'}"]
    found += [f"      .. {count - SHOWN} before"] if count > SHOWN else []
    found += ["      " + "".join(c if c.isprintable() else "\N{REPLACEMENT CHARACTER}" for c in it.line) for it in past.lines[-SHOWN:]]
    if past.lines and not past.lines[-1].has_ended:
        found.append("The last one may have been running still; Ctrl-C interrupts it.")
    if not past.is_whole:
        found.append(f"The journal {path} is damaged from there on; it is kept.")
    if is_changed:
        found.append(f"But {name} was changed since by another program, so this may come to something else.")
    return "\n".join([*found, "Play them again?" if count else "Go on with it?"])


def hint(line: str, fault: Fault, next_line: int) -> str:
    """Returns what is told below a report that is a name alone: why, and what to do next. next_line is that of an open definition, or 0."""
    if fault.number == COMMAND:
        return ")HELP lists the commands"
    if fault.number == DEFN:
        return why_refused(line.strip(" "))
    wrong = ", ".join(described(it) for it in dict.fromkeys(line) if it not in LANGUAGE)
    what_next = f"line {next_line} is still to be typed" if next_line else ")HELP KEYS shows those that are"
    return f"no character of the language: {wrong}; {what_next}"


def why_refused(line: str) -> str:
    """Returns why a line that is to open a definition or to show a function is refused."""
    if line == "∇":
        return "no definition is open that it could close"
    if line.endswith("∇"):
        return "there is no such function: )FNS lists those that are"
    return "no header, or its name stands for something that is no function: )HELP HEADERS tells what one is"


def described(character: str) -> str:
    """Returns a character, if it can be seen, and its name or number."""
    name = "tab" if character == "\t" else unicodedata.name(character, "").lower() or f"U+{ord(character):04X}"
    return f"{character} ({name})" if character.isprintable() else name


def wrapped(text: str, width: int, indent: int = 0) -> str:
    """Returns text whose lines of prose are broken between words where they are wider, with an indent before what follows. Without an indent,
    a line with two blanks in a row is no prose."""
    breaks = textwrap.TextWrapper(max(width, 2 * indent), subsequent_indent=" " * indent, break_long_words=False, break_on_hyphens=False)
    lines = text.split("\n")
    return "\n".join(it if len(it) <= width or "  " in it and not indent else breaks.fill(it) for it in lines)


def laid(lines: List[Line], width: int) -> List[str]:
    """Returns lines as they are shown: where that of a report is wider than the window, the caret is under its part of it."""
    found: List[str] = []
    for it in lines:
        if it.kind == "report" and it.text.strip(" ") == "^" and found and len(found[-1]) > width:
            text, place = found.pop(), len(it.text) - 1
            parts = [text[at:at + width] for at in range(0, len(text), width)]
            parts.insert(place // width + 1, " " * (place % width) + "^")
            found += parts
        else:
            found.append(it.text)
    return found
