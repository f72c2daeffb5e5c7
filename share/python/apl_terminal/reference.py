"""What docs/REFERENCE.md says of a symbol, for )HELP."""
from __future__ import annotations

import re
import textwrap
from pathlib import Path
from typing import List, Tuple

# A heading and the lines below it.
Section = Tuple[str, List[str]]
MOST = 4


def sections(path: Path) -> List[Section]:
    """Returns the sections of the third level."""
    found: List[Section] = []
    is_in = False
    for line in path.read_text(encoding="utf-8").splitlines():
        if line.startswith("### "):
            found.append((line[4:], []))
        is_in = bool(found) and (line.startswith("### ") or is_in and not line.startswith("## "))
        if is_in and not line.startswith("### "):
            found[-1][1].append(line)
    return found


def about(path: Path, word: str) -> List[Section]:
    """Returns the sections whose headings have a symbol, or a word in letters of either case; else those whose prose has it as code."""
    word = word.strip()
    if word.isalnum() and word.isascii() and len(word) == 1:
        return []
    is_symbol = len(word) == 1
    wanted = re.compile(re.escape(word) if is_symbol else rf"(?<![^\W_]){re.escape(word)}(?![^\W_])", re.I)
    found = [it for it in sections(path) if wanted.search(" ".join(re.findall("`([^`]*)`", it[0])) if is_symbol else it[0])]
    # where it begins what is described stands before where it is an axis or the like
    found.sort(key=lambda it: not re.search(f"`([A-Zf] ?)?{re.escape(word)}", it[0]))
    return found or [it for it in sections(path) if any(wanted.search(code) for code in re.findall("`([^`\n]+)`", prose(it)))]


def prose(section: Section) -> str:
    """Returns a section without its sessions."""
    return re.sub("^```.*?^```$", "", "\n".join(section[1]), flags=re.M | re.S)


def text(section: Section, width: int) -> List[str]:
    """Returns a section as it is shown: prose in lines of a width, sessions as they are."""
    heading, lines = section
    found, is_session = [plain(heading), ""], False
    for line in lines:
        if line.startswith("```"):
            is_session = not is_session
            found += [] if found[-1] == "" else [""]
        elif is_session:
            found.append(line)
        elif line.startswith("|"):
            found += [plain(line)] if not re.fullmatch("[|:-]+", line) else []
        else:
            found += textwrap.wrap(plain(line), width) or ([""] if found[-1] else [])
    while found[-1] == "":
        found.pop()
    return found


def plain(line: str) -> str:
    """Returns a line of Markdown without its marks."""
    line = re.sub(r"\[([^\]]*)\]\([^)]*\)", r"\1", line)
    return re.sub(r"\*\*([^*]*)\*\*|(?<!\w)\*([^*]+)\*(?!\w)", r"\1\2", line).replace("`", "")


def help_text(path: Path, word: str, width: int) -> List[str]:
    """Returns what is shown of a symbol or word."""
    if not path.exists():
        return [f"{path} isn't there, which has it"]
    found = about(path, word)
    if not found:
        return [f"the reference has nothing on {word}: {path}"]
    lines: List[str] = []
    for section in found[:MOST]:
        lines += [*text(section, width), ""]
    more = [plain(it[0]) for it in found[MOST:]]
    return [*lines[:-1], *(["", "See also: " + "; ".join(more)] if more else [])]
