"""The keys behind the prefix ` (backquote), as share/keys.txt has them."""
from __future__ import annotations

from dataclasses import dataclass
from pathlib import Path
from typing import List

PREFIX = "`"


@dataclass(frozen=True)
class Key:
    """A key, the character that it types behind the prefix, and what that is."""

    key: str
    character: str
    name: str


def read(path: Path) -> List[Key]:
    """Returns the keys of a file like keys.txt."""
    rows = (it for it in path.read_text(encoding="utf-8").splitlines() if it[1:2] == " " and it[3:4] == " ")
    return [Key(it[0], it[2], it[4:]) for it in rows]


def table(keys: List[Key]) -> List[str]:
    """Returns which key types which character, two keys a line."""
    shown = [f"{PREFIX}{it.key}  {it.character}  {it.name}" for it in keys]
    return [f"  {left:<33}{right}".rstrip() for left, right in zip(shown[::2], [*shown[1::2], ""])]


def brief(keys: List[Key], width: int) -> List[str]:
    """Returns the keys and their characters in as few lines of a width as they need."""
    lines = [""]
    for it in keys:
        if it.character.isascii():
            continue
        if len(lines[-1]) + 5 > width:
            lines.append("")
        lines[-1] += f"{it.key} {it.character}   "
    return [it.rstrip() for it in lines]
