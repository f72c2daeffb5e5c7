"""The characters of the language, with the keys that type them, and how what is typed goes on."""
import re
from dataclasses import dataclass
from pathlib import Path
from typing import Dict, List, Sequence, Tuple

from apl.commands import MACHINE, SYSTEM, WORDS

TOP = Path(__file__).resolve().parents[3]
COMMANDS = tuple(sorted((*MACHINE, *WORDS)))
LETTERS = "A-Za-z∆⍙_"
FILE = re.compile(r"(?:^|\n) *\)(?:LOAD|SAVE|WSID) +(\S*)$", re.IGNORECASE)
WORD = re.compile(rf"(?:(?:(?<=\n)|^) *\)|⎕|[{LETTERS}])?[{LETTERS}0-9]*$")


@dataclass(frozen=True)
class Sign:
    """A character of the language: the key behind the backquote, what it is, and an example with what that gives, "" for none."""

    key: str
    character: str
    meaning: str
    example: str = ""
    gives: str = ""

    def told(self) -> str:
        """Returns a line that tells all of it."""
        example = f"   {self.example}  gives  {self.gives}" if self.example else ""
        return f"{self.character}  {self.meaning}   key ` {self.key}{example}"


def signs(top: Path = TOP) -> List[Sign]:
    """Returns the characters of share/keys.txt, with the examples of share/page/examples.txt."""
    lines = (top / "share/page/examples.txt").read_text(encoding="utf-8").splitlines()
    examples = {it[0]: it[1:] for it in (line.split("\t") for line in lines) if len(it) == 3}
    keys = (top / "share/keys.txt").read_text(encoding="utf-8").splitlines()
    found = [line.split(" ", 2) for line in keys if line[1:2] == " "]
    return [Sign(key, character, meaning, *examples.get(character, ("", ""))) for key, character, meaning in found]


@dataclass(frozen=True)
class Completion:
    """How what stands before the cursor goes on: the texts that may take the place of its last characters, and what they are."""

    texts: List[str]
    length: int
    kind: str


class Words:
    """What can be typed."""

    def __init__(self, known: Sequence[Sign]) -> None:
        self.by_key: Dict[str, Sign] = {it.key: it for it in known}

    def complete(self, before: str, names: Sequence[str], files: Sequence[str]) -> Completion:
        """Returns how what stands before the cursor goes on, where these are the names of the workspace and of those with a file."""
        if before.endswith("`") and not before.endswith("``"):
            return Completion([it.character for it in self.by_key.values()], 1, "character")
        if before[-2:-1] == "`" and before[-1] in self.by_key:
            return Completion([self.by_key[before[-1]].character], 2, "character")
        named = FILE.search(before)
        if named:
            return Completion([it for it in files if it.startswith(named[1])], len(named[1]), "workspace")
        found = WORD.search(before)
        word = found[0].lstrip(" ") if found else ""
        choice, wanted = self.choice(word, names)
        return Completion([it for it in choice if it.startswith(wanted)], len(word), "name")

    @staticmethod
    def choice(word: str, names: Sequence[str]) -> Tuple[Sequence[str], str]:
        """Returns the words of which one may be meant, and how that begins."""
        if word.startswith(")"):
            return COMMANDS, word.upper()
        return (SYSTEM, word.upper()) if word.startswith("⎕") else (sorted(names) if word else [], word)
