"""The definitions in a crate's files of specs, and the functions whose contracts rest on one of them."""
from __future__ import annotations

import glob
import re
from collections.abc import Iterable

from bodies import bodies, names_of

# A definition begins in a line of its own margin, and goes on to the next one.
BEGINS = re.compile(r"(?m)^(?!use |mod |pub mod |--|\})(?:(?:abbrev|unfoldable|pub|record|data) )*([^\s(:]+)")
# What may stand between the parts of a name.
PART = r"[\w◌]"


def definitions(text: str) -> list[tuple[str, int, int]]:
    """Returns the names that a file of specs defines, each with where its lines begin and end. A name with several lines at the margin comes as
    often."""
    found = [(it[1], it.start()) for it in BEGINS.finditer(text)]
    ends = [*[begins for _, begins in found[1:]], len(text)]
    return [(name, begins, end) for (name, begins), end in zip(found, ends)]


def mentions(text: str, names: Iterable[str]) -> bool:
    """Whether a text has one of these names."""
    words = "|".join(map(re.escape, names))
    return bool(words) and bool(re.search(rf"(?<!{PART})(?:{words})(?!{PART})", text))


def resting_on(texts: Iterable[str], name: str) -> set[str]:
    """Returns the names in these files of specs whose definitions rest on that of a name, with the name itself."""
    known = [(defined, text[begins:ends]) for text in texts for defined, begins, ends in definitions(text)]
    found, new = {name}, {name}
    while new:
        new = {defined for defined, lines in known if defined not in found and mentions(lines, new)}
        found |= new
    return found


def read(path: str) -> str:
    with open(path, encoding="utf-8") as it:
        return it.read()


def functions_of(folder: str, file: str, known: Iterable[str]) -> set[str]:
    """Returns those of the checker's names of a crate's functions whose bodies stand in a source file."""
    return {name for body in bodies(read(f"{folder}/{file}")) for name in names_of(body, file, known)}


def functions_on(folder: str, file: str, at: int, known: Iterable[str]) -> set[str]:
    """Returns those of the checker's names of a crate's functions whose contracts rest on the definition at a place of a file of specs."""
    here = [name for name, begins, ends in definitions(read(f"{folder}/{file}")) if begins <= at < ends]
    if not here:
        return set()
    inside = glob.glob(f"{glob.escape(folder)}/specs/**/*.antt", recursive=True)
    names = resting_on(map(read, inside), here[0])
    found = set()
    for path in glob.glob(f"{glob.escape(folder)}/src/**/*.rt", recursive=True):
        source, text = path.removeprefix(f"{folder}/"), read(path)
        for body in bodies(text):
            # its contract stands between its name and its body
            head = text[text.rfind(f"fn {body.name}", 0, body.begins) : body.begins]
            if mentions(head, names):
                found |= names_of(body, source, known)
    return found
