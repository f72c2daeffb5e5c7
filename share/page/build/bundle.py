"""The page's scripts as one: each module becomes a function that is called once and gives what it exports, so that one script serves the page,
its worker, and a file that is opened from the disk."""
import re
from pathlib import Path

IMPORT = re.compile(r"^import \{ (.*?) \} from '\./(\w+)\.mjs';\n", re.M)
EXPORT = re.compile(r"^export (?=(?:async )?(?:class|function|const) )", re.M)
NAMED = re.compile(r"^export (?:(?:async )?(?:class|function) (\w+)|const (.*);)", re.M)


class NotBundled(Exception):
    """A module is written in a way that this script doesn't know."""


def exports(code: str) -> list[str]:
    """Returns the names that a module exports."""
    found: list[str] = []
    for named in NAMED.finditer(code):
        found += [named[1]] if named[1] else re.findall(r"(?:^|, )(\w+) =", named[2])
    return found


def bundled(modules: dict[str, str], entry: str) -> str:
    """Returns one script of modules, by their names, which begins as the module `entry` does."""
    order: list[str] = []
    parts: list[str] = []

    def add(name: str) -> None:
        if name in order:
            return
        code = modules[name]
        for _, other in IMPORT.findall(code):
            add(other)
        order.append(name)
        names = exports(code)
        code = EXPORT.sub("", IMPORT.sub(lambda it: f"const {{ {it[1]} }} = {it[2]}_;\n", code))
        if left := re.search(r"^(import|export)\b.*", code, re.M):
            raise NotBundled(f"{name}: {left[0]}")
        parts.append(f"const {name}_ = (() => {{\n{code}return {{ {', '.join(names)} }};\n}})();\n")

    add(entry)
    whole = f"(() => {{\n'use strict';\n{''.join(parts)}}})();\n"
    if "</script" in whole or "<!--" in whole:
        raise NotBundled("the script would end its element")
    return whole


def modules_of(folder: Path) -> dict[str, str]:
    """Returns the modules of a folder by their names."""
    return {it.stem: it.read_text(encoding="utf-8") for it in sorted(folder.glob("*.mjs"))}
