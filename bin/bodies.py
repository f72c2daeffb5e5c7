"""The bodies of functions in source files that rt fmt has laid out, and the names that the checker has for the functions."""
from __future__ import annotations

import dataclasses
import re
from collections.abc import Iterable, Iterator


@dataclasses.dataclass(frozen=True)
class Body:
    """The body of a function in a text that rt fmt has laid out: where it begins and ends, and the function's name with that of the type and of
    the trait whose impl it stands in, and whether the compiler may work it out."""

    begins: int
    ends: int
    name: str
    type: str = ""
    trait: str = ""
    is_const: bool = False


def bodies(text: str) -> Iterator[Body]:
    """Gives the bodies of a file's functions. A function ends with the first line that is a brace at its own margin."""
    for found in re.finditer(r"(?m)^( *)(?:pub(?:\([^)]*\))? )?(?:const )?(?:unsafe )?(?:extern \"C\" )?fn (\w+)", text):
        margin = found[1]
        end = re.compile(rf"(?m)^{margin}(?:\}}|\{{\}}$)").search(text, found.end())
        if not end:
            continue
        head = text[found.start() : end.end()]
        # (behind clauses the body's brace stands alone in its line, with its other one where nothing is between them)
        has_clauses = re.search(r"(?m)^\s*(requires|ensures|ghost)\b", head)
        opened = re.search(rf"(?m)^{margin}\{{\}}?$" if has_clauses else r"\{$", head, re.M)
        if not opened:
            continue
        owner = ""
        if margin:
            headers = re.findall(r"(?m)^(?:pub(?:\([^)]*\))? )?(?:impl|trait)\b[^{]*", text[: found.start()])
            owner = headers[-1] if headers else ""
        is_const = "const fn" in found[0]
        yield Body(found.start() + opened.start(), end.end(), found[2], *owner_of(owner), is_const)


def emptied(text: str, gone: Iterable[Body]) -> str:
    """Returns the text in which some bodies are never reached, so that they make no call and need no loans. No line moves."""
    parts, at = [], 0
    for body in sorted(gone, key=lambda it: it.begins):
        # (not one within another)
        if body.begins >= at:
            lines = text.count("\n", body.begins, body.ends)
            parts += [text[at : body.begins], "{ unreachable!()", "\n" * lines, "}"]
            at = body.ends
    return "".join([*parts, text[at:]])


def owner_of(header: str) -> tuple[str, str]:
    """Returns the names of the type and of the trait of an impl, by the text before its brace."""

    def last(path: str) -> str:
        plain = re.sub(r"<.*", "", path.strip().lstrip("&").strip())
        return plain.split("::")[-1].split()[-1] if plain.split() else ""

    if re.match(r"(?:pub(?:\([^)]*\))? )?trait\b", header):
        return last(re.sub(r".*?\btrait\s+", "", header).split(":")[0]), ""
    rest = re.sub(r"^impl\s*", "", header)
    if rest.startswith("<"):
        depth = 0
        for at, c in enumerate(rest):
            depth += (c == "<") - (c == ">" and rest[at - 1] != "-")
            if not depth:
                rest = rest[at + 1 :]
                break
    trait, found, of = rest.partition(" for ")
    return (last(of), last(trait)) if found else (last(trait), "")


def module_of(file: str) -> list[str]:
    """Returns the names of the modules that lead to a source file."""
    parts = file.removeprefix("src/").removesuffix(".rt").split("/")
    return parts[:-1] if parts[-1] in ("lib", "main", "mod") else parts


def names_of(body: Body, file: str, known: Iterable[str]) -> set[str]:
    """Returns those of the checker's names that a function's body may have. The checker names a method by the module of its type, which needn't be
    that of its impl."""
    modules = module_of(file)
    whole = [name.split("::") for name in known]
    named = [parts for parts in whole if parts[-1] == body.name]
    here = [parts for parts in named if parts[: len(modules)] == modules and is_named(parts[len(modules) : -1], body)]
    elsewhere = [parts for parts in named if body.type and is_named(parts[-2:-1], body)]
    # a name that types of several modules share tells nothing
    found = here or (elsewhere if len(elsewhere) == 1 else [])
    return {"::".join(parts) for parts in found}


def is_named(between: list[str], body: Body) -> bool:
    """Returns whether the checker has these words between the module and the name of a function with this body."""
    if not body.type:
        return not between
    if len(between) != 1:
        return False
    if not body.trait:
        return between[0] == body.type
    # (a type such as i8 has a great letter there)
    type = body.type[:1].upper() + body.type[1:]
    return between[0] != type and between[0].startswith(type) and body.trait in between[0]
