"""Mutants: edits of a crate's text that turn one meaning, which the prover must refuse; tried in batches, as many in one check as change
different functions. bin/mutants and bin/gate-cost share it.

A mutant is a file in crates/NAME/mutants (or must-fail) of the form that rt's own edits have: a line 'file: src/lib.rt', then pairs of lines
'old: TEXT' and 'new: TEXT', each old TEXT standing in that file once.
"""
from __future__ import annotations

import collections
import dataclasses
import enum
import functools
import glob
import hashlib
import json
import os
import re
import shutil
import signal
import subprocess
import tempfile
import threading
from collections.abc import Iterable, Iterator
from types import ModuleType
from typing import Any

import crates
from bodies import Body, bodies, emptied, names_of
from definitions import functions_of, functions_on

# What gives a check a lower priority than proofs have, which others wait for.
LATER = ("nice", "-n", "10")
# How often a check is tried that is killed, and the statuses that tell that it was.
TRIES = 3
KILLED = (-signal.SIGKILL, 128 + signal.SIGKILL)
# Counted up when something else counts as refused, so that what was kept before is tried anew.
FORM = 1


class Outcome(enum.Enum):
    """What came of a mutant."""

    REFUSED = "refused"
    # the checker's search for a proof came to a limit of its own, so it is not proved
    AT_LIMIT = "refused by a limit of the checker"
    # nothing but the names in a proof file refuses it, so it says nothing of a contract
    BY_NAMES = "refused by names of a proof file alone"
    SURVIVED = "survived"
    # it can't be applied, compiled or read
    BAD = "bad"
    # its check didn't end
    UNKNOWN = "not tried"

    @property
    def passes(self) -> bool:
        return self in (Outcome.REFUSED, Outcome.AT_LIMIT)


@dataclasses.dataclass(frozen=True)
class Told:
    """What came of a mutant, and the checker's words on it."""

    outcome: Outcome
    words: str = ""


@dataclasses.dataclass(frozen=True)
class Mutant:
    """An edit: what it replaces by what in which files, and the functions whose bodies it changes, by the names that the checker has for them
    below the crate. It has none where it changes anything else, as a constant, a contract, an invariant or a definition."""

    path: str
    pairs: tuple[tuple[str, str, str], ...]
    functions: frozenset[str]

    @property
    def name(self) -> str:
        return os.path.basename(self.path).removesuffix(".edit")


def pairs_of(text: str) -> tuple[tuple[str, str, str], ...]:
    """Returns the file, the old and the new text of each change of an edit."""
    file, old, pairs = "", "", []
    for line in text.split("\n"):
        if line.startswith("file: "):
            file = line[len("file: ") :].strip()
        elif line.startswith("old: "):
            old = line[len("old: ") :]
        elif line.startswith("new:"):
            pairs.append((file, old, line[len("new:") :].removeprefix(" ")))
    return tuple(pairs)


def read_mutant(path: str, folder: str, known: Iterable[str]) -> Mutant:
    """Reads an edit of the crate in a folder, whose functions the checker knows by these names."""
    with open(path, encoding="utf-8") as it:
        pairs = pairs_of(it.read())
    functions: set[str] = set()
    texts: dict[str, str] = {}
    for file, old, new in pairs:
        text = texts.get(file) or text_of(f"{folder}/{file}")
        found = functions_around(text, file, old, known)
        if not found:
            return Mutant(path, pairs, frozenset())
        functions |= found
        texts[file] = text.replace(old, new)
    return Mutant(path, pairs, frozenset(functions))


def around(text: str, file: str, old: str) -> list[Body]:
    """Returns the bodies in which an old text stands in a source file, the innermost last."""
    at = text.find(old)
    if not file.startswith("src/") or at < 0:
        return []
    return [it for it in bodies(text) if it.begins <= at and at + len(old.rstrip()) <= it.ends]


def functions_around(text: str, file: str, old: str, known: Iterable[str]) -> set[str]:
    """Returns those of the checker's names of functions in whose body an old text stands, if it stands in one."""
    return {name for it in around(text, file, old)[-1:] for name in names_of(it, file, known)}


def text_of(path: str) -> str:
    try:
        with open(path, encoding="utf-8") as it:
            return it.read()
    except OSError:
        return ""


def with_mutant(texts: dict[str, str], mutant: Mutant, folder: str) -> dict[str, str] | None:
    """Returns the texts with the mutant's changes, or None where an old text doesn't stand there once."""
    made = dict(texts)
    for file, old, new in mutant.pairs:
        text = made.get(file) or text_of(f"{folder}/{file}")
        if text.count(old) != 1:
            return None
        made[file] = text.replace(old, new)
    return made


def batch_of(mutants: list[Mutant], folder: str) -> tuple[list[Mutant], dict[str, str]]:
    """Returns as many of the mutants as change different functions, and the texts with all their changes."""
    chosen: list[Mutant] = []
    texts: dict[str, str] = {}
    taken: set[str] = set()
    for mutant in mutants:
        made = None if mutant.functions & taken else with_mutant(texts, mutant, folder)
        if made is not None:
            chosen.append(mutant)
            texts = made
            taken |= mutant.functions
    return chosen, texts


# What the checker says of a function, and of one whose proof says nothing, where no error is told of it, since it calls one that failed.
VERDICT = re.compile(r"^fn (\S+): (.*)$", re.M)
HIDDEN = re.compile(r"(no proof:|not proved;) it calls ")
ERROR = re.compile(r"note: \S+:\d+:\d+:|\S+:\d+:\d+:.*: error")
NAMES = re.compile(r"(note: )?(\./)?proofs/.*(has no field|is not in scope|has no `|was not admitted)")


def verdicts(said: str, crate: str) -> dict[str, str]:
    """Returns what the checker says of each function, by its name below the crate."""
    return {name.removeprefix(f"{crate}::"): what for name, what in VERDICT.findall(said)}


def own_words(said: str, function: str) -> list[str]:
    """Returns the errors and open goals that the checker tells in a function's own proof files."""
    folder = function.replace("::", "/")
    place = re.compile(rf"(?:note: )?(?:\./)?proofs/{re.escape(folder).replace('/', '/[+]?')}/\w+\.antt:\d+:\d+: (?!note)")
    return [line for line in said.split("\n") if place.match(line)]


def noted(said: str, mutant: Mutant, folder: str) -> list[str]:
    """Returns the checker's notes on what is not proved in the functions whose bodies a mutant changes. (An edit moves no line.)"""
    found = []
    for file, old, _ in mutant.pairs:
        text = text_of(f"{folder}/{file}")
        for body in around(text, file, old)[-1:]:
            head = text.rfind(f"fn {body.name}", 0, body.begins)
            lines = range(text.count("\n", 0, head) + 1, text.count("\n", 0, body.ends) + 2)
            notes = re.finditer(rf"(?m)^note: {re.escape(file)}:(\d+):\d+: it is not proved that.*", said)
            found += [it[0] for it in notes if int(it[1]) in lines]
    return found


def judged(mutant: Mutant, told: dict[str, str], said: str, folder: str) -> Told | None:
    """Returns what a check of a batch says of one of its mutants, or None where it says nothing of it: it proves the functions that the mutant
    changes, it did not look at their proofs, or it has nothing but the names in their proof files against them."""
    # a closure's name is that of its function, behind the word fn
    mine = {name: what for name, what in told.items() if any(is_within(name, it) for it in mutant.functions)}
    for name, what in mine.items():
        words = own_words(said, name)
        others = [*[it for it in words if not NAMES.match(it)], *noted(said, mutant, folder)]
        if what.startswith(("not proved", "no proof")) and (others or not HIDDEN.match(what)):
            if words and not others and not re.search(r"(?m)^note: src/\S+: it is not proved that", said):
                # the whole crate may still have more against it
                return None
            return Told(Outcome.REFUSED, (others or [f"{name}: {what}"])[0])
    for name, what in mine.items():
        if what.startswith("could not tell"):
            return Told(Outcome.AT_LIMIT, f"{name}: {what}")
    return None


def is_within(name: str, function: str) -> bool:
    parts = [it.lstrip("+") for it in name.split("::") if it != "fn"]
    wanted = [it.lstrip("+") for it in function.split("::")]
    return parts[: len(wanted)] == wanted


def linked(rt: ModuleType, kept: str, over: str) -> None:
    """Copies a folder of kept work. Some toolchains have a quicker way."""
    getattr(rt, "linked", shutil.copytree)(kept, over)


def seeded(rt: ModuleType, crate: Any) -> str | None:
    """Returns a folder with the crate's proof below seed/, where the toolchain kept it."""
    return rt.seeded(crate, ["--jobs", "1"]) if hasattr(rt, "seeded") else None


def store(rt: ModuleType) -> str:
    """Returns the folder of what is kept on this machine: the toolchain's, where it has one."""
    caches = os.environ.get("XDG_CACHE_HOME") or os.path.expanduser("~/.cache")
    return getattr(rt, "STORE", f"{caches}/nadrizom")


def own_sum(rt: ModuleType, crate: Any) -> str:
    """Returns a sum of a crate's own files, of the names of what it stands on, and of the toolchain."""
    if hasattr(rt, "own_sum"):
        return rt.own_sum(crate)
    parts = [f"{crate.folder}/{it}" for it in rt.rtlib.PARTS]
    below = [*crate.of_kit, *(it.name for it in crate.deps)]
    return repr((crate.name, below, text_of(f"{rt.rtlib.KIT}/KIT-ID"), sum_of(parts)))


def check(rt: ModuleType, crate: Any, folder: str, words: list[str]) -> tuple[int, str]:
    """Checks the crate's files in a folder by the checker with these words, and returns the status and what was said. A check that is killed,
    most likely for lack of memory, is tried again."""
    command = [*rt.rtlib.guarded(), *LATER, rt.rtlib.RATTLE, "check", *crate.words(["--jobs", "1"], keeps=False), *words]
    for _ in range(TRIES):
        with tempfile.TemporaryFile("w+", encoding="utf-8", errors="replace") as output:
            status = subprocess.call(command, cwd=folder, stdin=subprocess.DEVNULL, stdout=output, stderr=subprocess.STDOUT)
            output.seek(0)
            said = output.read()
        if status not in KILLED:
            break
    return status, said


# The checker's name of a function that the crate's text has, and no derive and no closure.
PLAIN = re.compile(r"[a-z]\w*(::\w+)*")
# A proof that is left open, of what a function promises.
OPEN = """use Rattle.{crate}.proofs.{path}.Statement.{{statement}}

pub {name}_spec : {{M : Type 1}} → statement M
{name}_spec = ?
"""


def leave_open(folder: str, crate: str, function: str) -> bool:
    """Replaces the proof of a function, in a copy of a crate, by one that is left open: the proofs of those that call it are then looked at
    without it. One that calls itself keeps its own, since it has a form of its own. Returns whether the proof is open."""
    parts = function.split("::")
    at = f"{folder}/proofs/{'/'.join(parts)}"
    if os.path.isdir(f"{os.path.dirname(at)}/+{parts[-1]}"):
        return False
    os.makedirs(at, exist_ok=True)
    for name in ("Answers.antt", "Invariants.antt"):
        if os.path.exists(f"{at}/{name}"):
            os.remove(f"{at}/{name}")
    with open(f"{at}/Proof.antt", "w", encoding="utf-8") as to:
        to.write(OPEN.format(crate=crate, path=".".join(parts), name=parts[-1]))
    return True


def empty_bodies(folder: str, functions: set[str], known: list[str]) -> None:
    """Empties the bodies of functions whose proofs are open, in a copy of a crate: a check then looks at no call and no loan in them."""
    for path in glob.glob(f"{glob.escape(folder)}/src/**/*.rt", recursive=True):
        text, file = text_of(path), os.path.relpath(path, folder)
        gone = [it for it in bodies(text) if not it.is_const and (names := names_of(it, file, known)) and names <= functions]
        if gone:
            with open(path, "w", encoding="utf-8") as to:
                to.write(emptied(text, gone))


class Trial:
    """The mutants of one crate, tried one check after another over what the earlier ones proved of it, and over what was kept of its proof."""

    def __init__(self, rt: ModuleType, crate: Any, room: str) -> None:
        self.rt, self.crate, self.room = rt, crate, room
        self.over = f"{room}/over"

        self.functions: list[str] = []

    def begin(self, functions: Iterable[str]) -> list[str]:
        """Copies what checks in the crate's folder kept, if they kept anything, and returns the checker's names of the crate's functions: those
        given, or where none is given those of the kept work. With neither the crate is proved for it."""
        names = [*functions]
        kept = f"{self.crate.folder}/out/incremental"
        if os.path.isdir(kept):
            linked(self.rt, kept, self.over)
        elif not names and (made := seeded(self.rt, self.crate)):
            shutil.move(f"{made}/seed", self.over)
            shutil.rmtree(made, ignore_errors=True)
        else:
            os.mkdir(self.over)
        self.functions = names or self.known()
        return self.functions

    def known(self) -> list[str]:
        """Returns the checker's names of the functions that were proved in the kept work."""
        start, end = f"Rattle-{self.crate.name}-proofs.", ".Code.oantt"
        files = glob.glob(f"{glob.escape(self.over)}/*/{start}*{end}")
        return [os.path.basename(it)[len(start) : -len(end)].replace(".", "::") for it in files]

    def check(self, texts: dict[str, str], words: list[str], open_ones: Iterable[str] = ()) -> tuple[int, str]:
        """Checks a copy of the crate with these texts, in which the bodies of some functions are empty and their proofs left open, and returns the
        status and what was said."""
        with tempfile.TemporaryDirectory(dir=self.room) as room:
            for part in self.rt.rtlib.PARTS:
                if os.path.isdir(f"{self.crate.folder}/{part}"):
                    shutil.copytree(f"{self.crate.folder}/{part}", f"{room}/{part}")
            for file, text in texts.items():
                with open(f"{room}/{file}", "w", encoding="utf-8") as to:
                    to.write(text)
            opened = {it for it in open_ones if leave_open(room, self.crate.name, it)}
            empty_bodies(room, opened, self.functions)
            return check(self.rt, self.crate, room, ["--incremental", self.over, *words])

    def alone(self, mutant: Mutant) -> Told:
        """Tries one mutant by a check of the whole crate."""
        if not hasattr(self.rt, "REFUSED"):
            return self.alone_here(mutant)
        kind, text = self.rt.must_fail(self.crate, mutant.path, ["--jobs", "1"], self.over)
        words = text.partition(": ")[2]
        if kind == self.rt.REFUSED and "only because a proof file names" in words:
            return Told(Outcome.BY_NAMES, words)
        kinds = {self.rt.REFUSED: Outcome.REFUSED, self.rt.AT_LIMIT: Outcome.AT_LIMIT, self.rt.BAD: Outcome.BAD, self.rt.MISSED: Outcome.SURVIVED}
        return Told(kinds.get(kind, Outcome.UNKNOWN), words.removeprefix("refused, as it must be: "))

    def alone_here(self, mutant: Mutant) -> Told:
        """The same for toolchains that don't tell a refusal from a limit of the checker."""
        texts, why = self.rt.read_edit(mutant.path, self.crate.folder)
        if why:
            return Told(Outcome.BAD, why)
        status, said = self.check(texts, [])
        lines = said.rstrip("\n").split("\n")
        bad = next((it for it in lines if self.rt.unread(it, texts)), "")
        if bad or self.rt.rtlib.STALE.search(said):
            return Told(Outcome.BAD, bad or "the kept work of a library could not be used")
        if status == 0:
            return Told(Outcome.SURVIVED)
        if status == 3:
            return Told(Outcome.AT_LIMIT, lines[-1])
        if status != 1 or not lines[-1].startswith("logic=not-proved"):
            return Told(Outcome.BAD, lines[0])
        told = [it for it in lines if ERROR.match(it)]
        others = [it for it in told if not NAMES.match(it)]
        return Told(Outcome.REFUSED, others[0] if others else "") if others or not told else Told(Outcome.BY_NAMES, told[0])

    def looked_at(self, mutants: list[Mutant], texts: dict[str, str]) -> tuple[dict[Mutant, Told], str]:
        """Checks the functions that some mutants change, with all their changes. Returns what that tells of the mutants, as far as it does, and all
        that was said."""
        functions = sorted({it for mutant in mutants for it in mutant.functions})
        # what the others promise is all that the proofs of these need
        others = [it for it in self.functions if it not in functions and PLAIN.fullmatch(it)]
        words = [word for it in functions for word in ("--only", f"{self.crate.name}::{it}")]
        status, said = self.check(texts, ["--allow-holes", *words], others)
        told = verdicts(said, self.crate.name) if status in (0, 1, 3) else {}
        found = {mutant: judged(mutant, told, said, self.crate.folder) for mutant in mutants}
        return {it: what for it, what in found.items() if what}, said

    def together(self, mutants: list[Mutant]) -> tuple[dict[Mutant, Told], list[Mutant]]:
        """Tries mutants of different functions by one check of these functions. Returns what came of those that it tells of, and those of which it
        says nothing."""
        chosen, texts = batch_of(mutants, self.crate.folder)
        found, _ = self.looked_at(chosen, texts)
        return found, [it for it in chosen if it not in found]

    def near(self, mutant: Mutant) -> frozenset[str]:
        """Returns the functions that are the likeliest to refuse a mutant which changes something else than bodies: those whose bodies it changes
        too, or else those of the source file that it changes, and those whose contracts rest on the definition that it changes."""
        folder = self.crate.folder
        inside: set[str] = set()
        beside: set[str] = set()
        for file, old, _ in mutant.pairs:
            text = text_of(f"{folder}/{file}")
            inside |= functions_around(text, file, old, self.functions)
            if file.startswith("src/"):
                beside |= functions_of(folder, file, self.functions)
            elif file.startswith("specs/"):
                beside |= functions_on(folder, file, text.find(old), self.functions)
        return frozenset(inside or beside)

    def nearby(self, mutant: Mutant) -> Told | None:
        """Tries such a mutant by a check of those functions alone. Returns what it was refused by, or None where it wasn't: then the check of the
        whole crate decides, as it does where the text can't be read or names in proof files are all that refuses it."""
        near = dataclasses.replace(mutant, functions=self.near(mutant))
        texts = with_mutant({}, mutant, self.crate.folder)
        if not near.functions or texts is None:
            return None
        found, said = self.looked_at([near], texts)
        lines = said.split("\n")
        is_read = not any(getattr(self.rt, "unread", lambda *_: False)(it, texts) for it in lines)
        told = [it for it in lines if ERROR.match(it)]
        by_names = bool(told) and all(map(NAMES.match, told))
        what = found.get(near)
        return what if what and what.outcome == Outcome.REFUSED and is_read and not by_names else None

    def all(self, mutants: list[Mutant]) -> Iterator[tuple[Mutant, Told]]:
        """Tries the mutants, and gives what came of each."""
        left, batches = [it for it in mutants if it.functions], []
        while left and (batch := batch_of(left, self.crate.folder)[0]):
            batches.append(batch)
            left = [it for it in left if it not in batch]
        alone = [*[it for it in mutants if not it.functions], *left]
        while batches:
            batch = batches.pop()
            found, unsaid = self.together(batch)
            yield from found.items()
            if len(unsaid) == 1:
                alone += unsaid
            elif found and unsaid:
                # others hid them
                batches.append(unsaid)
            elif unsaid:
                # one that doesn't compile hides all
                batches += [unsaid[: len(unsaid) // 2], unsaid[len(unsaid) // 2 :]]
        for mutant in alone:
            yield mutant, self.nearby(mutant) or self.alone(mutant)


def sum_of(folders: Iterable[str]) -> str:
    """Returns a sum of all files below these folders, with their places there."""
    found = hashlib.sha256()
    for folder in folders:
        for at, inside, files in os.walk(folder):
            inside.sort()
            for name in sorted(files):
                with open(f"{at}/{name}", "rb") as it:
                    found.update(repr((os.path.relpath(f"{at}/{name}", folder), it.read())).encode())
    return found.hexdigest()


# The modules that a built library has of a function beside its contract: they follow from its body, or from what is read beside them.
OF_BODY = (*"Answers Code Given Invariants Kinds Layout Lts Met Mir Named Proof Reads Statement Symbol TheLink".split(),)


def is_seen(module: str, functions: set[str], names_lemmas: bool) -> bool:
    """Whether a check of a crate reads a module that a library below it has. functions: the names of the library's public functions, of which
    it reads the contracts, which stay the same with other bodies. names_lemmas: whether the crate names lemmas of the library's."""
    library, *parts = module.removeprefix("part/").split(".")
    if not library.endswith(("-proofs", "-specs")):
        # what the library passes on
        return names_lemmas or "proofs" not in parts
    if library.endswith("-proofs"):
        if parts[1:] and parts[-1] in OF_BODY or "TheLinks" in parts:
            return False
        # (what begins with The is the toolchain's own)
        return any(it.startswith("The") for it in parts) or names_lemmas and bool(parts)
    owner = parts[-2:][0] if parts[-1:] == ["Key"] else parts[-1] if parts[:1] == ["contracts"] else ""
    # (a type's module has a great letter)
    return not owner[:1].islower() or owner in functions


def constants_in(texts: Iterable[str], functions: set[str]) -> list[bytes]:
    """Returns the constants that stand in the contracts of these functions, in a library's source without bodies."""
    heads = [it for text in texts for it in re.split(r"\bfn (?=\w)", text)[1:]]
    return [name.encode() for it in heads if re.match(r"\w+", it)[0] in functions for name in re.findall(r"\b[A-Z][A-Z0-9_]+\b", it)]


@functools.cache
def seen_of(rlib: str, names_lemmas: bool) -> str:
    """Returns a sum of what a check of a crate reads of a built library: what it declares, what its public functions promise, its definitions,
    and its lemmas where the crate names any."""
    found = hashlib.sha256()
    inside = lambda folder: sorted(glob.glob(f"{glob.escape(rlib)}/{folder}/**/*.rt", recursive=True))
    declared = {os.path.relpath(it, rlib): text_of(it) for it in inside("interface/lang/src")}
    functions = {name for text in declared.values() for name in re.findall(r"\bfn (\w+)", text)}
    constants = constants_in(map(text_of, inside("lang/src")), functions)
    found.update(repr(declared).encode())
    own = f"Rattle-{os.path.basename(rlib).removesuffix('.rlib')}"
    with open(f"{rlib}/toolchain/checked.json", encoding="utf-8") as index, open(f"{rlib}/toolchain/checked.a", "rb") as modules:
        for name, at, length in map(json.loads, index):
            if name.removeprefix("part/").startswith((f"{own}-", f"{own}.")) and is_seen(name, functions, names_lemmas):
                modules.seek(at)
                module = modules.read(length)
                # (a private constant counts where a contract names it; the value of a public one is declared)
                if not name.endswith(".TheConstants") or any(it in module for it in constants):
                    found.update(repr((name, module)).encode())
    return found.hexdigest()


class Kept:
    """What passed on this machine before, by the sum of all that it stands on: the mutant, the crate's files, and of each library below it
    what a check of the crate reads of it."""

    def __init__(self, rt: ModuleType) -> None:
        self.rt, self.folder = rt, f"{store(rt)}/mutants"
        self.below = functools.cache(self.libraries_of)

    def libraries_of(self, crate: Any) -> list[tuple[str, str]]:
        """Returns the names of the libraries below a crate, with the sums of what it reads of them."""
        texts = [text_of(f"{at}/{it}") for part in self.rt.rtlib.PARTS for at, _, files in os.walk(f"{crate.folder}/{part}") for it in files]
        named = {it[0] for text in texts for it in re.findall(r"\b(\w+)(\.|::)proofs\b", text)}
        return [(it.name, seen_of(it.rlib, it.name in named)) for it in crate.below()]

    def place(self, *stands_on: object) -> str:
        return f"{self.folder}/{hashlib.sha256(repr((FORM, *stands_on)).encode()).hexdigest()}"

    def place_of(self, crate: Any, path: str) -> str:
        libraries = self.below(crate)
        with open(path, "rb") as it:
            return self.place(own_sum(self.rt, crate), libraries, os.path.basename(path), it.read())

    def told(self, crate: Any, path: str) -> Told | None:
        """Returns what came of a mutant, if it passed."""
        outcome, _, words = text_of(self.place_of(crate, path)).partition("\n")
        return Told(Outcome(outcome), words) if outcome else None

    def keep(self, crate: Any, path: str, told: Told) -> None:
        """Keeps that a mutant passed."""
        self.write(self.place_of(crate, path), f"{told.outcome.value}\n{told.words}")

    def functions(self, crate: Any) -> list[str]:
        """Returns the checker's names of a crate's functions, if they are known."""
        return text_of(self.place("functions", own_sum(self.rt, crate))).split()

    def keep_functions(self, crate: Any, names: Iterable[str]) -> None:
        self.write(self.place("functions", own_sum(self.rt, crate)), "\n".join(names))

    def write(self, place: str, text: str) -> None:
        """Writes a file of what is kept. Where that can't be done, the same is tried again by a later run."""
        try:
            os.makedirs(self.folder, exist_ok=True)
            with tempfile.NamedTemporaryFile("w", prefix="rt-new-", dir=self.folder, delete=False, encoding="utf-8") as to:
                to.write(text)
            os.replace(to.name, place)
        except OSError:
            pass


def paths_of(crate: Any, folders: Iterable[str]) -> list[str]:
    """Returns the paths of a crate's mutants in these of its folders."""
    return [path for folder in folders for path in crates.edits(crate, folder)]


def tried(rt: ModuleType, crate: Any, paths: list[str], functions: Iterable[str] = ()) -> Iterator[tuple[str, Told]]:
    """Tries a crate's mutants, of which each one's path is given with what came of it. What the crate stands on must be built.
    functions: the checker's names of the crate's functions, as far as they are known."""
    with tempfile.TemporaryDirectory(prefix=f"rt-edits-{os.getpid()}-") as room:
        trial = Trial(rt, crate, room)
        known = trial.begin(functions)
        good = []
        for path in paths:
            why = rt.read_edit(path, crate.folder)[1]
            if why:
                yield path, Told(Outcome.BAD, why)
            else:
                good.append(read_mutant(path, crate.folder, known))
        for mutant, told in trial.all(good):
            yield mutant.path, told


class Counts:
    """How many mutants of each crate came to what."""

    def __init__(self) -> None:
        self.lock = threading.Lock()
        self.of: dict[str, collections.Counter[str]] = collections.defaultdict(collections.Counter)

    def add(self, crate: str, name: str, told: Told) -> None:
        with self.lock:
            self.of[crate][told.outcome.value] += 1
            print(f"{crate}/{name}: {told.outcome.value}{': ' + told.words[:200] if told.words else ''}", flush=True)

    def add_kept(self, crate: str, count: int) -> None:
        with self.lock:
            self.of[crate]["kept"] += count

    def tell(self) -> None:
        """Prints a line for each crate, and for all."""
        shown = lambda counts: ", ".join(f"{count} {what}" for what, count in counts.items() if count)
        for name in sorted(self.of):
            print(f"mutants: {name}: {shown(self.of[name])}")
        print(f"mutants: all: {shown(sum(self.of.values(), collections.Counter())) or 'none'}", flush=True)


class Trials:
    """The mutants of all crates: what came of each, and which failed."""

    def __init__(self, rt: ModuleType, is_gate: bool) -> None:
        self.rt, self.is_gate = rt, is_gate
        self.kept, self.counts = Kept(rt), Counts()
        self.failed: list[str] = []

    def known(self, crate: Any, paths: list[str]) -> dict[str, Told]:
        """Returns what came of those of a crate's mutants that passed before, where the gate asks."""
        found = {path: self.kept.told(crate, path) for path in paths} if self.is_gate else {}
        return {path: told for path, told in found.items() if told}

    def of(self, crate: Any, paths: list[str]) -> dict[str, Told]:
        """Tries those of a crate's mutants that didn't pass before, and returns what came of each. What the crate stands on must be built."""
        found = self.known(crate, paths)
        self.counts.add_kept(crate.name, len(found))
        new = [it for it in paths if it not in found]
        for path, told in tried(self.rt, crate, new, self.kept.functions(crate)) if new else ():
            found[path] = told
            name = path.rpartition("/")[2].removesuffix(".edit")
            self.counts.add(crate.name, name, told)
            if told.outcome.passes:
                self.kept.keep(crate, path, told)
            else:
                self.failed.append(f"{crate.name}/{name}: {told.outcome.value}")
        return found

    def tell(self) -> bool:
        """Prints the counts and what failed, and returns whether nothing did."""
        self.counts.tell()
        for line in sorted(self.failed):
            print(f"FAILED: {line}")
        return not self.failed


def try_all(rt: ModuleType, listed: list[Any], folders: list[str], is_gate: bool) -> bool:
    """Tries the mutants of crates that are built, as many crates side by side as there are processors, and returns whether all passed."""
    trials = Trials(rt, is_gate)

    def of(crate: Any) -> bool:
        trials.of(crate, paths_of(crate, folders))
        return True

    some = [it for it in listed if paths_of(it, folders)]
    well = crates.in_lanes(some, of, in_order=False)
    return trials.tell() and len(well) == len(some)
