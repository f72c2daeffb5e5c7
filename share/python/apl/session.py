"""A session that the program serves."""
from __future__ import annotations

import json
import os
import re
import threading
import time
from contextlib import contextmanager, suppress
from hashlib import sha256
from typing import Any, Callable, Dict, Iterator, List, Optional, Sequence, Union

from apl.answers import Fault, Function, Level, Line, Name, Result, Unset, Variable
from apl.arrays import Array, Value
from apl.errors import Faulted, Interrupted, Refused
from apl.files import save_file
from apl.pipe import Keyboard, Pipe, read, request

PathLike = Union[str, "os.PathLike[str]"]
# How many steps the first slice of a line makes, and the most that one makes, so that an interrupt waits for few where steps suddenly take
# longer; and the seconds that one should take.
FIRST, MOST, SLICE = 2_000, 20_000, 0.005
MOST_STEPS = 2**63
Show = Callable[[List[Line]], None]
NAME = re.compile("⎕IO|[A-Za-z∆⍙_][0-9A-Za-z∆⍙_]{0,31}")


class Session:
    """A session of the program `apl`, in a process of its own. Of its methods a signal handler may call `interrupt` and `kill` alone."""

    def __init__(self, program: PathLike = "apl", workspace: Union[PathLike, bytes, None] = None, memory: Optional[int] = None,
                 seconds: Optional[float] = None) -> None:
        """Begins a session on the workspace of a file, or of a file's bytes, else on a clear one.

        memory is the most bytes of address space that the program may have, seconds the most time that a line gets before it is
        interrupted. Raises OSError where the program or the file can't be read, Died where the program doesn't serve sessions, and
        Refused as `open` does.
        """
        self._seconds = seconds
        self._state, self._next, self._steps = "idle", 0, 0
        self._fault: Optional[Fault] = None
        self._wants_interrupt = False
        self._line = threading.Lock()
        self._digests: Dict[str, bytes] = {}
        self._pipe = Pipe(os.fspath(program), memory)
        try:
            self._note(self._pipe.ask("advance", 0))
            if workspace is not None:
                self.open(workspace)
        except BaseException:
            self.close()
            raise

    def __enter__(self) -> Session:
        return self

    def __exit__(self, *_: object) -> None:
        self.close()

    def close(self) -> None:
        """Ends the program. What isn't saved is lost."""
        self._pipe.close()

    def run(self, line: str, steps: Optional[int] = None, show: Optional[Show] = None) -> Result:
        """Types a line, and returns what it came to.

        steps is the most that it makes before it is interrupted. show is called with the lines of each slice of steps as soon as they are
        written, also with none; the result then has no lines. Raises Refused where the line is too long or has a line feed, where another
        thread's line runs, and where memory runs out, which abandons the line; Interrupted where a KeyboardInterrupt comes; Died where the
        program ends.
        """
        if not isinstance(line, str):
            raise TypeError(f"a line is a str, not {type(line).__name__}")
        if steps is not None and steps < 0:
            raise ValueError(f"a line can't make {steps} steps")
        with self._alone() as keyboard:
            result = self._run(line, self._seconds, keyboard, steps, show)
            if keyboard.struck:
                raise Interrupted(result)
        return result

    @property
    def next_line(self) -> int:
        """The number of the next line of the definition that is open, 0 where none is."""
        return self._next

    def interrupt(self) -> None:
        """Has the line that runs be interrupted, if one does: for other threads and for signal handlers."""
        self._wants_interrupt = True

    def kill(self) -> None:
        """Ends the program at once, also in the midst of a step: for other threads and for signal handlers. The line that runs raises Died."""
        self._pipe.process.kill()

    def names(self) -> List[Name]:
        """Returns what the names of the workspace stand for, in ascending order. A name that a call has made its own is told as that."""
        return [name_of(it) for it in self._pipe.ask("look", "names")["names"]]

    def indicator(self) -> List[Level]:
        """Returns the state indicator: the calls that stand, the newest first, each with its line and its own names."""
        return [level_of(it) for it in self._pipe.ask("look", "indicator")["indicator"]]

    def listing(self, name: str) -> List[str]:
        """Returns a function's header and lines. Raises Refused where there is none of this name."""
        return list(self._pipe.ask("listing", name)["listing"])

    def array(self, name: str) -> Array:
        """Returns the value of a name with its shape and type. Raises Refused where it has none."""
        value = self._pipe.ask("value", name)["value"]
        return Array(tuple(value["shape"]), value["text"] if "text" in value else tuple(value["nums"]))

    def value(self, name: str) -> Value:
        """Returns the value of a name as Python has it, by `Array.lists`. Raises Refused where it has none."""
        return self.array(name).lists()

    def set(self, name: str, value: Union[Value, Array, Sequence[Any]]) -> None:
        """Gives a name a value, by `Array.of`. It is typed; where one line has no room for it, another name gets it in pieces first.

        Raises ValueError or TypeError where it is no array or the name is none, Faulted where the name can't be assigned, and Refused where
        a line runs, a definition is open, or memory runs out. The name is then as before.
        """
        array = Array.of(value)
        if not NAME.fullmatch(name):
            raise ValueError(f"{name!r} is no name")
        with self._alone() as keyboard:
            if self._next:
                raise Refused("definition")
            line = array.typed(name)
            if line is not None:
                self._assign(line, keyboard)
            else:
                self._set_in_pieces(name, array, keyboard)

    def workspace(self) -> bytes:
        """Returns the bytes of the workspace's file, without a definition that is open. Raises Refused while a line runs."""
        head = b'{"workspace":'
        [answer] = self._pipe.send(request("save", True))
        if not answer.startswith(head):
            read(answer)
        self._pipe.kept = answer[len(head):-len(b"}\n")]
        return self._pipe.kept

    def save(self, path: PathLike) -> None:
        """Saves the workspace in a file, whole or not at all, as `apl --save` does.

        Raises NotSaved where another is to save in it, or has changed it since this session opened it or saved in it; OSError where it
        can't be written; Refused while a line runs. The file then holds what it held.
        """
        with self._alone():
            real, saved = os.path.realpath(path), self.workspace()
            save_file(real, saved, self._digests.get(real))
            self._digests[real] = sha256(saved).digest()

    def open(self, workspace: Union[PathLike, bytes]) -> None:
        """Replaces the workspace by that of a file, or of a file's bytes.

        Raises Refused with the reason "load" and a number where it is none, and OSError where the file can't be read. The session then
        stays.
        """
        with self._alone():
            if isinstance(workspace, bytes):
                self._open(workspace)
                return
            real = os.path.realpath(workspace)
            with open(real, "rb") as file:
                data = file.read()
            self._open(data)
            self._digests[real] = sha256(data).digest()

    def _open(self, data: bytes) -> None:
        [answer] = self._pipe.send(b'{"open":' + on_one_line(data) + b"}")
        try:
            self._note(self._pipe.told(answer))
        except Refused as refused:
            # Python reads some JSON that the program doesn't
            raise Refused("load", 1) if refused.reason == "json" else refused from None
        self._pipe.kept = data

    @contextmanager
    def _alone(self) -> Iterator[Keyboard]:
        """Has no other line be typed meanwhile, and no KeyboardInterrupt come between a request and its answer."""
        with Keyboard(self._pipe.process.kill) as keyboard:
            if not self._line.acquire(blocking=False):
                raise Refused("running")
            try:
                self._wants_interrupt = False
                yield keyboard
            finally:
                self._line.release()

    def _run(self, line: str, seconds: Optional[float], keyboard: Optional[Keyboard], steps: Optional[int] = None,
             show: Optional[Show] = None) -> Result:
        """Types a line and makes its steps, until it ends or is to be interrupted."""
        if self._state == "running":
            # memory ran out in it, or a signal handler raised an exception
            self._note(self._pipe.ask("interrupt", True))
        ends, told, made = float("inf") if seconds is None else time.monotonic() + seconds, "", 0
        most, count = MOST_STEPS if steps is None else steps, FIRST
        lines: List[Line] = []
        write, asked = show or lines.extend, min(FIRST, most)
        typed, advanced = self._pipe.send(request("type", line), request("advance", asked))
        try:
            write(self._note(self._pipe.told(typed)))
            # where there was no memory for the first answer, the second one tells what both are
            if self._state == "running" or typed.startswith(b'{"refused":'):
                write(self._note(self._pipe.told(advanced)))
            while self._state == "running":
                made += asked
                began = time.monotonic()
                if made == most or self._wants_interrupt or keyboard and keyboard.struck or began >= ends:
                    told = "interrupted"
                    write(self._note(self._pipe.ask("interrupt", True)))
                else:
                    asked = min(count, most - made)
                    write(self._note(self._pipe.ask("advance", asked)))
                    count = next_count(count, time.monotonic() - began)
        except Refused as refused:
            self._state = "running"
            with suppress(Refused):
                write(self._note(self._pipe.ask("interrupt", True)))
            raise Refused(refused.reason, lines=tuple(lines)) from None
        told = told or ("definition" if self._next and self._state == "idle" else self._state)
        return Result(tuple(lines), told, self._next, made + self._steps, self._fault)

    def _assign(self, line: str, keyboard: Keyboard) -> None:
        """Types an assignment."""
        result = self._run(line, None, keyboard)
        if keyboard.struck:
            raise KeyboardInterrupt
        if result.fault:
            raise Faulted(result.lines, result.fault)

    def _set_in_pieces(self, name: str, array: Array, keyboard: Keyboard) -> None:
        """Has a fresh name get the elements piece by piece, and then the name its value."""
        used = {it.name for it in self.names()}
        fresh = next(it for it in map("⍙python{}".format, range(len(used) + 1)) if it not in used)
        try:
            for line in array.pieces(fresh):
                self._assign(line, keyboard)
            self._assign(f"{name}←{array.shaped()}{fresh}", keyboard)
        finally:
            try:
                self._run(f")ERASE {fresh}", None, None)
            except Refused:
                # memory was out; what the line before held is free by now
                self._run(f")ERASE {fresh}", None, None)

    def _note(self, answer: Dict[str, Any]) -> List[Line]:
        """Keeps what an answer tells of the session, and returns its lines."""
        lines = [Line(it["text"], it["kind"]) for it in answer["lines"]]
        self._state, self._next, self._steps = answer["state"], answer["next"], answer.get("steps", 0)
        self._fault = Fault.of(answer["fault"], lines, answer.get("place")) if "fault" in answer else None
        return lines


def name_of(told: Dict[str, Any]) -> Name:
    """Returns what a name stands for, as an answer tells it."""
    if "header" in told:
        return Function(told["name"], told["header"])
    return Variable(told["name"], tuple(told["shape"]), told["type"]) if "type" in told else Unset(told["name"])


def level_of(told: Dict[str, Any]) -> Level:
    """Returns a call that stands, as an answer tells it."""
    return Level(told["name"], told["line"], told["suspended"], told["text"], told.get("column", 0), tuple(map(name_of, told["locals"])))


def next_count(count: int, took: float) -> int:
    """Returns how many steps the next slice makes, where this many took so long."""
    if took < SLICE / 2:
        return min(4 * count, MOST)
    return max(1, int(count * SLICE / took)) if took > 2 * SLICE else count


def on_one_line(data: bytes) -> bytes:
    """Returns a file's JSON without line feeds. Raises Refused where it is none or no object, which might ask for something else."""
    try:
        tree = json.loads(data.decode())
    except (ValueError, RecursionError):
        raise Refused("load", 1) from None
    if not isinstance(tree, dict):
        raise Refused("load", 2)
    # a line feed in a string is no JSON, and a tab there is none either
    return data.replace(b"\n", b"\t")
