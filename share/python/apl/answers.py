"""What a session answers."""
from __future__ import annotations

from dataclasses import dataclass
from typing import Any, Dict, Optional, Sequence, Tuple, Union

# The numbers of the faults whose report is their name alone.
DEFN, CHARACTER, COMMAND = 9, 11, 12
ALONE = (DEFN, CHARACTER, COMMAND)


@dataclass(frozen=True)
class Line:
    """A line that the session wrote. Its kind is "report" for a line of a fault's report, "stop" for the report of a stop, "trace" for
    that of a trace, "answer" for what a command or `∇F[⎕]∇` shows, and "shown" for what a statement does."""

    text: str
    kind: str = "shown"


@dataclass(frozen=True)
class Fault:
    """What a line ended with: the number of the fault (docs/SERVE.md), and its name, which is the first line of the report.

    function and line are of the call that is suspended, "" and 0 where the fault is in the typed statement itself. column is the place of
    the character over the caret in the text of the line, from 1; it is 0 where the report is the name alone.
    """

    number: int
    name: str
    function: str = ""
    line: int = 0
    column: int = 0

    @classmethod
    def of(cls, number: int, written: Sequence[Line], place: Optional[Dict[str, Any]]) -> Fault:
        """Returns the fault of a number, whose report is the last that was written, and of a place, as an answer tells it. One without a
        place is reported by its name alone."""
        if place is None:
            return cls(number, written[-1].text)
        return cls(number, written[-3].text, place.get("name", ""), place.get("line", 0), place["column"])


@dataclass(frozen=True)
class Result:
    """What a typed line came to.

    told is "idle" where it ended, "fault" where it ended with one, "stopped" where it ended at a line that ⎕STOP names, "interrupted"
    where it was abandoned, and "definition" where a definition is open, whose next line has the number next_line. fault is that of a line
    that faulted or was interrupted. steps is how many steps the line made: `run(line, steps)` interrupts it there again if it was
    interrupted.
    """

    lines: Tuple[Line, ...]
    told: str
    next_line: int = 0
    steps: int = 0
    fault: Optional[Fault] = None

    @property
    def text(self) -> str:
        """The lines as one text, with line feeds between them."""
        return "\n".join(line.text for line in self.lines)

    def __str__(self) -> str:
        return self.text


@dataclass(frozen=True)
class Function:
    """A function: its name, and its header as `∇F[⎕]∇` shows it."""

    name: str
    header: str


@dataclass(frozen=True)
class Variable:
    """A variable: its name, its shape, and its type, "numbers" or "characters"."""

    name: str
    shape: Tuple[int, ...]
    type: str


@dataclass(frozen=True)
class Unset:
    """A name that stands for a label, or for a local variable without a value."""

    name: str


Name = Union[Function, Variable, Unset]


@dataclass(frozen=True)
class Level:
    """A call that stands: the function's name, the number and the text of its line, and whether it is suspended before that line.

    column is that of the call or `⍎` whose answer the line awaits, from 1, and 0 where it awaits none. locals are the call's own names with
    what they stand for there: the result, the arguments, the locals, and the labels.
    """

    name: str
    line: int
    suspended: bool
    text: str = ""
    column: int = 0
    locals: Tuple[Name, ...] = ()
