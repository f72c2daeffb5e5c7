"""What a session raises."""
from typing import Optional, Tuple

from apl.answers import Fault, Line, Result

REASONS = {
    "json": "the request is no JSON",
    "request": "there is no such request",
    "line": "the line has over 2,000 bytes or a line feed",
    "running": "a line runs",
    "definition": "a definition is open",
    "function": "there is no function of this name",
    "value": "there is no value of this name",
    "memory": "out of memory",
    "answer": "it is done, but there is no memory for the answer",
    "length": "the request has over 100,000,000 bytes",
    "load": "the workspace is refused",
}
# What the rules of docs/WORKSPACE.md are for, by their numbers.
RULES = {
    1: "it is no JSON",
    2: "it is JSON of another form",
    3: "an array in it doesn't fit its shape, or has a character that the language hasn't",
    4: "a function or a variable in it is ill formed",
    5: "a half-done statement or call in it is ill formed",
    6: "the code of a line in it isn't that line's",
    7: "an array in it, or the calls, pass a limit",
}


class AplError(Exception):
    """All that a session raises, but for errors of the system and of Python."""


class Refused(AplError):
    """A request is refused, and the session stays as it was.

    reason is a key of REASONS. number is that of a refused workspace (1 to 7, docs/WORKSPACE.md), else 0. Where memory runs out while a
    line runs, the line is abandoned, and lines are what it wrote. about is what the message names besides.
    """

    def __init__(self, reason: str, number: int = 0, lines: Tuple[Line, ...] = (), about: str = "") -> None:
        about = about or rule(number)
        super().__init__(REASONS.get(reason, reason) + (f": {about}" if about else ""))
        self.reason, self.number, self.lines = reason, number, lines


class Faulted(AplError):
    """A value can't be set. lines are the report, and fault is what it tells."""

    def __init__(self, lines: Tuple[Line, ...], fault: Fault) -> None:
        super().__init__("\n".join(line.text for line in lines))
        self.lines, self.fault = lines, fault


class NotSaved(AplError):
    """Another holds the file or has changed it, so the workspace isn't saved, and the file stays as it is."""


class Died(AplError):
    """The program has ended or was killed.

    workspace has the bytes of the workspace as it was last saved or opened, None for a clear one: `Session(program, died.workspace)`
    goes on with it.
    """

    def __init__(self, told: str, workspace: Optional[bytes]) -> None:
        super().__init__(told)
        self.workspace = workspace


class Interrupted(KeyboardInterrupt):
    """A KeyboardInterrupt came while a line ran, which was interrupted. The session can go on. result is what the line came to."""

    def __init__(self, result: Result) -> None:
        super().__init__("\n".join(line.text for line in result.lines[-3:]))
        self.result = result


def rule(number: int) -> str:
    """Returns which rule a workspace's file breaks, "" for none."""
    return f"{RULES[number]} (rule {number} of docs/WORKSPACE.md)" if number in RULES else ""


def why(refused: Refused) -> str:
    """Returns what is told behind the name of a workspace's file that is refused."""
    return f"is no workspace: {rule(refused.number)}" if refused.reason == "load" else f"can't be opened: {refused}"
