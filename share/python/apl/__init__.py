"""APL sessions for Python programs. A Session runs the program `apl --serve` and types lines to it.

    with Session("apl") as session:
        session.set("V", [3, 1, 2])
        print(session.run("V[⍋V]"))     # 1 2 3
        session.value("V")              # [3, 1, 2]

README.md of this package says more, and docs/SERVE.md what goes through the pipes.
"""
from apl.answers import Fault, Function, Level, Line, Name, Result, Unset, Variable
from apl.arrays import Array, Value
from apl.errors import AplError, Died, Faulted, Interrupted, NotSaved, Refused
from apl.session import Session

__all__ = ["AplError", "Array", "Died", "Fault", "Faulted", "Function", "Interrupted", "Level", "Line", "Name", "NotSaved", "Refused",
           "Result", "Session", "Unset", "Value", "Variable"]
