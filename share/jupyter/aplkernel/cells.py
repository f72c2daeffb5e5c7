"""The lines of a cell."""
import re
from typing import List

NAME = "[A-Za-z∆⍙_][0-9A-Za-z∆⍙_]*"
HEADER = re.compile(rf" *∇ *(?:{NAME} *← *)?{NAME}(?: +{NAME}){{0,2}}(?: *; *(?:{NAME}|⎕IO))* *")
ONLY_A_NAME = re.compile(rf" *({NAME}) *(?:⍝.*)?")


def lines_of(code: str) -> List[str]:
    """Returns the lines of a cell."""
    return [line.rstrip("\r") for line in code.split("\n")]


def is_open(code: str) -> bool:
    """Whether a cell ends within a definition, by its text alone: the header of one that the machine refuses counts as well."""
    opened = False
    for line in lines_of(code):
        opened = line.strip(" ") != "∇" if opened else bool(HEADER.fullmatch(line))
    return opened


def only_name(line: str) -> str:
    """Returns the name that a line consists of, "" where it has more, or none."""
    found = ONLY_A_NAME.fullmatch(line)
    return found[1] if found else ""
