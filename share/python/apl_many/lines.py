"""The lines that are typed in each workspace."""
from __future__ import annotations

from typing import List

MOST_BYTES, MOST_LINES = 2_000, 1_000_000


def lines_of(data: bytes) -> List[str]:
    """Returns the lines of a file, as the program reads them: a carriage return before a line feed is dropped, and the last line may have
    no line feed. Raises ValueError where the program would refuse one, or where they are no text."""
    try:
        text = data.decode()
    except UnicodeDecodeError as why:
        raise ValueError(f"no UTF-8 at byte {why.start}") from None
    if "\0" in text:
        raise ValueError("a character of number 0")
    *ended, last = text.split("\n")
    lines = [line[:-1] if line.endswith("\r") else line for line in ended] + ([last] if last else [])
    if len(lines) > MOST_LINES:
        raise ValueError(f"over {MOST_LINES:,} lines")
    for number, line in enumerate(lines, 1):
        if len(line.encode()) > MOST_BYTES:
            raise ValueError(f"line {number} has over {MOST_BYTES:,} bytes")
    return lines
