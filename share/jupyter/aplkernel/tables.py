"""A matrix as a table of HTML."""
from html import escape
from typing import List

from apl import Array

# A larger matrix is shown as text alone.
MOST_ROWS, MOST_CELLS = 200, 2_000
TABLE = """<table style="font-family: APL, 'DejaVu Sans Mono', monospace">"""
TEXT = '<td style="text-align: left; white-space: pre">'


def has_table(shape: tuple[int, ...]) -> bool:
    """Whether an array of this shape is shown as a table: a matrix that isn't empty, nor large."""
    return len(shape) == 2 and 0 < shape[0] <= MOST_ROWS and 0 < shape[0] * shape[1] <= MOST_CELLS


def table(matrix: Array) -> str:
    """Returns the table of a matrix. Each row of characters is one text."""
    rows, width = matrix.shape
    made: List[str] = []
    for row in range(rows):
        items = matrix.items[row * width:(row + 1) * width]
        if isinstance(items, str):
            made.append(f"<tr>{TEXT}{escape(items)}</td></tr>")
        else:
            made.append("<tr>" + "".join(f"<td>{spelled(it)}</td>" for it in items) + "</tr>")
    return TABLE + "".join(made) + "</table>"


def spelled(number: int) -> str:
    """Returns a number as the language has it."""
    return str(number).replace("-", "¯")
