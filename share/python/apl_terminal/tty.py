"""How the terminal shows what is typed while no prompt reads it."""
from __future__ import annotations

import termios
from contextlib import contextmanager, suppress
from typing import Any, Iterator, List, Optional

FLAGS = 3
# How the terminal was before it was made quiet.
before: List[Any] = []


def changed(mode: Optional[List[Any]]) -> None:
    """Has the terminal be in this mode, if there is one."""
    if mode:
        with suppress(termios.error):
            termios.tcsetattr(0, termios.TCSADRAIN, mode)


@contextmanager
def quiet() -> Iterator[None]:
    """Has the terminal show nothing that is typed ahead, which the next prompt shows, and no ^C before the report of an interrupt."""
    with suppress(termios.error):
        before[:] = termios.tcgetattr(0)
        changed([*before[:FLAGS], before[FLAGS] & ~(termios.ECHO | termios.ECHOCTL), *before[FLAGS + 1:]])
    try:
        yield
    finally:
        changed(before)
        before.clear()


@contextmanager
def plain() -> Iterator[None]:
    """Has the terminal be as it was before it was made quiet: for a question, and for another program."""
    mode = None
    with suppress(termios.error):
        mode = termios.tcgetattr(0)
    changed(before)
    try:
        yield
    finally:
        changed(mode)
