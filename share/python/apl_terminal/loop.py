"""The session at a terminal: it reads lines, does them, and shows what comes of them, until the user ends it or the window is closed."""
from __future__ import annotations

import shutil
import signal
from contextlib import suppress
from pathlib import Path
from types import FrameType
from typing import List, Optional, Tuple

from apl import AplError, Died, Function, Line
from apl.commands import NotDone
from apl_terminal import keys, places
from apl_terminal.commands import Commands
from apl_terminal.prompt import Typing
from apl_terminal.telling import Gone, laid, prompted, wrapped
from apl_terminal.tty import plain, quiet
from apl_terminal.work import Work

WELCOME = "Backquote and a key type a character: `i is ⍳. Tab completes, Ctrl-C interrupts, )HELP tells more, )OFF ends."


class Screen:
    """What the user sees and answers. Where the window is gone nothing is shown, and nobody answers."""

    is_gone = False

    def write(self, text: str) -> None:
        """Writes text to the terminal."""
        if not self.is_gone:
            try:
                print(text, end="", flush=True)
            except OSError:
                self.is_gone = True

    def show(self, lines: List[Line]) -> None:
        """Shows what a line writes."""
        if lines:
            self.write("".join(f"{it}\n" for it in laid(lines, self.width())))

    def tell(self, text: str) -> None:
        """Tells something of the terminal's own."""
        self.write(f"{wrapped(text, self.width())}\n")

    def ask(self, text: str, default: bool) -> bool:
        """Asks a question for yes or no: the last line again, where the answer is another."""
        *before, text = text.split("\n")
        if before:
            self.tell("\n".join(before))
        while True:
            old = signal.signal(signal.SIGINT, signal.default_int_handler)
            try:
                with plain():
                    answer = input(f"{text} [{'Y/n' if default else 'y/N'}] ").strip().lower()
            except (EOFError, KeyboardInterrupt, OSError):
                self.write("\n")
                raise Gone from None
            finally:
                signal.signal(signal.SIGINT, old)
            if answer in ("", "y", "yes", "n", "no"):
                return default if not answer else answer.startswith("y")
            self.tell("y or n is the answer")

    def width(self) -> int:
        """Tells how many characters a line has room for."""
        return shutil.get_terminal_size().columns


class Terminal:
    """A session at a terminal."""

    def __init__(self, program: str, top: Path) -> None:
        """Begins it with a program that serves sessions; top has the folders share and docs. Raises what `Session` does."""
        self.screen = Screen()
        self.work = Work(program, self.screen)
        found = keys.read(top / "share/keys.txt")
        self.commands = Commands(self.work, top / "docs/REFERENCE.md", found)
        self.names_known: Optional[Tuple[List[str], List[str]]] = None
        history: Optional[str] = None
        with suppress(OSError):
            history = places.history()
        self.typing = Typing(found, self.names, history)

    def run(self, name: Optional[str]) -> int:
        """Works on the workspace of a name, else on one that has none, and returns the status."""
        for it in (signal.SIGHUP, signal.SIGTERM):
            signal.signal(it, self.hang_up)
        signal.signal(signal.SIGINT, self.work.strike)
        with quiet():
            return self.session(name)

    def session(self, name: Optional[str]) -> int:
        """Does lines until the session is over, and returns the status."""
        self.screen.tell(WELCOME)
        try:
            self.work.open(name)
            self.screen.tell(self.work.told())
            while not self.commands.is_over and not self.work.is_closing:
                self.step()
        except NotDone as error:
            self.screen.tell(f"apl-terminal: {error}")
            return 1
        except Gone:
            self.work.is_closing = True
            self.screen.tell("nothing is changed: the lines are kept, and offered the next time")
        except Died as died:
            self.screen.tell(f"apl-terminal: {died}. What was typed is kept, and offered when the workspace is opened again.")
            self.work.is_closing = True
            return 3
        finally:
            self.end()
        return 0

    def end(self) -> None:
        """Ends the session, if one began."""
        if hasattr(self.work, "journal"):
            with suppress(AplError):
                self.work.close()
        self.work.session.close()

    def step(self) -> None:
        """Reads a line, and does it."""
        self.names_known = None
        try:
            line = self.typing.line(prompted(self.work.next_line))
        except (EOFError, OSError):
            self.commands.is_over = True
            return
        self.work.struck = 0.0
        is_refused = False
        if not self.commands.is_done(line):
            self.work.type(line)
            # what closes a definition would define it without the line
            is_refused = bool(self.work.next_line and self.work.fault)
        if self.work.struck or is_refused:
            self.drop()

    def drop(self) -> None:
        """Tells which lines of a paste don't follow one that was interrupted, or refused in a definition."""
        lines = self.typing.drop()
        if lines:
            self.screen.tell("\n".join([f"{len(lines)} pasted lines are not typed:", *(f"      {it}" for it in lines)]))

    def hang_up(self, _number: int, _frame: Optional[FrameType]) -> None:
        """Ends the session where the window is closed: a line that runs is interrupted, and the journal has that."""
        self.work.is_closing = True
        self.work.session.interrupt()
        self.typing.end()

    def names(self) -> Tuple[List[str], List[str]]:
        """Returns the names of the functions and those of the others."""
        if self.names_known is None:
            found = []
            with suppress(AplError):
                found = self.work.session.names()
            functions = [it.name for it in found if isinstance(it, Function)]
            self.names_known = functions, [it.name for it in found if not isinstance(it, Function)]
        return self.names_known

