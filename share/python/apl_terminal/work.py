"""The workspace that a terminal works on: a session, the file that it is saved in, and the journal of what was typed since.

What is told to the user goes through `FrontEnd`, so that all this is tried without a terminal.
"""
from __future__ import annotations

import os
import tempfile
import time
from contextlib import suppress
from hashlib import sha256
from typing import List, Optional, Sequence

from apl import Died, Fault, Line, NotSaved, Refused, Result, Session
from apl import commands as said
from apl.answers import ALONE, DEFN
from apl.commands import NotDone, reason
from apl.errors import why
from apl.files import save_file
from apl_terminal import library, places
from apl_terminal.journal import Busy, Foreign, Journal, Past, Typed, set_aside
from apl_terminal.telling import SHOWN, FrontEnd, Gone, hint, prompted, question

IS_OPEN = "a definition is open: ∇ closes it"
CLEAR = b'{"contexts":[],"functions":[],"io":1,"variables":[],"version":2}'
# After a line that took so many seconds the journal gets what stands, so that it needn't be made again.
LONG = 2.0
# A second Ctrl-C ends the program, where it comes so many seconds after the first.
PATIENCE = 1.0


class Work:
    """A session with the file and the journal of its workspace."""

    def __init__(self, program: str, front_end: FrontEnd) -> None:
        """Begins a session with an empty workspace: `open` is to follow. Raises what `Session` does."""
        self.program, self.front_end = program, front_end
        self.session = Session(program)
        self.file: Optional[str] = None
        self.journal: Journal
        self.digest: Optional[bytes] = None
        self.base, self.base_state = CLEAR, b""
        self.next_line = 0
        self.open_lines: List[str] = []
        # the last lines that the line before wrote, and the fault that it ended with
        self.last: List[str] = []
        self.fault: Optional[Fault] = None
        # when Ctrl-C was struck, 0 for not yet, and why the journal can't be written, as far as that is told
        self.struck, self.fault_told = 0.0, ""
        self.is_closing = self.is_running = False

    def strike(self, *_: object) -> None:
        """Has Ctrl-C interrupt the line that runs, as the handler of its signal: nothing else is cut short by it. A second one, where the line
        makes a long step, ends the program."""
        now = time.monotonic()
        if self.is_running and self.struck and now - self.struck >= PATIENCE:
            self.session.kill()
        self.struck = self.struck or now

    @property
    def name(self) -> str:
        """The workspace's name as it is told."""
        return places.shown(self.file) if self.file else said.CLEAR

    # Lines

    def type(self, line: str, is_shown: bool = True) -> None:
        """Types a line, which the journal has on the disk before it runs. Raises Died where the program can't be begun again."""
        self.journal.typed(line)
        self.tell_fault()
        began, was_open = time.monotonic(), bool(self.next_line)
        try:
            result = self.run(line, None, is_shown)
        except Refused as refused:
            self.refuse(refused)
            return
        except Died as died:
            self.journal.undone()
            self.begin_again(died)
            return
        self.journal.ended(result.steps if result.told == "interrupted" else None)
        if is_shown and result.fault and result.fault.number in ALONE and not (was_open and result.fault.number == DEFN):
            self.front_end.tell(hint(line, result.fault, self.next_line))
        if time.monotonic() - began > LONG and not self.next_line:
            self.keep_state()
        self.tell_fault()

    def run(self, line: str, steps: Optional[int] = None, is_shown: bool = True) -> Result:
        """Runs a line, and keeps what it tells of a definition."""
        last: List[str] = []

        def show(lines: List[Line]) -> None:
            if self.is_closing or self.struck:
                self.session.interrupt()
            last[:] = [*last, *(it.text for it in lines)][-SHOWN:]
            if is_shown:
                self.front_end.show(lines)

        self.last, self.fault = last, None
        self.is_running = True
        try:
            result = self.session.run(line, steps, show)
        finally:
            self.is_running = False
        if result.next_line:
            self.open_lines = [*self.open_lines, line] if self.next_line else [line]
        else:
            if self.next_line and result.fault and result.fault.number == DEFN and is_shown:
                self.keep_refused()
            self.open_lines = []
        self.next_line, self.fault = result.next_line, result.fault
        return result

    def keep_refused(self) -> None:
        """Keeps the lines of a definition that was refused where it was closed."""
        with suppress(OSError), open(places.draft(), "w", encoding="utf-8") as file:
            file.write("\n".join([self.open_lines[0].strip()[1:], *self.open_lines[1:], ""]))
            self.front_end.tell("the definition is refused, but its text is kept: )EDIT opens it")

    def refuse(self, refused: Refused) -> None:
        """Tells of a line that was refused, and has the journal know what stands."""
        self.front_end.tell(f"not done: {refused}")
        if refused.reason == "memory" and not self.next_line:
            # how far it came until memory ran out is known to nobody
            self.keep_state()
        else:
            self.journal.undone()

    def keep_state(self) -> None:
        """Has the journal keep what stands, where there is the memory for it."""
        with suppress(Refused):
            self.journal.stands(self.session.workspace())

    def tell_fault(self) -> None:
        """Tells where the journal can't be written any more, or can again."""
        had, self.fault_told = self.fault_told, self.journal.fault
        if self.journal.fault and not had:
            self.front_end.tell(f"the journal can't be written ({self.journal.fault}): )SAVE, since what is typed now is lost if this terminal is killed")
        elif had and not self.journal.fault:
            self.front_end.tell("the journal is written again")

    def begin_again(self, died: Died) -> None:
        """Begins the program again, and plays the lines of the journal to it."""
        lines = self.journal.past.lines
        self.front_end.tell(f"{died}. It is begun again, and what was typed before is there; the last line isn't done.")
        self.session.close()
        self.session, self.struck = Session(self.program), 0.0
        self.next_line, self.open_lines = 0, []
        self.session.open(self.journal.past.workspace or self.base)
        for it in lines:
            self.run(it.line, it.steps, False)

    # The workspace's file

    def open(self, name: Optional[str], is_fresh: bool = False) -> None:
        """Goes on with the workspace of a file, or with a clear one that has no name. is_fresh is whether one without a name has a journal
        with nothing in it. Raises NotDone where that can't be, and all is as before."""
        file = places.real(name) if name is not None else None
        data = self.read(file) if file else None
        journal = self.journal if file and file == self.file else self.take(file, is_fresh)
        is_kept = hasattr(self, "journal") and self.is_unsaved()
        try:
            self.session.open(data or CLEAR)
        except Refused as refused:
            if journal is not getattr(self, "journal", None):
                self.give(journal)
            raise NotDone(f"{places.shown(file or '')} {why(refused)}") from None
        if hasattr(self, "journal") and journal is not self.journal:
            self.leave(is_kept)
        self.file, self.journal = file, journal
        self.digest = sha256(data).digest() if data is not None else None
        self.base, self.base_state = data or CLEAR, self.state()
        self.next_line, self.open_lines = 0, []
        self.resume()

    @staticmethod
    def read(file: str) -> Optional[bytes]:
        """Returns the bytes of a workspace's file, None where there is none yet."""
        try:
            if os.path.isdir(file):
                raise NotDone(said.IS_FOLDER.format(places.shown(file)))
            if os.path.exists(file) and not os.path.isfile(file):
                raise NotDone(f"{places.shown(file)} is no regular file, no workspace")
            with open(file, "rb") as opened:
                return opened.read()
        except FileNotFoundError:
            if os.path.isdir(os.path.dirname(file)):
                return None
            raise NotDone(f"there is no folder {places.shown(os.path.dirname(file))}") from None
        except OSError as error:
            raise NotDone(f"{places.shown(file)} can't be read: {reason(error)}") from None

    def state(self) -> bytes:
        """Returns the digest of what stands."""
        with suppress(Refused):
            return sha256(self.session.workspace()).digest()
        return b""

    def take(self, file: Optional[str], is_fresh: bool = False) -> Journal:
        """Takes the journal of a workspace."""
        if file is not None:
            try:
                return self.journal_at(places.journal(file))
            except Busy:
                raise NotDone(f"{places.shown(file)} is open in another terminal") from None
        for path in places.unnamed():
            with suppress(Busy):
                journal = self.journal_at(path)
                if journal.past.is_empty or not is_fresh:
                    return journal
                journal.release()
        raise AssertionError

    def journal_at(self, path: str) -> Journal:
        """Takes the journal of a path. A file there that is none gets another name; where none can be written, a new one in another folder
        is taken. Both are told."""
        try:
            return Journal(path)
        except Foreign:
            self.front_end.tell(f"{path} is no journal of this terminal: it is kept as {set_aside(path)}")
            return Journal(path)
        except OSError as error:
            other = os.path.join(tempfile.mkdtemp(prefix="apl-"), "journal")
            self.front_end.tell(f"{path} can't be written ({reason(error)}): what is typed is kept in {other}")
            return Journal(other)

    @staticmethod
    def give(journal: Journal) -> None:
        """Gives a journal back that was taken for nothing."""
        if journal.past.is_empty and journal.past.is_whole:
            journal.remove()
        else:
            journal.release()

    # What the journal tells

    def resume(self) -> None:
        """Plays what the journal has, where the user wants it."""
        past, base = self.journal.past, self.digest.hex() if self.digest else None
        if past.is_empty and past.is_whole:
            self.journal.begin(base)
            return
        is_changed = past.base != base
        if not self.front_end.ask(question(past, self.name, self.journal.path, is_changed), not is_changed):
            self.anew(base)
            return
        is_same = past.is_whole and not is_changed
        if not is_same:
            self.anew(base)
        self.play(past, is_same)

    def anew(self, base: Optional[str]) -> None:
        """Gives the journal's file another name, and begins a new one."""
        path = self.journal.path
        to = set_aside(path)
        self.journal.release()
        self.front_end.tell(f"what was typed then stays in {places.shown(to)}")
        self.journal = self.journal_at(path)
        self.journal.begin(base)

    def play(self, past: Past, is_noted: bool) -> None:
        """Plays lines again. is_noted is whether the journal has them already."""
        if past.workspace is not None:
            self.session.open(past.workspace)
            if not is_noted:
                self.journal.stands(past.workspace)
        told: List[str] = []
        for number, it in enumerate(past.lines, 1):
            prompt = prompted(self.next_line)
            try:
                result = self.run(it.line, it.steps, False)
            except Refused as refused:
                self.front_end.tell(f"not done: {refused}")
                continue
            if self.is_closing:
                raise Gone
            told += [prompt + it.line, *self.last]
            steps = result.steps if result.told == "interrupted" else None
            if not is_noted:
                self.journal.typed(it.line)
                self.journal.ended(steps)
            elif not it.has_ended:
                self.journal.ended(steps)
            if self.struck:
                if number < len(past.lines) or steps != it.steps:
                    self.cut(past, number, steps, is_noted)
                break
        self.front_end.show([Line(it) for it in told[-3 * SHOWN:]])

    def cut(self, past: Past, number: int, steps: Optional[int], is_noted: bool) -> None:
        """Has the journal end with the line of this number, at which the playing was interrupted."""
        if not is_noted:
            return
        typed = [*past.lines[:number - 1], Typed(past.lines[number - 1].line, True, steps)]
        self.front_end.tell(f"{len(past.lines) - number} lines are not played again")
        self.anew(past.base)
        self.journal.begin(past.base, typed, past.workspace)

    # Commands

    def save(self, name: Optional[str] = None) -> str:
        """Saves the workspace in its file, or in a new one of this name, and returns what is told. Raises NotDone where it can't be."""
        file = self.file if name is None else places.real(name)
        if file is None:
            raise NotDone(said.NO_NAME)
        journal = self.journal if file == self.file else self.take_new(file)
        try:
            data = self.session.workspace()
            self.journal.saving(sha256(data).hexdigest(), file)
            save_file(file, data, (self.digest if file == self.file else None) or b"")
        except (NotSaved, OSError, Refused) as error:
            if journal is not self.journal:
                self.give(journal)
            raise NotDone(f"not saved: {reason(error)}; )SAVE NAME saves in another file, and what is typed stays in this session") from None
        if journal is not self.journal:
            self.journal.remove()
        self.file, self.journal, self.digest = file, journal, sha256(data).digest()
        self.base, self.base_state = data, self.digest
        self.journal.begin(self.digest.hex(), [Typed(it, True) for it in self.open_lines])
        left = ", without the definition that is open" if self.next_line else ""
        return f"{self.name} saved {time.strftime('%Y-%m-%d %H:%M:%S')}: {len(data):,} bytes{left}"

    def take_new(self, file: str) -> Journal:
        """Takes the journal of a file that isn't there yet."""
        if os.path.isdir(file):
            raise NotDone(f"not saved: {places.shown(file)} is a folder")
        if os.path.lexists(file):
            raise NotDone(said.IS_THERE.format(places.shown(file)))
        if not os.path.isdir(os.path.dirname(file)):
            raise NotDone(f"not saved: there is no folder {places.shown(os.path.dirname(file))}")
        journal = self.take(file)
        if not journal.past.is_empty:
            self.give(journal)
            raise NotDone(f"not saved: lines of a workspace of this name wait to be played again by )LOAD {places.shown(file)}")
        return journal

    def rename(self, name: str) -> str:
        """Gives the workspace the name of another file, which )SAVE then writes. Raises NotDone where another terminal has it."""
        file = places.real(name)
        if self.next_line:
            raise NotDone(IS_OPEN)
        if file == self.file:
            return self.name
        data = self.read(file)
        journal = self.take(file)
        if not journal.past.is_empty:
            self.give(journal)
            raise NotDone(f"lines of a workspace of this name wait to be played again by )LOAD {name}")
        digest = sha256(data).digest() if data is not None else None
        journal.begin(digest.hex() if digest else None, workspace=self.session.workspace())
        self.journal.remove()
        self.file, self.journal, self.digest, self.base_state = file, journal, digest, b""
        return f"{self.name}, not saved yet" if data is None else f"{self.name}, which is there: )SAVE writes over it"

    def copy(self, name: str, names: Sequence[str]) -> str:
        """Brings functions and variables of another workspace's file here, and returns what is told. Raises NotDone where that can't be."""
        if self.next_line:
            raise NotDone(IS_OPEN)
        theirs = self.read(places.real(name))
        if theirs is None:
            raise NotDone(said.NOT_THERE.format(name))
        try:
            made, taken, lacking = library.merged(self.session.workspace(), theirs, names)
            self.session.open(made)
        except (ValueError, LookupError, TypeError, Refused) as error:
            raise NotDone(f"not copied: {name} {why(error) if isinstance(error, Refused) else 'is no workspace'}") from None
        self.keep_state()
        return "\n".join([f"copied: {' '.join(taken) or 'nothing'}", *([f"not there: {' '.join(lacking)}"] if lacking else [])])

    def told(self) -> str:
        """Returns what is told of a workspace that was opened."""
        if not self.file:
            return self.name
        if self.digest is None:
            return f"{self.name}: a new workspace, which )SAVE writes"
        saved = time.strftime("%Y-%m-%d %H:%M:%S", time.localtime(os.stat(self.file).st_mtime))
        return f"{self.name}: {len(self.base):,} bytes, saved {saved}"

    def is_unsaved(self) -> bool:
        """Tells whether the journal has something that isn't in the file, nor came to nothing."""
        is_same = not self.next_line and self.base_state and self.state() == self.base_state
        return not self.journal.past.is_empty and not is_same

    def leave(self, is_kept: bool) -> None:
        """Lets go of the journal, which is removed if it isn't to be kept."""
        if not is_kept:
            self.journal.remove()
            return
        self.journal.release()
        count = len(self.journal.past.lines)
        what = f"{count} line{'s' * (count != 1)}" if count else "what was done"
        self.front_end.tell(f"{what} since {self.name + ' was saved' if self.digest else 'the beginning'}: not saved, but kept, and offered when "
                        f"{self.name if self.file else 'the terminal'} is opened again")

    def close(self) -> None:
        """Ends the session."""
        self.leave(self.is_unsaved()) if not self.is_closing else self.journal.release()
        self.session.close()
