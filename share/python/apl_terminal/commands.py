"""The commands that are the terminal's own, beside those of the machine."""
from __future__ import annotations

import os
import subprocess
from pathlib import Path
from typing import List, Optional

from apl import Refused
from apl.commands import NOT_THERE, SEEN, NotDone, listed, reason
from apl.commands import Commands as Shared
from apl.pipe import ended
from apl_terminal import library, places, reference
from apl_terminal.edit import edited, editor, fault_of
from apl_terminal.keys import Key, table
from apl_terminal.telling import Gone, wrapped
from apl_terminal.work import IS_OPEN, Work

HELP = """\
)SAVE [NAME]     saves the workspace in its file, or in a new file NAME
)LOAD NAME       goes on with the workspace of the file NAME
)COPY NAME F..   brings functions and variables of another workspace into this one; without names, all
)LIB [FOLDER]    lists the workspaces of a folder
)WSID [NAME]     tells the workspace's name, or gives it another
)EDIT F          opens the function F in an editor (EDITOR names it); without F, what was refused last
)HELP SYMBOL     what the reference says of a symbol, a command, or a word such as reshape; )HELP KEYS: the keys
)OFF             ends the session, as Ctrl-D does; what isn't saved is kept, and offered the next time
)FNS  )VARS  )SI  )ERASE NAME..  )CLEAR     the machine's own commands
Ctrl-C interrupts the line that runs, and clears the one that is typed. Backquote and a key type a character."""

# Where what a command does stands in its line.
COLUMN = 17


class Commands(Shared):
    """Does the terminal's own commands, also within a definition."""

    def __init__(self, work: Work, manual: Path, keys: List[Key]) -> None:
        super().__init__({
            ")SAVE": self.save, ")LOAD": self.load, ")COPY": self.copy, ")LIB": self.lib, ")WSID": self.wsid, ")EDIT": self.edit,
            ")HELP": self.help, ")OFF": self.off, ")CLEAR": self.clear})
        self.work, self.front_end, self.manual, self.keys = work, work.front_end, manual, keys
        self.is_over = False

    def is_done(self, line: str) -> bool:
        """Does a line, if it is such a command, and tells what comes of it. Returns whether it is one."""
        try:
            told = self.do(line)
        except NotDone as error:
            told = [str(error)]
        if told:
            self.front_end.tell("\n".join(told))
        return told is not None

    def clear(self, rest: str) -> Optional[List[str]]:
        """Takes the workspace's name away, since a workspace of a name isn't to be written over by a clear one."""
        if rest or not self.work.file or self.work.next_line:
            return None
        self.work.open(None, is_fresh=True)
        return []

    def save(self, name: str) -> List[str]:
        return [self.work.save(name or None)]

    def load(self, name: str) -> List[str]:
        if not name:
            raise NotDone(")LOAD NAME: of which file? )LIB lists those of this folder")
        file = places.real(name)
        # one that was never saved may have lines that wait in its journal
        if not os.path.lexists(file) and not os.path.lexists(places.journal(file)):
            raise NotDone(NOT_THERE.format(name))
        self.work.open(name)
        return [self.work.told()]

    def copy(self, rest: str) -> List[str]:
        name, *names = rest.split() or [""]
        if not name:
            raise NotDone(")COPY NAME F..: of which file?")
        return [self.work.copy(name, names)]

    def lib(self, folder: str) -> List[str]:
        try:
            return listed(places.real(folder or "."), SEEN)
        except OSError as error:
            raise NotDone(f"{folder or 'this folder'}: {reason(error)}") from None

    def wsid(self, name: str) -> List[str]:
        if name:
            return [self.work.rename(name)]
        return [f"{self.work.name}{'  ' + self.work.file if self.work.file else ''}"]

    def off(self, _: str) -> List[str]:
        self.is_over = True
        return []

    def help(self, word: str) -> List[str]:
        if not word:
            return [wrapped(it, self.front_end.width(), COLUMN if it.startswith(")") else 0) for it in HELP.splitlines()]
        if word.upper() == "KEYS":
            return table(self.keys)
        return reference.help_text(self.manual, word, min(100, self.front_end.width()))

    def edit(self, name: str) -> List[str]:
        """Opens a function's text in the editor until it is taken or given up."""
        if self.work.next_line:
            raise NotDone(IS_OPEN)
        draft = Path(places.draft())
        try:
            command = editor()
        except ValueError as error:
            raise NotDone(f"what VISUAL or EDITOR names can't be used: it is no command ({error})") from None
        if not command:
            raise NotDone("no editor is installed: put its name into EDITOR")
        lines = self.text_of(name, draft)
        text = lines
        while True:
            try:
                text = edited(command, name, text)
            except OSError as error:
                raise NotDone(f"the editor {command[0]} can't be used: {reason(error)}; EDITOR names another") from None
            except subprocess.CalledProcessError as error:
                raise NotDone(f"the editor {command[0]} {ended(error.returncode)}, so nothing is defined") from None
            if text == lines and name and self.is_function(name):
                raise NotDone(f"{name} stays as it is")
            if not text:
                raise NotDone("the text is empty, so nothing is defined")
            if self.is_defined(text):
                return [f"{library.name_of(bare(text)[0])} is defined"]
            draft.write_text("".join(f"{it}\n" for it in text), encoding="utf-8")
            if not self.wants_more():
                raise NotDone("it isn't defined; )EDIT alone opens the text again")

    def wants_more(self) -> bool:
        """Asks whether the text is to be edited again."""
        try:
            return self.front_end.ask("Edit it again?", True)
        except Gone:
            return False

    def text_of(self, name: str, draft: Path) -> List[str]:
        """Returns the text that the editor begins with."""
        if not name:
            if not draft.exists():
                raise NotDone(")EDIT F: of which function?")
            return draft.read_text(encoding="utf-8").splitlines()
        try:
            return self.work.session.listing(name)
        except Refused:
            if any(it.name == name for it in self.work.session.names()):
                raise NotDone(f"{name} stands for something that is no function") from None
            return [name]

    def is_function(self, name: str) -> bool:
        """Tells whether a name stands for a function."""
        try:
            return bool(self.work.session.listing(name))
        except Refused:
            return False

    def is_defined(self, text: List[str]) -> bool:
        """Defines a function by its text, if that is taken, and else shows why not."""
        lines = bare(text)
        long = [it for it in lines if len(it.encode()) > 2_000]
        told = [f"a line has over 2,000 bytes: {long[0][:60]}.."] if long else fault_of(self.work.program, lines, is_known=False)
        if not told:
            for it in [f"∇{lines[0]}", *lines[1:], "∇"]:
                self.work.type(it, is_shown=False)
            if not self.work.fault:
                return True
            told = fault_of(self.work.program, lines, is_known=True)
        self.front_end.tell("\n".join(["DEFN ERROR", *told]))
        return False


def bare(text: List[str]) -> List[str]:
    """Returns a function's text without the ∇ that may stand before its header and below it."""
    lines = [text[0].strip().lstrip("∇").strip(), *text[1:]]
    return lines[:-1] if len(lines) > 1 and lines[-1].strip() == "∇" else lines
