"""The commands that a front end does in the machine's place: how a line is one (`Commands`), and )SAVE, )LOAD, )LIB and )WSID for the
workspaces of one folder (`Library`), each of which has the name of its file."""
import os
import re
import time
from contextlib import suppress
from hashlib import sha256
from typing import Callable, Dict, List, Optional, Pattern, Tuple

from apl.errors import AplError, NotSaved, Refused, why
from apl.files import digest, save_file
from apl.session import PathLike, Session

# What each command does.
WORDS = {
    ")LIB": "lists the workspaces of the folder",
    ")LOAD": "NAME: goes on with the workspace of this file",
    ")SAVE": "saves the workspace in its file; with a NAME, in a new file, whose name it then has",
    ")WSID": "tells the workspace's name; with a NAME, gives it another, whose file )SAVE then writes over",
}
# The machine's own, and its system names: what a front end completes.
MACHINE = (")CLEAR", ")ERASE", ")FNS", ")SI", ")VARS")
SYSTEM = ("⎕IO", "⎕LC", "⎕NC", "⎕STOP", "⎕TRACE")
# A name of a workspace that stands in a folder, and of any file there that isn't hidden.
NAME = re.compile(r"[^/.\s\0][^/\s\0]*")
SEEN = re.compile(r"[^.].*", re.DOTALL)
# How the file of a workspace begins: each of its keys may be the first.
BEGINS = re.compile(rb'\s*\{\s*"(?:(?:contexts|functions|variables)"\s*:\s*\[|(?:io|version)"\s*:\s*\d)')
# What is told.
CLEAR, NONE = "CLEAR WS", "no workspaces here"
NO_NAME = "this workspace has no name yet: )SAVE NAME gives it one"
IS_FOLDER = "{} is a folder, no workspace"
IS_THERE = "not saved: {0} is there already. )WSID {0} and then )SAVE write over it"
NOT_THERE = "there is no {}: )LIB lists the workspaces of this folder"
# The digest of no file.
NO_FILE = b""
# Does a command by what stands behind its word, and returns the lines to show, or None where the line is for the machine.
Doing = Callable[[str], Optional[List[str]]]


class NotDone(AplError):
    """A command can't be done, and has changed nothing. The message is what is shown."""


class Commands:
    """Does commands, each by the word that it begins with."""

    def __init__(self, by_word: Dict[str, Doing]) -> None:
        self.by_word = by_word

    def do(self, line: str) -> Optional[List[str]]:
        """Does a command, and returns the lines to show. Returns None where the line is for the machine, which reports one that isn't well
        formed. Raises NotDone where a command can't be done, and Died or Refused where the session can't answer."""
        word, _, rest = line.strip(" ").partition(" ")
        does = self.by_word.get(word.upper())
        return does(rest.strip(" ")) if does else None


def workspaces(folder: PathLike, names: Pattern[str] = NAME) -> List[str]:
    """Returns the names of the workspaces in a folder, of those with such a name, in ascending order. Raises OSError."""
    return sorted(it for it in os.listdir(folder) if names.fullmatch(it) and is_workspace(os.path.join(folder, it)))


def listed(folder: PathLike, names: Pattern[str] = NAME) -> List[str]:
    """Returns the lines that tell the workspaces of a folder, each with its size and when it was saved. Raises OSError."""
    rows = [(it, *told_of(os.path.join(folder, it), "%Y-%m-%d %H:%M")) for it in workspaces(folder, names)]
    widths = [max((len(it[column]) for it in rows), default=0) for column in (0, 1)]
    return [f"{name:<{widths[0]}}  {size:>{widths[1]}}  {when}" for name, size, when in rows] or [NONE]


def is_workspace(path: str) -> bool:
    """Whether a file begins as that of a workspace."""
    with suppress(OSError):
        if os.path.isfile(path):
            with open(path, "rb") as file:
                return bool(BEGINS.match(file.read(256)))
    return False


def told_of(path: str, form: str = "%Y-%m-%d %H:%M:%S") -> Tuple[str, str]:
    """Returns the size of a workspace's file, and when it was saved. Raises OSError."""
    told = os.stat(path)
    return f"{told.st_size:,} bytes", time.strftime(form, time.localtime(told.st_mtime))


class Library(Commands):
    """The workspaces of a folder. name is that of the session's own one, "" for one without a name. Its commands are for lines outside a
    definition alone. )CLEAR is for the machine, but takes the workspace's name away too."""

    def __init__(self, session: Session, folder: PathLike = ".") -> None:
        super().__init__({")CLEAR": self.cleared, ")LIB": self.lib, ")LOAD": self.named(self.load, False), ")SAVE": self.named(self.save),
                          ")WSID": self.named(self.identify)})
        self.session, self.folder, self.name = session, os.path.abspath(folder), ""
        # what the file of this name is to hold until the workspace is saved there
        self.known = NO_FILE

    def path(self, name: str) -> str:
        """Returns the path of the file of a workspace, through links."""
        return os.path.realpath(os.path.join(self.folder, name))

    @staticmethod
    def named(does: Callable[[str], List[str]], may_lack: bool = True) -> Doing:
        """Returns what does a command that takes the name of a workspace, or may lack it."""
        return lambda name: does(name) if (NAME.fullmatch(name) if name else may_lack) else None

    def cleared(self, rest: str) -> None:
        """Takes the workspace's name away where the machine clears it."""
        self.name = self.name if rest else ""

    def lib(self, rest: str) -> Optional[List[str]]:
        """Returns the lines that tell the workspaces of the folder. Raises NotDone."""
        if rest:
            return None
        try:
            return listed(self.folder)
        except OSError as error:
            raise NotDone(f"{self.folder}: {reason(error)}") from None

    def save(self, name: str = "") -> List[str]:
        """Saves the workspace in its file, or in a new one of this name, and returns the lines to show. Raises NotDone."""
        to, path = name or self.name, self.path(name or self.name)
        if not to:
            raise NotDone(NO_NAME)
        if os.path.isdir(path):
            raise NotDone(f"not saved: {to} is a folder")
        if to != self.name and os.path.lexists(path):
            raise NotDone(IS_THERE.format(to))
        try:
            saved = self.session.workspace()
            save_file(path, saved, self.known if to == self.name else NO_FILE)
            self.name, self.known = to, sha256(saved).digest()
            size, when = told_of(path)
            return [f"{to} saved {when}: {size}"]
        except (NotSaved, OSError) as error:
            raise NotDone(f"not saved: {reason(error)}") from None

    def load(self, name: str) -> List[str]:
        """Replaces the workspace by that of a name, and returns the lines to show. Raises NotDone."""
        path = self.path(name)
        try:
            with open(path, "rb") as file:
                data = file.read()
            self.session.open(data)
            self.name, self.known = name, sha256(data).digest()
            return [f"{name}: {self.described()}"]
        except FileNotFoundError:
            raise NotDone(NOT_THERE.format(name)) from None
        except IsADirectoryError:
            raise NotDone(IS_FOLDER.format(name)) from None
        except OSError as error:
            raise NotDone(f"{name}: {reason(error)}") from None
        except Refused as refused:
            if refused.reason != "load":
                raise
            raise NotDone(f"{name} {why(refused)}") from None

    def described(self) -> str:
        """Returns the size of the workspace's file and when it was saved. Raises OSError."""
        size, when = told_of(self.path(self.name))
        return f"{size}, saved {when}"

    def identify(self, name: str = "") -> List[str]:
        """Returns the line that tells the workspace's name. Where another is given, the workspace has it, and )SAVE writes its file."""
        if not name:
            return [self.name or CLEAR]
        if name == self.name:
            return [name]
        try:
            self.name, self.known = name, digest(self.path(name)) or NO_FILE
        except IsADirectoryError:
            raise NotDone(IS_FOLDER.format(name)) from None
        except OSError as error:
            raise NotDone(f"{name}: {reason(error)}") from None
        return [f"{name}, which is there: )SAVE writes over it" if self.known else f"{name}, not saved yet"]


def reason(error: Exception) -> str:
    """Returns why a file can't be read or written."""
    return getattr(error, "strerror", None) or str(error)
