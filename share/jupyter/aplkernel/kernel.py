"""The kernel."""
import os
from math import prod
from typing import Any, Dict, List, Optional

from apl import Died, Function, Level, Line, Refused, Result, Session, Variable
from apl.commands import WORDS, Library, NotDone, workspaces
from apl.pipe import Keyboard
from ipykernel.kernelapp import IPKernelApp
from ipykernel.kernelbase import Kernel

from aplkernel import reference
from aplkernel.cells import is_open, lines_of, only_name
from aplkernel.memory import Note
from aplkernel.output import Output
from aplkernel.tables import MOST_CELLS, has_table, table
from aplkernel.words import TOP, Words, signs

RED, DIM, PLAIN = "\x1b[31m", "\x1b[2m", "\x1b[0m"
HINT = "→⎕LC begins the suspended line again, → gives it up"
LOST = "What was done since is lost: run the cells again."


class Ended(Exception):
    """A cell ends: name and text are of the error that Jupyter is told, shown the lines that a person reads."""

    def __init__(self, name: str, text: str, *shown: str) -> None:
        super().__init__(text)
        self.name, self.text, self.shown = name, text, shown or (text,)


class AplKernel(Kernel):
    """A kernel with a session of the program that the variable APL names."""

    implementation, implementation_version = "nadrizom", "0.1.0"
    banner = "APL of Nadrizom: flat arrays of whole numbers and characters. Backquote, a key and Tab type a character."
    language_info = {"name": "apl", "version": "ISO 8485", "mimetype": "text/apl", "file_extension": ".apl", "codemirror_mode": "apl",
                     "pygments_lexer": "apl"}

    def __init__(self, **how: Any) -> None:
        super().__init__(**how)  # type: ignore[no-untyped-call]
        self.program = os.environ.get("APL") or str(TOP / "bin/apl")
        self.known = signs()
        self.words = Words(self.known)
        self.entries = reference.entries()
        self.note = Note(getattr(self.parent, "abs_connection_file", ""))
        self.library: Optional[Library] = None
        self.news, self.is_ending = "", False

    def begun(self) -> Library:
        """Returns the session with its folder, and begins it where none runs. Raises OSError or Died where the program can't be run."""
        if self.library is None:
            library = Library(Session(self.program), os.getcwd())
            folder, name = self.note.read()
            if folder:
                library.folder = folder
                self.news = f"The kernel was restarted. {self.again(library, name)}"
            self.library = library
        return self.library

    @staticmethod
    def again(library: Library, name: str) -> str:
        """Has a fresh session take the workspace of a name as its file has it, and returns what is told of that."""
        try:
            if name and os.path.exists(library.path(name)):
                library.load(name)
                return f"The session begins with the workspace {name}: {library.described()}."
        except (NotDone, OSError, Refused) as error:
            return f"The session begins with a clear workspace: {error}."
        return "The session begins with a clear workspace."

    def do_execute(self, code: str, silent: bool, store_history: bool = True, user_expressions: Optional[Dict[str, Any]] = None,
                   allow_stdin: bool = False, *, cell_id: Optional[str] = None) -> Dict[str, Any]:
        """Types the lines of a cell."""
        # A second interrupt changes nothing: a step is made to its end, and a restart ends it by force.
        with Keyboard(lambda: None) as keyboard:
            try:
                self.cell(code, silent, keyboard)
                return {"status": "ok", "execution_count": self.execution_count, "payload": [], "user_expressions": {}}
            except Ended as ended:
                return self.told(ended, silent)
            except Died as died:
                return self.told(Ended("SHUT DOWN", "the kernel ends") if self.is_ending else self.begin_again(str(died)), silent)
            except OSError as error:
                why = f"The program {self.program} can't be run: {error.strerror or error}"
                return self.told(Ended("NO PROGRAM", str(error), why), silent)
            finally:
                keyboard.struck = 0.0

    def told(self, ended: Ended, silent: bool) -> Dict[str, Any]:
        """Tells why a cell has ended, and returns the reply."""
        error = {"ename": ended.name, "evalue": ended.text, "traceback": list(ended.shown)}
        if not silent:
            self.publish("error", error)
        return {"status": "error", "execution_count": self.execution_count, **error}

    def begin_again(self, why: str) -> Ended:
        """Begins another session in place of one whose program has ended, and returns what is told of that."""
        why = why[:1].upper() + why[1:] + "."
        name, self.library = self.library.name if self.library else "", None
        try:
            library = Library(Session(self.program), os.getcwd())
        except (OSError, Died) as error:
            return Ended("PROGRAM ENDED", why, f"{RED}{why}{PLAIN}", str(error))
        again, self.library = self.again(library, name), library
        return Ended("PROGRAM ENDED", why, f"{RED}{why}{PLAIN}", f"{again} {LOST}")

    def publish(self, kind: str, content: Dict[str, Any]) -> None:
        """Sends a message of what is shown below the cell."""
        self.send_response(self.iopub_socket, kind, content)  # type: ignore[no-untyped-call]

    def say(self, text: str, to: str = "stdout") -> None:
        """Shows text below the cell."""
        self.publish("stream", {"name": to, "text": text})

    def cell(self, code: str, silent: bool, keyboard: Keyboard) -> None:
        """Types the lines of a cell one by one. Raises Ended where one faults, stops, is interrupted, or leaves a definition open."""
        library = self.begun()
        session = library.session
        if self.news and not silent:
            self.say(f"{self.news}\n", "stderr")
            self.news = ""
        output = Output(lambda text: None if silent else self.say(text))
        try:
            for line in lines_of(code):
                if keyboard.struck:
                    raise Ended("INTERRUPT", "before the line", f"{RED}INTERRUPT before the line{PLAIN}", line)
                if session.next_line or line.strip(" ") and not self.of_files(library, line, output):
                    self.line(session, line, output, keyboard, silent)
            if session.next_line:
                raise Ended("OPEN DEFINITION", "not closed by ∇", f"{RED}The definition isn't closed by ∇, so nothing is defined.{PLAIN}")
        finally:
            output.flush()
            if session.next_line:
                # an open definition isn't in the workspace, so it goes
                session.open(session.workspace())

    def line(self, session: Session, line: str, output: Output, keyboard: Keyboard, silent: bool) -> None:
        """Types a line. Raises Ended as `cell`."""
        shown = None if session.next_line or silent else self.matrix(session, line)
        output.begin()

        def write(lines: List[Line]) -> None:
            """Takes what is written, and has the line be interrupted where that was asked for."""
            output.add(lines)
            if keyboard.struck:
                session.interrupt()

        try:
            result = session.run(line, show=write if shown is None else None)
        except Refused as refused:
            raise Ended("REFUSED", str(refused), f"{RED}The line isn't done: {refused}.{PLAIN}", *below(session.indicator())) from None
        if shown is not None:
            output.flush()
            data = {"text/plain": result.text, "text/html": shown}
            self.publish("display_data", {"data": data, "metadata": {}, "transient": {}})
        else:
            output.flush()
            check(line, result, output, session)

    def of_files(self, library: Library, line: str, output: Output) -> bool:
        """Does a command for files, and returns whether the line is one. Raises Ended where it can't be done."""
        before = library.name
        try:
            done = library.do(line)
        except NotDone as error:
            raise Ended("NOT DONE", str(error), f"{RED}{error}{PLAIN}") from None
        if done is not None or library.name != before:
            self.note.write(library.folder, library.name if library.name and os.path.exists(library.path(library.name)) else "")
        if done:
            output.flush()
            output.send("".join(f"{it}\n" for it in done))
        return done is not None

    @staticmethod
    def matrix(session: Session, line: str) -> Optional[str]:
        """Returns the table of the matrix that a line shows, where it is the name of a variable with one."""
        name = only_name(line)
        found = [it for it in session.names() if it.name == name] if name else []
        if found and isinstance(found[0], Variable) and has_table(found[0].shape):
            return table(session.array(name))
        return None

    def do_complete(self, code: str, cursor_pos: int) -> Dict[str, Any]:
        """Tells how what stands before the cursor goes on."""
        names: List[str] = []
        files: List[str] = []
        try:
            library = self.begun()
            names, files = [it.name for it in library.session.names()], workspaces(library.folder)
        except (OSError, Died, Refused):
            # what needs no session can still be told
            pass
        found = self.words.complete(code[:cursor_pos], names, files)
        start = cursor_pos - found.length
        return {"status": "ok", "matches": found.texts, "cursor_start": start, "cursor_end": cursor_pos,
                "metadata": {"_jupyter_types_experimental": [{"start": start, "end": cursor_pos, "text": it, "type": found.kind}
                                                             for it in found.texts]}}

    def do_inspect(self, code: str, cursor_pos: int, detail_level: int = 0, omit_sections: Any = ()) -> Dict[str, Any]:
        """Tells what stands at the cursor: a function's lines, a variable's value, an entry of the reference."""
        token = reference.token_at(code, cursor_pos)
        entries = self.entries.get(token, [])
        told = [it.told() for it in self.known if it.character == token] + [f"{token}  {WORDS[it]}" for it in WORDS if it == token]
        found = [*told, *map(reference.plain, entries)] or [self.of_name(token)]
        text = "\n\n".join(found)
        data = {"text/plain": text, **({"text/markdown": "\n\n".join([*told, *entries])} if entries else {})} if text else {}
        return {"status": "ok", "found": bool(text), "data": data, "metadata": {}}

    def of_name(self, name: str) -> str:
        """Returns a function's lines as `∇F[⎕]∇` shows them, or a variable's type, shape and value; "" for another name."""
        try:
            session = self.begun().session
            found = [it for it in session.names() if it.name == name]
            if not found:
                return ""
            if isinstance(found[0], Function):
                header, *lines = session.listing(name)
                return "\n".join([f"    ∇ {header}", *(f"{f'[{k}]':<3} {it}" for k, it in enumerate(lines, 1)), "    ∇"])
            if isinstance(found[0], Variable):
                return told_of(found[0], session)
        except (OSError, Died, Refused):
            pass
        return ""

    def do_is_complete(self, code: str) -> Dict[str, Any]:
        """Tells whether a cell ends within a definition."""
        return {"status": "incomplete", "indent": ""} if is_open(code) else {"status": "complete"}

    def do_shutdown(self, restart: bool) -> Dict[str, Any]:
        """Ends the session. What isn't saved is lost."""
        if not restart:
            self.note.write("", "")
        self.is_ending = True
        if self.library:
            self.library.session.close()
        return {"status": "ok", "restart": restart}


def check(line: str, result: Result, output: Output, session: Session) -> None:
    """Raises Ended where a line ended with a fault, which an interrupt is, or at a stop."""
    if result.fault:
        text = output.report[1] if result.fault.column else line
        raise Ended(result.fault.name, text.strip(" "), *(f"{RED}{it}{PLAIN}" for it in output.report), *below(session.indicator()))
    if result.told == "stopped":
        raise Ended("STOP", output.last, *below(session.indicator()))


def below(indicator: List[Level]) -> List[str]:
    """Returns what stands below a report: the state indicator as )SI shows it, and what to type."""
    standing = [f"{it.name}[{it.line}]{' *' if it.suspended else ''}" for it in indicator]
    return ["      )SI", *standing, f"{DIM}{HINT}{PLAIN}"] if standing else []


def told_of(variable: Variable, session: Session) -> str:
    """Returns a variable's type and shape, and its value as the machine shows it, where that isn't large."""
    shape = " ".join(map(str, variable.shape))
    told = f"{variable.name}: {variable.type}{f', shape {shape}' if shape else ', a scalar'}"
    return f"{told}\n\n{session.run(variable.name)}" if prod(variable.shape) <= MOST_CELLS else told


def main() -> None:
    """Runs the kernel until Jupyter ends it."""
    IPKernelApp.launch_instance(kernel_class=AplKernel)
