"""The line that is typed: its prompt, its keys, its history, and what is pasted, by prompt_toolkit."""
from __future__ import annotations

import os
from contextlib import suppress
from functools import partial
from typing import Callable, Iterable, List, Optional

from prompt_toolkit import PromptSession
from prompt_toolkit.application import get_app_or_none
from prompt_toolkit.completion import CompleteEvent, Completer, Completion
from prompt_toolkit.document import Document
from prompt_toolkit.history import FileHistory
from prompt_toolkit.key_binding import KeyBindings, KeyPressEvent
from prompt_toolkit.keys import Keys
from prompt_toolkit.styles import Style

from apl_terminal.complete import Names, completions
from apl_terminal.keys import PREFIX, Key, brief

STYLE = Style.from_dict({"bottom-toolbar": "noreverse"})


class History(FileHistory):
    """The lines that were typed, in a file, without empty ones and repeats."""

    last = ""

    def store_string(self, string: str) -> None:
        if string.strip() and string != self.last:
            # a disk that is full is no reason to end
            with suppress(OSError):
                super().store_string(string)
        self.last = string

    def load_history_strings(self) -> List[str]:
        with suppress(OSError, UnicodeError):
            return list(super().load_history_strings())
        return []


class Words(Completer):
    """Completes the word before the cursor."""

    def __init__(self, names: Names) -> None:
        self.names = names

    def get_completions(self, document: Document, complete_event: CompleteEvent) -> Iterable[Completion]:
        begun, found = completions(document.text_before_cursor, self.names)
        return [Completion(it, -len(begun)) for it in found]


class Typing:
    """Reads lines at the terminal."""

    def __init__(self, keys: List[Key], names: Names, history: Optional[str]) -> None:
        self.keys, self.names = keys, names
        # what was pasted and isn't typed yet: whole lines, and what stands behind the last line's end
        self.pasted: List[str] = []
        self.session: PromptSession[str] = PromptSession(
            completer=Words(names), complete_while_typing=False, enable_suspend=True, style=STYLE, key_bindings=self.bindings(),
            history=History(history) if history else None)
        # a key is waited for behind the prefix without end
        setattr(self.session.app, "timeoutlen", None)
        self.session.app.key_processor.after_key_press += lambda _: self.show_keys()

    def line(self, prompt: str) -> str:
        """Returns the next line, typed or pasted. Raises EOFError at Ctrl-D on an empty one."""
        if len(self.pasted) > 1:
            line = self.pasted.pop(0)
            print(prompt + line, flush=True)
            self.session.history.append_string(line)
            return line
        start = self.pasted.pop() if self.pasted else ""
        return self.session.prompt(prompt, default=start, handle_sigint=False)

    def drop(self) -> List[str]:
        """Returns the lines that were pasted and aren't typed, which are forgotten."""
        lines, self.pasted = [it for it in self.pasted if it], []
        return lines

    def end(self) -> None:
        """Ends the reading of a line as the end of the input does: for signal handlers."""
        app = get_app_or_none()
        if app and app.is_running and app.loop:
            app.loop.call_soon_threadsafe(partial(app.exit, exception=EOFError()))

    def bindings(self) -> KeyBindings:
        """Returns what the keys do that have a meaning here."""
        bindings = KeyBindings()
        for it in self.keys:
            bindings.add(PREFIX, it.key)(inserting(it.character))
        bindings.add("tab")(self.complete)
        bindings.add("c-c")(cleared)
        bindings.add(Keys.SIGINT)(cleared)
        bindings.add(Keys.BracketedPaste)(self.paste)
        return bindings

    def complete(self, event: KeyPressEvent) -> None:
        """Completes what stands before the cursor as far as that is certain, and else shows what it may become."""
        buffer = event.current_buffer
        begun, found = completions(buffer.document.text_before_cursor, self.names)
        sure = os.path.commonprefix(found)
        if buffer.complete_state:
            buffer.complete_next()
        elif len(sure) > len(begun) or len(found) == 1:
            buffer.delete_before_cursor(len(begun))
            buffer.insert_text(sure)
        elif found:
            buffer.start_completion()

    def paste(self, event: KeyPressEvent) -> None:
        """Takes what is pasted, with blanks for tabs, which the language hasn't: its first line is typed now, and the others follow."""
        first, *others = event.data.replace("\r\n", "\n").replace("\r", "\n").expandtabs(4).split("\n")
        buffer = event.current_buffer
        if others:
            others[-1] += buffer.document.text_after_cursor
            buffer.delete(len(buffer.document.text_after_cursor))
        buffer.insert_text(first)
        if others:
            self.pasted = others
            buffer.validate_and_handle()

    def show_keys(self) -> None:
        """Shows the characters behind the prefix while its key is struck and no further one is."""
        app = self.session.app
        is_struck = [it.key for it in app.key_processor.key_buffer] == [PREFIX]
        shown = "\n".join(brief(self.keys, app.output.get_size().columns)) if is_struck else None
        if shown != self.session.bottom_toolbar:
            self.session.bottom_toolbar = shown
            app.invalidate()


def inserting(character: str) -> Callable[[KeyPressEvent], None]:
    """Returns what inserts a character."""
    def insert(event: KeyPressEvent) -> None:
        event.current_buffer.insert_text(character)
    return insert


def cleared(event: KeyPressEvent) -> None:
    """Clears the line."""
    event.current_buffer.reset()
